"""How far a running restart is, from what its leader keeps: phase, tag, who owes a mark, and how much each machine still fetches. The library
says whether the state is sound, what would be decided, and what each order says."""
from dataclasses import dataclass, field

from . import decode, words
from . import state as states
from .answers import BadAnswer, Number, Plan, Wait, printed
from .gathering import named
from .model import MOST_RECORDS, Refused, Settings
from .planning import updates_after
from .running import Running
from .sentences import counted, machine, machines, table
from .telling import reason

SLOT = 16 * MOST_RECORDS
MARKS = {"ordered": "fetched", "preparing": "prepared"}
HEADS = {"gathering": "Gathering", "ordered": "Ordered", "preparing": "Preparing", "committed": "Committed"}


@dataclass(frozen=True)
class Fetch:
    """A log of a shard that a machine is to complete."""

    shard: int
    holder: int
    cut: tuple
    target: tuple
    updates: int


@dataclass
class Progress:
    settings: Settings
    tag: int | None
    state: states.State
    answer: object = None  # while gathering: what would be decided, a Plan or a Wait
    fetches: dict = field(default_factory=dict)  # while ordered: by machine what its order has it fetch

    @property
    def phase(self):
        return self.state.phase

    @property
    def waits(self):
        return isinstance(self.answer, Wait)

    @property
    def owing(self):
        """The machines that owe a mark."""
        marked = {"ordered": self.state.fetched, "preparing": self.state.prepared}.get(self.phase, self.state.held)
        return self.state.held - marked

    def left(self, node):
        """How many updates a machine still fetches; 0 once it has said that it has fetched."""
        return sum(fetch.updates for fetch in self.fetches.get(node, ())) if node in self.owing else 0

    @property
    def serving(self):
        """The machines whose logs are still fetched."""
        return frozenset(fetch.holder for node in self.owing for fetch in self.fetches.get(node, ()) if fetch.updates)


def progress(leader, library=None, names=()):
    """How far this leader's restart is; what is refused is a Refused with its number."""
    settings = named(decode.settings_from(words.from_bytes(leader.settings)), names)
    running = Running(library, leader.settings, leader.state, leader.desk)
    refused = running.check()
    if refused:
        raise Refused(refused.number, unsound(leader, refused))
    found = Progress(settings, leader.tag, states.from_words(words.from_bytes(leader.state)))
    if found.phase == "gathering":
        found.answer = answered("restart_decide", running.decided())
    if found.phase == "ordered":
        found.fetches = {node: fetches_of(running, leader.desk, settings, node) for node in sorted(found.state.held)}
    return found


def unsound(leader, refused):
    """Why the library refuses a state."""
    if refused.number != 3:
        return "the settings are refused"
    try:
        states.from_words(words.from_bytes(leader.state))
    except Refused as own:
        return own.why
    return "the state is not sound with these settings and this desk: they do not belong together, or were changed (duty 12)"


def answered(call, answer):
    if isinstance(answer, Number):
        raise BadAnswer("%s refuses with number %d what restart_check_state takes" % (call, answer.number))
    return answer


def fetches_of(running, desk, settings, node):
    """What a machine's order has it fetch, shard by shard; the holders' logs are those of their reports."""
    order = decode.order_from(answered("restart_order", running.order(node)), settings)
    found = []
    for shard, holder in sorted(order.holders.items()):
        runs = decode.report_from(words.from_bytes(desk[SLOT * holder : SLOT * (holder + 1)]), settings).runs[shard]
        target, cut = order.targets[shard], order.cuts[shard]
        found.append(Fetch(shard, holder, cut, target, updates_after(runs, cut, target)))
    return found


def lines(found):
    """The phase in a line, who is waited for, and a table."""
    told = [first_line(found)] + waiting_lines(found)
    if found.state.held and found.phase != "gathering":
        told += [""] + table(rows(found))
    return told


def first_line(found):
    state, tag = found.state, "" if found.tag is None else ", tag %d" % found.tag
    head = HEADS[found.phase] + tag
    if found.phase == "gathering":
        count = "%d of %s reported" % (len(state.held), counted(len(found.settings.nodes), "machine") + " have")
        answer = printed(found.answer) if isinstance(found.answer, Plan) else "%s, %s" % (printed(found.answer), reason(found.answer))
        return "%s: %s%s. Decided now: %s." % (head, count, ", view %d is kept" % state.kept.number if state.kept else "", answer)
    view = "view %d after view %d, %s" % (state.plan.view.number, state.kept.number, counted(state.plan.moves, "move"))
    if found.phase == "committed":
        return "%s: %s. Every machine is prepared; it is served once they are told." % (head, view)
    mark = MARKS[found.phase]
    done = "%d of %d machines %s %s" % (len(state.held) - len(found.owing), len(state.held), "have" if mark == "fetched" else "are", mark)
    left = sum(found.left(node) for node in found.owing)
    return "%s: %s. %s%s." % (head, view, done, "; %s still to fetch" % counted(left, "update") if found.phase == "ordered" else "")


def waiting_lines(found):
    settings, state = found.settings, found.state
    if found.phase == "gathering":
        return ["Held: %s. Absent: %s." % (settings.those(state.held), settings.those(settings.nodes - state.held))]
    if found.phase == "committed":
        return ["Members: %s." % machines(settings, state.plan.view.members)]
    told = ["Owed: %s of %s." % (MARKS[found.phase], machines(settings, found.owing))]
    if found.phase == "ordered":
        slowest = max(sorted(found.owing), key=found.left)
        if found.left(slowest):
            told.append("The most is fetched by %s: %s." % (machine(settings, slowest), counted(found.left(slowest), "update")))
        if found.serving:
            told.append("Must stay up until all have fetched, for %s fetched: %s (duty 8)."
                        % ("its log is" if len(found.serving) == 1 else "their logs are", machines(settings, found.serving)))
    return told + ["If one of the held machines stays away, the leader gives the plan up: all report anew, under another tag (duties 2 and 9)."]


def rows(found):
    state, settings = found.state, found.settings
    told = [["machine", "fetched", "prepared", "still fetches"]]
    for node in sorted(state.held):
        parts = ["%d of shard %d from %s" % (fetch.updates, fetch.shard, machine(settings, fetch.holder))
                 for fetch in found.fetches.get(node, ()) if fetch.updates and node in found.owing]
        told.append([settings.name(node), "yes" if node in state.fetched else "no", "yes" if node in state.prepared else "no",
                     "; ".join(parts) or ("nothing" if found.phase == "ordered" else "-")])
    return told


def changes(before, found):
    """What has happened since the last look, by what it is."""
    told = {"tag": [str(found.tag)] * (before.tag != found.tag), "phase": [found.phase] * (before.phase != found.phase)}
    for name, word in (("held", "reported"), ("fetched", "fetched"), ("prepared", "prepared")):
        told[word] = [found.settings.name(node) for node in sorted(getattr(found.state, name) - getattr(before.state, name))]
    return {**told, "no longer held": [found.settings.name(node) for node in sorted(before.state.held - found.state.held)]}


def value_of(found):
    """For JSON, as operators/schemas/status.schema.json has it; the head is the caller's."""
    state = found.state
    plan = None
    if state.plan:
        plan = {"view": state.plan.view.number, "after": state.kept.number, "moves": state.plan.moves, "members": sorted(state.plan.view.members)}
    return {"tag": None if found.tag is None else str(found.tag), "phase": found.phase, "kept_view": state.kept.number if state.kept else None,
            "held": sorted(state.held), "absent": sorted(found.settings.nodes - state.held), "plan": plan, "decided": decided_value(found.answer),
            "owes": {"mark": MARKS.get(found.phase), "machines": sorted(found.owing)},
            "machines": [machine_value(found, node) for node in sorted(state.held)] if state.plan else [],
            "updates_left": sum(found.left(node) for node in found.owing), "text": lines(found)}


def decided_value(answer):
    if answer is None:
        return None
    if isinstance(answer, Plan):
        return {"kind": "plan", "view": answer.view, "moves": answer.moves}
    return {"kind": "wait", "reason": answer.reason, "value": answer.value}


def machine_value(found, node):
    fetches = [{"shard": fetch.shard, "from": fetch.holder, "updates": fetch.updates} for fetch in found.fetches.get(node, ())]
    return {"node": node, "name": found.settings.names[node] if found.settings.names else None, "fetched": node in found.state.fetched,
            "prepared": node in found.state.prepared, "updates_left": found.left(node), "fetches": fetches}
