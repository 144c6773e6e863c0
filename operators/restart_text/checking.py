"""Whether settings can be met: with all machines, with any one away, with any one failure set away; and what hangs on one machine, one set or
one copy. The program is asked, with reports that such machines would give of a view in which all machines are members; this tool counts the
same on its own.

Nothing in the view stands in the way: every shard is given to a machine that is up, as far as there are so many."""
from dataclasses import dataclass, field

from . import encode
from .answers import Plan, Wait, printed
from .gathering import gather, named, shortage, waits
from .model import SUBGROUPS, Report, Settings, View
from .sentences import counted, listed, machines


@dataclass
class Case:
    """A situation: who is up, and what fails then."""

    up: frozenset
    wait: Wait | None = None  # the first condition that fails, by the program
    fails: list = field(default_factory=list)  # every condition that fails, in words, by this tool's own count

    @property
    def met(self):
        return self.wait is None


@dataclass
class Check:
    settings: Settings
    whole: Case  # all machines up
    machines: dict = field(default_factory=dict)  # by machine: with it away
    sets: dict = field(default_factory=dict)  # by failure set that has machines: with it away
    copies: list = field(default_factory=list)  # shards of which a plan need have one member only
    never: list = field(default_factory=list)  # shards that no placement can have, even alone
    empty: list = field(default_factory=list)  # failure sets without a machine
    asked: int = 0
    differs: list = field(default_factory=list)  # where this tool's own count comes to something else

    @property
    def needed_machines(self):
        return [node for node, case in self.machines.items() if not case.met]

    @property
    def needed_sets(self):
        return [number for number, case in self.sets.items() if not case.met]

    @property
    def sound(self):
        """Whether nothing hangs on one machine, one set or one copy."""
        return self.whole.met and not (self.needed_machines or self.needed_sets or self.copies)


def check(settings, program):
    """What holds of these settings."""
    asking = Asking(settings, program)
    found = Check(settings, asking.case(settings.nodes))
    found.empty = [number for number in range(settings.failure_sets) if not settings.nodes_of(number)]
    if found.whole.met:
        found.machines = {node: asking.case(settings.nodes - {node}) for node in sorted(settings.nodes)}
        found.sets = {number: asking.case(settings.nodes - settings.nodes_of(number)) for number in range(settings.failure_sets)
                      if settings.nodes_of(number)}
    else:
        found.never = [number for number in range(len(settings.shards)) if not asking.alone(number)]
    found.copies = [number for number, shard in enumerate(settings.shards) if shard.needs == 1 and number not in found.never]
    found.asked, found.differs = program.asked, asking.differs
    return found


class Asking:
    def __init__(self, settings, program):
        self.settings, self.program, self.differs = settings, program, []

    def case(self, up, settings=None):
        """The situation with these machines up."""
        settings = settings or self.settings
        blocks = blocks_of(settings, up)
        if blocks is None:
            return Case(up, Wait(5, crowded(settings)), [no_view(settings)])
        gathered = gather(blocks, settings.names)
        own, answer = [Wait(*one) for one in waits(gathered)], self.program.ask(blocks)
        found = answer if isinstance(answer, Wait) else None
        if found != (own[0] if own else None) or not isinstance(answer, (Plan, Wait)):
            self.differs.append("with %s up: %s; the program says: %s"
                                % (machines(settings, up), printed(own[0]) if own else "a plan", printed(answer)))
        return Case(up, found, [why(gathered, wait) for wait in own if wait.reason != 4 or len(own) == 1])

    def alone(self, number):
        """Whether the shard could be placed if it were the only one."""
        one = Settings(self.settings.failure_sets, 1, self.settings.set_of, (self.settings.shards[number],), self.settings.names)
        return self.case(one.nodes, one).met


def blocks_of(settings, up):
    """An input in which these machines report a view of all machines; None where no view can give each shard a machine."""
    order = sorted(up) + sorted(settings.nodes - up)
    places = {}
    for subgroup in range(SUBGROUPS):
        shards = settings.shards_of(subgroup)
        if len(shards) > len(order):
            return None
        places.update({shard: frozenset([node]) for shard, node in zip(shards, order)})
    view = View(1, settings.nodes, tuple(places[shard] for shard in range(len(settings.shards))))
    reports = [Report(node, view, None, ((),) * len(settings.shards)) for node in sorted(up)]
    return [encode.settings_words(settings)] + [encode.report_words(report) for report in reports]


def crowded(settings):
    """The lowest subgroup that has more shards than there are machines."""
    return next(number for number in range(SUBGROUPS) if len(settings.shards_of(number)) > len(settings.nodes))


def no_view(settings):
    subgroup = crowded(settings)
    return "subgroup %d has %s and there %s: no view can give each a machine of its own" % (
        subgroup, counted(len(settings.shards_of(subgroup)), "shard"),
        "is 1 machine" if len(settings.nodes) == 1 else "are %d machines" % len(settings.nodes))


def why(gathered, wait):
    """What fails, in a few words."""
    settings, up = gathered.settings, len(gathered.held)
    if wait.reason == 1:
        return "no machine would be left"
    if wait.reason == 2:
        return "%d of %d machines are no majority of a view of all" % (up, len(settings.nodes))
    if wait.reason == 3:
        return "%s fewer than the least group size, %d" % (counted(up, "machine") + (" is" if up == 1 else " are"), settings.least)
    if wait.reason == 4:
        return "fewer machines than shards in subgroup %d" % settings.shards[wait.value].subgroup
    short = shortage(gathered, wait.value)
    return "shard%s of subgroup %d %s %s, and the failure sets can give %d" % (
        "s" * (len(short.shards) > 1) + " " + listed(short.shards), wait.value, "needs" if len(short.shards) == 1 else "together need",
        counted(short.needed, "machine"), sum(short.given.values()))


def named_settings(settings, names):
    return named(settings, names) if names else settings


def lines(found):
    """What holds, the most important first."""
    settings = found.settings
    told = [headline(found)]
    if not found.whole.met:
        told += ["With all machines: no plan; %s." % "; ".join(found.whole.fails)]
        told += [never_line(found, number) for number in found.never]
    else:
        told += ["With all machines: a plan."]
        told += case_lines("any one machine away", {machines(settings, [node]): case for node, case in found.machines.items()})
        sets = {"failure set %d (%s)" % (number, machines(settings, settings.nodes_of(number))): case for number, case in found.sets.items()}
        told += case_lines("any one failure set away", sets)
        told += point_lines(found)
    if found.empty:
        told.append("Failure set%s %s no machine." % ("s" * (len(found.empty) > 1), listed(found.empty) + (" has" if len(found.empty) == 1 else " have")))
    told.append("Assumed: all machines are members of the last view and whoever is up has reported it; logs play no part. For the view that the"
                " machines have in fact: restart-text readiness, with their reports.")
    if found.differs:
        told += ["", "WARNING: this tool's own counting comes to something else:"] + ["  " + line for line in found.differs]
        told.append("To do: do not rely on this; keep the settings and call the developers.")
    return told


def headline(found):
    if not found.whole.met:
        return "These settings cannot be met, even with all %s." % counted(len(found.settings.nodes), "machine")
    good = ["with all machines"] + ["with any one machine away"] * (not found.needed_machines) + ["with any one failure set away"] * (not found.needed_sets)
    bad = [machines(found.settings, found.needed_machines, "or")] if found.needed_machines else []
    bad += ["failure set %s" % listed(found.needed_sets, "or")] if found.needed_sets else []
    tail = ", but not without %s" % ", nor without ".join(bad) if bad else ", but the only log of a shard may be on one machine" if found.copies else ""
    return "These settings can be met %s%s." % (listed(good), tail)


def case_lines(what, cases):
    bad = {name: case for name, case in cases.items() if not case.met}
    if not bad:
        return ["With %s: a plan." % what]
    groups = {}
    for name, case in bad.items():
        groups.setdefault("; ".join(case.fails), []).append(name)
    told = ["With %s: a plan in %d of %d cases." % (what, len(cases) - len(bad), len(cases))]
    return told + ["  none without %s: %s" % (listed([name.removeprefix("machine ") if place and name.startswith("machine ") else name
                                                      for place, name in enumerate(names)], "or"), fails) for fails, names in groups.items()]


def point_lines(found):
    settings = found.settings
    points = [machines(settings, found.needed_machines)] if found.needed_machines else []
    points += ["failure set%s %s" % ("s" * (len(found.needed_sets) > 1), listed(found.needed_sets))] if found.needed_sets else []
    if found.copies:
        several = len(found.copies) > 1
        points.append("whichever machine carries shard%s %s, which need%s 1 member%s: the log may be nowhere else"
                      % ("s" * several, listed(found.copies), "" if several else "s", " each" * several))
    return ["Single points of failure: %s." % "; ".join(points)] if points else ["Single points of failure: none."]


def never_line(found, number):
    settings, shard = found.settings, found.settings.shards[number]
    have = settings.failure_sets - len(found.empty)
    return "Shard %d can never be placed: it needs members of %s, and %s a machine." % (
        number, counted(shard.needs, "failure set"), "only 1 has" if have == 1 else "%d have" % have)


def value_of(found):
    """For JSON, as operators/schemas/check.schema.json has it; the head is the caller's."""
    return {"all": case_value(found.whole), "machines": [{"node": node, **case_value(case)} for node, case in found.machines.items()],
            "sets": [{"set": number, "machines": sorted(found.settings.nodes_of(number)), **case_value(case)} for number, case in found.sets.items()],
            "single_points": {"machines": found.needed_machines, "sets": found.needed_sets, "shards": found.copies}, "never": found.never,
            "empty_sets": found.empty, "asked": found.asked, "differences": found.differs, "text": lines(found)}


def case_value(case):
    wait = case.wait
    return {"met": case.met, "reason": wait.reason if wait else None, "value": wait.value if wait else None, "text": case.fails}
