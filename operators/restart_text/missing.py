"""What if machines that are back were not: the answer to the input without their reports, and what would be lost or missing then."""
from dataclasses import dataclass, field, replace

from .answers import BadAnswer, Number, Plan, Wait, printed
from .explaining import asked, explain
from .gathering import Gathered, gather, holding, waits
from .planning import updates_after
from .running import dropped_answer
from .sentences import counted, listed, machines, pair
from .telling import reason


@dataclass(frozen=True)
class Behind:
    """Updates of a shard that no other machine that is back has."""

    shard: int
    after: tuple  # where the shard's log would end
    end: tuple  # where it ends with the machines
    updates: int


@dataclass
class WhatIf:
    """What changes where some machines that are back are left out."""

    nodes: frozenset
    answer: object  # with them
    whole: Gathered  # what the reports add up to with them
    rest: Gathered  # and without
    behind: list = field(default_factory=list)  # of Behind
    no_log: list = field(default_factory=list)  # shards that have a log with them and none without
    running: object = None  # what a leader that has taken their reports would say, where kept view or termination hang on them
    counted: str = ""  # why that is this tool's own count

    @property
    def hanging(self):
        """Whether kept view or termination hang on them."""
        whole, rest = self.whole, self.rest
        if whole.refused or rest.refused or not whole.kept or not rest.kept:
            return False
        return (rest.kept, rest.termination) != (whole.kept, whole.termination)


def left_out(given, nodes):
    """The input without the reports of these machines."""
    kept = [number for number, block in enumerate(given.blocks) if number == 0 or not block or block[0] not in nodes]
    return replace(given, blocks=[given.blocks[number] for number in kept],
                   lines=[given.lines[number] for number in kept if number < len(given.lines)],
                   files=[given.files[number] for number in kept if number < len(given.files)])


def asked_without(given, program, nodes, gone=frozenset(), library=None):
    """What the program answers without the reports of these machines, which may be none, explained; they count as gone."""
    if not nodes:
        return asked(given, program, gone, library)
    told = asked(left_out(given, nodes), program, gone | nodes, library)
    told.what_if = what_if(given, program.ask(given.blocks), told.gathered, nodes, library)
    return headed(told)


def explained_without(given, answer, nodes, gone=frozenset(), library=None):
    """The same where the answer without them is from a file."""
    told = explain(left_out(given, nodes), answer, None, None, gone | nodes, library)
    told.what_if = what_if(given, None, told.gathered, nodes, library)
    return headed(told)


def headed(told):
    """The explanation after the lines that say what changes."""
    lines = what_if_lines(told.answer, told.what_if)
    told.lines, told.before = lines + told.lines, len(lines)
    return told


def what_if(given, answer, rest, nodes, library):
    found = WhatIf(nodes, answer, gather(given.blocks, given.names), rest)
    if found.whole.refused or rest.refused or not found.whole.kept or not rest.kept:
        return found
    if found.hanging:
        running(found, given, library)
    else:
        compare_logs(found)
    return found


def compare_logs(found):
    """Where a shard's log would end sooner, or there would be none."""
    for shard in range(len(found.whole.settings.shards)):
        now, then = holding(found.whole, shard), holding(found.rest, shard)
        if now and not then:
            found.no_log.append(shard)
        elif now and then[1] < now[1]:
            runs = found.whole.reports[now[0]].runs[shard]
            found.behind.append(Behind(shard, then[1], now[1], updates_after(runs, then[1], now[1])))


def running(found, given, library):
    """What a leader would say that has taken the reports and gives the machines up: kept view and termination remain."""
    failing = waits(replace(found.whole, reports={node: report for node, report in found.whole.reports.items() if node not in found.nodes}))
    found.running = Wait(*failing[0]) if failing else None
    try:
        if not library or library.trouble:
            raise BadAnswer(library.trouble if library else "no library was named")
        answer = dropped_answer(library.path, given.blocks, sorted(found.nodes & found.whole.held))
    except BadAnswer as trouble:
        found.counted = str(trouble)
        return
    if (answer if isinstance(answer, Wait) else None) != found.running:
        raise BadAnswer("without %s the library says %s, and this tool's own count comes to %s"
                        % (machines(found.whole.settings, found.nodes), printed(answer), printed(found.running) if found.running else "a plan"))
    found.running = answer


def what_if_lines(answer, found):
    """The lines that come before the explanation."""
    settings = found.whole.settings
    if settings is None:
        return []
    now = "" if found.answer is None else " With %s: %s." % ("it" if len(found.nodes) == 1 else "them", in_words(found.answer))
    lines = ["If %s were not back: %s.%s" % (machines(settings, found.nodes), in_words(answer), now)]
    lines += [behind_line(one, isinstance(answer, Plan)) for one in found.behind]
    if found.no_log:
        lines.append("Missing: the log of shard%s %s, which no other machine that is back has. Nothing is lost while the restart waits for it."
                     % ("s" * (len(found.no_log) > 1), listed(found.no_log)))
    if isinstance(answer, Plan) and isinstance(found.answer, Plan) and not (found.behind or found.no_log or found.hanging):
        lines.append("Lost: nothing. Every log goes as far without %s." % ("it" if len(found.nodes) == 1 else "them"))
    return lines + hanging_lines(answer, found)


def behind_line(one, planned):
    it, it_is = ("it", "it is") if one.updates == 1 else ("them", "they are")
    return ("%s: %s of shard %d, after %s up to %s, which no other machine that is back has. Not all members of the shard have %s, so nobody was told"
            " that %s stored." % ("Lost" if planned else "Would be lost", counted(one.updates, "update"), one.shard, pair(one.after), pair(one.end),
                                  it, it_is))


def hanging_lines(answer, found):
    """Where kept view or termination hang on the machines."""
    whole, rest, settings = found.whole, found.rest, found.whole.settings
    if not found.hanging:
        return []
    several, view = len(found.nodes) > 1, whole.kept.number
    who = machines(settings, found.nodes) + (" report" if several else " reports")
    if rest.kept.number < view:
        lines = ["View %d would not be known: of the machines that are back only %s it. A leader that starts anew would keep view %d."
                 % (view, who, rest.kept.number)]
        if isinstance(answer, Plan):
            lines.append("Lost: what was stored in view %d, if it was served. If the duties were kept it was not, for then there would be no plan"
                         " without it (history_laws/Definitions.newest)." % view)
    else:
        lines = ["The termination of view %d would not be known: of the machines that are back only %s it." % (view, who)]
    own = " (this tool's own count: %s)" % found.counted if found.counted else ""
    lines.append("A leader that has taken %s keeps it and says: %s%s."
                 % ("their reports" if several else "its report", in_words(found.running) if found.running else "a plan", own))
    return lines


def in_words(answer):
    if isinstance(answer, (Plan, Number)):
        return printed(answer)
    return "%s, %s" % (printed(answer), reason(answer))
