"""Which machines may be taken out for repair: what would be decided without each of them, asked of the library, and this tool's own count
beside it."""
from dataclasses import dataclass, field, replace

from .answers import BadAnswer, Wait, printed
from .gathering import waits
from .library import Previews
from .sentences import machine, machines, update

NOT_ASKED = "no library was named, and the answer is from a file"


@dataclass
class Source:
    """The library to ask, by its path or the one that is found without; or the reason why none is asked."""

    path: str | None = None
    trouble: str | None = None


@dataclass
class Repair:
    """The held machines of a plan: those without any one of which there is a plan, and those without which there is none."""

    may: dict = field(default_factory=dict)  # by node: the moves of the plan without it; None where the library was not asked
    must: dict = field(default_factory=dict)  # by node: the Wait without it
    trouble: str | None = None  # why the library was not asked
    differs: dict = field(default_factory=dict)  # by node: this tool's own count, a Wait or None, where the library says something else


def repair(given, gathered, source):
    """What is known of each held machine of a plan."""
    own = {node: counted(gathered, node) for node in sorted(gathered.held)}
    if source.trouble:
        return by_count(own, source.trouble)
    try:
        previews = Previews(source.path, given.blocks)
        found, named = {node: previews.without(node) for node in own}, previews.must_stay()
    except BadAnswer as trouble:
        return by_count(own, str(trouble))
    must = {node: answer for node, answer in found.items() if isinstance(answer, Wait)}
    if named != frozenset(must):
        raise BadAnswer("restart_preview_all names %s, and restart_preview waits without %s"
                        % tuple(machines(gathered.settings, nodes) for nodes in (named, must)))
    differs = {node: wait for node, wait in own.items() if wait != must.get(node)}
    return Repair({node: answer.moves for node, answer in found.items() if node not in must}, must, None, differs)


def by_count(own, trouble):
    return Repair({node: None for node, wait in own.items() if not wait}, {node: wait for node, wait in own.items() if wait}, trouble)


def left(gathered, node):
    """What the reports add up to without this machine's: kept view and termination remain, whoever reported them."""
    return replace(gathered, reports={other: report for other, report in gathered.reports.items() if other != node})


def counted(gathered, node):
    """The first condition that fails without the machine, as a Wait, or None."""
    failing = waits(left(gathered, node))
    return Wait(*failing[0]) if failing else None


def repair_lines(gathered, found):
    """The machines that may go, and why the others must stay."""
    settings, groups = gathered.settings, {}
    for node, wait in found.must.items():
        groups.setdefault(wait, []).append(node)
    told = "May be taken out for repair%s: %s." % (", one at a time" * (len(found.may) > 1), machines(settings, found.may))
    for wait, nodes in groups.items():
        told += " Without %s it would wait: %s." % (machines(settings, nodes, "or"), why(gathered, wait, nodes[0]))
    if not found.trouble:
        return [told]
    return [told, "The library was not asked about this (%s); it is this tool's own count." % found.trouble]


def why(gathered, wait, node):
    """What would be missing without the machine."""
    if wait.reason == 2:
        return "no majority of view %d would be left" % gathered.kept.number
    if wait.reason == 3:
        return "fewer machines than the least group size, %d, would be left" % gathered.settings.least
    if wait.reason == 5:
        return "subgroup %d could not be laid out" % wait.value
    other = left(gathered, node).candidates(wait.value)
    return "shard %d has no other copy" % wait.value + (" with %s" % update(gathered.termination[wait.value]) if other else "")


def repair_differences(settings, found):
    """Where the library's previews are not those of this tool's own counting."""
    return ["without %s: %s, which is not what the library answers" % (machine(settings, node), printed(wait) if wait else "a plan")
            for node, wait in found.differs.items()]
