"""What the reports of an input add up to: kept view, kept termination, held machines; and from these every condition of a restart,
counted here once more. The planner decides; this only finds the words for its answer."""
from dataclasses import dataclass, field, replace

from . import decode
from .model import START, Refused, Settings
from .sentences import machine


@dataclass
class Gathered:
    settings: Settings | None = None
    kept: object = None  # the kept view
    kept_from: int = 0  # the node that first reported it
    termination: tuple | None = None
    termination_from: int = 0
    reports: dict = field(default_factory=dict)  # of the held nodes, by node
    latest: dict = field(default_factory=dict)  # of each node the greatest view that it reported, and in which block
    refused: Refused | None = None
    fault: int = 0  # the number of the block that was refused

    @property
    def held(self):
        return frozenset(self.reports)

    @property
    def absent(self):
        return self.settings.nodes - self.held

    def candidates(self, shard):
        """The reports from which the shard's log may be taken, ascending by node."""
        reports = [report for _, report in sorted(self.reports.items())]
        return [one for one in reports if one.view.number == self.kept.number and one.node in self.kept.shards[shard]]


def gather(blocks, names=()):
    """Reads the blocks one after another, up to the first that is refused."""
    gathered = Gathered()
    try:
        gathered.settings = named(decode.settings_from(blocks[0] if blocks else []), names)
        for gathered.fault in range(1, len(blocks)):
            add(gathered, decode.report_from(blocks[gathered.fault], gathered.settings))
    except Refused as refused:
        gathered.refused = refused
    return gathered


def named(settings, names):
    """The settings with these names, which may be too few or too many."""
    count = len(settings.set_of)
    return replace(settings, names=(tuple(names) + (None,) * count)[:count] if names else ())


def add(gathered, report):
    """Takes a report, or refuses it with 18, 12 or 13."""
    no_step_back(gathered, report)
    number = gathered.kept.number if gathered.kept else 0
    if report.view.number == number:
        compare(gathered, report)
    if report.view.number > number:
        gathered.kept, gathered.kept_from, gathered.termination = report.view, report.node, None
    if report.view.number >= number and report.termination and gathered.termination is None:
        gathered.termination, gathered.termination_from = report.termination, report.node
    gathered.reports[report.node] = report
    gathered.latest[report.node] = report.view.number, gathered.fault


def no_step_back(gathered, report):
    """Row 18: a machine never reports a smaller view than it has reported before."""
    view, block = gathered.latest.get(report.node, (0, 0))
    if report.view.number < view:
        raise Refused(18, "%s reports view %d, and has reported view %d before, in report %d"
                      % (machine(gathered.settings, report.node), report.view.number, view, block))


def compare(gathered, report):
    """Rows 12 and 13: a report of the kept view agrees with it."""
    kept, view, settings = gathered.kept, report.view, gathered.settings
    here = machine(settings, report.node)
    pairs = [("members", view.members, kept.members)]
    pairs += [("members of shard %d" % shard, *both) for shard, both in enumerate(zip(view.shards, kept.shards))]
    for name, told, known in pairs:
        if told != known:
            raise Refused(12, "%s gives view %d the %s %s; %s gave it %s" % (here, view.number, name, settings.those(told), machine(
                settings, gathered.kept_from), settings.those(known)))
    for shard, (told, known) in enumerate(zip(report.termination or (), gathered.termination or ())):
        if told != known:
            raise Refused(13, "%s ends shard %d at view %d update %d; %s ended it at view %d update %d"
                          % (here, shard, *told, machine(settings, gathered.termination_from), *known))


def holding(gathered, shard):
    """The shard's holder and target, or None where it has no holder."""
    candidates = gathered.candidates(shard)
    greatest = max((report.end(shard) for report in candidates), default=START)
    target = gathered.termination[shard] if gathered.termination else greatest
    able = [report for report in candidates if report.has(shard, target)]
    if not able:
        return None
    greatest = max(report.end(shard) for report in able)
    return next(report.node for report in able if report.end(shard) == greatest), target


def up_to(runs, target):
    """The runs of a log up to this position."""
    whole = [run for run in runs if run[0] < target[0]]
    return whole + [(view, min(count, target[1])) for view, count in runs if view == target[0]]


def common(runs, others):
    """The end of what two logs share from their beginning: START where they share nothing."""
    end = START
    for (view, count), (other_view, other_count) in zip(runs, others):
        if view != other_view:
            return end
        end = (view, min(count, other_count))
        if count != other_count:
            return end
    return end


def cut(gathered, node, shard, holder, target):
    """Up to where the node keeps its log of the shard."""
    return common(gathered.reports[node].runs[shard], up_to(gathered.reports[holder].runs[shard], target))


@dataclass
class Shortage:
    """Why a subgroup has no valid placement: these shards together need more machines than the failure sets can give them, each
    set at most one to each shard."""

    shards: list
    needed: int
    given: dict  # by failure set
    spare: list | None  # the fewest absent machines that together would do, or None where all of them would not
    alone: list  # absent machines of which each would do alone


def shortage(gathered, subgroup):
    """What the subgroup lacks, or None where it has a valid placement.

    A placement exists exactly if for every k the k shards with the greatest needs together need no more machines than the sets can
    give, a set with h held machines giving the lesser of h and k."""
    settings = gathered.settings
    shards = sorted(settings.shards_of(subgroup), key=lambda shard: -settings.shards[shard].needs)
    held = {number: len(settings.nodes_of(number) & gathered.held) for number in range(settings.failure_sets)}
    count = lacking(settings, shards, held)
    if not count:
        return None
    given = {number: min(size, count) for number, size in held.items()}
    needed = sum(settings.shards[shard].needs for shard in shards[:count])
    alone = [node for node in sorted(gathered.absent) if not lacking(settings, shards, with_node(settings, held, node))]
    return Shortage(sorted(shards[:count]), needed, given, cure(gathered, shards, held), alone)


def lacking(settings, shards, held):
    """The least k for which the k shards with the greatest needs lack machines; 0 if there is none."""
    needed = 0
    for count, shard in enumerate(shards, 1):
        needed += settings.shards[shard].needs
        if needed > sum(min(size, count) for size in held.values()):
            return count
    return 0


def with_node(settings, held, node):
    """How many machines of each set are held once this one is back."""
    return {**held, settings.set_of[node]: held[settings.set_of[node]] + 1}


def cure(gathered, shards, held):
    """The fewest absent machines that would make a placement possible: first those whose set has the fewest held ones."""
    settings, absent, chosen = gathered.settings, set(gathered.absent), []
    while lacking(settings, shards, held):
        if not absent:
            return None
        node = min(absent, key=lambda node: (held[settings.set_of[node]], node))
        absent.remove(node)
        chosen.append(node)
        held = with_node(settings, held, node)
    return chosen


def waits(gathered):
    """Every condition that fails, as (reason, shard or subgroup or None), in the order in which the planner asks."""
    if not gathered.kept:
        return [(1, None)]
    found = []
    if 2 * len(gathered.held & gathered.kept.members) <= len(gathered.kept.members):
        found.append((2, None))
    if len(gathered.held) < gathered.settings.least:
        found.append((3, None))
    found += [(4, shard) for shard in range(len(gathered.settings.shards)) if not holding(gathered, shard)]
    return found + [(5, subgroup) for subgroup in range(4) if shortage(gathered, subgroup)]
