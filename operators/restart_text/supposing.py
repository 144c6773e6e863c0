"""Machines that are absent, supposed to be back: the reports that they would give, and a count of what would still be lacking then.

The count is this tool's own. It says which questions are worth asking; the program's answers decide what is told."""
from dataclasses import dataclass, field, replace

from . import encode
from .gathering import Gathered, holding, lacking
from .model import START, Report, View


def supposed_report(gathered, node):
    """What the machine is supposed to report: the kept view, with the updates that are wanted of its logs; or where it is no member
    of that view, the view before. None where there is no such view."""
    kept = gathered.kept
    runs = tuple((wanted_update(gathered, shard),) if node in members and wanted_update(gathered, shard) else ()
                 for shard, members in enumerate(kept.shards))
    if node in kept.members:
        return Report(node, kept, None, runs)
    if kept.number == 1:
        return None
    return Report(node, View(kept.number - 1, kept.members | {node}, kept.shards), None, runs)


def wanted_update(gathered, shard):
    """Where a termination is kept and nobody back has its update of this shard: that update."""
    position = gathered.termination[shard] if gathered.termination else START
    return position if position != START and not holding(gathered, shard) else None


@dataclass
class Supposed:
    """An input, and the absent machines that can be supposed to be back."""

    blocks: list
    gathered: Gathered
    gone: frozenset = frozenset()  # machines that will not come back
    reports: dict = field(default_factory=dict)  # each machine's supposed report
    words: dict = field(default_factory=dict)  # and its words

    def __post_init__(self):
        for node in sorted(self.gathered.absent - self.gone):
            report = supposed_report(self.gathered, node)
            if report:
                self.reports[node], self.words[node] = report, encode.report_words(report)

    @property
    def pool(self):
        return sorted(self.words)

    def blocks_with(self, nodes):
        """The input with the reports of these machines."""
        return self.blocks + [self.words[node] for node in sorted(nodes)]

    def gathered_with(self, nodes):
        """What the reports add up to with those of these machines."""
        return replace(self.gathered, reports={**self.gathered.reports, **{node: self.reports[node] for node in nodes}})


class Count:
    """How many machines more are lacking at least, once some are back; 0 exactly where nothing is lacking."""

    def __init__(self, supposed):
        gathered, settings, kept = supposed.gathered, supposed.gathered.settings, supposed.gathered.kept
        self.settings, self.pool = settings, supposed.pool
        self.members = kept.members
        self.majority = len(kept.members) // 2 + 1 - len(kept.members & gathered.held)
        self.least = settings.least - len(gathered.held)
        self.helpers = [frozenset(self.pool) & kept.shards[shard] for shard in range(len(settings.shards))
                        if not holding(gathered, shard)]
        self.helpers.sort(key=len)
        self.groups = [sorted(settings.shards_of(group), key=lambda shard: -settings.shards[shard].needs) for group in range(4)]
        self.held = {number: len(settings.nodes_of(number) & gathered.held) for number in range(settings.failure_sets)}

    def lacking(self, nodes):
        """At least so many more besides these; more than there are machines where nothing helps."""
        most = max(self.majority - len(self.members.intersection(nodes)), self.least - len(nodes), self.logs(nodes), 0)
        held, spare = dict(self.held), {number: 0 for number in self.held}
        for node in nodes:
            held[self.settings.set_of[node]] += 1
        for node in self.pool:
            if node not in nodes:
                spare[self.settings.set_of[node]] += 1
        return max([most] + [self.placing(shards, held, spare) for shards in self.groups])

    def logs(self, nodes):
        """Shards without a log of which no machine could serve two."""
        taken, count = set(), 0
        for helpers in self.helpers:
            if not helpers.intersection(nodes):
                if not helpers:
                    return len(self.pool) + 1
                if not helpers & taken:
                    taken |= helpers
                    count += 1
        return count

    def placing(self, shards, held, spare):
        """The fewest machines more with which these shards of a subgroup can be placed: first those whose set has the fewest."""
        held, spare, count = dict(held), dict(spare), 0
        while lacking(self.settings, shards, held):
            sets = [number for number in spare if spare[number]]
            if not sets:
                return len(self.pool) + 1
            scarce = min(sets, key=held.get)
            held[scarce], spare[scarce], count = held[scarce] + 1, spare[scarce] - 1, count + 1
        return count
