"""How ready a layout is for a restart: what its sheet says by how many machines are up, by failure set lost and by machine, and the least
sets of machines that restart."""
from dataclasses import dataclass

from . import sheets
from .answers import BadAnswer, Number, number_line, run
from .asking import absolute, default_program
from .gathering import Gathered, gather
from .supposing import Supposed, supposed_report
from .telling import assumed
from .words import mask_of, nodes_of


@dataclass(frozen=True)
class Share:
    """Of some sets of machines, how many have each answer."""

    counts: tuple  # by the places of sheets.NUMBERS

    @property
    def total(self):
        return sum(self.counts)

    @property
    def plans(self):
        return self.counts[0]

    @property
    def part(self):
        return self.plans / self.total


@dataclass
class Readiness:
    """A layout and its sheet."""

    name: str  # of the input
    gathered: Gathered
    waits: list  # of each set of machines, by its mask: (reason, shard or subgroup), reason 0 for a plan
    supposed: tuple = ()  # machines whose reports were not there and are supposed
    assumed: str = ""  # what is supposed of them

    @property
    def settings(self):
        return self.gathered.settings

    @property
    def nodes(self):
        return range(len(self.settings.set_of))

    @property
    def all(self):
        """The mask of all machines."""
        return len(self.waits) - 1

    def share(self, wanted=lambda mask: True):
        """The share of those sets whose mask is wanted."""
        numbers = [reason for mask, (reason, _) in enumerate(self.waits) if wanted(mask)]
        return Share(tuple(numbers.count(number) for number in sheets.NUMBERS))

    def has_plan(self, mask):
        return self.waits[mask][0] == 0

    def by_up(self):
        """A share for each number of machines up, 0 to all."""
        return [self.share(lambda mask, count=count: mask.bit_count() == count) for count in range(len(self.nodes) + 1)]

    def failure_sets(self):
        """The failure sets that have machines, each with these."""
        found = [(number, self.settings.nodes_of(number)) for number in range(self.settings.failure_sets)]
        return [(number, nodes) for number, nodes in found if nodes]

    def without(self, nodes):
        """The share where all of these machines are down, and the answer with all others up."""
        lost = mask_of(nodes)
        return self.share(lambda mask: not mask & lost), self.waits[self.all & ~lost]

    def by_machine(self):
        """For each machine the shares with it down and with it up. The one whose loss costs most stands first."""
        found = [(node, self.without([node])[0], self.share(lambda mask, node=node: mask >> node & 1)) for node in self.nodes]
        return sorted(found, key=lambda row: (row[1].plans, row[0]))

    def least_sets(self):
        """The sets that restart and do no more without any one of their machines: every set that restarts has one of them in it, for more
        machines never harm."""
        def is_least(mask):
            return self.has_plan(mask) and not any(self.has_plan(mask & ~(1 << node)) for node in nodes_of(mask))

        found = [nodes_of(mask) for mask in range(len(self.waits)) if is_least(mask)]
        return sorted(found, key=lambda nodes: (len(nodes), sorted(nodes)))

    def needed(self):
        """The machines without which nothing restarts, each with the answer of all others; none where nothing restarts at all."""
        if not self.has_plan(self.all):
            return []
        return [(node, self.without([node])[1]) for node in self.nodes if not self.without([node])[0].plans]

    def in_the_way(self):
        """How many sets wait for each reason, with its shard or subgroup: (reason, value, how many), ascending."""
        found = {}
        for wait in self.waits:
            found[wait] = found.get(wait, 0) + 1
        return [(*wait, count) for wait, count in sorted(found.items(), key=lambda row: (row[0][0], row[0][1] or 0)) if wait[0]]


@dataclass
class Unready:
    """An input of which there is no sheet."""

    name: str
    given: object  # the input
    gathered: Gathered
    answer: Number

    @property
    def missing(self):
        """The machines that have not reported, where that is why."""
        return sorted(self.gathered.absent) if self.answer.number == 23 else []

    @property
    def helpless(self):
        """Whether nothing can be supposed of any of them."""
        return not any(supposed_report(self.gathered, node) for node in self.missing)


def ready(name, given, program=None, answer=None, suppose=False):
    """What the program says of an input, or `answer`, what it has printed before; with `suppose` the reports that are not there are
    supposed."""
    gathered, blocks, supposed, why = gather(given.blocks, given.names), given.blocks, (), ""
    if suppose and gathered.kept and not gathered.refused:
        more = Supposed(given.blocks, gathered)
        supposed, blocks = tuple(more.pool), more.blocks_with(more.pool)
        why = assumed(gathered, supposed) if supposed else ""
        gathered = gather(blocks, given.names)
    text = run(absolute(program or default_program("sheet")), blocks) if answer is None else answer
    found, own = sheets.parse(text, len(gathered.settings.set_of) if gathered.settings else 0), refusal(gathered)
    if isinstance(found, Number) and found == own:
        return Unready(name, given, gathered, found)
    if isinstance(found, Number) or own:
        raise BadAnswer("the answer does not fit the input: it is %s, by this tool's own counting %s" % (in_words(found), in_words(own)))
    waits = sheets.waits_of_sets(gathered)
    sheets.compare(gathered.settings, found, waits)
    return Readiness(name, gathered, waits, supposed, why)


def refusal(gathered):
    """The number with which this input has no sheet, or None."""
    if gathered.refused:
        return Number(gathered.refused.number, gathered.refused.index)
    if len(gathered.settings.set_of) > sheets.MOST_NODES:
        return Number(22)
    return Number(23) if gathered.absent else None


def in_words(answer):
    return number_line(answer.number, answer.index) if isinstance(answer, Number) else "a sheet"
