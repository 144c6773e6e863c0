"""What a plan costs, and which absent machines would make it cheaper: the sets with which the program's plan has fewer moves, size after
size, down to the fewest that any set gives.

A machine more never makes more moves, so that every absent machine back gives the fewest. What a machine saves falls as others come back
before it, for a placement is a flow of least cost: one that saves nothing alone saves nothing beside others. This tool's own count of moves
leads the search; each set that is told has been asked of the program."""
import itertools
from dataclasses import dataclass, field

from .answers import Plan
from .asking import OutOfTime
from .ordering import fewest_moves
from .planning import log_of

MOST_ASKED = 24  # sets of one size that are asked of the program
MOST_COUNTED = 1500  # sets whose moves are counted


@dataclass(frozen=True)
class Offer:
    """A plan with some machines more: how many moves, and how many updates are fetched in all if their logs were empty."""

    nodes: tuple
    moves: int
    fetches: int


@dataclass
class Cheaper:
    fewest: int | None = None  # the moves with every absent machine back, or None where it was not asked
    steps: list = field(default_factory=list)  # of lists of Offers: all of one size and with as many moves, cheapest first
    single: dict = field(default_factory=dict)  # the moves with one machine more, where these are fewer
    compared: bool = False  # whether every absent machine was asked about by itself
    more: int = 0  # further sets of the last step, by this tool's own count
    cut_short: bool = False  # whether the search ended before it came to the fewest with the least sets
    differs: list = field(default_factory=list)  # sets about which the program and this tool's own count differ


def fetched(gathered, plan):
    """By machine, how many updates it fetches in all."""
    found = {}
    for shard, placed in enumerate(plan.shards):
        for node in sorted(placed.members):
            count = log_of(gathered, node, shard, placed).fetches
            if count:
                found[node] = found.get(node, 0) + count
    return found


def cheaper(supposed, plan, program):
    """Looks for them until the program's time is over."""
    search = Search(supposed, plan, program)
    try:
        search.look()
    except OutOfTime:
        search.found.cut_short = True
    return search.found


class Search:
    def __init__(self, supposed, plan, program):
        self.supposed, self.plan, self.program, self.found = supposed, plan, program, Cheaper()

    def offer(self, nodes):
        """What the program gives with these machines as well."""
        answer = self.program.ask_in_time(self.supposed.blocks_with(nodes))
        if not isinstance(answer, Plan):
            self.found.differs.append(tuple(nodes))
            return Offer(tuple(nodes), self.plan.moves, 0)
        return Offer(tuple(nodes), answer.moves, sum(fetched(self.supposed.gathered_with(nodes), answer).values()))

    def look(self):
        found, pool = self.found, self.supposed.pool
        if not self.plan.moves or not pool:
            found.compared, found.fewest = True, self.plan.moves
            return
        for node in pool:
            moves = self.offer([node]).moves
            if moves < self.plan.moves:
                found.single[node] = moves
        found.compared = True
        found.fewest = self.offer(pool).moves
        try:
            self.climb()
        except OutOfTime:
            found.cut_short = True
        if self.reached() > found.fewest:
            found.steps.append([self.offer(self.spared())])

    def reached(self):
        return self.found.steps[-1][0].moves if self.found.steps else self.plan.moves

    def climb(self):
        """Size after size, until the moves are as few as they can be."""
        counted = 0
        useful = sorted(self.found.single)
        for size in range(1, len(useful) + 1):
            if self.reached() == self.found.fewest:
                return
            best, sets = self.reached(), []
            for nodes in itertools.combinations(useful, size):
                self.program.in_time()
                counted += 1
                if counted > MOST_COUNTED:
                    self.found.cut_short = True
                    return
                moves = self.counted(nodes)
                if moves < best:
                    best, sets = moves, []
                if moves == best < self.reached():
                    sets.append(nodes)
            self.ask(sets, best)

    def ask(self, sets, counted):
        """Takes the sets of one size that by the count have the fewest moves."""
        offers = [self.offer(nodes) for nodes in sets[:MOST_ASKED]]
        self.found.differs += [offer.nodes for offer in offers if offer.moves != counted]
        if offers:
            self.found.steps.append(sorted(offers, key=lambda offer: (offer.moves, offer.fetches, offer.nodes)))
            self.found.more = len(sets) - len(offers)

    def counted(self, nodes):
        """The moves with these machines as well, by this tool's own count."""
        return fewest_moves(self.supposed.gathered_with(nodes))

    def spared(self):
        """A set with the fewest moves by the count, none of whose machines can be spared."""
        nodes = list(self.supposed.pool)
        for node in self.supposed.pool:
            fewer = [other for other in nodes if other != node]
            if self.counted(fewer) == self.found.fewest:
                nodes = fewer
        return nodes
