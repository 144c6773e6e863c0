"""Which absent machines to switch on: the least sets with which the program gives a plan.

A machine more that reports the kept view never harms, so that sets with a plan stay so as they grow. The count of supposing.py
leads the search, size after size; each set that is told has been asked of the program, and so have sets without a plan that cover
every smaller one, as far as the time allows."""
import itertools
from dataclasses import dataclass, field

from .answers import Plan
from .asking import OutOfTime
from .ordering import fewest_moves
from .supposing import Count

MOST_ASKED = 120  # sets of the least size that are asked of the program
MOST_COUNTED = 2000  # sets of that size that are looked for
MOST_SMALLER = 20000  # smaller sets that are gone through


@dataclass
class Found:
    sets: list = field(default_factory=list)  # of tuples of machines, all of one size, with each of which there is a plan, fewest moves first
    moves: dict = field(default_factory=dict)  # by set: the moves of that plan
    others: list = field(default_factory=list)  # further ones of this size, by this tool's own count
    complete: bool = False  # whether these are all of this size
    by_size: bool = False  # whether smaller sets were gone through before, by this tool's own count
    least: bool = False  # whether the program was asked about every smaller set or one that has it
    without: dict = field(default_factory=dict)  # machines without which there is no plan, and the answer without each
    all_back: object = None  # the program's answer with every absent machine back, or None where it was not asked
    helpless: bool = False  # whether there is no plan even then
    cut_short: bool = False  # whether the time ended before the search
    differs: list = field(default_factory=list)  # sets about which the program and this tool's own count differ


def least_sets(supposed, program, clock):
    """Looks for them until the clock's time is over. Without a program, all is this tool's own count."""
    return Search(supposed, program, clock).done()


class Search:
    def __init__(self, supposed, program, clock):
        self.supposed, self.program, self.clock = supposed, program, clock
        self.count, self.found = Count(supposed), Found()

    def plan_with(self, nodes):
        """Whether there is a plan once these machines are back."""
        own = self.count.lacking(nodes) == 0
        if not self.program:
            return own
        plan = isinstance(self.answer_with(nodes), Plan)
        if plan != own:
            self.found.differs.append(tuple(nodes))
        return plan

    def answer_with(self, nodes):
        return self.program.ask(self.supposed.blocks_with(nodes))

    def moves_with(self, nodes):
        """The moves of the plan with these machines; without a program, by this tool's own count."""
        return self.answer_with(nodes).moves if self.program else fewest_moves(self.supposed.gathered_with(nodes))

    def done(self):
        found, pool = self.found, self.supposed.pool
        found.helpless = not self.plan_with(pool)
        found.all_back = self.answer_with(pool) if self.program else None
        if found.helpless:
            return found
        try:
            self.look()
            found.least = bool(self.program and found.sets) and self.none_smaller()
        except OutOfTime:
            found.cut_short = True
        found.by_size = bool(found.sets)
        if not found.sets:
            some = self.spared()
            found.sets = [some if self.plan_with(some) else tuple(pool)]
        found.moves = {nodes: self.moves_with(nodes) for nodes in found.sets}
        found.sets.sort(key=lambda nodes: (found.moves[nodes], nodes))
        found.without = self.indispensable() if self.program else {}
        return found

    def look(self):
        """Size after size, up to the first with which there is a plan."""
        found = self.found
        for size in range(self.count.lacking(()), len(self.supposed.pool) + 1):
            for nodes in self.sets_of((), 0, size):
                if len(found.sets) == MOST_ASKED:
                    found.others.append(nodes)
                elif self.plan_with(nodes):
                    found.sets.append(nodes)
                if len(found.others) == MOST_COUNTED:
                    return
            if found.sets:
                found.complete = True
                return

    def sets_of(self, chosen, start, left):
        """The sets of so many machines more than those chosen, from the pool's place `start` on, that lack nothing by the
        count."""
        self.clock.in_time()
        if self.count.lacking(chosen) > left:
            return
        if left == 0:
            yield chosen
            return
        pool = self.supposed.pool
        for place in range(start, len(pool) - left + 1):
            if self.count.lacking(chosen + tuple(pool[place:])):
                return
            yield from self.sets_of(chosen + (pool[place],), place + 1, left - 1)

    def none_smaller(self):
        """Asks the program about the sets with one machine fewer, each grown as long as it lacks something by the count: what has
        no plan grown has none as it was. Whether every set was covered."""
        grown = []
        smaller = itertools.combinations(self.supposed.pool, len(self.found.sets[0]) - 1)
        for nodes in itertools.islice(smaller, MOST_SMALLER):
            if not any(one.issuperset(nodes) for one in grown):
                self.clock.in_time()
                large = self.grown(nodes)
                if self.plan_with(large):
                    return False
                grown.append(frozenset(large))
        return next(smaller, None) is None

    def grown(self, nodes):
        """The set with every machine more with which it still lacks something by the count."""
        large = list(nodes)
        for node in self.supposed.pool:
            if node not in large and self.count.lacking(large + [node]):
                large.append(node)
        return large

    def spared(self):
        """A set that lacks nothing by the count, and none of whose machines can be spared."""
        nodes = list(self.supposed.pool)
        for node in self.supposed.pool:
            fewer = [other for other in nodes if other != node]
            if not self.count.lacking(fewer):
                nodes = fewer
        return tuple(nodes)

    def indispensable(self):
        """The machines in all of the sets without which the program gives no plan, and its answer with every other one back."""
        answers = {node: self.answer_with([other for other in self.supposed.pool if other != node])
                   for node in sorted(set.intersection(*map(set, self.found.sets)))}
        return {node: answer for node, answer in answers.items() if not isinstance(answer, Plan)}
