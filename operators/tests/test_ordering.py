"""Which placement a plan has: the tool's own count of the first one with the fewest moves and most stays, against all placements and the
program."""
import itertools
import random
import unittest

import support
from restart_text import encode, inputs
from restart_text.answers import Placed, Plan, run
from restart_text.asking import Program
from restart_text.explaining import asked, explain
from restart_text.gathering import Gathered, gather
from restart_text.jsoned import json_of
from restart_text.model import Report, Settings, Shard, View
from restart_text.ordering import first_placement

# Shards 0 and 2 of subgroup 1 and shard 1 of subgroup 0 lie between one another; machines 0 to 3 are as good for any of them.
EQUAL = """settings
failure sets 2
least group size 1
node 0 set 1
node 1 set 1
node 2 set 1
node 3 set 1
node 4 set 0
node 5 set 0
shard 0 subgroup 1 needs 2
shard 1 subgroup 0 needs 1
shard 2 subgroup 1 needs 2
""" + "".join("""
report node %d view 5
members 0-5
shard 0 members 4
shard 1 members 4
shard 2 members 5
""" % node for node in range(6))
ANSWER = """view 6
moves 2
shard 0 holder 4 target 0 0 members 0 4
shard 1 holder 4 target 0 0 members 4
shard 2 holder 5 target 0 0 members 1 5
"""


def small(source, capped):
    """What up to seven machines and three shards add up to, all machines held or some."""
    nodes, sets = source.randint(1, 7), source.randint(1, 4)

    def shard():
        needs = source.randint(1, min(sets, 2))
        return Shard(source.choice([0, 0, 1]), needs, source.choice([0, needs, needs + 1, needs + 2, 16]) if capped else 0)

    shards = tuple(shard() for _ in range(source.randint(1, 3)))
    settings = Settings(sets, 1, tuple(source.randrange(sets) for _ in range(nodes)), shards)
    old = [set() for _ in shards]
    for node in range(nodes):
        for subgroup in (0, 1):
            own = settings.shards_of(subgroup)
            if own and source.random() < 0.7:
                old[source.choice(own)].add(node)
    kept = View(7, settings.nodes, tuple(map(frozenset, old)))
    held = [node for node in range(nodes) if source.random() < 0.85]
    return Gathered(settings=settings, kept=kept, reports=dict.fromkeys(held))


def placements(gathered):
    """All valid placements, each shard's machines as an ascending list."""
    settings = gathered.settings

    def lists(shard):
        some = itertools.chain(*(itertools.combinations(sorted(gathered.held), size) for size in range(1, shard.cap + 1)))
        return [one for one in some if len({settings.set_of[node] for node in one}) >= shard.needs]

    def apart(found, taken):
        """What the further shards can have beside those that are taken."""
        if len(found) == len(settings.shards):
            yield found
            return
        for one in every[len(found)]:
            placed = {(settings.shards[len(found)].subgroup, node) for node in one}
            if not placed & taken:
                yield from apart(found + (one,), taken | placed)

    every = [lists(shard) for shard in settings.shards]
    return apart((), frozenset())


def rank(gathered, found):
    """Moves, then stays, of which more are better."""
    pairs = [(node, old) for old, nodes in zip(gathered.kept.shards, found) for node in nodes]
    return sum(node not in old for node, old in pairs), -sum(node in old for node, old in pairs)


class Ordering(unittest.TestCase):
    def test_against_all_placements(self):
        several = more = 0
        for seed in range(600):
            gathered = small(random.Random(seed), seed % 2)
            ranked = [(rank(gathered, one), one) for one in placements(gathered)]
            if not ranked:
                continue
            best = min(one for one, _ in ranked)
            equal = [found for one, found in ranked if one == best]
            first = first_placement(gathered)
            self.assertEqual([tuple(sorted(first.members[shard])) for shard in sorted(first.members)], list(min(equal)), seed)
            self.assertEqual((first.moves, -first.stays), best)
            others = [shard for shard, lists in enumerate(zip(*equal)) if len(set(lists)) > 1]
            self.assertEqual(first.others, others, seed)
            several += len(equal) > 1
            more += any(len(nodes) > gathered.settings.shards[shard].needs for shard, nodes in first.members.items())
        self.assertGreater(several, 150)
        self.assertGreater(more, 80)

    def test_large_inputs(self):
        """The program's plans of 32 machines and 16 shards in four subgroups, without caps and with them."""
        program, others = Program(support.program()), 0
        for seed in range(12):
            source = random.Random(seed)
            shards = tuple(Shard(shard % 4, source.randint(1, 4), source.randint(4, 6) if seed > 7 else 0) for shard in range(16))
            settings = Settings(8, 1, tuple(source.randrange(8) for _ in range(32)), shards)
            groups = [source.sample(range(32), 32) for _ in range(4)]
            size = 8 if seed > 7 else 3
            old = tuple(frozenset(groups[shard % 4][shard // 4 * size :][:size]) for shard in range(16))
            view = View(7, settings.nodes, old)
            reports = [Report(node, view, None, ((),) * 16) for node in range(32)]
            given = inputs.Input([encode.settings_words(settings)] + [encode.report_words(one) for one in reports], [])
            told = asked(given, program)
            self.assertIsInstance(told.answer, Plan)
            self.assertTrue(told.agrees, told.differing)
            others += bool(told.first.others)
        self.assertGreater(others, 4)

    def test_explained(self):
        given = support.given(EQUAL)
        self.assertEqual(run(support.program(), given.blocks), ANSWER)
        told = asked(given, Program(support.program()))
        self.assertEqual(told.differing, [])
        self.assertIn("Other placements with 2 moves as well have other members in shards 0 and 2. This is the first of them: shards"
                      " ascending, the members of each listed ascending, the lower machine where two lists differ. The same reports"
                      " give any leader this one.", told.lines)
        self.assertEqual(json_of(given, told)["plan"]["as_few_moves"], [0, 2])

    def test_the_only_one(self):
        told = asked(support.given(support.example("a")), Program(support.program()))
        self.assertIn("No other placement has as few moves.", told.lines)

    def test_a_plan_that_is_not_the_first(self):
        """Valid and of equal moves, but later; and one of more moves."""
        given = support.given(EQUAL)
        self.assertEqual(first_placement(gather(given.blocks)).members, {0: {0, 4}, 1: {4}, 2: {1, 5}})

        def plan(count, *members):
            holders = (4, 4, 5)
            return Plan(6, count, tuple(Placed(holder, (0, 0), frozenset(nodes)) for holder, nodes in zip(holders, members)))

        self.assertEqual(explain(given, plan(2, {0, 4}, {4}, {1, 5})).differing, [])
        for later, told in (
            (plan(2, {0, 4}, {4}, {2, 5}), "shard 2 with machines 1 5: of the placements with 2 moves that is the first"),
            (plan(2, {1, 4}, {4}, {0, 5}), "shard 0 with machines 0 4: of the placements with 2 moves that is the first"),
            (plan(3, {0, 4}, {0}, {1, 5}), "2 moves are enough"),
        ):
            found = explain(given, later)
            self.assertEqual(found.differing, [told])
            self.assertTrue(any(line.startswith("WARNING") for line in found.lines))
