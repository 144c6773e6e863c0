"""Which machines to switch on: the sets that are told against every set asked of the program, and what is said of them."""
import itertools
import os
import random
import tempfile
import time
import unittest

import support
from restart_text import encode, inputs, words
from restart_text.answers import Plan, Wait
from restart_text.asking import Program
from restart_text.explaining import asked, explain
from restart_text.gathering import gather
from restart_text.jsoned import json_of
from restart_text.model import Report, Settings, Shard, View
from restart_text.searching import least_sets
from restart_text.supposing import Count, Supposed
from worlds import world

A, NIGHT = support.example("a"), support.text_of("night.txt")
ENDING = "".join("termination shard %d view %d update %d\n" % row for row in ((0, 0, 0), (1, 7, 6), (2, 0, 0)))


def told(text, **more):
    return asked(support.given(text), Program(support.program(), 60), **more)


def without(text, *nodes):
    """The text without the reports of these machines."""
    heads = tuple("report node %d " % node for node in nodes)
    return "\n\n".join(part for part in text.split("\n\n") if not part.startswith(heads)) + "\n"


def by_asking(supposed, program):
    """The least sets by asking about every set, size after size."""
    for size in range(len(supposed.pool) + 1):
        found = [nodes for nodes in itertools.combinations(supposed.pool, size)
                 if isinstance(program.ask(supposed.blocks_with(nodes)), Plan)]
        if found:
            return found
    return []


class Night(unittest.TestCase):
    """Twelve machines, eight shards, three subgroups; six conditions fail, and seven triples would do."""

    def test_the_first_lines(self):
        lines = told(NIGHT).lines
        self.assertEqual(lines[0],
                         "Switch on machines rack1-c, rack3-a and rack3-b: then there is a plan with 5 moves; with fewer machines there is none.")
        self.assertEqual(lines[1:4], [
            "Or instead, with 6 moves: rack1-c, rack3-a and rack4-b; rack1-c, rack3-a and rack4-c; rack1-c, rack3-b and rack4-c; rack1-c, rack4-b"
            " and rack4-c.", "Or instead, with 7 moves: rack1-a, rack1-c and rack3-a.", "Or instead, with 8 moves: rack1-a, rack1-c and rack4-c."])
        self.assertEqual(lines[4],
                         "Assumed: a machine that comes back reports view 9 and no termination; its log may end anywhere.")
        self.assertEqual(lines[5],
                         "There is no plan without machine rack1-c, whoever else comes back: no log of shard 7. If it is lost,"
                         " --gone rack1-c says what is left.")

    def test_every_set_asked_of_the_program(self):
        given, program = support.given(NIGHT), Program(support.program(), 60)
        found = asked(given, program).advice.found
        self.assertTrue(found.complete and found.least and not found.cut_short and not found.others)
        self.assertEqual(len(found.sets), 7)
        self.assertEqual(sorted(found.sets), by_asking(Supposed(given.blocks, gather(given.blocks)), Program(support.program())))

    def test_no_smaller_set_was_passed_over(self):
        """Every pair of machines is in a set about which the program was asked and gave no plan."""
        given, program = support.given(NIGHT), Program(support.program(), 60)
        supposed = asked(given, program).advice.supposed
        every = [nodes for size in range(7) for nodes in itertools.combinations(supposed.pool, size)]
        refuted = [nodes for nodes in every if isinstance(program.answers.get(words.joined(supposed.blocks_with(nodes))), Wait)]
        for pair in itertools.combinations(supposed.pool, 2):
            self.assertTrue(any(set(pair) <= set(nodes) for nodes in refuted), pair)

    def test_few_questions(self):
        """Each set that is told, and few of the 22 smaller ones."""
        self.assertLessEqual(told(NIGHT).asked, 15)

    def test_the_cheapest_come_first(self):
        """Each with its moves, as the program gives them."""
        given, program = support.given(NIGHT), Program(support.program(), 60)
        advice = asked(given, program).advice
        moves = [program.ask(advice.supposed.blocks_with(nodes)).moves for nodes in advice.found.sets]
        self.assertEqual((moves, moves), ([5, 6, 6, 6, 6, 7, 8], [advice.found.moves[nodes] for nodes in advice.found.sets]))
        value = json_of(given, asked(given, program))["wait"]["switch_on"]
        self.assertEqual((value["moves"], value["sets"][0]), (moves, [2, 6, 7]))

    def test_one_is_lost(self):
        lines = told(NIGHT, gone=frozenset([2])).lines
        self.assertEqual(lines[0],
                         "No machine to switch on helps: with every absent machine back but machine rack1-c there is still no"
                         " plan (no log of shard 7).")
        self.assertEqual([line.split(":")[0].strip() for line in lines[2:6]], ["duty 6", "duty 7", "duty 10", "duty 16"])

    def test_walking_it(self):
        """With the three machines that are named, the program gives a plan in fact."""
        text = NIGHT
        for node in (0, 2, 6):
            text += "\n" + NIGHT.split("\n\n")[1].replace("report node 1", "report node %d" % node)
        self.assertTrue(told(text).lines[0].startswith("Plan: new view 10 after view 9"))


class RandomWaits(unittest.TestCase):
    def test_against_every_set(self):
        looked = sizes = helpless = several = 0
        for seed in range(1000):
            given = inputs.Input(world(random.Random(seed)), [])
            gathered = gather(given.blocks)
            supposed = Supposed(given.blocks, gathered) if gathered.kept else None
            program = Program(support.program(), 60)
            if not supposed or len(supposed.pool) not in (1, 2, 3, 4) or not isinstance(program.ask(given.blocks), Wait):
                continue
            found, every = least_sets(supposed, program, program), by_asking(supposed, Program(support.program()))
            self.assertEqual(found.helpless, not every, "seed %d" % seed)
            if every:
                self.assertEqual((sorted(found.sets), found.least, found.complete), (every, True, True), "seed %d" % seed)
                moves = [program.ask(supposed.blocks_with(nodes)).moves for nodes in found.sets]
                self.assertEqual((moves, moves), (sorted(moves), [found.moves[nodes] for nodes in found.sets]), "seed %d" % seed)
            looked, helpless, several = looked + 1, helpless + found.helpless, several + (len(found.sets) > 1)
            sizes = max(sizes, len(found.sets[0]) if found.sets else 0)
            if looked == 90:
                break
        self.assertTrue(looked == 90 and helpless > 5 and several > 5 and sizes > 1, (looked, helpless, several, sizes))

    def test_the_count_never_says_too_many(self):
        """How many are lacking at least, against the fewest machines with which nothing is lacking."""
        for seed in range(300):
            blocks = world(random.Random(seed))
            gathered = gather(blocks)
            if not gathered.kept or len(gathered.absent) > 6:
                continue
            count = Count(Supposed(blocks, gathered))
            fewest = next((size for size in range(len(count.pool) + 1)
                           if any(not count.lacking(nodes) for nodes in itertools.combinations(count.pool, size))), None)
            if fewest is not None:
                self.assertLessEqual(count.lacking(()), fewest, "seed %d" % seed)

    def test_one_machine_more_never_harms(self):
        for seed in range(200):
            blocks = world(random.Random(seed))
            gathered = gather(blocks)
            if gathered.kept and len(gathered.absent) < 6:
                count = Count(Supposed(blocks, gathered))
                for nodes in itertools.combinations(count.pool, 2):
                    self.assertLessEqual(count.lacking(nodes), count.lacking(nodes[:1]))


class Sentences(unittest.TestCase):
    def test_so_many_of_some(self):
        self.assertEqual(told(support.example("b")).lines[0],
                         "Switch on machines 4, 5 and 6: then there is a plan with 0 moves; with fewer machines there is none.")
        self.assertEqual(told(support.example("b")).lines[1:3], ["Or instead, with 1 move: 3, 5 and 6.", "Or instead, with 2 moves: 3, 4 and 5."])
        lines = told(A.replace("least group size 4", "least group size 7")).lines
        self.assertEqual(lines[0], "Switch on machine 6: then there is a plan with 0 moves.")
        self.assertIn("There is no plan without machine 6, whoever else comes back: fewer machines than the least group size."
                      " If it is lost, --gone 6 says what is left.", lines)

    def test_one_of_some(self):
        six = A.replace("members 0-6", "members 0-5").replace("shard 1 members 1 4 6", "shard 1 members 1 4")
        self.assertEqual(told(without(six, 0, 2)).lines[:2],
                         ["Switch on machine 0 and machine 2 or 6: then there is a plan with 2 moves; with fewer machines there is none.",
                          "Or instead, with 3 moves: 2 and 6."])
        six = six.replace("shard 2 subgroup 0", "shard 2 subgroup 1")
        six = six.replace("shard 1 subgroup 0 needs 3", "shard 1 subgroup 0 needs 2")
        self.assertEqual(told(without(six, 0, 2)).lines[0], "Switch on machine 0 or 2: then there is a plan with 1 move.")

    def test_no_report(self):
        self.assertEqual(told(without(A, *range(6))).lines[0],
                         "Switch on any machine: none has reported, and which are needed shows"
                         " once the first has. At least 4 machines are needed.")

    def test_a_kept_termination(self):
        lines = told(A + ENDING).lines
        self.assertEqual(lines[0], "Switch on machine 6: then there is a plan with 0 moves.")
        self.assertEqual(lines[1],
                         "Assumed: a machine that comes back reports view 7, and no other termination; the log of shard 1 on"
                         " machine 6 has update 6 of view 7.")

    def test_a_kept_termination_that_somebody_has(self):
        """Nothing is assumed of logs that are not needed: shard 1 has its log already."""
        ending = ENDING.replace("update 6", "update 5")
        lines = told(without(A + ending, 0, 2)).lines
        self.assertEqual(lines[:3], [
            "Switch on machines 0 and 6: then there is a plan with 1 move; with fewer machines there is none.",
            "Or instead, with 2 moves: machine 2 and machine 0 or 6.",
            "Assumed: a machine that comes back reports view 7, and no other termination.",
        ])

    def test_no_member_of_the_view(self):
        text = A.replace("members 0-6", "members 0-5").replace("shard 1 members 1 4 6", "shard 1 members 1 4")
        text = text.replace("shard 0 subgroup 0 needs 2", "shard 0 subgroup 0 needs 3")
        lines = told(text).lines
        self.assertEqual(lines[:2], ["Switch on machine 6: then there is a plan with 3 moves.",
                                     "Assumed: machine 6, no member of view 7, an older view."])

    def test_nobody_outside_the_first_view(self):
        """Before view 1 there is none, so that a machine outside it cannot report."""
        text = A.replace("view 7", "view 1").replace("members 0-6", "members 0-5")
        text = text.replace("shard 1 members 1 4 6", "shard 1 members 1 4")
        found = told(text.replace("shard 0 subgroup 0 needs 2", "shard 0 subgroup 0 needs 3"))
        self.assertEqual(found.advice.supposed.pool, [])
        self.assertTrue(found.lines[0].startswith("No machine to switch on helps"), found.lines[0])

    def test_settings_that_ask_too_much(self):
        greedy = A.replace("subgroup 0 needs 1", "subgroup 0 needs 3").replace("subgroup 0 needs 2", "subgroup 0 needs 3")
        lines = told(greedy).lines
        self.assertTrue(lines[0].endswith("there is still no plan (no placement of subgroup 0)."), lines[0])
        self.assertIn("the settings ask for more than these machines can give", lines[2])

    def test_an_abandoned_plan(self):
        """Where a termination is kept that no disk has, the machine that reported it is named."""
        lines = told(A + ENDING, gone=frozenset([6])).lines
        self.assertTrue(lines[0].startswith("No machine to switch on helps: with every absent machine back but machine 6"),
                        lines[0])
        self.assertIn("  duty 5: targets of an abandoned plan are no termination. See where machine 5 has its own from", lines)

    def test_own_count_only(self):
        given = support.given(support.example("b"))
        lines = explain(given, Wait(2, None)).lines
        self.assertEqual(lines[0],
                         "Switch on machines 4, 5 and 6: then there is a plan with 0 moves; that fewer machines would not do is"
                         " this tool's own count.")
        self.assertIn("The program was not asked; all this is this tool's own count.", lines)


class Plans(unittest.TestCase):
    def test_one_machine_more(self):
        found = told(A)
        self.assertEqual(found.lines[0], "Plan: new view 8 after view 7, 2 moves.")
        self.assertIn("With machine 6 as well: 0 moves, up to 6 updates to fetch.", found.lines)
        self.assertEqual(found.advice.cheaper.single, {6: 0})

    def test_nothing_to_save(self):
        parts = A.split("\n\n")
        whole = A + "\n" + parts[-1].replace("report node 5", "report node 6")
        found = told(whole)
        self.assertEqual(found.lines[0], "Plan: new view 8 after view 7, 0 moves.")
        self.assertFalse(any("as well" in line or "save a move" in line for line in found.lines))
        other = A.replace("node 6 set 2", "node 6 set 0")
        self.assertIn("No machine more would save a move.", told(other).lines)

    def test_random_plans(self):
        looked = saved = 0
        for seed in range(400):
            source = random.Random(seed)
            blocks = world(source)
            given = inputs.Input(blocks[:1] + [block for block in blocks[1:] if source.random() < 0.8], [])
            program = Program(support.program(), 60)
            answer = program.ask(given.blocks)
            if not isinstance(answer, Plan) or not answer.moves:
                continue
            advice = explain(given, answer, None, program).advice
            looked, saved = looked + 1, saved + bool(advice.cheaper.single)
            for node in advice.supposed.pool:
                moves = program.ask(advice.supposed.blocks_with([node])).moves
                self.assertEqual(advice.cheaper.single.get(node), moves if moves < answer.moves else None, "seed %d" % seed)
            if looked == 30:
                break
        self.assertTrue(looked == 30 and saved > 3, (looked, saved))

    def test_no_time(self):
        given, program = support.given(A), Program(support.program(), 0)
        told_late = asked(given, program)
        self.assertEqual((told_late.advice.cheaper.single, told_late.advice.cheaper.compared), ({}, False))
        self.assertIn("What machines more would save was not asked: the time was over; --search SECONDS gives more.", told_late.lines)


class LoneViews(unittest.TestCase):
    def test_a_high_view(self):
        """Machine 3 carries nothing, so that the others have a plan without it."""
        text = A.replace("report node 3 view 7", "report node 3 view 4294967294")
        text = text.replace("shard 2 subgroup 0", "shard 2 subgroup 1")
        found = told(text)
        self.assertEqual(found.lines[1],
                         "Only machine 3 reports view 4294967294, the next lower is 7; without its report: a plan, new view"
                         " 8, 1 move.")
        self.assertEqual(found.lines[3], "Most likely the report of machine 3 is damaged: a restart that was given up leaves view 8, the next after 7.")
        self.assertTrue(found.lines[5].startswith("Leave the report out only if that view is damaged or was never served"))
        self.assertEqual((found.advice.lone.blocks, found.advice.lone.answer.moves), ([4], 1))

    def test_a_high_view_and_a_wait(self):
        lines = told(A.replace("report node 4 view 7", "report node 4 view 9")).lines
        self.assertEqual(lines[1],
                         "Only machine 4 reports view 9, the next lower is 7; without its report: wait 5 0, no placement of"
                         " subgroup 0; then machine 6 would have to report view 7.")

    def test_a_high_view_and_then_the_right_one(self):
        """The right report is refused, for the machine seems to have gone back; without the other one the rest have a plan."""
        parts = [part for part in A.split("\n\n") if part]
        place = next(place for place, part in enumerate(parts) if part.startswith("report node 3"))
        high = parts[place].replace("report node 3 view 7", "report node 3 view 9")
        found = told("\n\n".join(parts[:place] + [high] + parts[place:]).replace("shard 2 subgroup 0", "shard 2 subgroup 1"))
        self.assertEqual((found.answer.number, found.advice.without[0].blocks, found.advice.without[1].blocks), (18, [5], [4]))
        self.assertIn("Without report 5 of 7, which names machine 3 (line 42): wait 4 0, no log of shard 0.", found.lines)
        self.assertIn("Without report 4 of 7, which names machine 3 (line 36) instead: a plan, new view 8, 1 move.", found.lines)

    def test_two_reporters_are_not_alone(self):
        text = A.replace("report node 4 view 7", "report node 4 view 9").replace("report node 5 view 7", "report node 5 view 9")
        self.assertFalse(any("Only machine" in line for line in told(text).lines))
        self.assertFalse(any("Only machine" in line for line in told(without(A, 1, 2, 3, 4, 5)).lines))


class Refusals(unittest.TestCase):
    def test_a_bad_report_and_what_the_others_give(self):
        given = support.with_block(4, [3, 0, 127, 1] + support.CASE_A[4][4:])
        lines = asked(given, Program(support.program())).lines
        self.assertIn("Without report 4 of 6, which names machine 3: wait 5 0, no placement of subgroup 0; then machine 3"
                      " or 6 would have to report view 7.", lines)
        given.blocks[0] = given.blocks[0][:-1] + [257]
        lines = asked(given, Program(support.program())).lines
        self.assertIn("Without report 4 of 6, which names machine 3: a plan, new view 8, 1 move.", lines)

    def test_two_bad_reports(self):
        given = support.with_block(3, [2, 0, 127, 0])
        given.blocks[6] = [5, 7, 0, 0]
        found = asked(given, Program(support.program()))
        self.assertEqual([one.blocks for one in found.advice.without], [[3, 6]])
        self.assertIn("Without report 3 of 6, which names machine 2 and report 6 of 6, which names machine 5: wait 4 2, no log of"
                      " shard 2; then machine 5 and machine 2 or 6 would have to report view 7.",
                      found.lines)

    def test_two_stories_of_a_view(self):
        start = "report node 4 view 7\nmembers 0-6\nshard 0 members 0 "
        found = asked(support.given(A.replace(start + "2", start + "3")), Program(support.program()))
        self.assertEqual([one.blocks for one in found.advice.without], [[5], [1, 2, 3, 4, 6]])
        self.assertIn("Without report 5 of 6, which names machine 4 (line 42): wait 5 0, no placement of subgroup 0; then machine 4 or"
                      " 6 would have to report view 7.", found.lines)

    def test_two_terminations(self):
        parts, ending = A.split("\n\n"), "\n".join("termination shard %d view 7 update 4" % shard for shard in range(3))
        parts[3] += "\n" + ending
        parts[5] += "\n" + ending.replace("shard 2 view 7 update 4", "shard 2 view 7 update 5")
        found = asked(support.given("\n\n".join(parts)), Program(support.program()))
        self.assertEqual([one.blocks for one in found.advice.without], [[4], [2]])

    def test_bad_settings(self):
        found = asked(support.with_block(0, [7]), Program(support.program()))
        self.assertEqual(found.advice.without, [])


class OtherAnswers(unittest.TestCase):
    """A program that comes to something else than this tool's own count."""

    def test_a_program_that_always_waits(self):
        with tempfile.TemporaryDirectory() as folder:
            path = os.path.join(folder, "restart")
            with open(path, "w", encoding="ascii") as file:
                file.write("#!/bin/sh\necho wait 2\n")
            os.chmod(path, 0o755)
            found = asked(support.given(support.example("b")), Program(path))
        self.assertFalse(found.agrees)
        self.assertIn("  with machines 3, 4, 5 and 6 back: not what the program answers", found.lines)


class LargeGroups(unittest.TestCase):
    """32 machines, 16 shards: the search ends with its time and says so."""

    def given(self, back):
        source, set_of = random.Random(5), tuple(node // 4 for node in range(32))
        settings = Settings(8, 17, set_of, tuple(Shard(number // 4, 3) for number in range(16)))
        shards = []
        for _ in range(4):
            pool = source.sample(range(32), 32)
            for _ in range(4):
                chosen = []
                for node in pool:
                    if len(chosen) < 3 and set_of[node] not in [set_of[other] for other in chosen]:
                        chosen.append(node)
                pool = [node for node in pool if node not in chosen]
                shards.append(frozenset(chosen))
        view = View(40, frozenset(range(32)), tuple(shards))
        reports = [Report(node, view, None, ((),) * 16) for node in back]
        return inputs.Input([encode.settings_words(settings)] + [encode.report_words(report) for report in reports], [])

    def test_a_long_search_ends(self):
        began = time.monotonic()
        found = asked(self.given(range(11)), Program(support.program(), 0.5))
        self.assertLess(time.monotonic() - began, 5)
        self.assertTrue(found.advice.found.sets)
        self.assertFalse(found.advice.found.least)
        self.assertIn("The search was cut short after its time; --search SECONDS gives it more.", found.lines)
        self.assertTrue("this tool's own count" in found.lines[0] or "fewer machines may do" in found.lines[0], found.lines[0])

    def test_an_own_count_ends_as_well(self):
        began = time.monotonic()
        told_late = explain(self.given(range(2)), Wait(2, None))
        self.assertLess(time.monotonic() - began, 15)
        self.assertIn("The program was not asked; all this is this tool's own count.", told_late.lines)

    def test_no_time_at_all(self):
        given, program = self.given(range(1)), Program(support.program(), 0)
        found = asked(given, program)
        self.assertTrue(found.lines[0].endswith("then there is a plan with 18 moves; fewer machines may do."), found.lines[0])
        nodes = found.advice.found.sets[0]
        self.assertIsInstance(program.ask(found.advice.supposed.blocks_with(nodes)), Plan)
        for node in nodes:
            fewer = [other for other in nodes if other != node]
            self.assertIsInstance(program.ask(found.advice.supposed.blocks_with(fewer)), Wait)
