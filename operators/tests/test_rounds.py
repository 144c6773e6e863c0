"""Decisions by improving rounds: the table of the design by hand, waits and refusals, wrong libraries, JSON and the picture."""
import copy
import json
import os
import random
import tempfile
import unittest
import xml.etree.ElementTree as Tree
from types import SimpleNamespace

import support
from restart_text import encode, rounding, words
from restart_text.answers import BadAnswer, Number, Wait
from restart_text.decode import settings_from
from restart_text.jsoned import rounds_value
from restart_text.library import Decisions, Reached
from restart_text.rounding import course, draw, lines
from support import command
from test_json import faults
from worlds import world

with open(os.path.join(support.ROOT, "operators", "schemas", "rounds.schema.json"), encoding="utf-8") as file:
    SCHEMA = json.load(file)
SVG = "{http://www.w3.org/2000/svg}"


def report(node, members, masks):
    return encode.records_words([(node, 7, members)] + [(256 + shard, mask, 0) for shard, mask in enumerate(masks)])


# Settings, held nodes, old masks, and after each round masks, moves, gap and the subgroup that it bettered.
CASES = [
    ([7, 3, 4, 3, 0, 0, 1, 1, 1, 2, 2, 2, 3, 1], range(6), (5, 82, 32), [((5, 42, 16), 3, 2, None), ((5, 50, 8), 2, 1, 0)]),
    ([3, 2, 1, 1, 0, 0, 1, 3 * 65536 + 2], range(3), (5,), [((7,), 1, 1, None), ((5,), 0, 0, 0)]),
    ([3, 1, 1, 2, 0, 0, 0, 257, 257], range(3), (4, 1), [((1, 2), 2, 2, None), ((2, 1), 1, 1, 1), ((4, 1), 0, 0, 1)]),
    ([2, 1, 1, 2, 0, 0, 257, 1], range(2), (2, 2), [((1, 1), 2, 2, None), ((1, 2), 1, 1, 0), ((2, 2), 0, 0, 1)]),
    ([3, 3, 1, 3, 1, 2, 2, 257, 1, 257], range(3), (4, 3, 1), [((1, 1, 2), 2, 2, None), ((2, 1, 1), 1, 1, 1), ((4, 1, 1), 0, 0, 1)]),
    ([2, 1, 1, 1, 0, 0, 131329], range(2), (3,), [((1,), 0, 0, None)]),
    ([3, 2, 1, 2, 1, 0, 0, 196866, 131329], range(3), (2, 1), [((3, 4), 2, 1, None)]),
]


def blocks_of(settings, held, masks):
    return [list(settings), *(report(node, (1 << settings[0]) - 1, masks) for node in held)]


def decisions_of(blocks):
    decisions = Decisions(support.library(), blocks[0])
    for block in blocks[1:]:
        assert decisions.report(block) is None
    return decisions


def course_of(blocks):
    return course(decisions_of(blocks), settings_from(blocks[0]).shards)


class Courses(unittest.TestCase):
    def test_by_hand(self):
        for settings, held, masks, rows in CASES:
            made = course_of(blocks_of(settings, held, masks))
            found = [(step.masks, step.moves, step.gap, subgroup) for step, subgroup in zip(made.steps, made.subgroups)]
            self.assertEqual(found, rows)
            self.assertEqual((made.enough, made.fewest, made.floor), (len(rows) - 1, rows[-1][1], rows[0][1] - rows[0][2]))

    def test_random_worlds(self):
        """In many worlds the rounds keep what is promised of them, and the state stays gathering."""
        plans = 0
        for seed in range(60):
            blocks = world(random.Random(seed))
            decisions = Decisions(support.library(), blocks[0])
            for block in blocks[1:]:
                decisions.report(block)
            before = decisions.state.raw
            made = course(decisions, settings_from(blocks[0]).shards)
            self.assertEqual(decisions.state.raw, before)
            plans += not made.wait
        self.assertGreater(plans, 3)

    def test_more_than_128(self):
        decisions = decisions_of(blocks_of(*CASES[2][:3]))
        self.assertEqual({decisions.within(rounds) for rounds in (2, 128, 129, 256, 4294967295)}, {Reached(0, 0, (4, 1))})


class Told(unittest.TestCase):
    def told(self, *arguments, data=b""):
        status, text, errors = command("rounds", *arguments, "--library", support.library(), data=data)
        return status, text.decode().splitlines(), errors

    def test_case_a(self):
        self.assertEqual(self.told("examples/case-a.txt"), (0, [
            "Without rounds the plan has 3 moves and a gap of 2: no plan has fewer than 1.",
            "1 round reaches the fewest moves, 2, as the full plan has them; more rounds change nothing.",
            "The gap stays at 1 there: by itself it would leave open whether fewer are possible.",
            "",
            "rounds  moves  gap  what the round changed",
            "0       3      2    the first valid placement of every subgroup",
            "1       2      1    subgroup 0: shard 1 without 3, with 4; shard 2 without 4, with 3",
        ], ""))

    def test_other_cases(self):
        settings = settings_from(CASES[2][0])
        self.assertEqual(lines(course_of(blocks_of(*CASES[2][:3])), settings)[:2], [
            "Without rounds the plan has 2 moves and a gap of 2: no plan has fewer than 0.",
            "2 rounds reach the fewest moves, 0, as the full plan has them; more rounds change nothing."])
        settings = settings_from(CASES[6][0])
        self.assertEqual(lines(course_of(blocks_of(*CASES[6][:3])), settings), [
            "Without rounds the plan has 2 moves and a gap of 1: no plan has fewer than 1.",
            "No round betters it: the full plan has 2 moves too.",
            "The gap stays at 1 there: by itself it would leave open whether fewer are possible.",
            "",
            "rounds  moves  gap  what the round changed",
            "0       2      1    the first valid placement of every subgroup"])
        settings = settings_from(CASES[5][0])
        self.assertEqual(lines(course_of(blocks_of(*CASES[5][:3])), settings)[:2], [
            "Without rounds the plan has 0 moves and a gap of 0: no plan has fewer than 0.",
            "No round betters it: the full plan has 0 moves too."])

    def test_names(self):
        data = support.example("a").replace("node 3 set 1", "node 3 set 1 name rack2-a").encode()
        self.assertIn(b"rack2-a", data)
        status, text, _ = self.told("-", data=data)
        self.assertEqual(status, 0)
        self.assertIn("shard 1 without rack2-a, with 4", text[-1])

    def test_a_wait(self):
        with tempfile.TemporaryDirectory() as folder:
            picture = os.path.join(folder, "picture.svg")
            status, text, errors = self.told("-", "-o", picture, data=waiting())
            self.assertEqual((status, errors, os.path.exists(picture)), (1, "", False))
            self.assertEqual(text, ["The planner would wait (wait 2), whatever the rounds; restart-text explain says what is missing."])

    def test_a_refusal(self):
        blocks = blocks_of(*CASES[0][:3])
        blocks[2][0] = 9
        status, text, errors = self.told("-", data=bytes_of(blocks))
        self.assertEqual((status, text), (2, []))
        self.assertIn("is refused, given when:", errors)
        blocks = blocks_of(*CASES[0][:3])
        blocks[0][1] = 0
        status, text, errors = self.told("-", data=bytes_of(blocks[:1]))
        self.assertEqual((status, text), (2, []))

    def test_a_library_without_rounds(self):
        status, text, errors = command("rounds", "examples/case-a.txt", "--library", "libc.so.6")
        self.assertEqual((status, text), (3, b""))
        self.assertIn("has no restart_decide, so it is of a release that does not decide by rounds", errors)


def bytes_of(blocks):
    return words.joined(blocks)


def waiting():
    return bytes_of(blocks_of(CASES[0][0], range(3), (5, 82, 32)))


class WrongLibraries(unittest.TestCase):
    """What a library cannot rightly say is not drawn."""

    def course(self, steps, full, shards=((0,), (0,), (1,))):
        """Of a library that says this after 0, 1 and more rounds."""
        stands = SimpleNamespace(full=lambda: full, within=lambda rounds: steps[min(rounds, len(steps) - 1)])
        return course(stands, [SimpleNamespace(subgroup=one[0]) for one in shards])

    def test_a_right_one(self):
        made = self.course([Reached(3, 2, (1, 2, 4)), Reached(2, 1, (2, 1, 4)), Reached(1, 0, (2, 1, 1))], Reached(1, 0, (2, 1, 1)))
        self.assertEqual((made.subgroups, made.floor), ([None, 0, 1], 1))

    def test_wrong_ones(self):
        start, full = Reached(3, 2, (1, 2, 4)), Reached(1, 0, (2, 1, 1))
        for steps, said in (
            ([start, Reached(1, 0, (2, 1, 1))], "changes 2 subgroups"),
            ([start, Reached(3, 2, (2, 1, 4)), full], "round 1 goes from 3 moves to 3"),
            ([start, Reached(2, 1, (1, 2, 1)), full], "goes back to a lower subgroup"),
            ([start, Reached(2, 2, (2, 1, 4)), full], "a gap is not the moves less"),
            ([start, Reached(2, 1, (2, 1, 4))], "the rounds end with 2 moves, and the full plan has 1"),
            ([Wait(5, 0)], "says wait 5 0, restart_decide a plan of 1 move"),
            ([start, Wait(2, None)], "with 1 round and a plan with fewer"),
            ([start, Reached(2, 1, (2, 1, 4)), Number(4)], "with 2 rounds and a plan with fewer"),
            ([Reached(1, 2, (2, 1, 1))], "a gap is greater than the moves"),
        ):
            with self.assertRaises(BadAnswer, msg=said) as raised:
                self.course(steps, full)
            self.assertIn(said, str(raised.exception))
        with self.assertRaises(BadAnswer):
            self.course([start], Wait(4, 1))
        self.assertEqual(self.course([Wait(4, 1)], Wait(4, 1)).wait, Wait(4, 1))
        self.assertEqual(self.course([Number(2)], Number(2)), Number(2))

    def test_no_end(self):
        """128 rounds that do not reach what the rounds ended with."""
        full = Reached(1, 0, (2, 1, 1))
        stands = SimpleNamespace(full=lambda: full, within=lambda rounds: Reached(2, 1, (2, 1, 4)) if rounds == rounding.MOST_ROUNDS else full)
        with self.assertRaises(BadAnswer):
            course(stands, [SimpleNamespace(subgroup=number) for number in (0, 0, 1)])


class Shown(unittest.TestCase):
    def test_json(self):
        for settings, held, masks, rows in CASES:
            blocks = blocks_of(settings, held, masks)
            value = json.loads(json.dumps(rounds_value(course_of(blocks), settings_from(settings))))
            self.assertEqual(faults(value, SCHEMA, root=SCHEMA), [])
            self.assertEqual([(one["rounds"], one["moves"], one["gap"], one["subgroup"]) for one in value["rounds"]],
                             [(number, row[1], row[2], row[3]) for number, row in enumerate(rows)])
        status, text, _ = command("rounds", "examples/case-a.txt", "--json", "--library", support.library())
        value = json.loads(text)
        self.assertEqual((status, faults(value, SCHEMA, root=SCHEMA)), (0, []))
        self.assertEqual((value["fewest"], value["unavoidable"], value["enough"], value["wait"]), (2, 1, 1, None))
        self.assertEqual(value["rounds"][0]["shards"][1], {"shard": 1, "machines": [1, 3, 5]})
        status, text, _ = command("rounds", "-", "--json", "--library", support.library(), data=waiting())
        value = json.loads(text)
        self.assertEqual((status, faults(value, SCHEMA, root=SCHEMA), value["wait"]), (1, [], {"reason": 2, "value": None}))
        self.assertEqual((value["rounds"], value["fewest"]), ([], None))

    def test_wrong_values_are_found(self):
        good = rounds_value(course_of(blocks_of(*CASES[0][:3])), settings_from(CASES[0][0]))
        self.assertEqual(faults(good, SCHEMA, root=SCHEMA), [])
        for change in (
            lambda value: value.pop("enough"),
            lambda value: value.update(more=1),
            lambda value: value["rounds"][0].update(gap=129),
            lambda value: value["rounds"][1].update(subgroup=4),
            lambda value: value["rounds"][0].pop("moves"),
            lambda value: value.update(wait={"reason": 6, "value": None}),
            lambda value: value["rounds"][0]["shards"][0].update(machines="0 2"),
        ):
            value = copy.deepcopy(good)
            change(value)
            self.assertNotEqual(faults(value, SCHEMA, root=SCHEMA), [])

    def test_the_picture(self):
        for settings, held, masks, rows in CASES:
            made = course_of(blocks_of(settings, held, masks))
            picture = Tree.fromstring(draw(made).encode())
            parts = {part.get("id"): part for part in picture.iter(SVG + "g") if part.get("id")}
            self.assertEqual(len(parts["moves"].findall(SVG + "circle")), len(rows))
            heights = [float(dot.get("cy")) for dot in parts["moves"].findall(SVG + "circle")]
            self.assertEqual(heights, sorted(heights))
            places = [float(dot.get("cx")) for dot in parts["moves"].findall(SVG + "circle")]
            self.assertEqual(places, sorted(places))
            told = " ".join(text.text for text in picture.iter(SVG + "text"))
            self.assertIn("gap %d" % rows[-1][2], told)
            self.assertIn("%d move" % rows[-1][1], told)
            named = [text.text for text in parts["subgroups"].iter(SVG + "text")]
            self.assertEqual(named, ["subgroup %d" % number for number in sorted({row[3] for row in rows[1:]})])

    def test_the_file(self):
        with tempfile.TemporaryDirectory() as folder:
            path = os.path.join(folder, "picture.svg")
            status, text, errors = command("rounds", "examples/case-a.txt", "-o", path, "--library", support.library())
            self.assertEqual((status, errors), (0, ""))
            self.assertTrue(text.decode().startswith("Without rounds the plan has 3 moves"))
            with open(path, encoding="utf-8") as file:
                self.assertIn("Moves and gap after each improving round", file.read())


if __name__ == "__main__":
    unittest.main()
