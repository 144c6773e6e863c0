"""Outage against crew: the tables worked out by hand, every mask of a small group against a search by the rules, what is refused, a library
that contradicts itself, and JSON."""
import copy
import json
import os
import unittest

import support
from restart_text import words
from restart_text.answers import BadAnswer, Wait
from restart_text.decode import settings_from
from restart_text.gathering import named
from restart_text.jsoned import shift_value
from restart_text.library import PASSING, Games
from restart_text.shifting import lines, shift
from support import command
from test_json import faults
from test_publisher import report, reports_a, settings_a

with open(os.path.join(support.ROOT, "operators", "schemas", "shift.schema.json"), encoding="utf-8") as file:
    SCHEMA = json.load(file)
# Groups with a report of each machine, and the masks with which there is a plan.
SEVEN = [settings_a(), *reports_a(range(7))]
SEVEN_PLANS = {63, 111, 119, 123, 125, 126, 127}
FOUR = [[4, 2, 1, 1, 0, 0, 1, 1, 2], report(3, 6, 15, [8]), *(report(node, 7, 7, [3]) for node in range(3))]
FOUR_PLANS = {5, 6, 7, 11, 13, 14, 15}
ONE = [[1, 1, 1, 1, 0, 1], report(0, 1, 1, [1])]


def games_of(blocks):
    games = Games(support.library(), blocks[0])
    for block in blocks[1:]:
        assert games.report(block) is None
    return games


def played(blocks, held, rounds, names=()):
    found, refused = shift(named(settings_from(blocks[0]), names), games_of(blocks), held, rounds)
    assert refused is None
    return found


class Rules:
    """The game by its rules, on the masks with a plan."""

    def __init__(self, count, plans):
        self.count, self.plans = count, plans

    def back(self, held, lost):
        return [node for node in range(self.count) if not held >> node & 1 and node != lost] or [None]

    def answers(self, held, lost, rounds):
        """What the crew can bring back and hold; None stands for passing."""
        fewer = held & ~(1 << lost) if lost is not None else held
        after = {node: fewer if node is None else fewer | 1 << node for node in self.back(fewer, lost)}
        return [node for node, mask in after.items() if mask in self.plans and self.first(mask, rounds - 1) is None]

    def losses(self, held):
        return [node for node in range(self.count) if held >> node & 1] or [None]

    def first(self, held, rounds):
        """What the outage begins with, or None where the crew can hold."""
        lost = [PASSING if node is None else node for node in self.losses(held) if rounds and not self.answers(held, node, rounds)]
        return min(lost, default=None)


class StandIn:
    """Stands in for the library: one answer of a game is another one."""

    def __init__(self, rules, wrong):
        self.rules, self.wrong = rules, wrong

    def game(self, held, rounds):
        first = self.rules.first(held, rounds)
        return (1 if first is None else None) if (held, rounds) == self.wrong else first, None

    def decided(self, dropped):
        mask = (1 << self.rules.count) - 1 - sum(1 << node for node in dropped)
        return None if mask in self.rules.plans else Wait(2, 0)


class Playing(unittest.TestCase):
    def test_case_a(self):
        for held, rows in ((127, [None, 5, 0, 0]), (126, [None, 5, 1, 1]), (95, [None, None, 0, 0]), (63, [None, 5, 0, 0]),
                           (32, [None, 5, 5, 5]), (64, [None, 6, 6, 6]), (0, [None, PASSING, PASSING, PASSING])):
            self.assertEqual([played(SEVEN, held, rounds).first for rounds in range(4)], rows, held)

    def test_every_mask(self):
        for blocks, rules, masks in ((FOUR, Rules(4, FOUR_PLANS), range(16)), (ONE, Rules(1, {1}), range(2)),
                                     (SEVEN, Rules(7, SEVEN_PLANS), (127, 126, 95, 63, 31, 96, 0))):
            for held in masks:
                for rounds in range(1, 4):
                    found = played(blocks, held, rounds)
                    self.assertEqual(found.first, rules.first(held, rounds))
                    self.assertEqual([blow.lost for blow in found.blows], rules.losses(held))
                    for blow in found.blows:
                        answers = rules.answers(held, blow.lost, rounds)
                        self.assertEqual(list(blow.answers), [node for node in answers if node is not None], (held, rounds, blow))
                        self.assertEqual(blow.held, bool(answers), (held, rounds, blow))
                    self.assertEqual(found.keep, [node for node in rules.losses(held) if node is not None and not any(
                        (held & ~(1 << node) | (0 if back is None else 1 << back)) in rules.plans
                        for back in rules.back(held & ~(1 << node), node))])

    def test_no_rounds(self):
        found = played(SEVEN, 0, 0)
        self.assertEqual((found.first, found.blows, found.keep, found.needed), (None, (), [], []))
        self.assertEqual(lines(found), ["No machine is on.", "A shift of no rounds is the crew's."])

    def test_a_library_that_contradicts_itself(self):
        rules, settings = Rules(4, FOUR_PLANS), settings_from(FOUR[0])
        shift(settings, StandIn(rules, None), 15, 2)
        for wrong in ((15, 2), (7, 1), (11, 1)):
            with self.assertRaises(BadAnswer):
                for held in range(16):
                    shift(settings, StandIn(rules, wrong), held, 2)


class Telling(unittest.TestCase):
    def said(self, *arguments, status=0):
        found, text, told = command("shift", *arguments, "--library", support.library())
        self.assertEqual((found, told), (status, ""))
        return text.decode().splitlines()

    def test_all_on(self):
        self.assertEqual(self.said("examples/shift.txt", "--rounds", 1, status=1), [
            "On: machines 0, 1, 2, 3, 4, 5 and 6.",
            "The outage can win within 1 round: it takes machine 5 first.",
            "",
            "lost  bring back      then",
            *("%d     nothing is off  a plan" % node for node in range(5)),
            "5     nothing helps   no plan; without it no log of shard 2, whoever is on",
            "6     nothing is off  a plan",
            "",
            "Keep on at all costs: machine 5. There is no plan without machine 5, whoever else is on.",
        ])
        self.assertIn("0     nothing helps  a plan for now; the outage goes on with machine 5 and wins",
                      self.said("examples/shift.txt", "--rounds", 2, status=1))

    def test_the_crew_holds(self):
        said = self.said("examples/shift.txt", "--rounds", 1, "--held", "0-4,6")
        self.assertEqual(said[:2] + said[4:5] + said[-1:], [
            "On: machines 0, 1, 2, 3, 4 and 6.",
            "The crew can hold for 1 round: whatever machine is lost in each, there is a plan once it has brought one back.",
            "0     5           a plan", "Keep on at all costs: none; each loss can be made good."])

    def test_answers_and_names(self):
        found = lines(played(FOUR, 7, 2, ("north", "east", "south", "west")))
        self.assertEqual(found[0], "On: machines north, east and south.")
        self.assertEqual(found[4:7], ["north  west        a plan, and 1 round more can be held", "east   west        a plan, and 1 round more can be held",
                                      "south  west        a plan, and 1 round more can be held"])
        found = lines(played(FOUR, 3, 1))
        self.assertEqual(found[4:6], ["0     2           a plan", "1     2           a plan"])

    def test_none_needed_by_itself(self):
        """Each single loss leaves a plan, and the third cannot be made good."""
        rules = Rules(5, {3, 5, 6, 17, 24})
        found, _ = shift(settings_from([5, 2, 1, 1, 0, 0, 1, 1, 1, 1]), StandIn(rules, None), 18, 3)
        self.assertEqual((found.first, found.keep), (1, []))
        self.assertEqual(lines(found)[-1], "Keep on at all costs: none by itself. But once machine 1 is lost, keep on machine %d."
                         % rules.first(17, 2))

    def test_nobody_on(self):
        said = self.said("examples/shift.txt", "--held", "none", status=1)
        self.assertEqual(said[:2], ["No machine is on.", "The outage can win within 3 rounds: it passes first, for no machine is on."])
        self.assertEqual(said[-1], "Keep on at all costs: none, for none is on. Switch machines on first.")

    def test_refusals(self):
        for arguments, status, text in (
            (("examples/shift.txt", "--rounds", "4"), 2, "number 22: a shift is planned over at most 10 machines and 3 rounds"),
            (("examples/shift.txt", "--held", "0-7"), 2, "number 22"),
            (("examples/case-a.txt",), 2, "number 23: machine 6 has not reported; a shift is planned over a report of every machine"),
            (("examples/night.txt",), 2, "number 22"),
            (("examples/shift.txt", "--held", "nobody"), 3, "--held: "),
            (("examples/shift.txt", "--rounds", "-1"), 3, "--losses: "),
            (("examples/nothing.txt",), 3, "cannot read examples/nothing.txt"),
        ):
            found, printed, told = command("shift", *arguments, "--library", support.library())
            self.assertEqual((found, printed), (status, b""), arguments)
            self.assertIn(text, told)

    def test_a_report_that_is_refused(self):
        blocks = [*SEVEN, report(2, 9, 127, [5, 5, 32])]
        found, printed, told = command("shift", "-", "--library", support.library(), data=words.joined(blocks))
        self.assertEqual((found, printed), (2, b""))
        self.assertIn("is refused, given when: shard empty", told)


class Json(unittest.TestCase):
    def value(self, *arguments, status=0):
        found, text, told = command("shift", "examples/shift.txt", *arguments, "--json", "--library", support.library())
        self.assertEqual((found, told), (status, ""))
        return json.loads(text)

    def test_values(self):
        value = self.value("--rounds", 1, status=1)
        self.assertEqual((value["winner"], value["first"], value["keep"], value["needed"]), ("outage", 5, [5], [5]))
        self.assertEqual(value["blows"][5], {"lost": 5, "held": False, "back": [], "plan": False, "next": None, "wait": {"reason": 4, "value": 2}})
        value = self.value("--rounds", 1, "--held", "0-4,6")
        self.assertEqual((value["winner"], value["first"], value["blows"][0]["back"]), ("crew", None, [5]))
        for held in range(16):
            for rounds in range(4):
                self.assertEqual(faults(json.loads(json.dumps(shift_value(played(FOUR, held, rounds)))), SCHEMA, root=SCHEMA), [])

    def test_wrong_values_are_found(self):
        good = self.value("--rounds", 1, status=1)
        self.assertEqual(faults(good, SCHEMA, root=SCHEMA), [])
        for change in (
            lambda value: value.update(schema=2),
            lambda value: value.update(more=1),
            lambda value: value.pop("text"),
            lambda value: value.update(rounds=4),
            lambda value: value.update(winner="nobody"),
            lambda value: value.update(first=32),
            lambda value: value["blows"][0].update(wait=4),
            lambda value: value["blows"][0].update(back=None),
            lambda value: value["machines"][0].pop("name"),
        ):
            value = copy.deepcopy(good)
            change(value)
            self.assertNotEqual(faults(value, SCHEMA, root=SCHEMA), [])

    def test_every_definition_is_used(self):
        text = json.dumps(SCHEMA)
        for name in SCHEMA["$defs"]:
            self.assertIn("#/$defs/%s\"" % name, text)


if __name__ == "__main__":
    unittest.main()
