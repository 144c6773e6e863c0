"""Settings with caps: their words and texts, plans that keep members beyond the need, and caps that are refused."""
import unittest

import support
from restart_text import answers, decode, encode, inputs, printing, texts
from restart_text.answers import run
from restart_text.asking import Program
from restart_text.drawing import draw
from restart_text.explaining import asked, explain
from restart_text.jsoned import json_of
from restart_text.lines import sections
from restart_text.model import Refused
from restart_text.page import page
from test_draw import told_by
from test_json import SCHEMA, faults
from test_page import Reader

CAPS = support.text_of("caps.txt")
ANSWER = """view 8
moves 1
shard 0 holder 0 target 0 0 members 0 1 2 3
shard 1 holder 6 target 7 2 members 4 6
"""
SHARDS = [8, 3, 4, 2, 0, 0, 1, 2, 1, 2, 0, 1]  # the settings of this example before their shards' words


def from_text(text):
    return texts.settings_of(sections(text)[0])


def with_words(*shards):
    """The example with other words of its shards."""
    return inputs.Input([SHARDS + list(shards)] + support.given(CAPS).blocks[1:], [])


class RoundTrips(unittest.TestCase):
    def test_the_example(self):
        self.assertEqual(support.given(CAPS).blocks[0], SHARDS + [4 * 65536 + 2, 2])
        again = inputs.to_text(inputs.load(support.given(CAPS).data))
        self.assertIn("shard 0 subgroup 0 needs 2 cap 4\nshard 1 subgroup 0 needs 2\n", again)
        self.assertEqual(support.given(again).blocks, support.given(CAPS).blocks)

    def test_no_cap_and_a_cap_of_the_need_are_kept_apart(self):
        for shards in ([2, 2 * 65536 + 2], [2 * 65536 + 2, 2]):
            settings = decode.settings_from(SHARDS + shards)
            self.assertEqual([shard.cap for shard in settings.shards], [2, 2])
            text = "\n".join(printing.settings_text(settings))
            self.assertEqual(text.count(" cap 2"), 1)
            self.assertEqual(encode.settings_words(from_text(text)), SHARDS + shards)

    def test_every_cap_in_every_subgroup(self):
        for needs in (1, 2, 3):
            for cap in [0] + list(range(needs, 17)):
                for subgroup in range(4):
                    block = SHARDS + [cap * 65536 + subgroup * 256 + needs, 1]
                    settings = decode.settings_from(block)
                    shard = settings.shards[0]
                    self.assertEqual((shard.subgroup, shard.needs, shard.cap), (subgroup, needs, cap or needs))
                    self.assertEqual(encode.settings_words(from_text("\n".join(printing.settings_text(settings)))), block)


class BadCaps(unittest.TestCase):
    def refused(self, word, why):
        """Told as the first shard's word and as the second's."""
        for place in (0, 1):
            block = SHARDS + ([word, 1] if place == 0 else [1, word])
            with self.assertRaises(Refused) as caught:
                decode.settings_from(block)
            self.assertEqual((caught.exception.number, caught.exception.why), (2, why % place))

    def test_which_cap_is_wrong_and_what_is_allowed(self):
        self.refused(65536 + 2, "the cap of shard %d is 1, allowed are 0 and 2 to 16: it needs 2, and 0 stands for that")
        self.refused(17 * 65536 + 2, "the cap of shard %d is 17, allowed are 0 and 2 to 16: it needs 2, and 0 stands for that")
        self.refused(2 * 65536 + 256 + 3, "the cap of shard %d is 2, allowed are 0 and 3 to 16: it needs 3, and 0 stands for that")
        self.refused(65535 * 65536 + 1, "the cap of shard %d is 65535, allowed are 0 and 1 to 16: it needs 1, and 0 stands for that")

    def test_subgroup_and_need_under_a_cap(self):
        self.refused(4 * 65536 + 4 * 256 + 2, "the subgroup of shard %d is 4, allowed are 0 to 3")
        self.refused(4 * 65536 + 255 * 256 + 2, "the subgroup of shard %d is 255, allowed are 0 to 3")
        self.refused(4 * 65536, "the number of members that shard %d needs is 0, allowed are 1 to 3")
        self.refused(4 * 65536 + 4, "the number of members that shard %d needs is 4, allowed are 1 to 3")

    def test_the_program_refuses_the_same(self):
        for word in (65536 + 2, 17 * 65536 + 2, 65535 * 65536 + 1, 4 * 65536 + 4 * 256 + 2, 4 * 65536, 4 * 65536 + 4, 256 * 65536 + 2):
            self.assertEqual(run(support.program(), with_words(word, 1).blocks), "number 2\n", word)
        for word in (2 * 65536 + 2, 16 * 65536 + 2, 16 * 65536 + 3 * 256 + 3):
            self.assertNotEqual(run(support.program(), with_words(word, 1).blocks), "number 2\n", word)

    def test_explained(self):
        told = asked(with_words(4 * 65536 + 2, 17 * 65536 + 2), Program(support.program()))
        self.assertEqual(told.lines[:3], [
            "Refused with number 2, given when: settings.", "At fault: the settings.",
            "What is wrong: the cap of shard 1 is 17, allowed are 0 and 2 to 16: it needs 2, and 0 stands for that."])
        self.assertIn("To do: Correct the settings. No report was looked at.", told.lines)


class Plans(unittest.TestCase):
    def test_who_stays_and_who_does_not(self):
        given = support.given(CAPS)
        self.assertEqual(run(support.program(), given.blocks), ANSWER)
        told = asked(given, Program(support.program(), 60))
        self.assertEqual(told.differing, [])
        text = "\n".join(told.lines)
        self.assertIn("Plan: new view 8 after view 7, 1 move.", text)
        self.assertIn("With machine 7 as well: 0 moves, up to 2 updates to fetch.", text)
        self.assertIn("shard  subgroup  needs  cap  holder  target  members  stay     move in  leave  absent\n"
                      "0      0         2      4    0       (0, 0)  0 1 2 3  0 1 2 3  -        4 5    -\n"
                      "1      0         2      2    6       (7, 2)  4 6      6        4        -      7\n", text)
        self.assertIn("Kept beyond the need:\n  shard 0: machines 0, 1, 2 and 3, 2 beyond the need of 2\n"
                      "Not kept:\n  machine 4 of shard 0: goes to shard 1\n  machine 5 of shard 0: the cap of 4 is reached\n", text)
        self.assertIn("Other placements with 1 move and 5 stays as well have other members in shards 0 and 1.", text)

    def test_the_settings_without_caps_keep_their_words(self):
        """The same with no cap and with a cap of the need: another plan, and of caps nothing is said where none is given."""
        bare = asked(with_words(2, 2), Program(support.program(), 60))
        self.assertEqual([sorted(shard.members) for shard in bare.answer.shards], [[0, 2], [3, 6]])
        self.assertFalse([line for line in bare.lines if "cap" in line or "beyond" in line or "stay " in line and "stays" in line])
        given = asked(with_words(2 * 65536 + 2, 2), Program(support.program(), 60))
        self.assertEqual(given.answer, bare.answer)
        self.assertIn("No shard keeps more members than it needs.", given.lines)
        self.assertIn("  machines 1, 4 and 5 of shard 0: the cap of 2 is reached", given.lines)

    def test_no_other_placement(self):
        told = asked(with_words(16 * 65536 + 2, 65536 + 1), Program(support.program(), 60))
        self.assertEqual([sorted(shard.members) for shard in told.answer.shards], [[0, 1, 2, 3, 4, 5], [6]])
        self.assertIn("No other placement has as few moves and as many members that stay.", told.lines)
        self.assertFalse([line for line in told.lines if line.startswith("Not kept")])

    def test_a_list_that_is_a_prefix(self):
        """Shard 2 takes one of machines 0 to 3, and shards 0 and 1 keep the others: 0 comes before 0 1, so it takes machine 1."""
        settings = [6, 5, 1, 3, 0, 1, 2, 3, 4, 4, 2 * 65536 + 1, 2 * 65536 + 1, 2]
        reports = [[node, 7, 63, 1, 256, 3, 0, 2, 257, 12, 0, 3, 258, 48, 0, 0] for node in range(5)]
        told = asked(inputs.Input([settings] + reports, []), Program(support.program(), 60))
        self.assertEqual([sorted(shard.members) for shard in told.answer.shards], [[0], [2, 3], [1, 4]])
        self.assertEqual(told.differing, [])
        self.assertIn("Other placements with 1 move and 4 stays as well have other members in shards 0, 1 and 2. This is the first of them:"
                      " shards ascending, the members of each listed ascending, the lower machine where two lists differ, a list before"
                      " those that go on from it. The same reports give any leader this one.", told.lines)

    def test_plans_that_do_not_fit(self):
        for old, new, piece in (
            ("members 0 1 2 3", "members 0 1 2 3 5", "the members of shard 0 are not valid: they are 5, at most 4 are allowed"),
            ("members 0 1 2 3", "members 0 1", "the members of shard 0 are not valid: they are of 1 failure set, it needs 2"),
            ("members 4 6", "members 4 5 6", "the members of shard 1 are not valid: they are 3, at most 2 are allowed"),
            ("members 4 6", "members 6 7", "the members of shard 1 are not valid: machine 7 is not held"),
            ("members 0 1 2 3", "members 0 1 2", "5 old members can stay, in this plan 4 do"),
            ("members 0 1 2 3", "members 0 1 2 5",
             "shard 0 with machines 0 1 2 3: of the placements with 1 move and 5 stays that is the first"),
            ("moves 1\nshard 0 holder 0 target 0 0 members 0 1 2 3", "moves 2\nshard 0 holder 0 target 0 0 members 0 1 2 6",
             "shards 0 and 1 share a machine"),
        ):
            with self.subTest(new):
                told = explain(support.given(CAPS), answers.parse(ANSWER.replace(old, new)))
                self.assertIn("  " + piece, told.lines)
                self.assertFalse(told.agrees)

    def test_a_node_beyond_the_need_that_moves(self):
        """Valid, but with more moves than are needed."""
        told = explain(with_words(2, 4 * 65536 + 2), answers.parse(
            "view 8\nmoves 2\nshard 0 holder 0 target 0 0 members 0 2\nshard 1 holder 6 target 7 2 members 3 4 6\n"))
        self.assertEqual(told.differing, ["1 move is enough"])

    def test_as_json(self):
        given = support.given(CAPS)
        value = json_of(given, asked(given, Program(support.program(), 60)))
        self.assertEqual(faults(value, SCHEMA), [])
        self.assertEqual([(shard["needs"], shard["cap"]) for shard in value["settings"]["shards"]], [(2, 4), (2, 2)])
        self.assertEqual([shard["beyond_need"] for shard in value["plan"]["shards"]], [2, 0])
        self.assertEqual(value["plan"]["not_kept"], [{"node": 4, "shard": 0, "to": 1}, {"node": 5, "shard": 0, "to": None}])


class Pictures(unittest.TestCase):
    def test_a_plan(self):
        told = told_by(draw(asked(support.given(CAPS), Program(support.program(), 60))))
        self.assertEqual(told["shard-0"], ["shard 0", "needs 2, cap 4", "log from 0", "up to (0, 0)", "stay 0 1 2 3", "move in -",
                                           "2 beyond the need"])
        self.assertEqual(told["shard-1"], ["shard 1", "needs 2, cap 2", "log from 6", "up to (7, 2)", "stay 6", "move in 4"])
        self.assertIn("move-4-1", told)

    def test_a_wait_and_pages(self):
        waiting = support.given(CAPS[: CAPS.index("report node 4")])
        told = asked(waiting, Program(support.program(), 60))
        self.assertEqual(told.answer, answers.Wait(2, None))
        self.assertEqual(told_by(draw(told))["shard-0"][:2], ["shard 0", "needs 2, cap 4"])
        read = Reader(page(told, "caps"))
        self.assertEqual(read.cells[:14], ["shard", "subgroup", "needs", "cap", "members", "back", "absent",
                                           "0", "0", "2", "4", "0 1 2 3 4 5", "0 1 2 3", "4 5"])
        planned = Reader(page(asked(support.given(CAPS), Program(support.program(), 60)), "caps"))
        self.assertEqual(planned.cells[:5], ["shard", "subgroup", "needs", "cap", "holder"])

    def test_a_wait_for_a_placement(self):
        """Caps let no subgroup be placed that could not be placed without them: failure sets 0, 1 and 2 have two, two and one back."""
        blocks = support.given(CAPS).blocks
        for cap in (0, 3, 16):
            settings = [8, 3, 1, 2, *SHARDS[4:], cap * 65536 + 3, cap * 65536 + 3]
            told = asked(inputs.Input([settings] + blocks[1:6] + blocks[7:], []), Program(support.program(), 60))
            self.assertEqual(told.answer, answers.Wait(5, 0))
            self.assertTrue(told.agrees)
            self.assertIn("Subgroup 0 has no valid placement. Shards 0 and 1 together need 6 machines, and a failure set counts only once"
                          " for each shard:", told.lines)
