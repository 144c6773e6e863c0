"""Explanations of the cases A to I, of every refusal, and of answers that do not fit."""
import unittest

import support
from restart_text import answers, inputs, jsoned
from restart_text.asking import Program
from restart_text.explaining import asked, explain

A = support.example("a")


def without(text, *nodes):
    """The text without the reports of these machines."""
    parts = text.split("\n\n")
    return "\n\n".join(part for part in parts if not any(part.startswith("report node %d " % node) for node in nodes)) + "\n"


def explained(given, answer):
    """The explanation of what the program under test answers, which must be this answer."""
    printed = answers.run(support.program(), given.blocks)
    if printed != answer:
        raise AssertionError("expected %r, the program printed %r" % (answer, printed))
    told = asked(given, Program(support.program()))
    if not told.agrees:
        raise AssertionError("\n".join(told.lines))
    return "\n".join(told.lines)


class Cases(unittest.TestCase):
    def says(self, text, answer, *pieces):
        told = explained(support.given(text), answer)
        for piece in pieces:
            self.assertIn(piece, told)
        return told

    def test_case_a(self):
        self.says(
            A,
            support.ANSWER_A,
            "Held: 0 1 2 3 4 5. Absent: 6.\n",
            "Plan: new view 8 after view 7, 2 moves.\n",
            "With machine 6 as well: 0 moves, up to 6 updates to fetch.\n",
            "shard  subgroup  needs  holder  target  members  stay  move in  leave  absent\n"
            "0      0         2      0       (0, 0)  0 2      0 2   -        -      -\n"
            "1      0         3      1       (7, 5)  1 4 5    1 4   5        -      6\n"
            "2      0         1      5       (0, 0)  3        -     3        5      -\n",
            "  machine  failure set  goes to shard  comes from shard\n"
            "  3        1            2              -\n"
            "  5        2            1              2\n",
            "  shard 1 up to (7, 5), from machine 1\n"
            "    machine 1  log ends at (7, 5)  cut (7, 5)  keeps all    fetches nothing\n"
            "    machine 4  log ends at (7, 4)  cut (7, 4)  keeps all    fetches 1 update\n"
            "    machine 5  log ends at (0, 0)  cut (0, 0)  has nothing  fetches 5 updates\n"
            "  shards 0 2: no updates, nothing to fetch",
        )

    def test_case_b(self):
        self.says(
            support.example("b"),
            "wait 2\n",
            "Waiting, reason 2.\n"
            "3 of the 7 members of view 7 are held (machines 0, 1 and 2); more than half are needed, so at least 4.\n"
            "To do: bring back at least 1 more of machines 3, 4, 5 and 6.\n",
            "Not met either, as things stand:\nReason 3.\n3 machines are held; the least group size is 4.\n",
        )

    def test_case_c(self):
        """Half of six members is not more than half."""
        six = A.replace("members 0-6", "members 0-5").replace("shard 1 members 1 4 6", "shard 1 members 1 4")
        self.says(
            without(six, 0, 1, 2),
            "wait 2\n",
            "3 of the 6 members of view 7 are held (machines 3, 4 and 5); more than half are needed, so at least 4.\n"
            "To do: bring back at least 1 more of machines 0, 1 and 2.\n",
        )
        self.says(without(six, 0, 2), "wait 4 0\n", "To do: bring back machine 0 or 2 with a report of view 7.")

    def test_case_d(self):
        told = self.says(without(A, *range(6)), "wait 1\n", "Waiting, reason 1.\nNo machine has reported, so no view is known.\n")
        self.assertNotIn("Kept view", told)

    def test_case_e(self):
        told = self.says(
            A.replace("least group size 4", "least group size 7"),
            "wait 3\n",
            "Waiting, reason 3.\n6 machines are held; the least group size is 7.\n"
            "To do: bring back machine 6. Members of view 7 or not, all count.",
        )
        self.assertNotIn("Not met either", told)

    def test_case_f(self):
        self.says(
            support.example("f"),
            "wait 4 2\n",
            "Waiting, reason 4.\nShard 2 has no machine to take its log from. Its members in view 7: machine 5.\nAbsent: machine 5.\n"
            "To do: bring back machine 5 with a report of view 7.\n",
        )

    def test_case_i(self):
        self.says(
            support.example("i"),
            "wait 5 0\n",
            "Subgroup 0 has no valid placement. Shards 0 and 1 together need 6 machines,"
            " and a failure set counts only once for each shard:\n"
            "  failure set 0 can give 2: held 0 1, absent none\n"
            "  failure set 1 can give 2: held 2 3 4, absent none\n"
            "  failure set 2 can give 1, lacks 1: held 5, absent 6\n"
            "That makes 5 of 6.\nTo do: bring back machine 6 (failure set 2).",
        )

    def test_settings_that_no_machine_can_meet(self):
        greedy = A.replace("subgroup 0 needs 1", "subgroup 0 needs 3").replace("subgroup 0 needs 2", "subgroup 0 needs 3")
        self.says(greedy, "wait 5 0\n",
                  "To do: change the settings. They ask for more than the machines can give, even with all of them back.")

    def test_a_stale_member(self):
        text = A.replace("report node 5 view 7", "report node 5 view 6")
        self.says(text, "wait 4 2\n", "Older views: machine 5 reported view 6.\n",
                  "Machine 5 is back but reported view 6, so its log of this shard is not used.\n"
                  "All members of the shard are back, so waiting will not help.\n")

    def test_a_termination_that_no_log_has(self):
        ending = "".join("termination shard %d view %d update %d\n" % row for row in ((0, 0, 0), (1, 7, 6), (2, 0, 0)))
        told = self.says(
            A + ending,
            "wait 4 1\n",
            "The termination, first reported by machine 5, ends this shard at update 6 of view 7. No log that may be used has it:\n"
            "  machine 1: runs view 7 updates 1 to 5\n  machine 4: runs view 7 updates 1 to 4\nAbsent: machine 6.\n"
            "To do: bring back machine 6 with a report of view 7 whose log of shard 1 has update 6 of view 7.",
        )
        self.assertIn("a termination is kept", told)

    def with_logs(self, holder, four, five=""):
        """Case A with these runs of shard 1: the holder's, those of machine 4 and of machine 5."""
        def runs(log):
            return "\n".join("run shard 1 view %s count %s" % tuple(run.split(".")) for run in log.split())

        text = A.replace("run shard 1 view 7 count 5", runs(holder)).replace("run shard 1 view 7 count 4", runs(four))
        return text.rstrip() + "\n" + runs(five) + "\n"

    def test_cuts_of_case_g(self):
        """The holder has (5, 3), (6, 8); machine 4, which is stale, ends at (6, 9)."""
        text = self.with_logs("5.3 6.8", "5.3 6.9").replace("report node 4 view 7", "report node 4 view 6")
        told = self.says(
            text,
            support.ANSWER_A.replace("target 7 5", "target 6 8"),
            "    machine 4  log ends at (6, 9)  cut (6, 8)  keeps up to the cut, discards 1 update  fetches nothing\n",
        )
        self.assertNotIn("after (", told)

    def test_cuts_of_case_h(self):
        """The holder has (5, 3), (7, 2); machine 4 ends at (6, 9), machine 5 at (5, 2)."""
        self.says(
            self.with_logs("5.3 7.2", "5.3 6.9", "5.2"),
            support.ANSWER_A.replace("target 7 5", "target 7 2"),
            "    machine 1  log ends at (7, 2)  cut (7, 2)  keeps all                                fetches nothing\n"
            "    machine 4  log ends at (6, 9)  cut (5, 3)  keeps up to the cut, discards 9 updates  fetches 2 updates\n"
            "    machine 5  log ends at (5, 2)  cut (5, 2)  keeps all                                fetches 3 updates\n"
            "    machine 4: after (5, 3) its log has (6, 1), that of machine 1 has (7, 1)\n",
        )

    def test_cuts_of_case_j(self):
        """A disk image: both logs end at (6, 2), and the older views differ. Machine 5 shares nothing with the holder."""
        self.says(
            self.with_logs("5.3 6.2", "5.2 6.2", "4.1 5.3"),
            support.ANSWER_A.replace("target 7 5", "target 6 2"),
            "    machine 1  log ends at (6, 2)  cut (6, 2)  keeps all                                fetches nothing\n"
            "    machine 4  log ends at (6, 2)  cut (5, 2)  keeps up to the cut, discards 2 updates  fetches 3 updates\n"
            "    machine 5  log ends at (5, 3)  cut (0, 0)  keeps nothing, discards 4 updates        fetches 5 updates\n"
            "    machine 4: after (5, 2) its log has (6, 1), that of machine 1 has (5, 3)\n"
            "    machine 5: after (0, 0) its log has (4, 1), that of machine 1 has (5, 1)\n",
        )

    def test_a_termination_inside_the_logs(self):
        ending = "".join("termination shard %d view %d update %d\n" % row for row in ((0, 0, 0), (1, 7, 3), (2, 0, 0)))
        self.says(
            A + ending,
            support.ANSWER_A.replace("target 7 5", "target 7 3"),
            "    machine 1  log ends at (7, 5)  cut (7, 3)  keeps up to the cut, discards 2 updates  fetches nothing\n"
            "    machine 4  log ends at (7, 4)  cut (7, 3)  keeps up to the cut, discards 1 update   fetches nothing\n"
            "    machine 5  log ends at (0, 0)  cut (0, 0)  has nothing                              fetches 3 updates\n",
        )

    def test_a_machine_with_shards_of_two_subgroups(self):
        """A move is told within its subgroup, whatever the machine carries in another."""
        text = A.replace("shard 2 subgroup 0 needs 1", "shard 2 subgroup 1 needs 1")
        self.says(
            text,
            "view 8\nmoves 1\nshard 0 holder 0 target 0 0 members 0 2\nshard 1 holder 1 target 7 5 members 1 4 5\n"
            "shard 2 holder 5 target 0 0 members 5\n",
            "Without a shard: machine 3.\n",
            "  machine  failure set  goes to shard  comes from shard\n  5        2            1              -\n",
        )


class Refusals(unittest.TestCase):
    HEAD = [0, 7, 127, 1]
    REST = [256, 5, 0, 2, 257, 82, 0, 3, 258, 32, 0, 0]

    def says(self, given, number, *pieces, index=None):
        told = explained(given, "number %d\n" % number if index is None else "number %d %d\n" % (number, index))
        for piece in pieces:
            self.assertIn(piece, told)

    def test_settings(self):
        self.says(support.with_block(0, [7, 3, 8, 3] + support.CASE_A[0][4:]), 2,
                  "given when: settings.\nAt fault: the settings.\n",
                  "What is wrong: the least group size is 8, allowed are 1 to 7.\n")
        self.says(inputs.Input([], []), 2, "At fault: the settings, which are missing.")

    def recorded(self, given, answer, *pieces):
        """Of an answer that was printed before the same is said, and no program is asked."""
        told = explain(given, answers.parse(answers.printed(answer) + "\n"))
        self.assertEqual((told.agrees, told.asked), (True, 0), told.lines)
        for piece in pieces:
            self.assertIn(piece, "\n".join(told.lines))

    def of_a_report(self, *rows):
        """Each row has a report of case A, the number and record with which it is refused, and what is said of it."""
        for number, index, block, why, *to_do in rows:
            with self.subTest(why):
                record = "" if index is None else " at record %d" % index
                given, fault = support.with_block(3, block), "At fault: report 3 of 6, which names machine %d.\n" % block[0]
                pieces = "Refused with number %d%s, given when: " % (number, record), fault + "What is wrong: " + why
                self.recorded(given, answers.Number(number, index), *pieces)
                self.says(given, number, *pieces, "\nTo do: " + "".join(to_do), index=index)

    def test_each_row_of_a_report(self):
        rest = self.REST
        self.of_a_report(
            (5, None, [2, 7, 127, 0, 256, 5], "the message has 6 words"),
            (6, None, [7, 7, 127, 1] + rest, "the message names node 7, the settings have nodes 0 to 6"),
            (7, None, [2, 0, 127, 1] + rest, "the view number is 0"),
            (7, None, [2, 7, 255, 1] + rest, "node 7 is among the members"),
            (7, None, [2, 7, 123, 1] + rest, "node 2 is not among the members"),
            (10, None, [2, 7, 127, 1, 256, 0, 0, 2] + rest[4:], "shard 0 has no members"),
            (10, None, [2, 7, 63, 1] + rest, "node 6 of shard 1 is not among the view's members"),
            (10, None, [2, 7, 127, 1, 256, 7, 0, 2] + rest[4:], "node 1 is in shards 0 and 1 of one subgroup"),
        )

    def test_number_11_with_its_record(self):
        """The number tells none; the tool does, in text and in JSON."""
        for record, why in (([768, 7, 0, 0], "is (7, 0), both should be from 1"), ([768, 8, 1, 0], "is of view 8, at most 7 is allowed")):
            given = support.with_block(3, [2, 7, 127, 1] + self.REST[:-1] + [4] + record)
            pieces = ("Refused with number 11 at record 4, given when: ",
                      "What is wrong: record 4 (words %s), the run of shard 0, %s.\n" % (" ".join(map(str, record)), why))
            self.recorded(given, answers.Number(11), *pieces)
            self.says(given, 11, *pieces)
            told = explain(given, answers.Number(11))
            self.assertEqual(jsoned.refusal_value(given, told)["words"], record)
            self.assertIsNone(jsoned.answer_value(told.answer)["record"])

    def test_a_next_index(self):
        """A cut file and a wrong word are told apart."""
        rest = self.REST
        self.of_a_report(
            (8, 1, [2, 7, 127, 1, 256, 5, 0, 1] + rest[4:],
             "record 1 (words 256 5 0 1) names 1 as the next record, and a later one was expected.\n", "A word was mistyped or damaged"),
            (8, 2, [2, 7, 127, 1] + rest[:8],
             "record 2 (words 257 82 0 3) names 3 as the next record, and the message ends after record 2: it was cut off, or this"
             " word is wrong.\n", "The report's end is missing, as of a file that was cut off."),
            (8, 0, [2, 7, 127, 5] + rest, "record 0 (words 2 7 127 5) names 5 as the next record", "The report's end is missing"),
        )

    def test_the_record_that_is_told(self):
        head, rest = [2, 7, 127, 1], self.REST
        self.of_a_report(
            (9, 1, head + [2304, 5, 0, 2] + rest[4:], "record 1 (words 2304 5 0 2) has kind 9, a report has kinds 1 2 3.\n"),
            (9, 4, head + rest[:-1] + [4, 1025, 1, 0, 0], "record 4 (words 1025 1 0 0) has kind 4 (holder), a report has kinds 1 2 3.\n"),
            (9, 1, head + [256, 5, 1, 2] + rest[4:], "record 1 (words 256 5 1 2): word 2 is 1, and 0 was expected there.\n"),
            (9, 5, head + rest[:-1] + [5, 9, 9, 9, 9, 2304, 7, 1, 0], "record 5 (words 2304 7 1 0) has kind 9"),
            (16, 1, head + [259, 5, 0, 2] + rest[4:], "record 1 (words 259 5 0 2) names shard 3, there are 3 shards.\n"),
            (17, 3, [2, 7, 127, 2] + rest, "the members (kind 1) of shard 0 are missing; record 3 (words 258 32 0 0) is the last on the chain.\n"),
            (17, 0, [2, 7, 127, 0],
             "the members (kind 1) of shards 0, 1 and 2 are missing; record 0 (words 2 7 127 0) is the last on the chain.\n"),
            (17, 5, head + rest[:-1] + [4, 513, 7, 4, 5, 769, 7, 4, 0],
             "the termination (kind 2) of shards 0 and 2 are missing; record 5 (words 769 7 4 0) is the last on the chain.\n"),
            (17, 2, head + [256, 5, 0, 2, 256, 5, 0, 3] + rest[8:],
             "record 2 (words 256 5 0 3): the members of shard 0 once more, after record 1.\n"),
            (17, 2, head + [257, 5, 0, 2, 256, 5, 0, 3] + rest[8:],
             "record 2 (words 256 5 0 3): the members of shard 0 after the members of shard 1 (record 1), but shards must rise.\n"),
            (17, 5, head + rest[:-1] + [4, 768, 6, 2, 5, 768, 6, 3, 0],
             "record 5 (words 768 6 3 0): a run of shard 0 in view 6 after one in view 6 (record 4), but views must rise.\n"),
            (17, 5, head + rest[:-1] + [4, 768, 6, 2, 5, 258, 32, 0, 0],
             "record 5 (words 258 32 0 0): the members of shard 2 after a run of shard 0 in view 6 (record 4), but kinds must rise.\n"),
        )

    def test_two_views_of_one_number(self):
        start = "report node 4 view 7\nmembers 0-6\nshard 0 members 0 "
        text = A.replace(start + "2", start + "3")
        self.says(support.given(text), 12, "At fault: report 5 of 6, which names machine 4 (line 42).\n",
                  "machine 4 gives view 7 the members of shard 0 0 3; machine 0 gave it 0 2")

    def test_a_machine_that_went_back(self):
        """Machine 2 comes with an older disk: both disks are told, and what to do."""
        old = A.split("\n\n")[4].replace("report node 2 view 7", "report node 2 view 6")
        self.says(support.given(A + "\n" + old + "\n"), 18,
                  "Refused with number 18, given when: a smaller view than the node has reported before.\n"
                  "At fault: report 7 of 7, which names machine 2 (line 55).\n"
                  "What is wrong: machine 2 reports view 6, and has reported view 7 before, in report 3.\n"
                  "Without report 7 of 7, which names machine 2 (line 55): a plan, new view 8, 2 moves.\n"
                  "Without report 3 of 7, which names machine 2 (line 30) instead: a plan, new view 8, 2 moves.\n"
                  "To do: The machine's disk went back: another disk is in it, or an older image of its own.")

    def test_a_view_that_does_not_fall(self):
        """The same view again, and a later one, are no step back; nor is an older view of another machine."""
        again = "\n" + A.split("\n\n")[4]
        self.assertTrue(explained(support.given(A + again), support.ANSWER_A).startswith("Plan: "))
        first = again.replace("view 7", "view 6")
        text = A.replace("\n\nreport node 2", first + "\n\nreport node 2")
        self.assertTrue(explained(support.given(text), support.ANSWER_A).startswith("Plan: "))

    def test_two_terminations(self):
        parts, ending = A.split("\n\n"), "\n".join("termination shard %d view 7 update 4" % shard for shard in range(3))
        parts[3] += "\n" + ending
        parts[5] += "\n" + ending.replace("shard 2 view 7 update 4", "shard 2 view 7 update 5")
        self.says(support.given("\n\n".join(parts)), 13, "At fault: report 4 of 6, which names machine 3",
                  "machine 3 ends shard 2 at view 7 update 5; machine 1 ended it at view 7 update 4")

    def test_a_number_that_restart_does_not_give(self):
        for number, piece in ((14, "node not held"), (15, "not allowed to the role"), (22, "sheet of more than 10 nodes"), (23, "sheet with"),
                              (26, "is not among those"), (99, "is not among those of restart(7)")):
            told = explain(support.given(A), answers.Number(number))
            self.assertIn(piece, told.lines[0])
            self.assertFalse(told.agrees)


class AnswersThatDoNotFit(unittest.TestCase):
    def warned(self, text, answer, piece):
        told = explain(support.given(text), answers.parse(answer))
        self.assertFalse(told.agrees)
        self.assertIn("WARNING: this answer does not fit this input.", "\n".join(told.lines))
        self.assertIn("  " + piece, told.lines)

    def test_waits_and_numbers(self):
        self.warned(A, "wait 2\n", "a plan")
        self.warned(A, "number 9 4\n", "a plan")
        self.warned(support.example("f"), "wait 4 1\n", "wait 4 2")
        self.warned(support.example("b"), support.ANSWER_A, "wait 2")

    def test_another_block_at_fault(self):
        given = support.with_block(3, [2, 0, 127, 0])
        self.assertTrue(explain(given, answers.Number(7), 3).agrees)
        self.assertFalse(explain(given, answers.Number(7), 2).agrees)
        self.assertFalse(explain(given, answers.Number(8, 0), 3).agrees)

    def test_another_record_at_fault(self):
        given = support.with_block(3, [2, 7, 127, 0])
        self.assertTrue(explain(given, answers.Number(17, 0), 3).agrees)
        for other in (answers.Number(17, 1), answers.Number(16, 0), answers.Number(9, 0)):
            told = explain(given, other, 3)
            self.assertFalse(told.agrees)
            self.assertIn("  number 17 0 for report 3 of 6, which names machine 2: the members (kind 1) of shards 0, 1 and 2 are missing;"
                          " record 0 (words 2 7 127 0) is the last on the chain", told.lines)

    def test_plans(self):
        for old, new, piece in (
            ("view 8", "view 9", "the new view is 9, not 8"),
            ("moves 2", "moves 1", "the moves add up to 2"),
            ("holder 1", "holder 4", "shard 1 has another holder or target"),
            ("target 7 5", "target 7 4", "shard 1 has another holder or target"),
            ("members 3", "members 6", "the members of shard 2 are not valid: machine 6 is not held"),
            ("members 0 2", "members 0 1", "the members of shard 0 are not valid: they are of 1 failure set, it needs 2"),
            ("members 0 2", "members 0 4", "shards 0 and 1 share a machine"),
            ("shard 2 holder 5 target 0 0 members 3\n", "", "the plan has 2 shards, the settings have 3"),
        ):
            with self.subTest(new):
                self.warned(A, support.ANSWER_A.replace(old, new), piece)

    def test_lines_that_are_no_answer(self):
        mixed = support.ANSWER_A.replace("shard 1", "shard 2")
        unlike = ("number\n", "number 8\n", "number 9\n", "number 16\n", "number 17\n", "number 7 0\n", "number 10 4\n", "number 17 5 1\n")
        for text in ("", "wait 4\n", "wait 2 1\n", "wait 6\n", "view 8\nmoves x\n", mixed, *unlike):
            with self.subTest(text):
                self.assertRaises(answers.BadAnswer, answers.parse, text)

    def test_an_index_0_is_an_index(self):
        self.assertEqual(answers.parse("number 17 0\n"), answers.Number(17, 0))
        self.assertEqual(answers.printed(answers.Number(8, 0)), "number 8 0")
        self.assertEqual(answers.printed(answers.parse("number 7\n")), "number 7")
