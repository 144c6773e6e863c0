"""text --as: each kind is read as such, and what does not fit is refused."""
import unittest

import support
from restart_text import words
from restart_text.files import Unfit
from restart_text.kinds import READERS, text_of
from support import command

SETTINGS, REPORT = words.to_bytes(support.CASE_A[0]), words.to_bytes(support.CASE_A[2])
ORDER = words.to_bytes(support.ORDER_A + [0] * (512 - len(support.ORDER_A)))


def desk(*slots):
    """A desk with these reports of case A in the slots of these nodes."""
    found = [0] * 16384
    for node, block in slots:
        found[512 * node : 512 * node + len(block)] = block
    return words.to_bytes(found)


DESK = desk((1, support.CASE_A[2]), (4, support.CASE_A[5]))
SAMPLES = {"input": support.bytes_a(), "settings": SETTINGS, "report": REPORT, "desk": DESK, "order": ORDER,
           "state": words.to_bytes(support.state_a())}


class Kinds(unittest.TestCase):
    def test_each_is_refused_as_any_other(self):
        """Each sample is of its own kind and of no other, and the refusal says what it is."""
        for kind in READERS:
            for name, data in SAMPLES.items():
                if name == kind:
                    text_of(kind, data)
                    continue
                with self.assertRaises(Unfit, msg="%s as %s" % (name, kind)) as caught:
                    text_of(kind, data)
                self.assertIn("this is not ", str(caught.exception))
                self.assertTrue(str(caught.exception).endswith("--as " + name), caught.exception)

    def test_settings(self):
        self.assertEqual(text_of("settings", SETTINGS), support.example("a").split("\n\n")[1].splitlines())

    def test_a_report(self):
        expected = support.example("a").split("\n\n")[3].replace("0-6", "0 1 2 3 4 5 6").splitlines()
        self.assertEqual(text_of("report", REPORT), expected)
        self.assertEqual(text_of("report", REPORT + b"\0" * 16), expected)

    def test_a_desk(self):
        lines = text_of("desk", DESK)
        self.assertEqual([line for line in lines if line.startswith("report")], ["report node 1 view 7", "report node 4 view 7"])
        self.assertEqual(text_of("desk", desk()), ["# an empty desk"])
        for data, message in (
            (desk((2, support.CASE_A[2])), "the slot of node 2 has a report of node 1"),
            (desk((1, support.CASE_A[2][:3])), "the slot of node 1 has no report: "),
            (DESK[:-4], "it has 16383 words, a desk has 16384"),
        ):
            with self.assertRaises(Unfit) as caught:
                text_of("desk", data)
            self.assertIn(message, str(caught.exception))

    def test_a_state_that_an_earlier_release_saved(self):
        """It is shown, with a remark that the planner refuses it; the remark does not stand in the way of the words."""
        old = support.state_a()
        old[122:154] = [0] * 32
        lines = text_of("state", words.to_bytes(old))
        self.assertTrue(lines[0].startswith("# held, and no view remembered: 0 1 2 3 4 5. A release before 0.3.0 has saved this state"), lines[0])
        self.assertEqual(command("words", "-", data="\n".join(lines).encode())[1], words.to_bytes(old))
        self.assertEqual(text_of("state", words.to_bytes([0] * 160))[0], "state gathering")

    def test_a_state_that_remembers_too_much(self):
        found = support.state_a()
        found[122 + 3], found[122 + 6] = 8, 9
        self.assertEqual(text_of("state", words.to_bytes(found))[0],
                         "# held, and a view above the kept one remembered: 3. This state is refused with number 3")

    def test_settings_to_check_by(self):
        other = [1, 7, 255, 1] + support.CASE_A[2][4:]
        self.assertTrue(text_of("report", words.to_bytes(other)))
        status, _, message = command("text", "--as", "report", "--settings", "examples/case-a.txt", "-", data=words.to_bytes(other))
        self.assertEqual(status, 2)
        self.assertIn("node 7 is among the members", message)
        status, _, message = command("text", "--as", "report", "--settings", "examples/settings.bin", "-", data=REPORT)
        self.assertEqual((status, message), (0, ""))


class Command(unittest.TestCase):
    def test_refusals(self):
        for arguments, data, message in (
            ([], REPORT,
             "this is not an input: the counts of the blocks do not fit the file's 80 bytes; it looks like a report: --as report"),
            (["--as", "report"], REPORT + b"\0", "this is not a report: 81 bytes are no whole words"),
            (["--as", "report"], REPORT + b"\0" * 4,
             "this is not a report: the message has 21 words, allowed are 4 to 512 in steps of 4"),
            (["--as", "state"], b"\0" * 641, "this is not a state: 641 bytes are no whole words"),
            (["--as", "state"], b"\0" * 644, "this is not a state: the state has 161 words, it should have 160"),
            ([], b"", "nothing came: standard input is empty"),
        ):
            self.assertEqual(command("text", *arguments, "-", data=data), (2, b"", "restart-text: %s\n" % message))

    def test_a_damaged_input(self):
        blocks = [list(block) for block in support.CASE_A]
        blocks[3] = [2, 0, 127, 0]
        data = words.joined(blocks)
        status, printed, message = command("text", "-", data=data)
        self.assertEqual((status, printed), (2, b""))
        self.assertIn("report 3 of 6 is refused with number 7: the view number is 0", message)
        status, printed, message = command("text", "--damaged", "-", data=data)
        self.assertEqual((status, message), (0, ""))
        self.assertIn(b"message of 4 words\n2 0 127 0\n", printed)
        self.assertEqual(command("words", "-", data=printed)[1], data)
