"""What is given to a command: inputs, folders, settings and reports; and what is none of these."""
import os
import resource
import shutil
import subprocess
import sys
import time
import unittest

import support
from restart_text import encode, words
from restart_text.asking import Program
from restart_text.explaining import asked
from restart_text.model import Report, View
from support import command
from test_files import Folder

CASE = "examples/case-a.txt"


def explained(*files, data=b""):
    status, printed, told = command("explain", *files, "--program", support.program(), data=data)
    return status, printed.decode().splitlines(), told


class Given(Folder):
    def test_a_folder_and_files(self):
        """The same lines from an input, from a folder, from settings with reports, and with a folder of reports."""
        self.split()
        settings, reports = self.path("settings.bin"), sorted(os.listdir(self.path("reports")))
        paths = [self.path("reports", name) for name in reports]
        wanted = explained(CASE)
        self.assertEqual((wanted[0], wanted[2]), (0, ""))
        for files in ([self.folder], [settings, *paths], [settings, self.path("reports")], [CASE]):
            self.assertEqual(explained(*files), wanted, files)
        whole = self.put("whole.bin", support.bytes_a())
        self.assertEqual(explained(whole, paths[0]), wanted)

    def test_other_commands_take_them(self):
        self.split()
        for name in ("draw", "page"):
            one, other = (command(name, path, "--program", support.program()) for path in (CASE, self.folder))
            self.assertEqual((one[0], other[0]), (0, 0))
            self.assertEqual(one[1].replace(CASE.encode(), b"X"), other[1].replace(self.folder.encode(), b"X"))
        self.assertEqual(command("diff", CASE, self.folder, "--program", support.program()), (0, b"The answers are the same.\n", ""))
        settings = self.path("settings.bin")
        page = command("page", settings, self.path("reports", "1-machine-0.bin"), "--program", support.program())[1].decode()
        self.assertIn("<p>Input: %s and 1 more</p>" % settings, page)

    def test_a_bad_report_is_named_by_its_file(self):
        self.split()
        bad = self.put("bad.bin", words.to_bytes([2, 0, 127, 0]))
        status, lines, _ = explained(self.path("settings.bin"), self.path("reports"), bad)
        self.assertEqual(status, 2)
        self.assertIn("At fault: report 7 of 7, which names machine 2 (%s)." % bad, lines)

    def test_no_settings(self):
        self.assertEqual(explained(self.folder), (3, [], "restart-text: there is no settings.txt or settings.bin in %s\n" % self.folder))


class Foreign(Folder):
    def told(self, data, *more):
        status, printed, told = command("explain", *(more or ["-"]), data=data)
        self.assertEqual((status, printed), (2, b""))
        self.assertTrue(told.startswith("restart-text: ") and told.endswith("\n"), told)
        return told[len("restart-text: ") : -1]

    def test_nothing_came(self):
        for data in (b"", b"\n", b" \t\n\n"):
            for name in ("explain", "draw", "page", "rounds", "shift", "words", "text", "readiness"):
                self.assertEqual(command(name, "-", data=data), (2, b"", "restart-text: nothing came: standard input is empty\n"), name)
        empty = self.put("empty.bin", b"")
        self.assertEqual(self.told(b"", empty), "nothing came: %s is empty" % empty)
        self.assertEqual(command("diff", empty, CASE)[2], "restart-text: nothing came: %s is empty\n" % empty)

    def test_what_it_looks_like(self):
        settings, report = (words.to_bytes(block) for block in support.CASE_A[:2])
        order = words.to_bytes(support.ORDER_A + [0] * (512 - len(support.ORDER_A)))
        for data, like in (
            (settings, "settings: give its reports after it, or the folder that has them"),
            (report, "a report: give the settings before it"),
            (order, "an order: restart-text text --as order shows it"),
            (words.to_bytes(support.state_a()), "a state: restart-text text --as state shows it"),
            (report + bytes(65536 - len(report)), "a desk: restart-text text --as desk shows it"),
            (support.ANSWER_A.encode(), "what restart printed: give the input, and this with --answer FILE"),
            (b"wait 2\n", "what restart printed: give the input, and this with --answer FILE"),
            (support.ORDER_TEXT.encode(), "an order"),
            (support.STATE_TEXT.encode(), "a state"),
            (support.example("a").split("\n\n")[3].encode(), "a report: give the settings before it"),
        ):
            self.assertEqual(self.told(data), "standard input is no input; it looks like " + like)

    def test_junk(self):
        for data, why in ((bytes(range(7, 200)), "the number of nodes is"), (bytes(4096 - 4), "the settings have 0 words, at least 4 are needed"),
                          (words.to_bytes([14, 7, 3]), "the settings have 2 words")):
            told = self.told(data)
            self.assertTrue(told.startswith("standard input is no input: " + why), told)
            self.assertTrue(told.endswith(". Nor does it look like anything else that restart-text text knows"), told)

    def test_an_input_with_bad_settings_is_explained(self):
        """Its counts fit, so that it is an input, and the program says what is wrong."""
        blocks = [[0] + support.CASE_A[0][1:]] + support.CASE_A[1:]
        status, lines, _ = explained("-", data=words.joined(blocks))
        self.assertEqual((status, lines[0]), (2, "Refused with number 2, given when: settings."))
        self.assertIn("What is wrong: the number of nodes is 0, allowed are 1 to 32.", lines)

    def test_after_a_join_that_failed(self):
        """Both streams end with a line that names the file, and what reads from the pipe names it too."""
        self.split()
        bad = self.put("bad.bin", words.to_bytes([2, 0, 127, 0]))
        status, printed, told = command("join", self.path("settings.bin"), bad)
        why = "%s is no report for these settings: number 7: the view number is 0" % bad
        self.assertEqual(status, 2)
        for stream in (printed.decode(), told):
            self.assertTrue(stream.splitlines()[-1].split(": ", 1)[1].startswith(why), stream)
        for name in ("explain", "words", "shift"):
            later = command(name, "-", data=printed)
            self.assertEqual(later[:2], (2, b""))
            self.assertTrue(later[2].startswith("restart-text: nothing came from standard input but a remark: restart-text join: " + why), later)
        self.assertNotIn("Correct the settings", command("explain", "-", data=printed)[2])
        target = self.path("all.bin")
        self.assertEqual(command("join", self.path("settings.bin"), bad, "-o", target)[:2], (2, b""))
        self.assertFalse(os.path.exists(target))


class Large(Folder):
    LIMIT = 1 << 20

    def test_at_once(self):
        """An endless input is refused within a second and without its memory; what fits is read."""
        began = time.monotonic()
        with open("/dev/zero", "rb") as zeros:
            done = subprocess.run([sys.executable, support.COMMAND, "explain", "-"], stdin=zeros, capture_output=True, check=False, timeout=60,
                                  preexec_fn=lambda: resource.setrlimit(resource.RLIMIT_AS, (400 << 20, 400 << 20)))
        self.assertLess(time.monotonic() - began, 10)
        self.assertEqual((done.returncode, done.stdout.decode(), done.stderr.decode()),
                         (2, "", "restart-text: standard input has more than 1048576 bytes, the most that is read: 500 whole reports take less\n"))

    def test_the_limits(self):
        text = support.example("a").encode()
        fits = text + b"#" * (self.LIMIT - len(text))
        self.assertEqual(explained("-", data=fits), explained(CASE))
        for name in ("explain", "text", "words"):
            self.assertEqual(command(name, "-", data=fits + b"#")[0], 2)
        large = self.put("large.bin", fits + b"#")
        self.assertIn("%s has more than 1048576 bytes" % large, command("join", "examples/settings.bin", large)[2])
        many = [support.CASE_A[0]] + support.CASE_A[1:2] * 4095
        self.assertEqual(explained("-", data=words.joined(many))[0], 1)
        self.assertEqual(command("explain", "-", data=words.joined(many + support.CASE_A[1:2])),
                         (2, b"", "restart-text: standard input has 4097 blocks, and at most 4096 are read\n"))

    def test_one_large_file_stops_no_conversion(self):
        shutil.copytree(os.path.join(support.ROOT, "examples", "flat"), self.path("flat"))
        self.put("flat/0-large.bin", bytes(self.LIMIT + 1))
        status, printed, _ = command("convert", self.path("flat"), "-o", self.path("ours"), "--library", support.library())
        lines = printed.decode().splitlines()
        self.assertEqual((status, lines[0].partition(": ")[0]), (3, "0-large.bin"))
        self.assertIn("has more than 1048576 bytes", lines[0])
        self.assertIn("1-machine-1.bin: converted, machine 1 in view 7", lines[2])

    def test_many_bad_reports_end_in_time(self):
        data, began = words.joined(support.CASE_A[:1] + [[]] * 3000), time.monotonic()
        status, printed, _ = command("explain", "-", "--program", support.program(), "--search", "0.3", data=data)
        self.assertEqual((status, printed.decode().splitlines()[1]), (2, "At fault: report 1 of 3000."))
        self.assertLess(time.monotonic() - began, 20)


class NearlyFull(unittest.TestCase):
    """Reports that have three quarters of the 128 records that a report may have."""

    def told(self, *runs):
        """The explanation of case A, where machines have so many runs of shard 1 more, each of an earlier view."""
        given = support.given(support.example("a").replace("view 7", "view 900"))
        for node, count in enumerate(runs):
            old = given.blocks[node + 1]
            view = View(900, frozenset(range(7)), (frozenset([0, 2]), frozenset([1, 4, 6]), frozenset([5])))
            given.blocks[node + 1] = encode.report_words(Report(old[0], view, None, ((), tuple((one + 1, 1) for one in range(count)), ())))
        return asked(given, Program(support.program()))

    def warnings(self, told):
        return [line for line in told.lines if line.startswith("Nearly full")]

    def test_from_three_quarters_on(self):
        self.assertEqual(self.warnings(self.told(0, 91)), [])
        self.assertEqual(self.warnings(self.told(0, 92)), [
            "Nearly full: the report of machine 1 has 96 of at most 128 records. A log gets a run more with every view, and a machine whose"
            " runs do not fit cannot report and counts as absent. The cure is short reports (duty 7): of each shard that it carries a machine"
            " tells the run of the view that it reports and no other, at most 49 records; all machines do so from the same restart on."])

    def test_several_in_one_sentence(self):
        found = self.warnings(self.told(100, 124, 2))
        self.assertEqual(len(found), 1)
        self.assertTrue(found[0].startswith("Nearly full: the reports of machines 0 (104) and 1 (128) have so many of at most 128 records. "), found)
