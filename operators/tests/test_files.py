"""join, split, diff and watch: answers from files and folders."""
import os
import pty
import re
import shutil
import signal
import subprocess
import tempfile
import time
import unittest

import support
from restart_text import words
from support import command

CASE = "examples/case-a.txt"


class Folder(unittest.TestCase):
    def setUp(self):
        folder = tempfile.TemporaryDirectory()
        self.addCleanup(folder.cleanup)
        self.folder = folder.name

    def path(self, *names):
        return os.path.join(self.folder, *names)

    def put(self, name, data):
        with open(self.path(name), "wb") as file:
            file.write(data)
        return self.path(name)

    def split(self, text=CASE):
        self.assertEqual(command("split", text, self.folder), (0, b"", ""))


class JoinAndSplit(Folder):
    def test_there_and_back(self):
        self.split()
        names = sorted(os.listdir(self.path("reports")))
        self.assertEqual(names, ["1-machine-%d.bin" % node for node in range(6)])
        reports = [self.path("reports", name) for name in names]
        self.assertEqual(command("join", self.path("settings.bin"), *reports), (0, support.bytes_a(), ""))
        self.assertEqual(command("join", self.path("settings.bin"), *reports, "-o", self.path("all.bin")), (0, b"", ""))
        with open(self.path("all.bin"), "rb") as file:
            self.assertEqual(file.read(), support.bytes_a())

    def test_the_examples_files(self):
        """The settings and reports of the example service are one input."""
        reports = ["examples/reports/1-machine-%d.bin" % node for node in range(7)]
        status, data, _ = command("join", "examples/settings.bin", *reports)
        self.assertEqual((status, len(words.split(data))), (0, 8))
        self.assertEqual(command("explain", "-", "--program", support.program(), data=data)[0], 0)

    def test_texts(self):
        settings = self.put("settings.txt", "\n".join(support.example("a").split("\n\n")[1].splitlines()).encode() + b"\n")
        reports = self.put("reports.txt", ("\n\n".join(support.example("a").split("\n\n")[2:])).encode())
        self.assertEqual(command("join", settings, reports), (0, support.bytes_a(), ""))
        self.assertEqual(command("join", CASE), (0, support.bytes_a(), ""))

    def test_a_second_report_of_a_machine(self):
        text = self.put("twice.txt", (support.example("a") + "\n" + support.example("a").split("\n\n")[2]).encode())
        self.split(text)
        self.assertIn("2-machine-0.bin", os.listdir(self.path("reports")))

    def test_what_does_not_fit(self):
        self.split()
        settings, report = self.path("settings.bin"), self.path("reports", "1-machine-2.bin")
        bad = self.put("bad.bin", words.to_bytes([2, 0, 127, 0]))
        odd = self.put("odd.bin", b"\0" * 5)
        for files, message in (
            ([report, settings], "%s is not settings: " % report),
            ([settings, report, settings], "%s is no report for these settings: number 5: the message has 14 words" % settings),
            ([settings, bad], "%s is no report for these settings: number 7: the view number is 0" % bad),
            ([settings, odd], "%s: 5 bytes are no whole words" % odd),
            ([settings, CASE], "%s, line 3: expected a report, found 'settings'" % CASE),
        ):
            status, printed, told = command("join", *files)
            self.assertEqual(status, 2, files)
            self.assertTrue(told.startswith("restart-text: " + message), told)
            self.assertEqual(printed.decode(), told.replace("restart-text: ", "# restart-text join: ", 1))
        self.assertEqual(command("join", settings, self.path("none.bin"))[0], 3)

    def test_anyway(self):
        self.split()
        bad = self.put("bad.bin", words.to_bytes([2, 0, 127, 0]))
        status, data, _ = command("join", "--anyway", self.path("settings.bin"), bad)
        self.assertEqual((status, words.split(data)[1]), (0, [2, 0, 127, 0]))


MADE_FROM = "The same settings and reports give the same plan, so these were made from different ones: "


class Diff(Folder):
    def test_two_plans(self):
        one = self.put("one", support.ANSWER_A.encode())
        other = support.ANSWER_A.replace("view 8", "view 9").replace("moves 2", "moves 1").replace("members 1 4 5", "members 1 4 6")
        other = other.replace("holder 1 target 7 5", "holder 4 target 7 4")
        self.assertEqual(command("diff", one, one), (0, b"The answers are the same.\n", ""))
        status, printed, _ = command("diff", one, self.put("other", other.encode()))
        self.assertEqual(status, 1)
        self.assertEqual(printed.decode().splitlines(), [
            "The new view is 9, was 8.",
            "1 move, was 2.",
            "Shard 1: machine 6 comes in; machine 5 leaves; the log is taken from machine 4, was from machine 1;"
            " the target is (7, 4), was (7, 5).",
            MADE_FROM + "the kept view was 7, then 8.",
        ])
        short = self.put("short", "\n".join(support.ANSWER_A.splitlines()[:-1]).encode())
        self.assertEqual(command("diff", one, short), (1, ("2 shards, was 3.\n%sother settings.\n" % MADE_FROM).encode(), ""))

    def test_what_plans_alone_show(self):
        one = self.put("one", support.ANSWER_A.encode())
        for piece, instead, known in (
            ("holder 0", "holder 2", "other reports of shard 0, or another termination."),
            ("target 0 0", "target 7 1", "other reports of shards 0 and 2, or another termination."),
            ("members 3", "members 2", "other machines were held, or the settings or the kept view's members were others; the inputs"
             " would show it."),
        ):
            other = self.put("other", support.ANSWER_A.replace(piece, instead).encode())
            status, printed, _ = command("diff", one, other)
            self.assertEqual((status, printed.decode().splitlines()[-1]), (1, MADE_FROM + known))
        wait = self.put("wait", b"wait 2\n")
        self.assertEqual(len(command("diff", one, wait)[1].splitlines()), 2)

    def test_which_inputs_differ(self):
        """Two leaders: one has not heard machine 5, has an older log of machine 1, or the like."""
        case = support.example("a")
        part = {section.split(" view")[0]: section for section in case.split("\n\n")}
        lost = part["report node 1"].replace("count 5", "count 3")
        ended = part["report node 3"] + "".join("\ntermination shard %d view 0 update 0" % shard for shard in range(3))
        more = part["report node 5"].replace("node 5", "node 6")
        for other, parts in (
            (case.replace(part["report node 1"], lost), ["another log of shard 1 on machine 1"]),
            (case.replace(part["report node 2"] + "\n\n", "").rstrip("\n") + "\n\n" + more,
             ["only the first has a report of machine 2", "only the second has a report of machine 6"]),
            (case.replace("view 7", "view 6"), ["view 6, was 7, on machines 0, 1, 2, 3, 4 and 5"]),
            (case.replace(part["report node 3"], ended), ["another termination on machine 3"]),
            (case.replace("shard 0 members 0 2", "shard 0 members 0 3"), ["other members of view 7 on machines 0, 1, 2, 3, 4 and 5"]),
            (support.with_block(6, [5, 0, 127, 0]).data, ["the second is refused with number 7"]),
        ):
            path = self.put("other", other if isinstance(other, bytes) else other.encode())
            status, printed, told = command("diff", CASE, path, "--program", support.program())
            self.assertEqual((status, told), (1, ""), other)
            causes = [line for line in printed.decode().splitlines() if line.startswith("The inputs")]
            self.assertEqual(causes, ["The inputs differ: %s." % one for one in parts])

    def test_a_report_that_was_replaced(self):
        """The kept termination stays that of a report which the same machine has replaced since."""
        case = support.example("a")
        report = next(section for section in case.split("\n\n") if section.startswith("report node 0 "))
        before = report + "".join("\ntermination shard %d view %d update %d" % at for at in ((0, 0, 0), (1, 7, 4), (2, 0, 0)))
        path = self.put("other.txt", case.replace(report, before + "\n\n" + report).encode())
        status, printed, _ = command("diff", CASE, path, "--program", support.program())
        self.assertEqual(status, 1)
        self.assertIn("The inputs differ: an earlier report, which was replaced, had a termination.", printed.decode())

    def test_inputs_and_answers(self):
        one = self.put("one", support.ANSWER_A.encode())
        self.assertEqual(command("diff", one, CASE, "--program", support.program()), (0, b"The answers are the same.\n", ""))
        status, printed, _ = command("diff", CASE, "examples/night.txt", "--program", support.program())
        self.assertEqual((status, printed.decode()),
                         (1, "First: a plan, new view 8, 2 moves.\nSecond: wait 2, no majority of the kept view.\n"
                             "The settings differ: machines 12, was 7; failure sets 4, was 3; shards 8, was 3; least group size 7, was 4;"
                             " machine rack1-c: failure set 0, was 1; machine rack2-c: failure set 1, was 2; shard 0: needs 3, was 2;"
                             " shard 2: needs 3, was 1.\n"))

    def test_names(self):
        names = self.put("names.txt", support.example("a").replace("node 6 set 2", "node 6 set 2 name six").encode())
        one = self.put("one", support.ANSWER_A.encode())
        other = self.put("other", support.ANSWER_A.replace("members 1 4 5", "members 1 4 6").encode())
        printed = command("diff", one, other, "--names", names)[1].decode()
        self.assertEqual(printed.splitlines()[0], "Shard 1: machine six comes in; machine 5 leaves.")

    def test_no_answer(self):
        self.assertEqual(command("diff", self.put("one", b"view 8\n"), CASE)[0], 3)


def answers_in(text):
    """The first lines of the answers that watch printed, without the times."""
    return [re.sub(r"^\d\d:\d\d:\d\d  ", "", part).splitlines() for part in re.split(r"\n\n(?=\d\d:\d\d:\d\d  )", text)]


class Watch(Folder):
    def started(self, seconds, *more, output=subprocess.PIPE, **options):
        return subprocess.Popen([support.COMMAND, "watch", self.folder, "--seconds", str(seconds), "--every", "0.05", "--program",
                                 support.program(), *more], stdout=output, stderr=subprocess.PIPE, text=True, **options)

    def watch(self, seconds, *more):
        """The exit status and the answers of a run that ends by itself."""
        process = self.started(seconds, *more)
        printed, errors = process.communicate(timeout=120)
        self.assertEqual(errors, "")
        return process.returncode, answers_in(printed)

    def test_it_ends_by_itself_with_the_answer_s_status(self):
        self.split()
        began = time.monotonic()
        status, answers = self.watch(0.2)
        self.assertLess(time.monotonic() - began, 20)
        self.assertEqual((status, len(answers)), (0, 1))
        self.assertEqual(answers[0][2], "Plan: new view 8 after view 7, 2 moves.")

    def test_a_report_appears(self):
        """The answer comes anew; what is half written or hidden is not taken."""
        self.split()
        late = self.path("reports", "1-machine-5.bin")
        with open(late, "rb") as file:
            data = file.read()
        os.remove(late)

        process = self.started(60)
        shown = self.read_until(process, "", "To do: bring back machine 5 with")
        self.put("reports/.hidden.bin", b"x")
        self.put("reports/new.tmp", data)
        os.rename(self.path("reports", "new.tmp"), late)
        shown = self.read_until(process, shown, "Plan: ")
        process.send_signal(signal.SIGINT)
        rest, errors = process.communicate(timeout=120)
        answers = answers_in(shown + rest)
        self.assertEqual([lines[2].split(":")[0] for lines in answers], ["Switch on machine 5", "Plan"])
        self.assertEqual((process.returncode, errors), (0, ""))
        self.assertEqual(answers[1][0].split("  ")[-1], "appeared: 1-machine-5.bin")

    def test_until_there_is_a_plan(self):
        """It ends by itself, with what appeared, changed and went told apart."""
        self.split()
        late = self.path("reports", "1-machine-5.bin")
        os.rename(late, self.path("late"))
        process = self.started(60, "--until", "plan")
        shown = self.read_until(process, "", "To do: bring back machine 5 with")
        os.remove(self.path("reports", "1-machine-3.bin"))
        shown = self.read_until(process, shown, "gone: 1-machine-3.bin")
        os.utime(self.path("reports", "1-machine-0.bin"))
        shown = self.read_until(process, shown, "changed: 1-machine-0.bin")
        os.rename(self.path("late"), late)
        shown = self.read_until(process, shown, "appeared: 1-machine-5.bin")
        self.assertIsNone(process.poll())
        self.put("late", words.to_bytes(support.CASE_A[4]))
        os.rename(self.path("late"), self.path("reports", "1-machine-3.bin"))
        with process:
            answers = answers_in(shown + process.stdout.read())
            self.assertEqual((process.wait(timeout=120), process.stderr.read()), (0, ""))
        self.assertEqual([lines[0].split("  ")[-1] for lines in answers[1:]],
                         ["gone: 1-machine-3.bin", "changed: 1-machine-0.bin", "appeared: 1-machine-5.bin", "appeared: 1-machine-3.bin"])
        self.assertTrue(answers[-1][2].startswith("Plan: "))

    def read_until(self, process, text, piece):
        """What the process prints, up to the line with this piece."""
        while piece not in text:
            line = process.stdout.readline()
            self.assertTrue(line, "it ended without %r: %s" % (piece, text))
            text += line
        return text

    def test_a_bad_report_is_named_by_its_file(self):
        self.split()
        bad = self.put("reports/9.bin", words.to_bytes([2, 0, 127, 0]))
        os.utime(bad, (2**31, 2**31))
        status, answers = self.watch(0.1)
        self.assertEqual(status, 2)
        self.assertIn("At fault: report 7 of 7, which names machine 2 (%s)." % bad, answers[0])
        self.assertIn("Without report 7 of 7, which names machine 2 (%s): a plan, new view 8, 2 moves." % bad, answers[0])

    def later(self, block):
        """What is answered with this report of a machine after all others."""
        self.split()
        late = self.put("reports/0-later.bin", words.to_bytes(block))
        os.utime(late, (2**31, 2**31))
        status, answers = self.watch(0.1)
        return status, answers[0]

    def test_a_later_report_replaces_an_older_one(self):
        """Machine 1 has lost its log, so machine 4's is taken."""
        status, lines = self.later([1] + support.CASE_A[1][1:])
        self.assertEqual(status, 0)
        self.assertIn("  shard 1 up to (7, 4), from machine 4", lines)

    def test_a_later_report_of_an_older_view(self):
        status, lines = self.later([5, 6] + support.CASE_A[6][2:])
        self.assertEqual(status, 2)
        self.assertIn("What is wrong: machine 5 reports view 6, and has reported view 7 before, in report 6.", lines)

    def test_reports_beside_the_settings(self):
        """Where there is no folder reports; what is no .bin file is left alone."""
        self.split()
        for name in os.listdir(self.path("reports")):
            os.rename(self.path("reports", name), self.path(name))
        self.put("notes.txt", b"hello")
        self.assertEqual(self.watch(0.1)[0], 1)
        os.rmdir(self.path("reports"))
        self.assertEqual(self.watch(0.1)[0], 0)

    def test_names_and_lost_machines(self):
        shutil.copy(os.path.join(support.ROOT, "examples", "night.txt"), self.path("settings.txt"))
        status, answers = self.watch(0.1, "--gone", "rack1-c")
        self.assertEqual(status, 1)
        self.assertIn("No machine to switch on helps: with every absent machine back but machine rack1-c", answers[0][2])

    def test_without_settings(self):
        self.assertEqual(self.watch(0.1)[0], 3)
        self.put("settings.bin", b"abc\0")
        self.assertEqual(self.watch(0.1)[0], 2)

    def test_on_a_terminal(self):
        """One screen, written over in place: it is never cleared, the cursor is hidden and comes back."""
        self.split()
        os.remove(self.path("reports", "1-machine-5.bin"))
        leader, follower = pty.openpty()
        self.addCleanup(os.close, leader)
        process = self.started(60, output=follower, env=dict(os.environ, COLUMNS="60", LINES="12"))
        os.close(follower)
        text = self.until(leader, "", "lines more: restart-text explain")
        self.put("reports/1-machine-5.bin", words.to_bytes(support.CASE_A[6]))
        text = self.until(leader, text, "Plan: ")
        process.send_signal(signal.SIGINT)
        text = self.until(leader, text, "\x1b[?25h\x1b[?1049l")
        self.assertEqual((process.wait(timeout=120), process.stderr.read()), (0, ""))
        process.stderr.close()
        self.assertTrue(text.startswith("\x1b[?1049h\x1b[?25l\x1b[H"))
        self.assertNotIn("\x1b[2J", text)
        screens = text.split("\x1b[?25h\x1b[?1049l")[0].split("\x1b[H")[1:]
        self.assertEqual(len(screens), 2)
        lines = re.sub(r"\x1b\[(?:[KJ]|[01]m)", "", screens[0]).split("\r\n")
        self.assertEqual(len(lines), 12)
        self.assertLessEqual(max(map(len, lines)), 60)

    def until(self, leader, text, piece):
        """What the terminal was sent, up to this piece at least."""
        while piece not in text:
            text += os.read(leader, 65536).decode()
        return text
