"""What if machines that are back were not: the answers, what would be lost or missing, and the machines that options name."""
import json
import os
import random
import tempfile
import unittest

import support
from browser import browser, text_and_picture
from restart_text import inputs
from restart_text.answers import Number, Wait
from restart_text.asking import Program
from restart_text.drawing import draw
from restart_text.explaining import asked
from restart_text.gathering import gather
from restart_text.jsoned import json_of
from restart_text.library import Foreseen, Previews
from restart_text.missing import asked_without, left_out
from restart_text.repairing import Source
from restart_text.shapes import AMBER
from support import command
from test_json import SCHEMA, faults
from test_page import Reader, colour
from worlds import world

A, NIGHT = support.example("a"), support.text_of("night.txt")
ENDING = "".join("termination shard %d view %d update %d\n" % row for row in ((0, 0, 0), (1, 7, 5), (2, 0, 0)))


def told(text, *nodes, **more):
    return asked_without(support.given(text), Program(support.program(), 60), frozenset(nodes), library=Source(support.library()), **more)


def heading(found):
    return found.lines[: found.before]


class Cases(unittest.TestCase):
    def test_an_update_that_nobody_else_has(self):
        found = told(A.replace("needs 3", "needs 2"), 1)
        self.assertEqual(heading(found), [
            "If machine 1 were not back: a plan, new view 8, 2 moves. With it: a plan, new view 8, 0 moves.",
            "Lost: 1 update of shard 1, after (7, 4) up to (7, 5), which no other machine that is back has. Not all members of the shard have it, so"
            " nobody was told that it is stored."])
        self.assertEqual(found.lines[2], "Plan: new view 8 after view 7, 2 moves.")

    def test_it_is_not_lost_while_the_restart_waits(self):
        self.assertTrue(heading(told(A, 1))[1].startswith("Would be lost: 1 update of shard 1, after (7, 4) up to (7, 5)"), heading(told(A, 1)))

    def test_a_log_that_is_missing(self):
        found = told(A, 5)
        self.assertEqual(heading(found), [
            "If machine 5 were not back: wait 4 2, no log of shard 2. With it: a plan, new view 8, 2 moves.",
            "Missing: the log of shard 2, which no other machine that is back has. Nothing is lost while the restart waits for it."])
        self.assertTrue(found.lines[2].startswith("No machine to switch on helps: with every absent machine back but machine 5"), found.lines[2])

    def test_several(self):
        found = told(A, 0, 2)
        self.assertEqual(heading(found)[0], "If machines 0 and 2 were not back: wait 4 0, no log of shard 0. With them: a plan, new view 8, 2 moves.")

    def test_nothing_is_lost(self):
        text = A.replace("shard 2 subgroup 0", "shard 2 subgroup 1")
        self.assertEqual(heading(told(text, 3))[1:], ["Lost: nothing. Every log goes as far without it."])

    def test_a_view_that_one_machine_reports(self):
        text = A.replace("report node 3 view 7", "report node 3 view 9").replace("shard 2 subgroup 0", "shard 2 subgroup 1")
        found = told(text, 3)
        self.assertEqual(heading(found), [
            "If machine 3 were not back: a plan, new view 8, 1 move. With it: wait 4 0, no log of shard 0.",
            "View 9 would not be known: of the machines that are back only machine 3 reports it. A leader that starts anew would keep view 7.",
            "Lost: what was stored in view 9, if it was served. If the duties were kept it was not, for then there would be no plan without it"
            " (history_laws/Definitions.newest).",
            "A leader that has taken its report keeps it and says: wait 4 0, no log of shard 0."])

    def test_a_termination_that_one_machine_reports(self):
        """Machine 5, whose report is the last, has it."""
        found = told(A.replace("shard 2 members 5", "shard 2 members 0 5").replace("shard 0 members 0 2", "shard 0 members 2 3") + ENDING, 5)
        self.assertEqual(heading(found)[1], "The termination of view 7 would not be known: of the machines that are back only machine 5 reports it.")
        self.assertTrue(heading(found)[2].startswith("A leader that has taken its report keeps it and says: "), heading(found))

    def test_nobody_left(self):
        settings, *reports = A.split("\n\nreport")
        found = told(settings + "\n\nreport" + reports[0] + "\n", 0)
        self.assertEqual((found.answer, heading(found)), (Wait(1, None), ["If machine 0 were not back: wait 1, no report. With it: wait 2, no majority of"
                                                                          " the kept view."]))

    def test_a_report_that_is_refused(self):
        given = support.with_block(3, [2, 0, 127, 0])
        found = asked_without(given, Program(support.program()), frozenset([2]))
        self.assertIsInstance(found.answer, Wait)
        self.assertEqual(heading(found), ["If machine 2 were not back: wait 5 0, no placement of subgroup 0. With it: number 7."])
        self.assertIsInstance(asked_without(given, Program(support.program()), frozenset([3])).answer, Number)

    def test_no_library(self):
        text = A.replace("report node 3 view 7", "report node 3 view 9").replace("shard 2 subgroup 0", "shard 2 subgroup 1")
        found = asked_without(support.given(text), Program(support.program()), frozenset([3]), library=Source("/no-such-library.so"))
        self.assertIn("says: wait 4 0, no log of shard 0 (this tool's own count: cannot load the library", heading(found)[3])
        value = json_of(left_out(support.given(text), {3}), found)["without"]
        self.assertEqual(value["keeping"], {"asked": False, "wait": {"reason": 4, "value": 0}})


class RandomInputs(unittest.TestCase):
    def test_against_the_program_and_the_previews(self):
        """The answer is that to the input without the reports; and where kept view and termination stay, or by the leader that keeps them, it is
        the library's preview."""
        looked = hung = lost = 0
        for seed in range(300):
            blocks = world(random.Random(seed))
            gathered = gather(blocks)
            if gathered.refused or len(gathered.held) < 2:
                continue
            node = random.Random(seed).choice(sorted(gathered.held))
            given, program = inputs.Input(blocks, []), Program(support.program(), 0)
            found = asked_without(given, program, frozenset([node]), library=Source(support.library()))
            self.assertEqual(found.differing, [], "seed %d" % seed)
            self.assertEqual(found.answer, Program(support.program()).ask([blocks[0]] + [block for block in blocks[1:] if block[0] != node]))
            self.assertEqual(faults(json.loads(json.dumps(json_of(left_out(given, {node}), found))), SCHEMA), [], "seed %d" % seed)
            what, preview = found.what_if, Previews(support.library(), blocks).without(node)
            answer = what.running if what.hanging else found.answer
            self.assertEqual(answer if isinstance(answer, Wait) else None, None if isinstance(preview, Foreseen) else preview, "seed %d" % seed)
            looked, hung, lost = looked + 1, hung + what.hanging, lost + bool(what.behind)
            for one in what.behind:
                self.assertGreater(one.updates, 0)
            if looked == 90:
                break
        self.assertTrue(looked == 90 and hung > 3 and lost > 3, (looked, hung, lost))


class Options(unittest.TestCase):
    def test_wrong_machines(self):
        for arguments, data, message in (
            (["--gone", "3"], A, "--gone: machine 3 is back, and --gone is for machines that will not come back. Absent: 6. What would be without a"
             " machine that is back: --without 3"),
            (["--gone", "3-40"], A, "--gone: there is no machine 3-40; known are machines 0 to 6"),
            (["--gone", "rack9"], NIGHT, "--gone: there is no machine rack9; known are machines rack1-a, rack1-b, rack1-c, rack2-a, rack2-b, rack2-c,"
             " rack3-a, rack3-b, rack3-c, rack4-a, rack4-b and rack4-c"),
            (["--without", "6"], A, "--without: machine 6 is not back. Back: 0 1 2 3 4 5"),
            (["--without", "7"], A, "--without: there is no machine 7; known are machines 0 to 6"),
            (["--gone", "6,0"], A, "--gone: machine 0 is back, and --gone is for machines that will not come back. Absent: 6. What would be without a"
             " machine that is back: --without 0"),
        ):
            for name in ("explain", "draw", "page"):
                with self.subTest(name + " " + " ".join(arguments)):
                    done = command(name, "-", *arguments, "--program", support.program(), data=data.encode())
                    self.assertEqual(done, (3, b"", "restart-text: %s\n" % message))

    def test_right_ones(self):
        for name, option, status in (("rack1-c", "--gone", 1), ("rack1-b", "--without", 1), ("rack1-b,4", "--without", 1)):
            done = command("explain", "examples/night.txt", option, name, "--program", support.program())
            self.assertEqual((done[0], done[2]), (status, ""))

    def test_json(self):
        status, text, _ = command("explain", "-", "--json", "--without", "5", "--program", support.program(), data=A.encode())
        value = json.loads(text)
        self.assertEqual((status, faults(value, SCHEMA)), (1, []))
        self.assertEqual(value["without"], {"machines": [5], "with": {"kind": "plan", "view": 8, "moves": 2}, "kept_view": 7, "lost": [],
                                            "no_log": [2], "keeping": None})
        self.assertEqual((value["answer"], 5 in value["reports"]["held"]), ({"kind": "wait", "reason": 4, "value": 2}, False))

    def test_an_answer_from_a_file(self):
        with tempfile.TemporaryDirectory() as folder:
            path = os.path.join(folder, "answer")
            with open(path, "w", encoding="ascii") as file:
                file.write("wait 4 2\n")
            status, text, _ = command("explain", "-", "--without", "5", "--answer", path, data=A.encode())
            self.assertEqual((status, text.decode().splitlines()[0]), (1, "If machine 5 were not back: wait 4 2, no log of shard 2."))

    def test_drawing_and_page(self):
        found = told(A, 5)
        self.assertIn("If machine 5 were not back", draw(found))
        status, page, _ = command("page", "-", "--without", "5", "--program", support.program(), data=A.encode())
        self.assertEqual(status, 1)
        self.assertIn("<p>Missing: the log of shard 2", page.decode())

    def test_the_page_in_the_browser(self):
        """On a wide window and on a phone: what changes stands in its head, and machine 5 is left out."""
        if not browser():
            raise unittest.SkipTest("no Chromium")
        with tempfile.TemporaryDirectory() as folder:
            path = os.path.join(folder, "page.html")
            self.assertEqual(command("page", "-", "--without", "5", "--program", support.program(), "-o", path, data=A.encode())[0], 1)
            for width, height in ((1100, 500), (400, 700)):
                dom, rows = text_and_picture(path, width, height)
                read, seen = Reader(dom), [pixel for row in rows for pixel in row]
                self.assertIn("If machine 5 were not back: wait 4 2, no log of shard 2. With it: a plan, new view 8, 2 moves.", read.text)
                self.assertIn("left out", read.text)
                self.assertEqual({row[-1] for row in rows}, {(255, 255, 255)}, "something is cut off at %d" % width)
                self.assertGreater(seen.count(colour(AMBER)), 500)

    def test_watch_goes_on(self):
        """A machine that is back though --gone names it, and one that is not back though --without does, are remarks."""
        with tempfile.TemporaryDirectory() as folder:
            self.assertEqual(command("split", "examples/case-a.txt", folder)[0], 0)
            status, text, _ = command("watch", folder, "--seconds", "0", "--gone", "3", "--without", "5,6", "--program", support.program())
            lines = text.decode().splitlines()
            self.assertEqual(status, 1)
            self.assertEqual(lines[2:5], [
                "Note: machine 3 is back, and --gone is for machines that will not come back.",
                "Note: machine 6 is not back, so that --without changes nothing there.",
                "If machine 5 were not back: wait 4 2, no log of shard 2. With it: a plan, new view 8, 2 moves."])
            status, text, _ = command("watch", folder, "--seconds", "0", "--gone", "rack", "--program", support.program())
            self.assertEqual((status, text.decode().splitlines()[2]), (3, "--gone: there is no machine rack; known are machines 0 to 6"))

    def test_the_same_without_the_option(self):
        given = support.given(A)
        self.assertEqual(asked_without(given, Program(support.program()), frozenset()).lines, asked(given, Program(support.program())).lines)


if __name__ == "__main__":
    unittest.main()
