"""Readiness: what is said, drawn and written of sheets, sheets that do not fit, and inputs of which there is none."""
import json
import os
import random
import tempfile
import unittest
import xml.etree.ElementTree as Tree
from itertools import combinations

import support
from restart_text import inputs, words
from restart_text.answers import BadAnswer, run
from restart_text.readiness import Readiness, Unready, ready
from restart_text.readiness_json import readiness_value
from restart_text.readiness_lines import comparison_lines, lines, unready_lines
from restart_text.readiness_page import page
from restart_text.readiness_picture import FILLS, MEANINGS, picture
from restart_text.sheets import NUMBERS
from support import command
from test_draw import SVG, told_by
from test_json import faults
from test_page import Reader
from worlds import damaged, world

with open(os.path.join(support.ROOT, "operators", "schemas", "readiness.schema.json"), encoding="utf-8") as file:
    SCHEMA = json.load(file)
SEVEN, EIGHT = "examples/seven.txt", "examples/eight.txt"


def of_file(name, **more):
    return ready(name, inputs.load(support.text_of(os.path.basename(name)).encode()), support.program("sheet"), **more)


def of_blocks(blocks, **more):
    return ready("input", inputs.Input(blocks, []), support.program("sheet"), **more)


def one_set(nodes, back):
    """Settings of so many machines in one failure set with one shard, which machine 0 carried, and the reports of these."""
    members = 2**nodes - 1
    return [[nodes, 1, 1, 1] + [0] * nodes + [1]] + [[node, 1, members, 1, 256, 1, 0, 0] for node in back]


def sheet_text(name):
    return run(support.program("sheet"), inputs.load(support.text_of(os.path.basename(name)).encode()).blocks)


class Words(unittest.TestCase):
    def test_seven(self):
        told = lines(of_file(SEVEN))
        self.assertEqual(told[:10], [
            "7 of the 128 sets of machines that may be up restart, 5.5 %.",
            "With all 7 machines up a restart exists. With any 6 of 7 machines up a restart exists in 6 of 7 cases. With 5 or fewer there is none.",
            "Without machine 5 there is no restart, whoever else is up: wait 4, no log of shard 2.",
            "No failure set may be lost whole.",
            "Failure set 0 (machines 0 and 1) lost and all others up: no restart, wait 5, no placement of subgroup 0.",
            "Failure set 1 (machines 2, 3 and 4) lost and all others up: no restart, wait 5, no placement of subgroup 0.",
            "Failure set 2 (machines 5 and 6) lost and all others up: no restart, wait 4, no log of shard 2.",
            "Least sets that restart: any 6 of 7 machines, but not without machine 5.",
            "Keep on first: machine 5 (with it down none of 64 sets restart); then machines 0, 1, 2, 3, 4 and 6 (with any one of them down 1 of 64"
            " sets restart).",
            "What stands in the way of the other 121: wait 2, no majority of the kept view (64); wait 4, no log of shard 0 (6); wait 4, no log of shard"
            " 1 (1); wait 4, no log of shard 2 (21); wait 5, no placement of subgroup 0 (29).",
        ])
        self.assertIn("  6    7     6        0       0       1       0       85.7 %", told)
        self.assertIn("  any  128   7        64      0       28      29      5.5 %", told)
        self.assertIn("  set 1  2 3 4     16    0        15      0       0       1       0 %    wait 5 0", told)
        self.assertIn("  5        2    0 (0 %)                  7 (10.9 %)", told)

    def test_the_command(self):
        status, printed, errors = command("readiness", SEVEN, "--program", support.program("sheet"))
        self.assertEqual((status, printed.decode().splitlines(), errors), (0, lines(of_file(SEVEN)), ""))

    def test_two_layouts(self):
        told = comparison_lines(of_file(SEVEN), of_file(EIGHT))
        self.assertEqual(told[:3], ["A: examples/seven.txt. B: examples/eight.txt.",
                                    "With 1 machine down a restart exists in 6 of 7 cases (A), in 8 of 8 (B).",
                                    "Failure sets that may be lost whole: A none of 3; B all 4."])
        self.assertIn("  2              0 of 21 (0 %)    26 of 28 (92.9 %)", told)
        self.assertIn("  8              -                0 of 1 (0 %)", told)
        status, printed, _ = command("readiness", SEVEN, EIGHT, "--program", support.program("sheet"))
        expected = told + ["", "A: " + SEVEN] + lines(of_file(SEVEN)) + ["", "B: " + EIGHT] + lines(of_file(EIGHT))
        self.assertEqual((status, printed.decode().splitlines()), (0, expected))
        self.assertIn("With as many machines down both restart in as many cases.", comparison_lines(of_file(SEVEN), of_file(SEVEN)))

    def test_other_sentences(self):
        told = lines(of_file(EIGHT))
        self.assertIn("With any 7 or more of 8 machines up a restart exists. With any 6 of 8 machines up a restart exists in 26 of 28 cases. With 5"
                      " or fewer there is none.", told)
        self.assertIn("Any failure set may be lost whole: with all others up a restart exists.", told)
        self.assertIn("Least sets that restart: any 6 of 8 machines, but not without machines 5 and 7 or without machines 0 and 2.", told)
        # node 0 alone has the log; two of three are a majority
        told = lines(of_blocks(one_set(3, range(3))))
        self.assertIn("Least sets that restart: any 2 of 3 machines, but not without machine 0.", told)
        self.assertIn("With all 3 machines up a restart exists. With any 2 of 3 machines up a restart exists in 2 of 3 cases. With 1 or fewer there is"
                      " none.", told)
        self.assertEqual(lines(of_blocks(one_set(1, [0])))[:2], ["1 of the 2 sets of machines that may be up restart, 50.0 %.",
                                                                 "With the one machine up a restart exists."])

    def test_least_sets_of_several_sizes(self):
        blocks = [[4, 2, 1, 1, 0, 0, 1, 1, 2]] + [[node, 7, 7, 1, 256, 3, 0, 0] for node in range(3)] + [[3, 6, 15, 1, 256, 8, 0, 0]]
        found = of_blocks(blocks)
        self.assertEqual([number for number, _ in found.waits], [2, 2, 2, 5, 2, 0, 0, 0, 2, 2, 2, 0, 2, 0, 0, 0])
        self.assertIn("Least sets that restart: machines 0 and 2; machines 1 and 2; all but machine 2.", lines(found))
        # with all five of one set: machine 0, which has the log, and any two others
        self.assertIn("Least sets that restart: machine 0 and any 2 of machines 1, 2, 3 and 4.", lines(of_blocks(one_set(5, range(5)))))

    def test_a_layout_that_never_restarts(self):
        blocks = one_set(3, range(3))
        blocks[0] = [3, 3, 1, 1, 0, 0, 1, 3]
        found = of_blocks(blocks)
        told = lines(found)
        self.assertEqual(told[:2], ["0 of the 8 sets of machines that may be up restart, 0 %.",
                                    "With all machines up there is no restart either: wait 5, no placement of subgroup 0."])
        self.assertEqual((found.least_sets(), found.needed()), ([], []))
        self.assertIn("wait 5, no placement of subgroup 0 (3)", told[2])
        Tree.fromstring(picture([found]).encode())

    def test_names(self):
        text = support.text_of("seven.txt").replace("node 5 set 2", "node 5 set 2 name rack3-a")
        told = "\n".join(lines(ready("it", inputs.from_text(text), support.program("sheet"))))
        self.assertIn("Without machine rack3-a there is no restart", told)
        self.assertIn("any 6 of 7 machines, but not without machine rack3-a", told)

    def test_supposed_reports(self):
        found = of_file("examples/case-a.txt", suppose=True)
        self.assertEqual((found.waits, found.supposed), (of_file(SEVEN).waits, (6,)))
        self.assertEqual(lines(found)[1], "Assumed: a machine that comes back reports view 7 and no termination; its log may end anywhere.")
        self.assertEqual(of_file(SEVEN, suppose=True).supposed, ())
        self.assertEqual(command("readiness", "examples/case-a.txt", "--suppose", "--program", support.program("sheet"))[0], 0)


class Examples(unittest.TestCase):
    def test_the_stored_files(self):
        """The installed example and the picture of it are those of the texts."""
        given = inputs.load(support.text_of("seven.txt").encode())
        with open(os.path.join(support.ROOT, "examples", "seven.bin"), "rb") as file:
            self.assertEqual(file.read(), given.data)
        self.assertEqual(support.text_of("seven.sheet"), sheet_text(SEVEN))
        self.assertEqual(support.undated(support.text_of("readiness.svg")), support.undated(picture([of_file(SEVEN), of_file(EIGHT)])))


class Numbers(unittest.TestCase):
    def test_they_add_up(self):
        """Over random layouts: every share has its sets, and the least sets say which sets restart."""
        chance, seen, plans = random.Random(11), 0, 0
        while seen < 40:
            blocks = world(chance)
            found = of_blocks(blocks, suppose=True) if blocks[0][0] <= 7 else None
            if not isinstance(found, Readiness):
                continue
            seen += 1
            whole = found.share()
            plans += whole.plans
            count = len(found.nodes)
            self.assertEqual(whole.total, 2**count)
            for parts in (found.by_up(), *[[down, held] for _, down, held in found.by_machine()]):
                self.assertEqual(tuple(map(sum, zip(*[share.counts for share in parts]))), whole.counts)
            self.assertEqual([share.total for share in found.by_up()],
                             [len(list(combinations(range(count), size))) for size in range(count + 1)])
            least = found.least_sets()
            for mask in range(2**count):
                nodes = words.nodes_of(mask)
                self.assertEqual(found.has_plan(mask), any(one <= nodes for one in least))
            for one in least:
                self.assertFalse(any(other < one for other in least))
            for number, nodes in found.failure_sets():
                self.assertEqual(found.without(nodes)[0].total, 2 ** (count - len(nodes)))
            self.assertEqual({node for node, _ in found.needed()}, set(frozenset.intersection(*least)) if least else set())
            self.assertEqual(sum(count for *_, count in found.in_the_way()) + whole.plans, whole.total)
        self.assertGreater(plans, 50)

    def test_own_counting_and_program_agree(self):
        """Over random inputs, damaged ones among them: a sheet or a number, and never another than this tool's own."""
        chance, kinds = random.Random(5), {}
        for _ in range(150):
            blocks = world(chance)
            if blocks[0][0] > 8 and chance.random() < 0.7:
                continue
            if chance.random() < 0.3:
                blocks = damaged(chance, blocks)
            found = of_blocks(blocks, suppose=chance.random() < 0.5)
            kind = "sheet" if isinstance(found, Readiness) else found.answer.number
            kinds[kind] = kinds.get(kind, 0) + 1
        for kind in ("sheet", 22, 23, 2, 8):
            self.assertIn(kind, kinds)
        self.assertGreater(kinds["sheet"], 20)


class Wrong(unittest.TestCase):
    def refused(self, answer, why, name=SEVEN):
        with self.assertRaises(BadAnswer) as raised:
            of_file(name, answer=answer)
        self.assertIn(why, str(raised.exception))

    def test_sheets_that_do_not_fit(self):
        good = sheet_text(SEVEN)
        self.assertIsInstance(of_file(SEVEN, answer=good), Readiness)
        rows = good.splitlines(keepends=True)
        for answer, why in (
            ("", "a sheet of 129 lines, found 0 lines"),
            ("".join(rows[1:]), "a sheet of 129 lines, found 128 lines"),
            (good.replace("\n5 2\n", "\n5 6\n"), "expected '5' and 0 or a wait from 2 to 5, found '5 6'"),
            (good.replace("\n5 2\n", "\n5 1\n"), "expected '5' and 0 or a wait from 2 to 5, found '5 1'"),
            (good.replace("\n5 2\n", "\n6 2\n"), "found '6 2'"),
            ("".join(rows[:5] + [rows[6], rows[5]] + rows[7:]), "expected '5'"),
            (good.replace("7 64 0 28 29", "7 64 28 0 29"), "expected the counts '7 64 0 28 29' at the end"),
            (good.replace("7 64 0 28 29", "7 64 0 28"), "expected the counts"),
            (good.replace("\n63 0\n", "\n63 5\n").replace("7 64 0 28 29", "6 64 0 28 30"),
             "the sheet does not fit the input: with machines 0, 1, 2, 3, 4 and 5 up it has 5, by this tool's own counting 0"),
            ("number 23\n", "it is number 23, by this tool's own counting a sheet"),
            ("number 9 1\n", "it is number 9 1, by this tool's own counting a sheet"),
            ("wait 2\n", "found 1 lines"),
        ):
            with self.subTest(why):
                self.refused(answer, why)
        self.refused(sheet_text(SEVEN), "it is a sheet, by this tool's own counting number 23", "examples/case-a.txt")
        self.refused("number 22\n", "it is number 22, by this tool's own counting number 23", "examples/case-a.txt")

    def test_programs_and_files(self):
        for arguments, status, why in (
            ([SEVEN, "--program", "/bin/false"], 3, "/bin/false ended with status 1"),
            ([SEVEN, "--program", "no-such-program"], 3, "no-such-program does not run"),
            (["no-such-file", "--program", support.program("sheet")], 3, "cannot read no-such-file"),
            ([SEVEN, EIGHT, "--answer", SEVEN], 2, "expected --answer once for each layout, found it 1 times for 2"),
            ([SEVEN, "--program", support.program()], 3, "expected 'number NUMBER' or a sheet of 129 lines, found 5 lines"),
        ):
            with self.subTest(why):
                done = command("readiness", *arguments)
                self.assertEqual((done[0], done[1]), (status, b""))
                self.assertIn(why, done[2])

    def test_an_answer_from_a_file(self):
        with tempfile.TemporaryDirectory() as folder:
            paths = [os.path.join(folder, name) for name in "ab"]
            for path, name in zip(paths, (SEVEN, EIGHT)):
                with open(path, "w", encoding="ascii") as file:
                    file.write(sheet_text(name))
            done = command("readiness", SEVEN, EIGHT, "--answer", paths[0], "--answer", paths[1])
            self.assertEqual((done[0], done[2]), (0, ""))
            self.assertEqual(command("readiness", SEVEN, EIGHT, "--answer", paths[1], "--answer", paths[0])[0], 3)


class NoSheet(unittest.TestCase):
    def told(self, blocks, **more):
        found = of_blocks(blocks, **more)
        self.assertIsInstance(found, Unready)
        return unready_lines(found)

    def test_too_many_machines(self):
        for back in ([], [0], range(11)):
            self.assertEqual(self.told(one_set(11, back)), [
                "Refused with number 22, given when: a sheet of more than 10 machines.", "These settings have 11 machines.",
                "To do: a sheet has a line for every set of machines, and is for at most 10 machines. Make that of a smaller layout. Which machines to"
                " switch on explain says of any layout."])

    def test_missing_reports(self):
        given = "Refused with number 23, given when: a sheet without a report, or without a valid one of every machine."
        self.assertEqual(self.told(one_set(5, [0, 1, 3, 4])), [
            given, "Machine 2 has not reported.",
            "To do: add its report. A sheet needs what every machine has on its disk, whether the machine will be up or not. --suppose supposes that"
            " it reports view 1."])
        self.assertEqual(self.told(one_set(5, [4, 0])), [
            given, "Machines 1, 2 and 3 have not reported.",
            "To do: add their reports. A sheet needs what every machine has on its disk, whether the machine will be up or not. --suppose supposes"
            " that each reports view 1."])
        self.assertEqual(self.told(one_set(5, []), suppose=True)[1], "No machine has reported.")

    def test_a_machine_of_which_nothing_can_be_supposed(self):
        blocks = [[2, 1, 1, 1, 0, 0, 1], [0, 1, 1, 1, 256, 1, 0, 0]]
        self.assertEqual(self.told(blocks, suppose=True)[1:], [
            "Machine 1 has not reported.",
            "To do: add its report. A sheet needs what every machine has on its disk, whether the machine will be up or not. It is no member of view"
            " 1, so that nothing can be supposed of it."])

    def test_blocks_that_are_refused(self):
        told = self.told(support.CASE_A[:3] + [support.CASE_A[3][:6]])
        self.assertEqual(told[:2], ["Refused with number 5, given when: words 0, over 512, not a multiple of 4.",
                                    "At fault: report 3 of 3, which names machine 2."])
        self.assertTrue(told[-1].startswith("To do: "))
        self.assertTrue(self.told([[]])[0].startswith("Refused with number 2"))
        # eleven machines and a bad report: the report is told
        self.assertTrue(self.told(one_set(11, [0]) + [[0] * 6])[0].startswith("Refused with number 5"))

    def test_statuses_and_forms(self):
        more = ["--program", support.program("sheet")]
        status, printed, errors = command("readiness", "examples/case-a.txt", *more)
        self.assertEqual((status, errors), (2, ""))
        self.assertIn("Machine 6 has not reported.", printed.decode())
        with tempfile.TemporaryDirectory() as folder:
            path = os.path.join(folder, "picture.svg")
            status, printed, errors = command("readiness", SEVEN, "examples/case-a.txt", "-o", path, *more)
            self.assertEqual((status, printed, os.path.exists(path)), (2, b"", False))
            self.assertIn("of examples/case-a.txt there is no sheet, so that there is nothing to draw: Refused with number 23", errors)
            path = os.path.join(folder, "page.html")
            self.assertEqual(command("readiness", SEVEN, "examples/case-a.txt", "-o", path, *more), (2, b"", ""))
            with open(path, encoding="utf-8") as file:
                read = Reader(file.read())
            self.assertEqual(read.faults, [])
            self.assertIn("Machine 6 has not reported.", read.text)
            self.assertIn("by-up-A", read.identities)
        status, printed, _ = command("readiness", SEVEN, "examples/case-a.txt", "--json", *more)
        value = json.loads(printed)
        self.assertEqual((status, faults(value, SCHEMA, root=SCHEMA), value["comparison"]), (2, [], None))
        self.assertEqual((value["layouts"][1]["missing"], value["layouts"][1]["answer"]["number"]), ([6], 23))


class Forms(unittest.TestCase):
    def bars(self, drawn, name):
        """The bars of a part of a picture: of each its left edge, and the height of each colour in it."""
        part = next(part for part in Tree.fromstring(drawn.encode()).iter() if part.get("id") == name)
        found = {}
        for rect in part.iter(SVG + "rect"):
            found.setdefault(float(rect.get("x")), {})[rect.get("fill")] = float(rect.get("height"))
        return [found[left] for left in sorted(found)]

    def test_the_bars_are_the_shares(self):
        for name in (SEVEN, EIGHT):
            found = of_file(name)
            drawn = picture([found])
            lost = [found.share()] + [found.without(nodes)[0] for _, nodes in found.failure_sets()]
            for part, shares in (("by-up-A", found.by_up()), ("by-set-A", lost)):
                bars = self.bars(drawn, part)
                self.assertEqual(len(bars), len(shares))
                for bar, share in zip(bars, shares):
                    height = sum(bar.values())
                    self.assertAlmostEqual(height, 180, delta=0.05)
                    for number, count in zip(NUMBERS, share.counts):
                        self.assertAlmostEqual(bar.get(FILLS[number], 0) / height, count / share.total, delta=0.001)

    def test_texts(self):
        told = told_by(picture([of_file(SEVEN), of_file(EIGHT)]))
        self.assertEqual([text for text in told["legend"] if len(text) > 1], [MEANINGS[number] for number in NUMBERS])
        self.assertIn("6 of 7", told["by-up-A"])
        self.assertIn("26 of 28", told["by-up-B"])
        self.assertIn("✗ wait 4 2", told["by-set-A"])
        self.assertNotIn("✗ wait 4 2", told["by-set-B"])
        self.assertEqual(told["by-machine-A"][2], "machine 5 (set 2)")
        self.assertIn("wait 4, no log of shard 2", told["in-the-way-A"])
        self.assertIn("A: examples/seven.txt", told["layout-A"])
        self.assertIn("Least sets that restart: any 6 of 7 machines, but not without machine 5.", told["words-A"])

    def test_everything_lies_inside(self):
        names = ["name " + 24 * letter for letter in "abcdefghij"]
        blocks = [[10, 10, 1, 1] + list(range(10)) + [1]] + one_set(10, range(10))[1:]
        given = inputs.Input(blocks, [], tuple(name.split()[1] for name in names))
        for found in ([ready("x" * 200, given, support.program("sheet"))], [of_file(SEVEN), of_file(EIGHT)]):
            root = Tree.fromstring(picture(found).encode())
            width, height = float(root.get("width")), float(root.get("height"))
            for rect in list(root.iter(SVG + "rect"))[1:]:
                self.assertLessEqual(float(rect.get("x")) + float(rect.get("width")), width)
            for text in root.iter(SVG + "text"):
                self.assertLessEqual(float(text.get("y")), height)
                self.assertLess(float(text.get("x")), width)

    def test_the_page(self):
        for found in ([of_file(SEVEN)], [of_file(SEVEN), of_file(EIGHT)]):
            data = page(found)
            read = Reader(data)
            self.assertEqual(read.faults, [])
            self.assertNotIn("http", data.replace("http://www.w3.org/2000/svg", ""))
            self.assertFalse([name for name, _ in read.attributes if name in ("src", "href")])
            for one in found:
                for line in lines(one)[:3]:
                    self.assertIn(line, read.text)
            self.assertIn("85.7 %", read.cells)
            self.assertEqual(len(read.identities), len(set(read.identities)))
        self.assertIn("26 of 28 (92.9 %)", read.cells)

    def test_json(self):
        for found in ([of_file(SEVEN)], [of_file(SEVEN), of_file(EIGHT)], [of_file("examples/case-a.txt"), of_file(EIGHT)],
                      [of_blocks([[]])], [of_blocks(one_set(11, []))]):
            value = json.loads(json.dumps(readiness_value(found)))
            self.assertEqual(faults(value, SCHEMA, root=SCHEMA), [])
            self.assertEqual(len(value["layouts"]), len(found))
        sheet = json.loads(json.dumps(readiness_value([of_file(SEVEN)])))["layouts"][0]["sheet"]
        printed = [int(line.split()[1]) for line in sheet_text(SEVEN).splitlines()[:-1]]
        self.assertEqual(sheet["numbers"], printed)
        self.assertEqual(sheet["counts"], {"sets": 128, "restart": 7, "wait_2": 64, "wait_3": 0, "wait_4": 28, "wait_5": 29})
        self.assertEqual(sheet["least_sets"], [sorted(set(range(7)) - {node}) for node in (6, 4, 3, 2, 1, 0)])
        self.assertEqual(sheet["needed"], [5])
        self.assertEqual(sheet["by_failure_set_lost"][2]["all_others_up"], {"kind": "wait", "reason": 4, "value": 2})
        for place, wrong in ((["sheet"], None), (["sheet", "numbers", 3], 6), (["sheet", "by_up", 0, "sets"], -1), (["answer", "kind"], "plan")):
            value = json.loads(json.dumps(readiness_value([of_file(SEVEN)])))
            at = value["layouts"][0]
            for step in place[:-1]:
                at = at[step]
            at[place[-1]] = wrong
            self.assertTrue(faults(value, SCHEMA, root=SCHEMA), place)
