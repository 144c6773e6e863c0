"""Which machines may be taken out for repair: the restarts of the specification, the library beside the tool's own count, a library that is not
there, one that is wrong, JSON, drawing and page."""
import copy
import json
import os
import random
import tempfile
import unittest
import xml.etree.ElementTree as Tree
from unittest import mock

import support
from restart_text import encode, inputs, repairing
from restart_text.answers import BadAnswer, Plan, Wait
from restart_text.asking import Program
from restart_text.drawing import draw
from restart_text.explaining import asked, explain
from restart_text.gathering import gather, waits
from restart_text.jsoned import json_of
from restart_text.library import Foreseen, Previews
from restart_text.page import page
from restart_text.repairing import Source, counted, repair_lines
from restart_text.shapes import RED
from support import command
from test_draw import SVG, told_by
from test_json import SCHEMA, faults
from test_page import Reader
from worlds import world

MASKS_A, ENDS_A = [5, 82, 32], [(0, 0), (7, 5), (0, 0)]
SETTINGS_A = support.CASE_A[0]
FIVE = "Without machine 5 it would wait: shard 2 has no other copy."


def report(node, view=7, members=127, masks=MASKS_A, positions=()):
    """A report's words; the logs are case A's."""
    records = [(node, view, members)] + [(256 + shard, mask, 0) for shard, mask in enumerate(masks)]
    records += [(512 + shard, *position) for shard, position in enumerate(positions)]
    return encode.records_words(records + [(769, 7, count) for run, count in ((1, 5), (4, 4)) if run == node and view >= 7 and members == 127])


def of_a(nodes, *more, settings=None):
    return [settings or SETTINGS_A] + [report(node) for node in nodes] + list(more)


def told_of(blocks, names=()):
    """The explanation of these blocks, the library asked."""
    return asked(inputs.Input(blocks, [], names), Program(support.program(), 60), library=Source(support.library()))


def caps(word):
    return [[6, 3, 3, 1, 0, 0, 1, 1, 2, 2, word]] + [report(node, members=63, masks=[15]) for node in range(6)]


PLAN, LOG, LAID = None, Wait(4, 2), Wait(5, 0)
# Each restart that plans, what would be decided without each of its machines, and the line.
RESTARTS = [
    (of_a(range(7)), {node: LOG if node == 5 else PLAN for node in range(7)},
     "May be taken out for repair, one at a time: machines 0, 1, 2, 3, 4 and 6. " + FIVE),
    (of_a(range(6)), {node: LOG if node == 5 else LAID for node in range(6)},
     "May be taken out for repair: no machine. Without machine 0, 1, 2, 3 or 4 it would wait: subgroup 0 could not be laid out. " + FIVE),
    (of_a(range(6), report(6, 6)), {node: LOG if node == 5 else PLAN for node in range(7)},
     "May be taken out for repair, one at a time: machines 0, 1, 2, 3, 4 and 6. " + FIVE),
    (of_a(range(6), report(6, positions=ENDS_A)), {node: {1: Wait(4, 1), 5: LOG}.get(node) for node in range(7)},
     "May be taken out for repair, one at a time: machines 0, 2, 3, 4 and 6. Without machine 1 it would wait: shard 1 has no other copy with"
     " update 5 of view 7. " + FIVE),
    (of_a(range(7), settings=[7, 3, 7, *SETTINGS_A[3:]]), {node: Wait(3, None) for node in range(7)},
     "May be taken out for repair: no machine. Without machine 0, 1, 2, 3, 4, 5 or 6 it would wait: fewer machines than the least group size, 7,"
     " would be left."),
    (caps(4 * 65536 + 2), {node: PLAN for node in range(6)}, "May be taken out for repair, one at a time: machines 0, 1, 2, 3, 4 and 5."),
    ([[3, 2, 1, 1, 0, 1, 1, 1], *(report(node, members=7, masks=[1 + 2 + 4]) for node in (0, 1))], {0: Wait(2, None), 1: Wait(2, None)},
     "May be taken out for repair: no machine. Without machine 0 or 1 it would wait: no majority of view 7 would be left."),
    ([[2, 1, 1, 1, 0, 0, 1], *(report(node, members=1 << node, masks=[1 << node]) for node in (1,)), report(0, 6, 3, [3])],
     {0: PLAN, 1: Wait(2, None)}, "May be taken out for repair: machine 0. Without machine 1 it would wait: no majority of view 7 would be left."),
]


class Restarts(unittest.TestCase):
    def test_what_would_be_decided(self):
        for blocks, wanted, line in RESTARTS:
            with self.subTest(line):
                told = told_of(blocks)
                found = {node: told.repair.must.get(node) for node in sorted([*told.repair.must, *told.repair.may])}
                self.assertEqual((told.differing, found, told.repair.trouble), ([], wanted, None))
                self.assertIn(line, told.lines[: told.lines.index("")])
                previews = Previews(support.library(), blocks)
                self.assertEqual(previews.must_stay(), {node for node, wait in wanted.items() if wait})

    def test_moves_without_a_machine(self):
        """Without 6 it is case A, which moves 2; without 3, who carries nothing, nobody moves."""
        may = told_of(of_a(range(7))).repair.may
        self.assertEqual((may[6], may[3]), (2, 0))
        for word, masks in ((4 * 65536 + 2, [14]), (2, [6])):
            self.assertEqual(told_of(caps(word)).repair.may[0], 0, masks)

    def test_only_a_plan_has_it(self):
        told = told_of(of_a([3]))
        self.assertEqual((told.answer, told.repair, json_of(inputs.Input(of_a([3]), []), told).get("plan")), (Wait(2, None), None, None))

    def test_a_kept_view_remains(self):
        """Machines 1, 2 and 5 have a shard each in view 8, which nobody else reports: it stays the kept one without any of them."""
        blocks = of_a((0, 3, 4, 6), *(report(node, 8, masks=[32, 2, 4]) for node in (5, 1, 2)))
        told = told_of(blocks)
        self.assertIsInstance(told.answer, Plan)
        self.assertEqual({node: told.repair.must[node] for node in (1, 2, 5)}, {1: Wait(4, 1), 2: Wait(4, 2), 5: Wait(4, 0)})
        self.assertEqual(told.differing, [])

    def test_names(self):
        told = told_of(of_a(range(7)), ["rack%d" % node for node in range(7)])
        self.assertTrue(any("Without machine rack5 it would wait: shard 2 has no other copy." in line for line in told.lines))


class OwnCount(unittest.TestCase):
    def test_random_inputs(self):
        """The library's previews are what this tool counts; and the program says so too where the report is left out and the kept view stays."""
        planned, asked_again, must = 0, 0, set()
        for seed in range(400):
            blocks = world(random.Random(seed))
            gathered = gather(blocks)
            if gathered.refused or waits(gathered):
                continue
            planned += 1
            program = Program(support.program(), 0)
            told = asked(inputs.Input(blocks, []), program, library=Source(support.library()))
            self.assertEqual((told.differing, told.repair.trouble), ([], None), "seed %d" % seed)
            must |= {wait.reason for wait in told.repair.must.values()}
            for node in gathered.held if seed % 8 == 0 else ():
                rest = [blocks[0]] + [block for block in blocks[1:] if block[0] != node]
                again = gather(rest)
                if again.kept == gathered.kept and again.termination == gathered.termination:
                    answer = program.ask(rest)
                    self.assertEqual(answer if isinstance(answer, Wait) else None, told.repair.must.get(node), "seed %d" % seed)
                    asked_again += 1
        self.assertGreater(planned, 100)
        self.assertGreater(asked_again, 20)
        self.assertEqual(must, {2, 3, 4, 5})

    def test_a_library_that_differs(self):
        given = inputs.Input(of_a(range(7)), [])
        for answers, line in (
            ({5: Foreseen(3)}, "  without machine 5: wait 4 2, which is not what the library answers"),
            ({0: LAID}, "  without machine 0: a plan, which is not what the library answers"),
            ({5: Wait(4, 1)}, "  without machine 5: wait 4 2, which is not what the library answers"),
        ):
            whole = {**{node: Foreseen(0) for node in range(7)}, 5: LOG, **answers}
            with mock.patch.object(repairing, "Previews") as previews:
                previews.return_value.without = whole.get
                previews.return_value.must_stay = lambda whole=whole: frozenset(node for node, one in whole.items() if isinstance(one, Wait))
                told = asked(given, Program(support.program()), library=Source(support.library()))
            self.assertIn(line, told.lines)
            self.assertFalse(told.agrees)
            self.assertEqual(faults(json_of(given, told), SCHEMA), [])

    def test_a_mask_that_differs_from_the_previews(self):
        for named, said in ((frozenset(), "names no machine, and restart_preview waits without machine 5"),
                            (frozenset({5, 6}), "names machines 5 and 6, and restart_preview waits without machine 5")):
            with mock.patch.object(Previews, "must_stay", lambda self, named=named: named), self.assertRaises(BadAnswer) as raised:
                told_of(of_a(range(7)))
            self.assertIn(said, str(raised.exception))


class NoLibrary(unittest.TestCase):
    """Without the library all is this tool's own count, and it says so."""

    def explained(self, *more):
        status, text, told = command("explain", "examples/case-a.txt", *more)
        self.assertEqual((status, told), (0, ""))
        return text.decode().splitlines()

    def test_a_library_that_is_not_there(self):
        for path, said in (("/no-such-library.so", "cannot load the library: /no-such-library.so"),
                           ("libc.so.6", "the library libc.so.6 has no restart_preview, so it is of a release that does not have previews")):
            lines = self.explained("--program", support.program(), "--library", path)
            after = lines[lines.index(RESTARTS[1][2]) + 1]
            self.assertTrue(after.startswith("The library was not asked about this (%s" % said), after)
            self.assertTrue(after.endswith("); it is this tool's own count."), after)

    def test_an_answer_from_a_file(self):
        with tempfile.TemporaryDirectory() as folder:
            path = os.path.join(folder, "answer")
            with open(path, "w", encoding="ascii") as file:
                file.write(support.ANSWER_A)
            lines = self.explained("--answer", path)
            self.assertIn("The library was not asked about this (no library was named, and the answer is from a file); it is this tool's own"
                          " count.", lines)
            self.assertIn(RESTARTS[1][2], lines)
            lines = self.explained("--answer", path, "--library", support.library())
            self.assertIn(RESTARTS[1][2], lines)
            self.assertNotIn("own count", " ".join(lines))

    def test_the_same_by_count(self):
        for blocks, wanted, line in RESTARTS:
            gathered = gather(blocks)
            self.assertEqual({node: counted(gathered, node) for node in gathered.held}, wanted)
            found = repairing.by_count({node: counted(gathered, node) for node in sorted(gathered.held)}, "why")
            self.assertEqual(repair_lines(gathered, found), [line, "The library was not asked about this (why); it is this tool's own count."])

    def test_nothing_is_asked_where_nobody_wants_it(self):
        given = inputs.Input(of_a(range(7)), [])
        told = explain(given, Program(support.program()).ask(given.blocks))
        self.assertIsNone(told.repair)
        self.assertNotIn("repair", " ".join(told.lines))
        self.assertIsNone(json_of(given, told)["plan"]["repair"])


class Shown(unittest.TestCase):
    def test_json(self):
        for blocks, wanted, _ in RESTARTS:
            value = json.loads(json.dumps(json_of(inputs.Input(blocks, []), told_of(blocks))))
            self.assertEqual(faults(value, SCHEMA), [])
            found = value["plan"]["repair"]
            self.assertTrue(found["asked"])
            self.assertEqual({one["node"]: Wait(one["reason"], one["value"]) for one in found["must_stay"]},
                             {node: wait for node, wait in wanted.items() if wait})
            self.assertEqual({one["node"] for one in found["may_go"]}, {node for node, wait in wanted.items() if not wait})
        self.assertEqual(told_of(RESTARTS[0][0]).repair.must, {5: LOG})
        value = json_of(inputs.Input(RESTARTS[0][0], []), told_of(RESTARTS[0][0]))["plan"]["repair"]
        self.assertEqual(value["must_stay"], [{"node": 5, "reason": 4, "value": 2, "text": "shard 2 has no other copy"}])

    def test_wrong_values_are_found(self):
        good = json_of(inputs.Input(RESTARTS[0][0], []), told_of(RESTARTS[0][0]))
        self.assertEqual(faults(good, SCHEMA), [])
        for change in (
            lambda value: value["plan"].pop("repair"),
            lambda value: value["plan"]["repair"].pop("asked"),
            lambda value: value["plan"]["repair"].update(more=1),
            lambda value: value["plan"]["repair"]["may_go"][0].update(moves="2"),
            lambda value: value["plan"]["repair"]["must_stay"][0].update(reason=1),
            lambda value: value["plan"]["repair"]["must_stay"][0].pop("text"),
        ):
            value = copy.deepcopy(good)
            change(value)
            self.assertNotEqual(faults(value, SCHEMA), [])

    def test_the_drawing(self):
        picture = draw(told_of(RESTARTS[3][0]))
        told = told_by(picture)
        self.assertEqual([node for node in range(7) if "must stay" in told["machine-%d" % node]], [1, 5])
        self.assertIn("must stay: it would wait without", told["legend"])
        frames = {part.get("id"): part.find(SVG + "rect").get("stroke") for part in Tree.fromstring(picture.encode()).iter(SVG + "g")
                  if part.get("id").startswith("machine")}
        self.assertEqual([node for node in range(7) if frames["machine-%d" % node] == RED], [1, 5])
        nobody = told_by(draw(told_of(RESTARTS[5][0])))
        self.assertNotIn("must stay", json.dumps(nobody))

    def test_the_drawing_of_a_machine_with_an_older_view(self):
        """Without machine 1, which reported view 6, fewer are left than the least group size."""
        blocks = [[2, 1, 2, 1, 0, 0, 1], report(0, 7, 1, [1]), report(1, 6, 3, [3])]
        told = told_of(blocks)
        self.assertEqual(told.repair.must, {0: Wait(2, None), 1: Wait(3, None)})
        self.assertIn("must stay, view 6", told_by(draw(told))["machine-1"])

    def test_the_page(self):
        data = page(told_of(RESTARTS[0][0]), "case.txt")
        head = data[: data.index("</header>")]
        self.assertIn(RESTARTS[0][2], head)
        read = Reader(data)
        self.assertEqual(read.faults, [])
        self.assertIn("must stay: it would wait without", read.text)

    def test_the_commands(self):
        """draw, page and watch ask the library that is named."""
        with tempfile.TemporaryDirectory() as folder:
            for name, more in (("draw", ["-o", os.path.join(folder, "out")]), ("page", ["-o", os.path.join(folder, "out")])):
                done = command(name, "examples/case-a.txt", "--program", support.program(), "--library", support.library(), *more)
                self.assertEqual(done, (0, b"", ""))
                with open(os.path.join(folder, "out"), encoding="utf-8") as file:
                    self.assertEqual(file.read().count(">must stay<"), {"draw": 6, "page": 12}[name], name)
            done = command("split", "examples/case-a.txt", os.path.join(folder, "night"))
            self.assertEqual(done[0], 0)
            status, text, told = command("watch", os.path.join(folder, "night"), "--seconds", "0", "--program", support.program(), "--library",
                                         support.library())
            self.assertEqual((status, told), (0, ""))
            self.assertIn(RESTARTS[1][2], text.decode().splitlines())


if __name__ == "__main__":
    unittest.main()
