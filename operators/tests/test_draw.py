"""The pictures of plans and waits."""
import random
import unittest
import xml.etree.ElementTree as Tree

import support
from restart_text import answers, inputs
from restart_text.asking import Program
from restart_text.drawing import draw
from restart_text.explaining import asked, explain
from restart_text.gathering import gather
from restart_text.shapes import GREEN, RED, width_of
from worlds import world


def drawn(given, printed):
    return draw(explain(given, answers.parse(printed)))


def identities(picture):
    return {part.get("id") for part in Tree.fromstring(picture.encode()).iter() if part.get("id")}


SVG = "{http://www.w3.org/2000/svg}"


def told_by(picture):
    """The texts of each part of a picture that has a name."""
    root = Tree.fromstring(picture.encode())
    return {part.get("id"): [text.text for text in part.iter(SVG + "text")] for part in root.iter() if part.get("id")}


def of_text(text):
    return draw(asked(support.given(text), Program(support.program(), 60)))


class Waits(unittest.TestCase):
    def test_who_is_back_and_what_fails(self):
        told = told_by(of_text(support.example("b")))
        self.assertEqual(told["condition-0"], ["3 of the 7 members of view 7 are back, at least 4 needed"])
        self.assertEqual(told["condition-2"], ["no log of shard 2"])
        self.assertEqual(told["condition-3"], ["no placement of subgroup 0: shard 1 needs 3 machines, the failure sets give 2"])
        self.assertEqual(told["machine-0"], ["0", "0", "0"])
        self.assertEqual(told["machine-4"], ["4", "switch on", "1"])
        self.assertEqual(told["machine-6"], ["6", "switch on", "1"])
        self.assertEqual(told["machine-3"], ["3", "or this"])
        self.assertEqual(told["shard-1"], ["shard 1", "needs 3", "log from 1", "up to (7, 5)", "back 1", "absent 4 6"])
        self.assertEqual(told["shard-2"], ["shard 2", "needs 1", "NO LOG", "absent 5"])
        self.assertEqual(told["subgroup-0"], ["subgroup 0: no placement"])

    def test_what_is_met(self):
        picture = of_text(support.example("i"))
        told = told_by(picture)
        self.assertEqual([told["condition-%d" % number][0] for number in range(3)],
                         ["6 of the 7 members of view 7 are back, at least 4 needed", "6 machines back, at least 4 needed",
                          "every shard has a log"])
        marks = {part.get("id"): part.find(SVG + "path").get("stroke") for part in Tree.fromstring(picture.encode()).iter(SVG + "g")
                 if part.get("id").startswith("condition")}
        self.assertEqual([marks["condition-%d" % number] for number in range(4)], [GREEN, GREEN, GREEN, RED])

    def test_an_older_view(self):
        told = told_by(of_text(support.example("a").replace("report node 5 view 7", "report node 5 view 6")))
        self.assertEqual(told["machine-5"], ["5", "view 6", "2"])
        self.assertEqual(told["shard-2"], ["shard 2", "needs 1", "NO LOG", "older view 5"])

    def test_before_the_first_report(self):
        text = support.example("a").split("\n\nreport")[0] + "\n"
        told = told_by(of_text(text))
        self.assertEqual((told["machine-0"], told["shard-0"]), (["0", "absent"], ["shard 0", "needs 2"]))
        self.assertNotIn("condition-0", told)


class Pictures(unittest.TestCase):
    def test_case_a_has_every_machine_shard_set_and_move(self):
        found = identities(drawn(support.given(support.example("a")), support.ANSWER_A))
        wanted = {"machine-%d" % node for node in range(7)} | {"shard-%d" % shard for shard in range(3)}
        wanted |= {"set-0", "set-1", "set-2", "subgroup-0", "move-5-1", "move-3-2", "legend", "made"}
        self.assertEqual(found, wanted)

    def test_case_a_says_in_words_what_the_colours_say(self):
        picture = Tree.fromstring(drawn(support.given(support.example("a")), support.ANSWER_A).encode())
        told = {part.get("id"): [text.text for text in part.iter("{http://www.w3.org/2000/svg}text")] for part in picture.iter()}
        self.assertEqual(told["shard-1"], ["shard 1", "needs 3", "log from 1", "up to (7, 5)", "stay 1 4", "move in 5"])
        self.assertEqual(told["machine-5"], ["5", "1", "2"])
        self.assertEqual(told["machine-6"], ["6", "absent"])

    def test_a_plan_with_an_older_view(self):
        """Machine 3 reports view 6, carries shard 2 from now on, and gives no log."""
        told = told_by(of_text(support.example("a").replace("report node 3 view 7", "report node 3 view 6")))
        self.assertEqual(told["machine-3"], ["3", "view 6", "2"])
        self.assertEqual(told["shard-2"], ["shard 2", "needs 1", "log from 5", "up to (0, 0)", "stay -", "move in 3"])

    def test_it_refers_to_nothing_outside(self):
        picture = drawn(support.given(support.example("a")), support.ANSWER_A) + of_text(support.text_of("night.txt"))
        for word in ("href", "url(", "<style", "<script", "<image", "<!"):
            self.assertNotIn(word, picture)
        self.assertEqual(picture.count("http"), 2)

    def test_random_inputs(self):
        """Everything stands once and inside the picture, for plans and waits."""
        kinds = {"view": 0, "wait": 0}
        for seed in range(120):
            given = inputs.Input(world(random.Random(seed)), [],
                                 tuple("machine-%d" % node for node in range(12)) if seed % 3 == 0 else ())
            printed = answers.run(support.program(), given.blocks)
            if printed.split()[0] not in kinds:
                continue
            kinds[printed.split()[0]] += 1
            picture = drawn(given, printed)
            settings = gather(given.blocks).settings
            wanted = {"machine-%d" % node for node in settings.nodes}
            wanted |= {"shard-%d" % number for number in range(len(settings.shards))}
            self.assertLessEqual(wanted, identities(picture))
            self.inside(Tree.fromstring(picture.encode()))
        self.assertGreater(min(kinds.values()), 20)

    def inside(self, root):
        width, height = float(root.get("width")), float(root.get("height"))
        for part in root.iter(SVG + "rect"):
            if part.get("width") != "100%":
                self.assertLessEqual(float(part.get("x")) + float(part.get("width")), width)
                self.assertLessEqual(float(part.get("y")) + float(part.get("height")), height)
        for part in root.iter(SVG + "text"):
            self.assertLess(float(part.get("y")), height)
            if part.get("text-anchor") == "start":
                self.assertLessEqual(float(part.get("x")) + width_of(part.text or "", float(part.get("font-size"))), width,
                                     part.text)
