"""Machines' names: in the text, in every sentence and in the drawings."""
import random
import re
import unittest

import support
from restart_text import inputs
from restart_text.answers import Number
from restart_text.asking import Program
from restart_text.drawing import draw
from restart_text.explaining import asked
from restart_text.lines import BadText
from worlds import damaged, world


def named(text):
    """The text with a name for each machine: machine 3 is m-d."""
    def with_name(found):
        return "%s name m-%s" % (found[1], "abcdefghijklmnop"[int(found[2])])

    return re.sub(r"^(node (\d+) set \d+)$", with_name, text, flags=re.M)


class Texts(unittest.TestCase):
    def test_there_and_back(self):
        given = support.given(named(support.example("a")))
        self.assertEqual(given.blocks, support.CASE_A)
        self.assertEqual(given.names, tuple("m-" + letter for letter in "abcdefg"))
        self.assertEqual(support.given(support.example("a")).names, ())

    def test_some_have_one(self):
        given = support.given(support.example("a").replace("node 3 set 1\n", "node 3 set 1 name rack2-a\n"))
        self.assertEqual(given.names, (None, None, None, "rack2-a", None, None, None))
        lines = asked(given, Program(support.program())).lines
        self.assertIn("Held: 0 1 2 rack2-a 4 5. Absent: 6.", lines)
        self.assertIn("Names: 3 rack2-a.", lines)

    def test_bad_names(self):
        for new, message in (
            ("node 3 set 1 name 12", "expected a name of at most 24 letters, digits and . _ -, with a letter in it, found '12'"),
            ("node 3 set 1 name a/b", "found 'a/b'"),
            ("node 3 set 1 name " + "a" * 25, "found '" + "a" * 25),
            ("node 3 set 1 name", "expected 'node NODE set SET' or 'node NODE set SET name NAME', found 'node 3 set 1 name'"),
            ("node 3 set 1 name a b", "found 'node 3 set 1 name a b'"),
        ):
            with self.assertRaises(BadText) as caught:
                support.given(support.example("a").replace("node 3 set 1", new))
            self.assertEqual(caught.exception.line, 9)
            self.assertIn(message, str(caught.exception))
        with self.assertRaises(BadText) as caught:
            support.given(re.sub(r"^(node [35] set \d)$", r"\1 name x", support.example("a"), flags=re.M))
        self.assertEqual((caught.exception.line, caught.exception.message),
                         (11, "expected each name once, found 'x' in line 9 already"))


class Sentences(unittest.TestCase):
    def test_no_sentence_has_a_number_where_there_is_a_name(self):
        """Every machine of every explanation goes by its name: 120 inputs, whole and damaged."""
        kinds = set()
        for seed in range(120):
            source = random.Random(seed)
            blocks = world(source)
            blocks = damaged(source, blocks) if seed % 3 == 0 else blocks
            given = inputs.Input(blocks, [], tuple("m%s" % letter for letter in "abcdefghijklmnopqrstuvwxyzABCDEF"))
            told = asked(given, Program(support.program(), 0.2))
            kinds.add((type(told.answer).__name__, getattr(told.answer, "reason", None)))
            for line in told.lines:
                self.assertIsNone(re.search(r"[Mm]achines? \d|held \d|absent \d|[Mm]embers:? \d|Held: \d|Absent: \d", line), line)
            self.assertTrue(told.agrees)
        self.assertGreater(len(kinds), 5)

    def test_too_few_and_too_many_names(self):
        for names in (("one",), tuple("abcdefghij")):
            told = asked(inputs.Input(support.CASE_A, [], names), Program(support.program()))
            self.assertTrue(told.agrees)
            self.assertIn("Names: 0 %s" % names[0], "\n".join(told.lines))

    def test_drawings(self):
        for name in "abfi":
            told = asked(support.given(named(support.example(name))), Program(support.program()))
            self.assertFalse(isinstance(told.answer, Number))
            picture = draw(told)
            for letter in "abcdefg":
                self.assertIn(">m-%s<" % letter, picture)
            self.assertIsNone(re.search(r">(stay|move in|log from|back|absent|held) \d", picture))
