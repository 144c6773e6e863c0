"""What a terminal shows: a bold first line, and screens that fit."""
import io
import os
import random
import unittest
from unittest import mock

import support
from restart_text import encode, inputs, terminal
from restart_text.asking import Program
from restart_text.explaining import asked
from restart_text.files import write_told
from restart_text.folders import news
from restart_text.model import Report, Settings, Shard, View
from restart_text.terminal import cut, fitted, over

PLAIN = {name: value for name, value in os.environ.items() if name not in ("NO_COLOR", "TERM")}


class Terminal(io.TextIOWrapper):
    def __init__(self, is_terminal=True):
        super().__init__(io.BytesIO(), encoding="utf-8")
        self.is_terminal = is_terminal

    def isatty(self):
        return self.is_terminal


def large():
    """32 machines with long names and 16 shards, of which many conditions fail."""
    shards = tuple(Shard(number // 4, 3) for number in range(16))
    settings = Settings(8, 20, tuple(node // 4 for node in range(32)), shards)
    members = tuple(frozenset([4 * (number % 4) + place, 16 + 4 * (number % 4) + place]) for number in range(16) for place in [number // 4])
    view = View(99, frozenset(range(32)), members)
    blocks = [encode.settings_words(settings)] + [encode.report_words(Report(node, view, None, ((),) * 16)) for node in range(0, 32, 3)]
    return inputs.Input(blocks, [], tuple("machine-with-a-long-na-%d" % node for node in range(32)))


class Fitting(unittest.TestCase):
    def fits(self, lines, width=80, height=24):
        rows = fitted("22:10:00  night  appeared: 1-machine-5.bin", lines, "restart-text explain night", width, height)
        self.assertLessEqual(len(rows), height)
        self.assertLessEqual(max(map(len, rows)), width)
        return rows

    def test_the_first_two_parts_stand_on_80_by_24(self):
        for name in ("night.txt", "case-a.txt", "case-b.txt", "caps.txt"):
            lines = asked(support.given(support.text_of(name)), Program(support.program())).lines
            rows = self.fits(lines)
            second = lines.index("", lines.index("") + 1)
            for line in lines[:second]:
                self.assertTrue(any(row.startswith(line[:40]) for row in rows), line)
            self.assertRegex(rows[-1], r"^\((\d+ lines|1 line) more: restart-text explain night\)$")

    def test_the_largest_group(self):
        self.fits(asked(large(), Program(support.program(), 0.2)).lines)

    def test_what_fits_is_shown_whole(self):
        lines = asked(support.given(support.text_of("case-a.txt")), Program(support.program())).lines
        rows = self.fits(lines, 400, 60)
        self.assertEqual([row for row in rows[2:] if not row.startswith("    ")], [line for line in lines if not line.startswith("    ")])

    def test_random_lines(self):
        for seed in range(200):
            source = random.Random(seed)
            lines = ["x" * source.choice([0, 1, 30, 79, 80, 81, 500]) if source.random() < 0.5 else " ".join(["word"] * source.randrange(1, 90))
                     for _ in range(source.randrange(1, 40))]
            self.fits(lines, source.choice([20, 40, 80]), source.choice([6, 12, 24]))

    def test_cut(self):
        self.assertEqual((cut("abcdef", 6), cut("abcdefg", 6), cut("a   bcd", 6)), ("abcdef", "abc...", "a..."))


class Bold(unittest.TestCase):
    def printed(self, is_terminal=True, **more):
        with mock.patch("sys.stdout", Terminal(is_terminal)) as stream, mock.patch.dict(os.environ, {**PLAIN, **more}, clear=True):
            write_told(None, ["one", "two"])
            return stream.buffer.getvalue().decode()

    def test_the_first_line(self):
        self.assertEqual(self.printed(), "\x1b[1mone\x1b[0m\ntwo\n")
        for plain in (self.printed(False), self.printed(NO_COLOR="1"), self.printed(TERM="dumb")):
            self.assertEqual(plain, "one\ntwo\n")
        self.assertEqual(self.printed(NO_COLOR=""), self.printed())

    def test_a_screen(self):
        """The answer's first line, all its rows and no other; nothing of it with NO_COLOR."""
        lines = ["one " * 12, "two", "", "three"]
        for more, bold in (({}, 2), ({"NO_COLOR": "1"}, 0)):
            with mock.patch.dict(os.environ, {**PLAIN, **more}, clear=True):
                shown = over("22:10", lines, "explain", 30, 20, Terminal())
            self.assertEqual((shown.count(terminal.BOLD), shown.count(terminal.PLAIN)), (bold, bold))
            rows = [row.replace("\x1b[K", "") for row in shown.replace("\x1b[H", "").replace("\x1b[J", "").split("\n")]
            self.assertEqual([row.startswith(terminal.BOLD) for row in rows[2:5]], [bool(bold)] * 2 + [False])
            self.assertEqual(rows[4:], ["two", "", "three"])


class News(unittest.TestCase):
    def test_each_by_itself(self):
        before = (("settings.bin", 1, 1), ("a", 1, 1), ("b", 2, 2), ("c", 3, 3))
        after = (("settings.bin", 1, 1), ("b", 2, 3), ("c", 3, 3), ("d", 1, 1))
        self.assertEqual(news(before, after), {"appeared": ["d"], "changed": ["b"], "gone": ["a"]})
        self.assertEqual(news(after, after), {"appeared": [], "changed": [], "gone": []})
