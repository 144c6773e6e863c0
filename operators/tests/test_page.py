"""The page of HTML: by Python's own parser, and in headless Chromium where it is there."""
import html.parser
import os
import struct
import tempfile
import unittest
import zlib

import support
from browser import browser, pixels, text_and_picture
from restart_text.answers import Wait
from restart_text.asking import Program
from restart_text.explaining import asked, explain
from restart_text.page import page
from restart_text.shapes import AMBER, BLUE, RED, light

EMPTY = {"meta"}


class Reader(html.parser.HTMLParser):
    """Text, cells and attributes of a page, and whether its elements close in turn."""

    def __init__(self, data):
        super().__init__()
        self.open, self.pieces, self.cells, self.attributes, self.faults, self.identities = [], [], [], [], [], []
        self.feed(data)
        self.close()
        self.faults += self.open
        self.text = " ".join(" ".join(self.pieces).split())

    def handle_starttag(self, tag, attrs):
        self.attributes += attrs
        self.identities += [value for name, value in attrs if name == "id"]
        if tag not in EMPTY:
            self.open.append(tag)

    def handle_startendtag(self, tag, attrs):
        self.attributes += attrs

    def handle_endtag(self, tag):
        if not self.open or self.open.pop() != tag:
            self.faults.append(tag)

    def handle_data(self, data):
        if self.open and self.open[-1] in ("td", "th"):
            self.cells.append(data)
        if self.open and self.open[-1] != "style":
            self.pieces.append(data)


def colour(text):
    """The three numbers of a colour such as #0b57d0."""
    return tuple(bytes.fromhex(text[1:]))


def made(text, name="case.txt"):
    told = asked(support.given(text), Program(support.program(), 60))
    return told, page(told, name)


class Pages(unittest.TestCase):
    def read(self, data):
        read = Reader(data)
        self.assertEqual(read.faults, [])
        return read

    def test_a_plan(self):
        told, data = made(support.example("a"))
        read = self.read(data)
        self.assertIn("Restart plan: new view 8, 2 moves", read.text)
        self.assertIn("With machine 6 as well: 0 moves, up to 6 updates to fetch.", read.text)
        self.assertIn("Nothing stored is lost if you go now", read.text)
        self.assertEqual(read.cells[:10],
                         ["shard", "subgroup", "needs", "holder", "target", "members", "stay", "move in", "leave", "absent"])
        self.assertEqual(read.cells[20:30], ["1", "0", "3", "1", "(7, 5)", "1 4 5", "1 4", "5", "-", "6"])
        self.assertIn(" ".join(" ".join(told.lines).split()), read.text)
        self.assertLessEqual({"machine-5", "shard-2", "move-5-1", "legend"}, set(read.identities))

    def test_a_wait(self):
        read = self.read(made(support.text_of("night.txt"))[1])
        self.assertIn("Switch on machines rack1-c, rack3-a and rack3-b: then there is a plan with 5 moves", read.text)
        self.assertEqual(read.cells[:6], ["shard", "subgroup", "needs", "members", "back", "absent"])
        self.assertEqual(read.cells[-6:], ["7", "2", "1", "rack1-c", "-", "rack1-c"])
        self.assertIn("condition-4", read.identities)

    def test_a_refusal_and_an_answer_that_does_not_fit(self):
        told = asked(support.with_block(3, [2, 0, 127, 0]), Program(support.program()))
        read = self.read(page(told, "a <b> & c"))
        self.assertIn("Refused: number 7", read.text)
        self.assertIn("Input: a <b> & c", read.text)
        self.assertEqual((read.cells, read.identities), ([], []))
        told = explain(support.given(support.example("a")), Wait(2, None))
        told.lines.append("x < y & z > <b>")
        read = self.read(page(told, "case"))
        self.assertIn("WARNING: this answer does not fit this input.", read.text)
        self.assertIn("x < y & z > <b>", read.text)

    def test_it_refers_to_nothing_outside(self):
        for name in ("case-a.txt", "night.txt"):
            data = made(support.text_of(name))[1]
            self.assertFalse({name for name, _ in self.read(data).attributes} & {"src", "href", "xlink:href", "srcset", "action"})
            for word in ("url(", "@import", "<script", "<link", "<iframe", "<img"):
                self.assertNotIn(word, data)


class InTheBrowser(unittest.TestCase):
    """What headless Chromium makes of the page: its text and a picture."""

    @classmethod
    def setUpClass(cls):
        print("pages: looked at in %s" % browser() if browser() else "pages: no Chromium here, read by Python's parser only",
              flush=True)
        if not browser():
            raise unittest.SkipTest("no Chromium")

    def shown(self, text, width, height):
        with tempfile.TemporaryDirectory() as folder:
            path = os.path.join(folder, "restart.html")
            with open(path, "w", encoding="utf-8") as file:
                file.write(made(text)[1])
            dom, rows = text_and_picture(path, width, height)
        self.assertEqual((len(rows[0]), len(rows)), (width, height))
        return Reader(dom), [pixel for row in rows for pixel in row]

    def test_a_wait(self):
        read, seen = self.shown(support.text_of("night.txt"), 1100, 700)
        self.assertIn("Switch on machines rack1-c, rack3-a and rack3-b: then there is a plan with 5 moves", read.text)
        self.assertIn("machine-11", read.identities)
        for wanted, least in ((BLUE, 100), (RED, 200), (AMBER, 500)):
            self.assertGreater(seen.count(colour(wanted)), least, wanted)
        self.assertGreater(seen.count((255, 255, 255)), len(seen) // 2)

    def test_a_plan(self):
        read, seen = self.shown(support.example("a"), 800, 960)
        self.assertIn("Restart plan: new view 8, 2 moves", read.text)
        for shard in range(3):
            self.assertGreater(seen.count(colour(light(shard))), 500, "shard %d" % shard)
        self.assertEqual(seen.count(colour(RED)), 0)

    def test_pictures_are_read(self):
        """The tests' own reading of pictures: every filter of the format, on a picture of four rows."""
        rows = [[(9, 8, 7), (200, 100, 50)], [(10, 8, 7), (201, 101, 49)], [(11, 9, 9), (250, 3, 4)], [(1, 2, 3), (4, 5, 6)]]
        plain = [bytes(sum(row, ())) for row in rows]
        packed = b"\0" + plain[0]
        packed += b"\1" + plain[1][:3] + bytes((a - b) & 255 for a, b in zip(plain[1][3:], plain[1][:3]))
        packed += b"\2" + bytes((a - b) & 255 for a, b in zip(plain[2], plain[1]))
        left = bytes(3) + plain[3][:3]
        packed += b"\3" + bytes((a - (b + c) // 2) & 255 for a, b, c in zip(plain[3], left, plain[2]))
        body = [(b"IHDR", struct.pack(">IIBBBBB", 2, 4, 8, 2, 0, 0, 0)), (b"IDAT", zlib.compress(packed))]
        data = b"\x89PNG\r\n\x1a\n" + b"".join(struct.pack(">I", len(part)) + kind + part + bytes(4) for kind, part in body)
        self.assertEqual(pixels(data), rows)
