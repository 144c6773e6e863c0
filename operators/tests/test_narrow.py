"""Pictures and pages on a phone and on a screen: in headless Chromium at two widths where it is there, and by their numbers everywhere."""
import html
import json
import os
import random
import re
import tempfile
import unittest
import xml.etree.ElementTree as Tree

import support
import test_draw
from browser import browser, opened
from restart_text import decode, inputs
from restart_text.asking import Program
from restart_text.drawing import draw
from restart_text.explaining import asked
from restart_text.layout import PHONE
from restart_text.page import page
from restart_text.publishing import html as publisher_page
from restart_text.publishing import published
from support import command
from test_publisher import WORLDS
from test_terminal import large
from worlds import world

PHONE_WINDOW, SCREEN_WINDOW = 390, 1100
# What the browser says of each page in its frame: how far it is wider than the frame, how wide the drawings are that are shown, and texts that
# stick out of their picture.
MEASURE = """<script>onload = () => {
 const found = [...document.querySelectorAll("iframe")].map(frame => {
  const inner = frame.contentDocument, width = name => { const one = inner.querySelector(name); return one ? one.getBoundingClientRect().width : 0; };
  const out = [...inner.querySelectorAll("svg")].flatMap(svg => svg.getBoundingClientRect().width == 0 ? [] : [...svg.querySelectorAll("text")].filter(
   text => { const box = text.getBBox(); return box.x < -1 || box.x + box.width > svg.viewBox.baseVal.width + 1; }).map(text => text.textContent));
  return {over: inner.documentElement.scrollWidth - frame.clientWidth, wide: width(".wide"), narrow: width(".narrow"), out: out};
 });
 document.body.innerHTML = "<p id=found>" + JSON.stringify(found).replace(/</g, "") + "</p>";
};</script>"""


def told(text):
    return asked(support.given(text), Program(support.program(), 60))


class Numbers(unittest.TestCase):
    def test_all_stands_inside(self):
        for seed in range(60):
            given = inputs.Input(world(random.Random(seed)), [], tuple("machine-%d" % node for node in range(12)) if seed % 3 == 0 else ())
            found = asked(given, Program(support.program(), 0))
            if found.agrees and not found.gathered.refused:
                picture = draw(found, narrow=True)
                root = Tree.fromstring(picture.encode())
                self.assertEqual(root.get("width"), str(PHONE))
                test_draw.Pictures.inside(self, root)
                settings = found.gathered.settings
                self.assertLessEqual({"machine-%d" % node for node in settings.nodes} | {"shard-%d" % number for number in range(len(settings.shards))},
                                     test_draw.identities(picture))
                self.apart(root)

    def apart(self, root):
        """No box of a machine or shard overlaps another one."""
        boxes = []
        for part in root.iter(test_draw.SVG + "g"):
            if re.match("(machine|shard)-", part.get("id", "")):
                rect = part.find(test_draw.SVG + "rect")
                boxes.append([float(rect.get(name)) for name in ("x", "y", "width", "height")])
        for place, (left, top, width, height) in enumerate(boxes):
            for other in boxes[:place]:
                self.assertTrue(left + width <= other[0] + 0.1 or other[0] + other[2] <= left + 0.1 or top + height <= other[1] + 0.1
                                or other[1] + other[3] <= top + 0.1)

    def test_it_says_what_the_wide_one_says(self):
        for name in ("case-a.txt", "night.txt", "caps.txt"):
            found = told(support.text_of(name))
            wide, narrow = test_draw.told_by(draw(found)), test_draw.told_by(draw(found, narrow=True))
            for part in wide:
                if part.startswith(("machine-", "shard-", "set-", "subgroup-", "condition-")):
                    self.assertEqual(" ".join(wide[part]).split(), " ".join(narrow[part]).split(), part)

    def test_the_command(self):
        status, printed, errors = command("draw", "examples/case-a.txt", "--narrow", "--program", support.program())
        self.assertEqual((status, errors), (0, ""))
        self.assertIn(b'width="360"', printed)

    def test_a_page_has_each_identity_once(self):
        data = page(told(support.text_of("night.txt")), "night")
        found = re.findall(r' id="([^"]*)"', data)
        self.assertEqual(len(found), len(set(found)))
        self.assertLessEqual({"machine-3", "narrow-machine-3"}, set(found))


class InTheBrowser(unittest.TestCase):
    @classmethod
    def setUpClass(cls):
        if not browser():
            raise unittest.SkipTest("no Chromium")

    def test_two_widths(self):
        """No page is wider than the window, one drawing is shown, and no text sticks out."""
        with tempfile.TemporaryDirectory() as folder:
            readiness = os.path.join(folder, "readiness.html")
            self.assertEqual(command("readiness", "examples/seven.txt", "examples/eight.txt", "--program", support.program("sheet"), "-o", readiness)[0], 0)
            answers = told(support.text_of("night.txt")), told(support.example("a")), asked(large(), Program(support.program(), 0.1))
            pages = [page(one, "input") for one in answers]
            with open(readiness, encoding="utf-8") as file:
                pages.append(file.read())
            pages += [publisher_page(published(wanted, subgroup, (), decode.settings_from(blocks[0]).shards)) for blocks, subgroup, wanted, _ in WORLDS[:2]]
            frames = [(width, data) for data in pages for width in (PHONE_WINDOW, SCREEN_WINDOW)]
            whole = os.path.join(folder, "whole.html")
            with open(whole, "w", encoding="utf-8") as file:
                file.write('<!DOCTYPE html><meta charset="utf-8"><body>' + MEASURE + "".join(
                    '<iframe width=%d height=600 style="border:0" srcdoc="%s"></iframe>' % (width, html.escape(data)) for width, data in frames))
            printed = opened(browser(), "file://" + whole, "--window-size=1200,800", "--dump-dom").decode()
        found = json.loads(html.unescape(re.search('<p id="found">(.*?)</p>', printed)[1]))
        self.assertEqual(len(found), len(frames))
        for number, ((width, _), one) in enumerate(zip(frames, found)):
            self.assertLessEqual(one["over"], 0, (number, width, one))
            self.assertEqual(one["out"], [], (number, width))
            if number < 6:
                self.assertEqual((one["wide"] > 0, one["narrow"] > 0), (width == SCREEN_WINDOW, width == PHONE_WINDOW), (number, width))
