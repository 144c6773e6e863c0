"""The windows of a moves file: counting, the answer of mondays, and the plot."""
import os
import random
import re
import struct
import subprocess
import tempfile
import unittest
import xml.etree.ElementTree as Tree

import support
from restart_text import plotting, windows
from restart_text.answers import BadAnswer

SPACE = "{http://www.w3.org/2000/svg}"


def file_of(lines):
    return b"".join(struct.pack("<2I", *line) for line in lines)


def numbered(moves, first=1):
    return list(enumerate(moves, first))


def answer_of(lines):
    """The windows of good lines, each added up afresh."""
    moves = [own for _, own in lines]
    parts = [moves[first : first + 64] for first in range(len(moves) - 63)]
    return "".join("%d %d\n" % (sum(part), max(part)) for part in parts).encode()


def drawn(lines, number=b""):
    return Tree.fromstring(windows.draw(file_of(lines), answer_of(lines) + number)[0].encode())


def texts(picture):
    return [part.text for part in picture.iter(SPACE + "text")]


def part_of(picture, name):
    return next(part for part in picture.iter() if part.get("id") == name)


def example():
    with open(os.path.join(support.ROOT, "examples", "moves.bin"), "rb") as file:
        return file.read()


class Counting(unittest.TestCase):
    def test_windows_are_those_added_up_afresh(self):
        for seed in range(40):
            draws = random.Random(seed)
            most = draws.choice([0, 1, 5, 128])
            lines = numbered([draws.randint(0, most) for _ in range(draws.choice([0, 63, 64, 65, 300]))])
            windows.compare(windows.moves_of(file_of(lines)), windows.parse(answer_of(lines)))

    def test_bad_lines(self):
        good = numbered([3] * 70)
        for data, number, fault in (
            (file_of(good), 0, ""),
            (b"", 0, ""),
            (file_of(good)[:-3], 24, "line 70 is bad (number 24): it is cut short, 5 of 8 bytes"),
            (file_of(good + [(70, 3)]), 24, "line 71 is bad (number 24): restart 70 does not come after restart 70"),
            (file_of(good + [(9, 500)]), 24, "line 71 is bad (number 24): restart 9 does not come after restart 70"),
            (file_of([(0, 129)] + good), 25, "line 1 is bad (number 25): restart 0 has 129 moves, more than 128"),
        ):
            found = windows.moves_of(data)
            self.assertEqual((found.number, found.fault), (number, fault))

    def test_the_program_prints_what_is_counted(self):
        for seed in range(30):
            draws = random.Random(seed)
            lines = numbered([draws.randint(0, 128) for _ in range(draws.randint(0, 200))], draws.choice([0, 7, 2**31 - 50]))
            if lines and draws.random() < 0.5:
                lines[draws.randrange(len(lines))] = draws.choice([(0, 1), (2**32 - 1, 129)])
            data = file_of(lines)[: None if draws.random() < 0.7 else -draws.randint(1, 7)]
            windows.compare(windows.moves_of(data), windows.parse(windows.run(support.program("mondays"), data)))

    def test_other_answers_are_refused(self):
        lines = numbered([2] * 60 + [9] * 6)
        data, right = file_of(lines), answer_of(lines)
        self.assertEqual(right, b"156 9\n163 9\n170 9\n")
        windows.draw(data, right)
        for wrong, what in (
            (b"", "window 1 is missing, it should be 156 9"),
            (b"156 9\n163 8\n170 9\n", "window 2 is 163 8, it should be 163 9"),
            (right + b"number 24\n", "it should end after 3 windows"),
            (right + b"170 9\n", "it should end after 3 windows"),
            (right[:-1], "expected windows, then perhaps 'number 24' or 'number 25', found '170 9'"),
            (b"number 24\n" + right, "expected windows, then perhaps 'number 24' or 'number 25', found '156 9'"),
            (b"wait 2\n", "expected windows, then perhaps 'number 24' or 'number 25', found 'wait 2'"),
        ):
            with self.subTest(wrong), self.assertRaisesRegex(BadAnswer, re.escape(what)):
                windows.draw(data, wrong)
        with self.assertRaisesRegex(BadAnswer, "it should end after 3 windows with number 25"):
            windows.draw(data + file_of([(99, 129)]), right)


class Plots(unittest.TestCase):
    def test_the_lines_have_the_values_that_were_printed(self):
        """The paths are read back by the axes' own grid lines."""
        draws = random.Random(5)
        lines = [(3 * number, draws.randint(0, 9)) for number in range(40, 190)]
        picture, ends = drawn(lines), [restart for restart, _ in lines[63:]]
        for name, column in (("sum", 0), ("greatest", 1)):
            printed = [int(line.split()[column]) for line in answer_of(lines).decode().splitlines()]
            x, y = self.scales(picture, name)
            path = list(part_of(picture, name).iter(SPACE + "path"))[-1].get("d")
            places = [tuple(map(float, place)) for place in re.findall(r"H ([\d.]+) V ([\d.]+)", path)]
            self.assertEqual([(round(x(across)), round(y(down))) for across, down in places], list(zip(ends, printed)))

    def scales(self, picture, name):
        """From places to restart numbers and values, by two ticks of each axis."""
        ticks = [(float(part.get("x")), float(part.get("y")), part) for part in part_of(picture, "axes-" + name).iter(SPACE + "text")]
        down = [(y - 4.5, int(part.text)) for _, y, part in ticks if part.get("text-anchor") == "end"]
        across = [(x, int(part.text)) for x, _, part in ticks if part.get("text-anchor") == "middle" and part.text != "moves"]
        return [
            lambda place, a=some[0], b=some[-1]: a[1] + (place - a[0]) * (b[1] - a[1]) / (b[0] - a[0]) for some in (across, down)
        ]

    def test_the_example_says_what_is_in_it(self):
        data = example()
        picture = Tree.fromstring(windows.draw(data, windows.run(support.program("mondays"), data))[0].encode())
        for text in (
            "200 restarts, numbers 3117 to 3368",
            "The last 64 restarts, 3291 to 3368: sum 103, greatest 5.",
            "most: 413, restarts 3197 to 3283",
            "most: 57, restart 3278",
            "now 103",
            "now 5",
            "Sum of moves in 64 restarts",
            "Greatest single restart of the 64",
            "restart number (of a window, its last restart)",
            "not yet 64 restarts",
        ):
            self.assertIn(text, texts(picture))

    def test_the_stored_picture_is_the_example_s(self):
        with open(os.path.join(support.ROOT, "examples", "moves.svg"), encoding="utf-8") as file:
            stored = file.read()
        with open(os.path.join(support.ROOT, "examples", "moves.txt"), "rb") as file:
            drawn, fault = windows.draw(example(), file.read())
        self.assertEqual((support.undated(drawn), fault), (support.undated(stored), ""))

    def test_the_last_restarts_alone(self):
        """Each place of the line is that of the whole file; a window may begin before the restarts that are drawn."""
        moves = [1] * 100 + [50] + [2] * 99
        lines = numbered(moves)
        for last, windows_drawn in ((1, 1), (100, 100), (150, 137), (1000, 137)):
            text = windows.draw(file_of(lines), answer_of(lines), last)[0]
            path = list(part_of(Tree.fromstring(text.encode()), "greatest").iter(SPACE + "path"))[-1].get("d")
            self.assertEqual(len(re.findall("H", path)), windows_drawn)
        said = texts(Tree.fromstring(windows.draw(file_of(lines), answer_of(lines), 90)[0].encode()))
        self.assertIn("The last 90 of 200 restarts, numbers 111 to 200", said)
        self.assertIn("most: 176, restarts 101 to 164", said)
        self.assertIn("most: 50, before restart 111", said)
        self.assertIn("now 128", said)

    def test_many_restarts_are_drawn_by_columns(self):
        lines = numbered([1] * 30000)
        lines[17000] = (17001, 101)
        picture = drawn(lines)
        text = Tree.tostring(picture)
        self.assertLess(len(text), 120000)
        self.assertNotIn(b'id="moves"', text)
        _, y = self.scales(picture, "greatest")
        tops = [float(top) for top in re.findall(r"V ([\d.]+)", part_of(picture, "greatest")[0].get("d"))]
        self.assertEqual((round(y(min(tops))), round(y(max(tops)))), (101, 1))
        self.assertIn("most: 164, restarts 16938 to 17001", texts(picture))

    def test_everything_stands_inside_and_refers_to_nothing_outside(self):
        for lines in (
            numbered([0] * 64),
            numbered([128] * 100, 2**32 - 100),
            [(number * 40_000_000, number % 100) for number in range(100)],
            numbered([number % 129 for number in range(9000)], 2**31),
        ):
            picture = windows.draw(file_of(lines), answer_of(lines))[0]
            for word in ("href", "url(", "<style", "<script", "<image", "<!"):
                self.assertNotIn(word, picture)
            root = Tree.fromstring(picture.encode())
            width, height = float(root.get("width")), float(root.get("height"))
            for part in root.iter(SPACE + "path"):
                for across, down in re.findall(r"[ML] (-?[\d.]+) (-?[\d.]+)", part.get("d")):
                    self.assertTrue(0 <= float(across) <= width and 0 <= float(down) <= height)
                for down in re.findall(r"V (-?[\d.]+)", part.get("d")):
                    self.assertTrue(0 <= float(down) <= height)

    def test_a_bad_file_says_so(self):
        picture = Tree.fromstring(windows.draw(file_of(numbered([1] * 64) + [(0, 0)]), b"64 1\nnumber 24\n")[0].encode())
        self.assertIn("The file goes on, but line 65 is bad (number 24): restart 0 does not come after restart 64.", texts(picture))
        self.assertEqual(part_of(picture, "fault").get("fill"), plotting.WARNING)

    def test_no_window(self):
        for data, printed, what in (
            (file_of(numbered([1] * 63)), b"", "there is no window to draw, 64 restarts make one: the file has 63 restarts"),
            (b"123", b"number 24\n", "there is no window to draw, 64 restarts make one: line 1 is bad (number 24): it is cut short"),
        ):
            with self.assertRaisesRegex(BadAnswer, re.escape(what)):
                windows.draw(data, printed)


class Command(unittest.TestCase):
    def run_on(self, data, *more):
        done = subprocess.run([support.COMMAND, "windows", "-", *more], input=data, capture_output=True, check=False)
        return done.returncode, done.stdout[:5], done.stderr.decode()

    def test_statuses(self):
        program = support.program("mondays")
        good, bad = file_of(numbered([1] * 64)), file_of(numbered([1] * 64) + [(65, 200)])
        self.assertEqual(self.run_on(good, "--program", program), (0, b"<?xml", ""))
        fault = "restart-text: line 65 is bad (number 25): restart 65 has 200 moves, more than 128\n"
        self.assertEqual(self.run_on(bad, "--program", program), (2, b"<?xml", fault))
        short = "restart-text: there is no window to draw, 64 restarts make one: the file has 0 restarts\n"
        self.assertEqual(self.run_on(b"", "--program", program), (3, b"", short))
        self.assertEqual(self.run_on(good, "--program", "/bin/false"), (3, b"", "restart-text: /bin/false ended with status 1\n"))
        missing = "restart-text: no-such-program does not run: No such file or directory\n"
        self.assertEqual(self.run_on(good, "--program", "no-such-program"), (3, b"", missing))

    def test_the_last_ones(self):
        good = file_of(numbered([1] * 70))
        self.assertEqual(self.run_on(good, "--program", support.program("mondays"), "--last", "5"), (0, b"<?xml", ""))
        for wrong in ("0", "-3", "x"):
            status, printed, told = self.run_on(good, "--program", support.program("mondays"), "--last", wrong)
            self.assertEqual((status, printed), (3, b""))
            self.assertIn("--last: expected ", told)

    def test_an_answer_from_a_file(self):
        with tempfile.TemporaryDirectory() as folder:
            path = os.path.join(folder, "answer")
            for printed, status in ((b"64 1\n", 0), (b"64 2\n", 3)):
                with open(path, "wb") as file:
                    file.write(printed)
                self.assertEqual(self.run_on(file_of(numbered([1] * 64)), "--answer", path)[0], status)
