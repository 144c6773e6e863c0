"""What is said is said once, and in the right number; a misspelt line is told what may stand there."""
import random
import re
import unittest
from collections import Counter

import support
from restart_text import encode, inputs
from restart_text.asking import Program
from restart_text.explaining import asked
from restart_text.model import Report, Settings, Shard, View
from support import command
from test_terminal import large
from worlds import world

FAULTY = re.compile(r"\b1 (shards|machines|moves|members|updates|failure sets|words|reports|records|rounds|nodes|bytes|restarts|stays|sets)\b")


def sentences(lines):
    """The sentences of an explanation without their numbers and lists; rows of tables, which begin with a blank or have two, left out."""
    for line in lines:
        if line.startswith(" ") or "  " in line:
            continue
        for sentence in re.split(r"(?<=\.) ", line):
            yield re.sub(r"(machines?|shards?|subgroups?|members) [\w, -]*?(?= (?:is|are|would|has|have|it|to|at|of|with|\()|[.:;,(]|$)|\d+", "N", sentence)


class Once(unittest.TestCase):
    def once(self, lines, seed=None):
        counts = Counter(sentence for sentence in sentences(lines) if len(sentence) > 30)
        self.assertEqual({sentence: count for sentence, count in counts.items() if count > 1 and not sentence.startswith(("To do", "With ", "Without "))},
                         {}, seed)

    def test_examples(self):
        for given in (large(), *(support.given(support.text_of(name)) for name in ("night.txt", "case-a.txt", "case-b.txt", "case-f.txt", "case-i.txt"))):
            self.once(asked(given, Program(support.program(), 0.5)).lines)

    def test_random_inputs(self):
        for seed in range(60):
            given = inputs.Input(world(random.Random(seed)), [])
            self.once(asked(given, Program(support.program(), 0.2)).lines, seed)

    def test_shards_without_a_log(self):
        """Two members of shard 1 are back with older views, and so is that of shard 2."""
        text = support.example("a")
        for node in (1, 4, 5):
            text = text.replace("report node %d view 7" % node, "report node %d view 6" % node)
        lines = asked(support.given(text.replace("run shard 1 view 7", "run shard 1 view 6")), Program(support.program())).lines
        start = lines.index("Shards 1 and 2 have no machine to take their logs from:")
        self.assertEqual(lines[start + 1 : start + 7], [
            "  shard  members in view 7  absent  back with an older view",
            "  1      1 4 6              6       1 4",
            "  2      5                  -       5",
            "To do: bring back an absent machine of shard 1, with a report of view 7.",
            "All members of shard 2 are back, so waiting will not help.", "To do: look at their disks for a report of view 7."])

    def test_older_views_of_one_shard(self):
        text = support.example("a")
        for node in (1, 4):
            text = text.replace("report node %d view 7" % node, "report node %d view %d" % (node, 6 - node // 4))
        lines = asked(support.given(re.sub("run shard 1 view 7", "run shard 1 view 5", text)), Program(support.program())).lines
        self.assertIn("Machines 1 and 4 are back but reported older views (6 and 5), so their logs of this shard are not used.", lines)

    def test_several_that_are_needed(self):
        view = View(3, frozenset(range(4)), (frozenset([0]), frozenset([1]), frozenset([2])))
        settings = Settings(4, 1, (0, 1, 2, 3), (Shard(0, 1), Shard(1, 1), Shard(2, 1)))
        blocks = [encode.settings_words(settings), encode.report_words(Report(3, view, None, ((),) * 3))]
        lines = asked(inputs.Input(blocks, []), Program(support.program())).lines
        self.assertIn("There is no plan, whoever else comes back, without machine 0, no log of shard 0; machine 1, no log of shard 1; machine 2, no log"
                      " of shard 2. If one of these is lost, --gone says what is left.", lines)


class OneOfEach(unittest.TestCase):
    """A group of one machine, one failure set and one shard."""

    TEXT = "settings\nfailure sets 1\nleast group size 1\nnode 0 set 0\nshard 0 subgroup 0 needs 1\n"
    REPORT = "\nreport node 0 view 1\nmembers 0\nshard 0 members 0\nrun shard 0 view 1 count 1\n"

    def test_no_false_plural(self):
        other = self.REPORT.replace("node 0 view", "node 1 view").replace("members 0\ns", "members 1\ns", 1)
        for text in (self.TEXT, self.TEXT + self.REPORT, self.TEXT + other):
            for name in ("explain", "page", "draw", "readiness", "shift", "rounds", "check"):
                more = {"readiness": ["--program", support.program("sheet")], "shift": ["--library", support.library()],
                        "rounds": ["--library", support.library()]}.get(name, ["--program", support.program()])
                _, printed, told = command(name, "-", *more, data=text.encode())
                self.assertFalse(FAULTY.findall(printed.decode() + told), (name, text))
        self.assertIn("Settings: 1 machine in 1 failure set, 1 shard, least group size 1.",
                      command("explain", "-", "--program", support.program(), data=self.TEXT.encode())[1].decode())

    def test_words(self):
        for data in (b"\1\0\0\0\7\0\0\0", b"x\0"):
            self.assertFalse(FAULTY.findall(command("explain", "-", data=data)[2] + command("text", "--as", "report", "-", data=data)[2]))


class Misspelt(unittest.TestCase):
    def told(self, old, new):
        return command("words", "-", data=support.example("a").replace(old, new, 1).encode())[2].partition("expected ")[2].rstrip("\n")

    def test_a_report(self):
        for word in ("repot", "Report", "reports", "reprot", "eport"):
            self.assertEqual(self.told("report node 3", word + " node 3"), "'report node NODE view VIEW', found '%s node 3 view 7'" % word)
        self.assertEqual(self.told("report node 3 view 7", "report machine 3"), "'report node NODE view VIEW', found 'report machine 3'")

    def test_other_lines(self):
        self.assertEqual(self.told("run shard", "rum shard"), "'run shard SHARD view VIEW count COUNT', found 'rum shard 1 view 7 count 5'")
        self.assertEqual(self.told("settings", "setings"), "a head line first, 'settings' or 'settings of COUNT words', found 'setings'")

    def test_nothing_like_it(self):
        """All that may stand there, a new report included."""
        told = self.told("report node 3 view 7", "hello")
        for form in ("'members NODES'", "'run shard SHARD view VIEW count COUNT'", "'report node NODE view VIEW'", "'message of COUNT words'"):
            self.assertIn(form, told)
