"""convert: flat reports of the former seller into ours and back, by the library; what is said of those that are refused."""
import io
import json
import os
import random
import shutil
import subprocess
import sys
import unittest
from collections import Counter
from unittest import mock

import support
import test_command
from restart_text import decode, encode, flat, words
from restart_text.answers import Number
from restart_text.asking import Program
from restart_text.commands.convert import Progress
from restart_text.converting import Folder as Conversion
from restart_text.files import read
from restart_text.folders import files_in
from restart_text.library import Library
from restart_text.readings import as_flat, as_ours
from restart_text.watching import look
from support import command
from test_files import Folder
from test_json import faults
from worlds import damaged, world

SETTINGS = decode.settings_from(support.CASE_A[0])
HEAD = [1, 7, 127, 3, 5, 82, 32]  # node, view, members, three masks
OURS = support.CASE_A[2]
GOOD = HEAD + [0, 1, 1, 7, 5]  # the same report, flat
EMPTY = HEAD + [0, 3, 1, 6, 0, 1, 7, 3, 2, 7, 0]
LONE = [9, 1, 1, 1] + [0] * 9 + [1]  # nine machines, one shard
BOTH = [0, 7, 257, 1, 256, 1, 0, 0, 1, 0, 7, 5]  # under these a flat report, and one of ours with a record off the chain

with open(os.path.join(support.ROOT, "operators", "schemas", "convert.schema.json"), encoding="utf-8") as file:
    SCHEMA = json.load(file)


def runs(count, last=1):
    """A flat report of one machine and one shard with so many runs."""
    return [0, count, 1, 1, 1, 0, count] + [word for view in range(count) for word in (0, view + 1, last if view == count - 1 else 1)]


# Flat reports under the settings of case A, and what is said of each.
REFUSED = [
    (HEAD[:3] + [4, 5, 82, 32, 8, 0, 0], 16, 4, "the mask of shard 3 (word 7: 8) is of shard 3, and there are 3"),
    (HEAD[:3] + [2, 5, 82, 0, 0], 17, 2, "it has 2 masks, and there are 3 shards: the mask of shard 2 is missing"),
    (HEAD[:3] + [2, 5, 82, 0, 1, 1, 7, 5], 17, 3, "it has 2 masks, and there are 3 shards: the mask of shard 2 is missing"),
    (HEAD[:3] + [2, 5, 82, 1, 0, 0, 0, 0, 0], 17, 4, "it has 2 masks, and there are 3 shards: the mask of shard 2 is missing"),
    (HEAD[:3] + [0, 0, 0], 17, 0, "it has 0 masks, and there are 3 shards: the masks of shards 0, 1 and 2 are missing"),
    (HEAD[:3] + [4, 5, 82, 32, 8, 1] + [0] * 9, 16, 4, "the mask of shard 3 (word 7: 8) is of shard 3, and there are 3"),
    (HEAD + [0, 1, 300, 7, 5], 16, 4, "triple 1 of 1 (words 9 to 11: 300 7 5) is of shard 300, and there are 3"),
    (HEAD + [0, 2, 1, 7, 5, 4294967295, 7, 1], 16, 5,
     "triple 2 of 2 (words 12 to 14: 4294967295 7 1) is of shard 4294967295, and there are 3"),
    (HEAD + [1, 0, 0, 7, 5, 0, 0, 2, 1, 7, 5, 3, 7, 1], 16, 8, "triple 2 of 2 (words 18 to 20: 3 7 1) is of shard 3, and there are 3"),
    (HEAD + [0, 2, 1, 7, 1, 0, 7, 1], 17, 5,
     "triple 2 of 2 (words 12 to 14: 0 7 1) comes after triple 1 of 2 (words 9 to 11: 1 7 1), but shards must rise"),
    (HEAD + [0, 2, 1, 7, 1, 1, 6, 1], 17, 5,
     "triple 2 of 2 (words 12 to 14: 1 6 1) comes after triple 1 of 2 (words 9 to 11: 1 7 1), but views of a shard must rise"),
    (HEAD + [0, 2, 1, 7, 1, 1, 7, 2], 17, 5,
     "triple 2 of 2 (words 12 to 14: 1 7 2) has shard and view of triple 1 of 2 (words 9 to 11: 1 7 1) once more"),
    (HEAD + [0, 1, 1, 0, 1], 11, None, "triple 1 of 1 (words 9 to 11: 1 0 1) is of view 0, and views count from 1"),
    (HEAD + [0, 1, 1, 8, 1], 11, None, "triple 1 of 1 (words 9 to 11: 1 8 1) is of view 8, and the report's own is 7"),
    (HEAD + [1, 0, 0, 0, 3, 0, 0, 0], 11, None,
     "the position of shard 1 (words 10 to 11: 0 3) is (0, 3), both should be from 1, or both 0"),
    (HEAD + [1, 0, 0, 0, 0, 8, 1, 0], 11, None, "the position of shard 2 (words 12 to 13: 8 1) is of view 8, and the report's own is 7"),
    (HEAD + [0, 1, 1, 7, 0], 20, None, "triple 1 of 1 (words 9 to 11: 1 7 0) has count 0"),
    (EMPTY, 20, None, "triple 1 of 3 (words 9 to 11: 1 6 0) and triple 3 of 3 (words 15 to 17: 2 7 0) have count 0"),
    (HEAD + [0, 1, 300, 7, 0], 20, None, "triple 1 of 1 (words 9 to 11: 300 7 0) has count 0"),
    (HEAD + [0, 12] + [0, 1, 0] * 12, 20, None, "triple 8 of 12 (words 30 to 32: 0 1 0) and 4 more have count 0"),
    (HEAD + [0, 2, 1, 7, 0], 19, None, "3 masks, 0 positions and 2 triples ask for 15 words, and it has 12"),
    ([9] + HEAD[1:] + [0, 0], 6, None, "the message names node 9, the settings have nodes 0 to 6"),
    ([9] + HEAD[1:] + [2, 0], 19, None, "its termination word (word 7) is 2, and 0 or 1 was expected there"),
    ([1, 0] + HEAD[2:] + [0, 0], 7, None, "the view number is 0, allowed are 1 to 4294967294"),
    (HEAD[:4] + [0, 82, 32, 0, 0], 10, None, "the mask of shard 0 (word 4: 0): shard 0 has no members"),
    (HEAD[:4] + [0, 82, 32, 0, 1, 1, 8, 1], 10, None, "the mask of shard 0 (word 4: 0): shard 0 has no members"),
    (HEAD[:4] + [5, 5, 32, 0, 0], 10, None, "the mask of shard 1 (word 5: 5): node 0 is in shards 0 and 1 of one subgroup"),
    ([0] * 5, 19, None, "it ends before its counts do: a flat report has at least 6 words, and it has 5 words"),
    ([0] * 6, 7, None, "the view number is 0, allowed are 1 to 4294967294"),
    (GOOD + [0, 0], 19, None, "3 masks, 0 positions and 1 triple ask for 12 words, and it has 14; what stands after them is zeros"),
    (GOOD + [1], 19, None, "3 masks, 0 positions and 1 triple ask for 12 words, and it has 13"),
    (GOOD[:-1], 19, None, "3 masks, 0 positions and 1 triple ask for 12 words, and it has 11"),
    (HEAD[:3] + [4294967295, 0, 0], 19, None,
     "it ends before its counts do: 4294967295 masks ask for at least 4294967301 words, and it has 6"),
    (HEAD + [1, 0, 0], 19, None, "it ends before its counts do: 3 masks and as many positions ask for at least 15 words, and it has 10"),
    (HEAD + [0, 1431655766, 1, 7], 19, None, "3 masks, 0 positions and 1431655766 triples ask for 4294967307 words, and it has 11"),
    (HEAD + [0, 200] + [1, 7, 5] * 200, 21, None,
     "its head, 3 masks, 0 positions and 200 triples make 204 records, and a report has at most 128"),
]


class Answers(unittest.TestCase):
    """What the library makes of flat reports, and the tool's words for it."""

    def setUp(self):
        self.library = Library(support.library(), SETTINGS)

    def test_refusals(self):
        for found, number, index, why in REFUSED:
            reading = as_flat(words.to_bytes(found), SETTINGS, self.library)
            self.assertEqual((reading.differs, reading.words), ("", None), found)
            self.assertEqual((reading.refused.number, reading.refused.index), (number, index), found)
            self.assertTrue(reading.refused.why.endswith(why), reading.refused.why)
        self.assertEqual(Counter(number for _, number, *_ in REFUSED).keys(), {19, 20, 21, 6, 7, 16, 17, 10, 11})

    def test_part_words(self):
        reading = as_flat(words.to_bytes(GOOD) + b"ab", SETTINGS, self.library)
        self.assertEqual((reading.differs, str(reading.refused)), ("", "number 19: 50 bytes are no whole words"))

    def test_accepted(self):
        ended = HEAD + [1, 0, 0, 7, 5, 0, 0, 1, 1, 7, 5]
        for found, message in (
            (GOOD, OURS),
            (ended, OURS[:15] + [4, 512, 0, 0, 5, 513, 7, 5, 6, 514, 0, 0, 7, 769, 7, 5, 0]),
        ):
            reading = as_flat(words.to_bytes(found), SETTINGS, self.library)
            self.assertEqual((reading.differs, reading.words), ("", message))
            back = as_ours(words.to_bytes(message + [0] * (512 - len(message))), SETTINGS, self.library)
            self.assertEqual((back.differs, back.words), ("", found))

    def test_the_greatest(self):
        one = decode.settings_from([1, 1, 1, 1, 0, 1])
        library = Library(support.library(), one)
        for count, last, number in ((126, 1, None), (127, 1, 21), (200, 1, 21), (126, 0, 20), (127, 0, 20), (200, 0, 20)):
            reading = as_flat(words.to_bytes(runs(count, last)), one, library)
            self.assertEqual((reading.differs, reading.refused and reading.refused.number), ("", number), count)

    def test_places(self):
        """Record i is word 3 + i for a mask, 3 + S + 2(i - S) for a position, and 6 + S + 2T + 3(i - S - T - 1) for a triple."""
        for shards, ended, count in ((1, 0, 3), (3, 1, 4), (16, 1, 20), (5, 0, 0)):
            found = [0, 7, 1, shards] + [1] * shards + [ended] + [1] * 2 * shards * ended + [count] + [1] * 3 * count
            places, positions = flat.flat_from(found).places, shards * ended
            self.assertEqual(len(places), shards + positions + count)
            for index, place in enumerate(places, 1):
                word = 3 + index
                if index > shards:
                    word = 3 + shards + 2 * (index - shards)
                if index > shards + positions:
                    word = 6 + shards + 2 * positions + 3 * (index - shards - positions - 1)
                self.assertEqual(place.first, word)

    def test_leaving_out(self):
        """Triples keep the numbers and words that they have in the file."""
        reading = as_flat(words.to_bytes(EMPTY), SETTINGS, self.library, drop=True)
        self.assertEqual([place.number for place in reading.dropped], [1, 3])
        self.assertEqual((reading.differs, reading.words), ("", OURS[:18] + [3, 0]))
        reading = as_flat(words.to_bytes(HEAD + [0, 3, 1, 7, 0, 1, 7, 1, 0, 7, 1]), SETTINGS, self.library, drop=True)
        self.assertEqual((reading.differs, reading.refused.index, [place.number for place in reading.refused.places]), ("", 5, [2, 3]))
        self.assertIn("triple 3 of 3 (words 15 to 17: 0 7 1) comes after triple 2 of 3 (words 12 to 14: 1 7 1)", reading.refused.why)
        self.assertEqual(as_flat(words.to_bytes(GOOD), SETTINGS, self.library, drop=True).dropped, ())


class Agreement(unittest.TestCase):
    def test_random_files(self):
        """The tool's own counting comes to what the library answers, for files of both forms, whole and damaged; and what is accepted
        comes back."""
        seen = Counter()
        for seed in range(300):
            source = random.Random(seed)
            settings, *reports = world(source)
            known = decode.settings_from(settings)
            library = Library(support.library(), known)
            for block in reports:
                found = flat.flat_words(decode.report_from(block, known))
                if seed % 3:
                    found, block = self.harmed(source, settings, found), self.harmed(source, settings, block)
                for read_as, turned in ((as_flat, found), (as_ours, block)):
                    reading = read_as(words.to_bytes(turned), known, library)
                    self.assertEqual(reading.differs, "", turned)
                    seen[reading.form, reading.refused.number if reading.refused else 0] += 1
                    if reading.words and read_as is as_flat:
                        self.assertEqual(library.to_flat(words.to_bytes(reading.words)), found)
                    elif reading.words:
                        self.assertEqual(library.from_flat(words.to_bytes(reading.words)), encode.report_words(decode.report_from(block, known)))
        self.assertEqual({number for form, number in seen if form == "flat"}, {0, 19, 20, 6, 7, 16, 17, 10, 11}, seen)
        self.assertEqual({number for form, number in seen if form == "ours"}, {0, *range(5, 12), 16, 17}, seen)

    def harmed(self, source, settings, block):
        """One word is another, or the block is damaged as those of messages are."""
        if source.random() < 0.5:
            return damaged(source, [settings, block])[1]
        place = source.randrange(len(block))
        return block[:place] + [source.choice([0, 1, 2, 3, 7, 8, 255, 256, 2**31, block[place] ^ 1, block[place] + 1])] + block[place + 1 :]


class Converting(Folder):
    def setUp(self):
        super().setUp()
        os.mkdir(self.path("in"))
        self.put("in/settings.bin", words.to_bytes(support.CASE_A[0]))

    def block(self, name, found):
        return self.put(os.path.join("in", name), words.to_bytes(found))

    def convert(self, *more, into="out"):
        """Exit status and lines."""
        status, text, told = command("convert", self.path("in"), "-o", self.path(into), "--library", support.library(), *more)
        self.assertEqual(told, "")
        return status, text.decode().splitlines()

    def words_in(self, *names):
        return words.from_bytes(read(self.path(*names)))

    def everything(self, name):
        """The files of a folder with their bytes."""
        found = {}
        for place, _, names in os.walk(self.path(name)):
            for one in names:
                found[os.path.relpath(os.path.join(place, one), self.path(name))] = read(os.path.join(place, one))
        return found


class Convert(Converting):
    def test_the_examples(self):
        """The example's files are what they are said to be."""
        folder = os.path.join(support.ROOT, "examples", "flat")
        found = {name: words.from_bytes(read(os.path.join(folder, name))) for name in os.listdir(folder) if name.endswith(".bin")}
        self.assertEqual(found, {"1-machine-0.bin": support.CASE_A[1], "1-machine-1.bin": GOOD,
                                 "1-machine-4.bin": [4] + HEAD[1:] + [0, 2, 1, 6, 0, 1, 7, 4], "1-machine-5.bin": [5] + HEAD[1:] + [0, 1, 300, 7, 5]})
        self.assertEqual(support.text_of("flat/settings.txt").splitlines(), support.example("a").split("\n\n")[1].splitlines())

    def test_a_folder(self):
        for name, found in (("a.bin", GOOD), ("b.bin", OURS), ("c.bin", EMPTY), ("d", [4] + GOOD[1:])):
            self.block(name, found)
        self.put("in/notes.txt", b"hello\n")
        self.put("in/.hidden.bin", b"x")
        before = self.everything("in")
        status, lines = self.convert()
        self.assertEqual((status, lines[:5], lines[-1]), (2, [
            "a.bin: converted, machine 1 in view 7, 12 words flat, 20 ours.",
            "b.bin: ours already, copied as it is.",
            "c.bin: refused as a flat report with number 20: triple 1 of 3 (words 9 to 11: 1 6 0) and triple 3 of 3 (words 15 to 17: 2 7 0)"
            " have count 0.",
            "d: converted, machine 4 in view 7, 12 words flat, 20 ours.",
            "notes.txt: a text, left alone.",
        ], "5 files: 2 converted, 1 ours already, 1 left alone, 1 refused."))
        self.assertEqual(len(lines), 7)
        self.assertTrue(lines[5].startswith("To do about number 20 (1 file): A triple of count 0 names no update, so leaving it out loses nothing"))
        self.assertEqual(self.everything("in"), before)
        self.assertEqual(sorted(os.listdir(self.path("out"))), ["a.bin", "b.bin", "d.bin", "settings.bin"])
        self.assertEqual([self.words_in("out", name) for name in ("a.bin", "b.bin", "d.bin")], [OURS, OURS, [4] + OURS[1:]])

    def test_leaving_out_when_asked(self):
        self.block("c.bin", EMPTY)
        self.assertEqual(self.convert()[0], 2)
        self.assertEqual(os.listdir(self.path("out")), ["settings.bin"])
        status, lines = self.convert("--drop-empty")
        self.assertEqual((status, lines), (0, [
            "c.bin: converted, machine 1 in view 7, 18 words flat, 20 ours; left out: triple 1 of 3 (words 9 to 11: 1 6 0) and triple 3 of 3"
            " (words 15 to 17: 2 7 0).", "1 file: 1 converted."]))
        self.assertEqual(self.words_in("out", "c.bin"), OURS[:18] + [3, 0])

    def test_what_is_made_is_taken(self):
        """join and watch take the folder as it is, and the plan is that of the reports of ours."""
        for number, block in enumerate(support.CASE_A[1:]):
            self.block("1-machine-%d.bin" % number, flat.flat_words(decode.report_from(block, SETTINGS)))
        self.assertEqual(self.convert()[0], 0)
        reports = [self.path("out", "1-machine-%d.bin" % node) for node in range(6)]
        self.assertEqual(command("join", self.path("out", "settings.bin"), *reports), (0, support.bytes_a(), ""))
        lines, status = look(files_in(self.path("out")), Program(support.program()), lambda given: (frozenset(), frozenset(), []), None)
        self.assertEqual((status, lines[0]), (0, "Plan: new view 8 after view 7, 2 moves."))

    def test_times_are_kept(self):
        """watch takes reports in the order in which they were written."""
        for name, seconds in (("a.bin", 2000), ("b.bin", 1000)):
            os.utime(self.block(name, GOOD), (seconds, seconds))
        self.convert()
        self.assertEqual([os.path.basename(path) for path, *_ in files_in(self.path("out"))], ["settings.bin", "b.bin", "a.bin"])

    def test_back(self):
        gaps = OURS[:3] + [2, 9, 9, 9, 9, 256, 5, 0, 3, 257, 82, 0, 5, 7, 7, 7, 7, 258, 32, 0, 6, 769, 7, 5, 0]
        for name, found in (("a.bin", OURS), ("b.bin", gaps), ("c.bin", GOOD), ("d.bin", OURS[:12]), ("e.bin", OURS[:16] + [770, 8, 5, 0])):
            self.block(name, found)
        status, lines = self.convert("--back")
        self.assertEqual((status, lines[:3]), (2, [
            "a.bin: converted, machine 1 in view 7, 20 words ours, 12 flat.",
            "b.bin: converted, machine 1 in view 7, 28 words ours, 12 flat; 8 words off the chain, which carry nothing, left out.",
            "c.bin: flat already, copied as it is.",
        ]))
        self.assertTrue(lines[3].startswith("d.bin: refused, neither a flat report (number 19: its termination word (word 5) is 5"), lines[3])
        self.assertIn("nor one of ours (number 8 at record 2: record 2 (words 257 82 0 3) names 3 as the next record", lines[3])
        self.assertEqual(lines[4], "e.bin: refused as one of ours with number 11 at record 4: record 4 (words 770 8 5 0), the run of shard 2, is of view 8,"
                                   " at most 7 is allowed.")
        self.assertTrue(lines[5].startswith("To do about number 8 (1 file): The report's end is missing"))
        self.assertEqual([self.words_in("out", name) for name in ("a.bin", "b.bin", "c.bin")], [GOOD] * 3)

    def test_there_and_back(self):
        for number, block in enumerate(support.CASE_A[1:]):
            self.block("%d.bin" % number, flat.flat_words(decode.report_from(block, SETTINGS)))
        self.assertEqual(self.convert()[0], 0)
        done = command("convert", self.path("out"), "-o", self.path("again"), "--back", "--library", support.library())
        self.assertEqual((done[0], self.everything("again")), (0, self.everything("in")))

    def test_a_folder_reports(self):
        os.mkdir(self.path("in", "reports"))
        self.block("reports/a.bin", GOOD)
        self.block("beside.bin", GOOD)
        self.assertEqual(self.convert()[0], 0)
        self.assertEqual(set(self.everything("out")), {"settings.bin", "reports/a.bin"})

    def test_into_a_folder_reports(self):
        """The folder may be converted into its own folder reports, which watch then takes."""
        self.block("a.bin", GOOD)
        self.assertEqual(self.convert(into="in/reports")[0], 0)
        self.assertEqual([os.path.relpath(path, self.path("in")) for path, *_ in files_in(self.path("in"))], ["settings.bin", "reports/a.bin"])
        self.assertEqual(command("convert", self.path("in"), "-o", self.path("in", "reports"), "--library", support.library())[0], 3)


class Overwriting(Converting):
    def test_an_output_that_is_there(self):
        self.block("a.bin", GOOD)
        self.block("b.bin", GOOD)
        os.mkdir(self.path("out"))
        self.put("out/a.bin", b"mine")
        status, lines = self.convert()
        self.assertEqual((status, lines), (3, [
            "a.bin: %s is there already, and is not overwritten." % self.path("out", "a.bin"),
            "b.bin: converted, machine 1 in view 7, 12 words flat, 20 ours.", "2 files: 1 converted, 1 failed."]))
        self.assertEqual(self.everything("out")["a.bin"], b"mine")
        before = self.everything("out")
        self.assertEqual((self.convert()[0], self.everything("out")), (3, before))

    def test_a_link_that_leads_nowhere(self):
        self.block("a.bin", GOOD)
        os.mkdir(self.path("out"))
        os.symlink(self.path("else"), self.path("out", "a.bin"))
        self.assertEqual((self.convert()[0], os.path.exists(self.path("else"))), (3, False))

    def test_two_files_of_one_name(self):
        self.block("a", GOOD)
        self.block("a.bin", [4] + GOOD[1:])
        status, lines = self.convert()
        self.assertEqual((status, self.words_in("out", "a.bin")), (3, OURS))
        self.assertIn("is there already", lines[1])

    def test_the_folder_itself(self):
        self.block("a", GOOD)
        before = self.everything("in")
        for into in ("in", "link"):
            if into == "link":
                os.symlink(self.path("in"), self.path("link"))
            status, _, told = command("convert", self.path("in"), "-o", self.path(into), "--library", support.library())
            self.assertEqual(status, 3)
            self.assertIn("%s would be read and written" % self.path(into), told)
            self.assertIn("would be read and written, and nothing is overwritten; give -o another folder", told)
        self.assertEqual(self.everything("in"), before)

    def test_other_settings_in_the_output(self):
        self.block("a.bin", GOOD)
        os.mkdir(self.path("out"))
        self.put("out/settings.txt", support.example("a").replace("least group size 4", "least group size 5").encode())
        before = self.everything("out")
        status, _, told = command("convert", self.path("in"), "-o", self.path("out"), "--library", support.library())
        self.assertEqual((status, self.everything("out")), (3, before))
        self.assertIn("has other settings than %s, and is not overwritten" % self.path("in", "settings.bin"), told)
        self.put("out/settings.txt", support.example("a").encode())
        self.assertEqual((self.convert()[0], set(self.everything("out"))), (0, {"settings.txt", "a.bin"}))

    def test_a_disk_that_is_full(self):
        """A file that could not be written whole is not left behind."""
        self.block("a.bin", GOOD)
        with mock.patch("restart_text.files.os.utime", side_effect=[None, OSError(28, "No space left on device")]):
            status, lines = self.convert()
        self.assertEqual((status, set(self.everything("out"))), (3, {"settings.bin"}))
        self.assertEqual(lines[0], "a.bin: cannot write %s: No space left on device." % self.path("out", "a.bin"))


class Telling(Converting):
    def test_both(self):
        """A file that is a flat report and one of ours is not converted unless it is said which it is."""
        os.remove(self.path("in", "settings.bin"))
        self.put("in/settings.bin", words.to_bytes(LONE))
        self.block("a.bin", BOTH)
        status, lines = self.convert()
        self.assertEqual((status, lines), (2, [
            "a.bin: a flat report as well as one of ours, not converted; --as flat or --as ours says which it is.", "1 file: 1 not told apart."]))
        self.assertEqual(set(self.everything("out")), {"settings.bin"})
        self.assertEqual(self.convert("--as", "flat", into="flat")[0], 0)
        self.assertEqual(self.words_in("flat", "a.bin"), [0, 7, 257, 1, 256, 256, 0, 2, 512, 0, 0, 3, 768, 7, 5, 0])
        status, lines = self.convert("--as", "ours", "--back", into="ours")
        self.assertEqual((status, self.words_in("ours", "a.bin")), (0, [0, 7, 257, 1, 1, 0, 0]))
        self.assertEqual(self.convert("--as", "ours", into="same")[1][0], "a.bin: ours already, copied as it is.")

    def test_neither(self):
        self.block("a.bin", [1, 2, 3])
        self.put("in/b.bin", b"")
        self.put("in/c.bin", b"\0\1\2")
        status, lines = self.convert()
        self.assertEqual((status, lines[0]), (2, "a.bin: refused, neither a flat report (number 19: it ends before its counts do: a flat report has"
                                                 " at least 6 words, and it has 3 words) nor one of ours (number 5: the message has 3 words, allowed"
                                                 " are 4 to 512 in steps of 4)."))
        self.assertEqual(lines[-1], "3 files: 3 refused.")

    def test_as(self):
        self.block("a.bin", OURS)
        status, lines = self.convert("--as", "flat")
        self.assertEqual((status, lines[0]), (2, "a.bin: refused as a flat report with number 19: its termination word (word 5) is 5, and 0 or 1 was"
                                                 " expected there."))

    def test_a_library_that_answers_something_else(self):
        """Nothing is written where the tool's own counting comes to something else."""
        class Wrong:
            def __init__(self, flat_answer, message_answer):
                self.answers = flat_answer, message_answer

            def from_flat(self, _):
                return self.answers[0]

            def to_flat(self, _):
                return self.answers[1]

        self.block("a.bin", GOOD)
        self.block("b.bin", HEAD + [0, 1, 300, 7, 5])
        os.mkdir(self.path("out"))
        for name, library, said in (
            ("a.bin", Wrong([4] + OURS[1:], Number(5)), "the library gives the words 4 7 127"),
            ("a.bin", Wrong(Number(19), Number(5)), "the library gives number 19, this tool's own counting the words 1 7 127"),
            ("b.bin", Wrong(Number(16, 3), Number(5)), "the library gives number 16 3, this tool's own counting number 16 4: triple 1 of 1"),
            ("b.bin", Wrong(Number(16, 4), Number(7)), "the library gives number 7, this tool's own counting number 8 0"),
        ):
            outcome = Conversion(self.path("in"), self.path("out"), SETTINGS, library).convert(name)
            self.assertEqual((outcome.happened, outcome.status), ("failed", 3), name)
            self.assertTrue(outcome.line.startswith("WARNING: " + said), outcome.line)
        self.assertEqual(os.listdir(self.path("out")), [])


class Around(Converting):
    def test_settings(self):
        self.block("a.bin", GOOD)
        os.remove(self.path("in", "settings.bin"))
        done = command("convert", self.path("in"), "-o", self.path("out"), "--library", support.library())
        self.assertEqual(done, (3, b"", "restart-text: there is no settings.txt or settings.bin in %s; give --settings FILE\n" % self.path("in")))
        text = support.example("a").replace("node 1 set 0", "node 1 set 0 name rack1-b")
        for given, name in ((text.encode(), "settings.txt"), (support.bytes_a(), "settings.bin")):
            status, lines = self.convert("--settings", self.put("given", given), into=name)
            self.assertEqual((status, set(os.listdir(self.path(name)))), (0, {"a.bin", name}))
            self.assertIn("machine rack1-b" if name == "settings.txt" else "machine 1", lines[0])
            self.assertEqual(len(command("join", self.path(name, name))[1]), 60)

    def test_no_folder(self):
        self.block("a.bin", GOOD)
        for arguments, message in (
            ([self.path("in", "a.bin"), "-o", self.path("out")], "%s is no folder" % self.path("in", "a.bin")),
            ([self.path("none"), "-o", self.path("out")], "%s is no folder" % self.path("none")),
            ([self.path("in"), "-o", self.path("in", "a.bin")], "cannot make %s: File exists" % self.path("in", "a.bin")),
            ([self.path("in"), "-o", self.path("out"), "--settings", "-"], "--settings takes a file"),
        ):
            done = command("convert", *arguments, "--library", support.library())
            self.assertEqual(done, (3, b"", "restart-text: %s\n" % message))
        os.remove(self.path("in", "a.bin"))
        done = command("convert", self.path("in"), "-o", self.path("out"), "--library", support.library())
        self.assertEqual(done, (3, b"", "restart-text: there is nothing to convert in %s\n" % self.path("in")))
        self.assertEqual(command("convert", self.path("in"))[0], 3)
        self.assertEqual(command("convert", self.path("in"), "-o", "x", "--back", "--drop-empty")[0], 3)

    def test_odd_names(self):
        self.block("a\nb.bin", GOOD)
        self.block(os.fsdecode(b"\xff.bin"), GOOD)
        status, lines = self.convert()
        self.assertEqual((status, [line.split(":")[0] for line in lines[:2]]), (0, ["a?b.bin", "?.bin"]))
        self.assertEqual(len(os.listdir(self.path("out"))), 3)

    def value(self, *more, into="out"):
        """The exit status and what is written as JSON, which fits the schema."""
        status, lines = self.convert("--json", *more, into=into)
        value = json.loads("\n".join(lines))
        self.assertEqual(faults(value, SCHEMA, root=SCHEMA), [])
        return status, value

    def test_json(self):
        for name, found in (("a.bin", GOOD), ("b.bin", OURS), ("c.bin", EMPTY), ("d.bin", HEAD + [0, 2, 1, 7, 1, 0, 7, 1]), ("e.bin", [1])):
            self.block(name, found)
        self.put("in/f.bin", b"text")
        for more, target, happened in (
            ([], "ours", ["converted", "kept", "refused"]),
            (["--drop-empty"], "ours", ["converted", "kept", "converted"]),
            (["--back"], "flat", ["kept", "converted", "refused"]),
        ):
            status, value = self.value(*more, into="out" + "".join(more))
            self.assertEqual((status, value["target"]), (2, target))
            self.assertEqual([one["happened"] for one in value["files"]], happened + ["refused", "refused", "text"])
            refusal = value["files"][3]["readings"][0]["refusal"]
            self.assertEqual((refusal["number"], refusal["record"]), (17, 5))
            self.assertEqual([(place["number"], place["word"]) for place in refusal["places"]], [(1, 9), (2, 12)])
        status, value = self.value()
        self.assertEqual((status, [one["happened"] for one in value["files"][:2]], value["files"][0]["output"]), (3, ["failed"] * 2, None))

    def test_json_of_both(self):
        self.block("a.bin", BOTH)
        _, value = self.value("--settings", self.put("lone", words.to_bytes(LONE)))
        self.assertEqual((value["files"][0]["happened"], [one["words"] for one in value["files"][0]["readings"]]), ("both", [16, 7]))

    def test_the_schema_finds_wrong_values(self):
        self.block("a.bin", HEAD + [0, 1, 300, 7, 5])
        _, good = self.value()
        for change in (
            lambda value: value.update(target="theirs"),
            lambda value: value["files"][0].update(happened="lost"),
            lambda value: value["files"][0].pop("to_do"),
            lambda value: value["files"][0]["readings"][0]["refusal"].update(record="4"),
            lambda value: value["files"][0]["readings"][0]["refusal"]["places"][0].update(part="run"),
        ):
            value = json.loads(json.dumps(good))
            change(value)
            self.assertNotEqual(faults(value, SCHEMA, root=SCHEMA), [])

    def test_every_definition_of_the_schema_is_used(self):
        for name in SCHEMA["$defs"]:
            self.assertIn("#/$defs/%s\"" % name, json.dumps(SCHEMA))

    def test_progress(self):
        """On a terminal only, from half a second on, and wiped in the end."""
        class Terminal(io.StringIO):
            def isatty(self):
                return True

        shown, wiped = "\r%d of 9 files\x1b[K", "\r\x1b[K"
        for stream, among, expected in (
            (Terminal(), False, shown % 2 + shown % 4 + wiped),
            (Terminal(), True, shown % 2 + wiped + shown % 3 + wiped + shown % 4 + wiped),
            (io.StringIO(), True, ""),
        ):
            with mock.patch("restart_text.commands.convert.time.monotonic") as clock:
                clock.return_value = 10.0
                progress = Progress(stream, 9, among)
                for done, now in ((1, 10.4), (2, 10.6), (3, 10.65), (4, 10.8)):
                    clock.return_value = now
                    progress.make_room()
                    progress.show(done)
                progress.wipe()
                progress.wipe()
            self.assertEqual(stream.getvalue(), expected)

    def test_interrupted(self):
        for name in "ab":
            self.block(name, GOOD)
        real = Conversion.convert
        with mock.patch.object(Conversion, "convert", autospec=True, side_effect=lambda folder, name: self.stop(name) or real(folder, name)):
            status, text, told = command("convert", self.path("in"), "-o", self.path("out"), "--library", support.library())
        self.assertEqual((status, text.decode().splitlines()), (3, ["a: converted, machine 1 in view 7, 12 words flat, 20 ours."]))
        self.assertEqual(told, "restart-text: interrupted after 1 of 2 files\n")

    def stop(self, name):
        if name == "b":
            raise KeyboardInterrupt


class Libraries(test_command.Programs):
    """Which library is asked where none is named."""

    def convert(self, tool, *more, into="out"):
        examples, output = os.path.join(support.ROOT, "examples", "flat"), os.path.join(self.folder, into)
        done = subprocess.run([sys.executable, tool, "convert", examples, "-o", output, *more], capture_output=True, check=False, cwd="/",
                              env={"PATH": "/no-such-folder"}, text=True)
        return done.returncode, (done.stdout or done.stderr).splitlines()

    def place(self, *names):
        path = os.path.join(self.folder, *names)
        os.makedirs(os.path.dirname(path), exist_ok=True)
        shutil.copy(support.library(), path)

    def test_installed(self):
        tool = self.installed()
        self.place("lib", "librestart.so.1")
        status, lines = self.convert(tool, "--drop-empty")
        self.assertEqual((status, lines[-1]), (2, "4 files: 2 converted, 1 ours already, 1 refused."))
        for schema in ("explain.schema.json", "convert.schema.json"):
            self.assertTrue(os.path.exists(os.path.join(self.folder, "share", "restart", schema)))

    def test_in_a_checkout(self):
        for name in ("operators/restart-text", "operators/restart_text", "crates.txt"):
            os.makedirs(os.path.join(self.folder, os.path.dirname(name)), exist_ok=True)
            copy = shutil.copytree if os.path.isdir(os.path.join(support.ROOT, name)) else shutil.copy
            copy(os.path.join(support.ROOT, name), os.path.join(self.folder, name))
        self.place("target", "librestart.so.1")
        self.assertEqual(self.convert(os.path.join(self.folder, "operators", "restart-text"))[0], 2)

    def test_none(self):
        for path, said in (
            ("/no-such-library.so", "cannot load the library: /no-such-library.so: cannot open shared object file"),
            (os.path.join(support.ROOT, "crates.txt"), "cannot load the library: "),
            ("libc.so.6", "the library libc.so.6 has no restart_from_flat, so it is of a release that does not convert flat reports"),
        ):
            status, lines = self.convert(support.COMMAND, "--library", path)
            self.assertEqual((status, len(lines)), (3, 1))
            self.assertTrue(lines[0].startswith("restart-text: " + said), lines[0])
        self.assertFalse(os.path.exists(os.path.join(self.folder, "out")))


class Hints(Folder):
    """The other commands say of a flat report what it is."""

    SAID = "looks like a flat report of the former seller: restart-text convert FOLDER turns a folder of such files into ours"

    def test_join(self):
        settings, flat_file = self.put("settings.bin", words.to_bytes(support.CASE_A[0])), self.put("a.bin", words.to_bytes(GOOD + [1]))
        self.assertNotIn("flat", command("join", settings, flat_file)[2])
        for found in (GOOD, HEAD + [0, 0], EMPTY):
            status, _, told = command("join", settings, self.put("a.bin", words.to_bytes(found)))
            self.assertEqual(status, 2)
            self.assertTrue(told.endswith("; it %s\n" % self.SAID), told)
            self.assertTrue(command("join", self.path("a.bin"), settings)[2].endswith("; it %s\n" % self.SAID))

    def test_explain(self):
        """As a block of an input, and alone in a file."""
        self.assertEqual(command("explain", "-", data=words.to_bytes(GOOD)),
                         (2, b"", "restart-text: standard input is no input; it %s\n" % self.SAID))
        for data, flat_one in (
            (words.joined([support.CASE_A[0], GOOD]), True),
            (words.joined([support.CASE_A[0], GOOD[:-1]]), False),
            (words.joined([support.CASE_A[0], [1, 7, 127, 0]]), False),
        ):
            status, text, _ = command("explain", "-", "--program", support.program(), data=data)
            self.assertEqual((status, ("To do: This %s." % self.SAID) in text.decode().splitlines()), (2, flat_one))

    def test_watch(self):
        self.split()
        self.put("reports/2-machine-1.bin", words.to_bytes(GOOD))
        lines, status = look(files_in(self.folder), Program(support.program()), lambda given: (frozenset(), frozenset(), []), None)
        self.assertEqual((status, lines[-1]), (2, "To do: This %s." % self.SAID))
        self.assertTrue(any(line.startswith("At fault: report 7 of 7, which names machine 1 (%s" % self.path("reports")) for line in lines))

    def test_text(self):
        status, _, told = command("text", "--as", "report", "-", data=words.to_bytes(GOOD))
        self.assertEqual((status, told.endswith("; it %s\n" % self.SAID)), (2, True))
