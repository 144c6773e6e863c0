"""The page for a publisher: the worlds of the specification, files that do not change with other subgroups, wrong inputs, other phases,
JSON and HTML."""
import copy
import json
import os
import random
import tempfile
import unittest
from dataclasses import replace

import support
from restart_text import decode, encode, words
from restart_text.answers import Number
from restart_text.library import Restart
from restart_text.model import View
from restart_text.publishing import html, lines, published
from support import command
from test_json import faults
from test_page import Reader
from worlds import runs, world

with open(os.path.join(support.ROOT, "operators", "schemas", "publisher.schema.json"), encoding="utf-8") as file:
    SCHEMA = json.load(file)
MASKS_A = [5, 82, 32]
RUNS_A = {1: [(1, 7, 5)], 4: [(1, 7, 4)]}


def report(node, view=7, members=127, masks=MASKS_A, positions=(), runs=()):
    """A report's words: positions as (view, k) for each shard, runs as (shard, view, count)."""
    records = [(node, view, members)] + [(256 + shard, mask, 0) for shard, mask in enumerate(masks)]
    records += [(512 + shard, *position) for shard, position in enumerate(positions)]
    return encode.records_words(records + [(768 + shard, number, count) for shard, number, count in runs])


def settings_a(shards=(2, 3, 1), least=4):
    return [7, 3, least, 3, 0, 0, 1, 1, 1, 2, 2, *shards]


def reports_a(nodes):
    return [report(node, runs=RUNS_A.get(node, ())) for node in nodes]


def asked(blocks, subgroup):
    """The words of the page that the library gives the subgroup's watcher."""
    restart = Restart(support.library(), blocks[0])
    for block in blocks[1:]:
        assert restart.report(block) is None
    return restart.page(subgroup)


def page_words(head, holders=(), targets=(), masks=()):
    found = [0] * 72
    for place, given in ((0, head), (8, holders), (24, targets), (56, masks)):
        found[place : place + len(given)] = given
    return found


# Each world with a subgroup, the page's words, and its first line.
WORLDS = [
    ([settings_a(), *reports_a(range(6))], 0, page_words([0, 7, 7, 7, 1, 2], [0, 1, 5], [0, 0, 7, 5], [5, 50, 8]),
     "Subgroup 0 is ready: every log is there, and its shards are placed with 2 moves."),
    ([settings_a(), *reports_a(range(6))], 1, page_words([0, 7, 0, 0, 1]), "Subgroup 1 has no shards."),
    ([settings_a(), *reports_a(range(5))], 0, page_words([0, 7, 7, 3], [0, 1], [0, 0, 7, 5]),
     "Subgroup 0 is not ready: no machine that is back has the log of shard 2; the machines that are back cannot be laid out in its shards."),
    ([settings_a(), *reports_a([0, 1, 4])], 0, page_words([0, 7, 7, 3], [0, 1], [0, 0, 7, 5]),
     "Subgroup 0 is not ready: no machine that is back has the log of shard 2; the machines that are back cannot be laid out in its shards."),
    ([settings_a((3, 3, 1)), *reports_a(range(6))], 0, page_words([0, 7, 7, 7], [0, 1, 5], [0, 0, 7, 5]),
     "Subgroup 0 is not ready: the machines that are back cannot be laid out in its shards."),
    ([settings_a((2, 4 * 65536 + 2, 1)), *reports_a(range(6))], 0,
     page_words([0, 7, 7, 7, 1, 0], [0, 1, 5], [0, 0, 7, 5], [5, 18, 32]),
     "Subgroup 0 is ready: every log is there, and its shards are placed with 0 moves."),
    ([settings_a()], 0, page_words([0, 0, 7]), "Subgroup 0: no machine has reported yet."),
    ([settings_a()], 2, page_words([0, 0, 0, 0, 1]), "Subgroup 2 has no shards."),
    ([settings_a((770, 3, 769)), *(report(node) for node in (0, 2, 3, 4))], 3,
     page_words([0, 7, 5, 1, 1, 1], masks=[5, 0, 8]), "Subgroup 3 is not ready: no machine that is back has the log of shard 2."),
    ([settings_a((770, 3, 769), 7), *(report(node) for node in (0, 2, 3, 4))], 3,
     page_words([0, 7, 5, 1, 1, 1], masks=[5, 0, 8]), "Subgroup 3 is not ready: no machine that is back has the log of shard 2."),
    ([settings_a((770, 3, 769)), *(report(node) for node in (0, 2, 3, 4))], 0, page_words([0, 7, 2, 2], [0, 4]),
     "Subgroup 0 is not ready: the machines that are back cannot be laid out in its shards."),
    ([settings_a(), report(0, positions=[(7, 4), (0, 0), (0, 0)]), report(2)], 0, page_words([0, 7, 7]),
     "Subgroup 0 is not ready: no machine that is back has the log of shards 0, 1 and 2; the machines that are back cannot be laid out in its"
     " shards."),
    ([settings_a(), report(1, view=6, runs=[(1, 6, 9)]), report(4, runs=[(1, 6, 8)])], 0,
     page_words([0, 7, 7, 2], [0, 4], [0, 0, 6, 8]),
     "Subgroup 0 is not ready: no machine that is back has the log of shards 0 and 2; the machines that are back cannot be laid out in its"
     " shards."),
]

# Two worlds that agree on subgroup 0: the first plans, the second waits for its least size.
PAIR = [
    [[3, 2, 1, 2, 0, 1, 1, 1, 257], report(0, members=7, masks=[1, 2], runs=[(0, 7, 2)]),
     report(1, members=7, masks=[1, 2], runs=[(1, 7, 9)])],
    [[3, 3, 3, 3, 0, 1, 1, 1, 514, 257], report(0, members=7, masks=[1, 6, 2], runs=[(0, 7, 2), (1, 5, 1), (1, 7, 1)]),
     report(1, members=7, masks=[1, 6, 2], runs=[(2, 6, 3)])],
]


class Worlds(unittest.TestCase):
    def test_the_words_and_the_first_line(self):
        for blocks, subgroup, wanted, first in WORLDS:
            found = asked(blocks, subgroup)
            self.assertEqual((found, lines(published(found, subgroup))[0]), (wanted, first))

    def test_who_may_not(self):
        for subgroup in (4, 5, 255, 2**32 - 1):
            self.assertEqual(asked(WORLDS[0][0], subgroup), Number(15))

    def test_the_text(self):
        status, text, told = command("publisher", 0, "examples/case-a.txt", "--library", support.library())
        self.assertEqual((status, told), (0, ""))
        self.assertEqual(text.decode().splitlines()[4:8], [
            "shard  needs  log from  up to   machines", "0      2      0         (0, 0)  0 2", "1      3      1         (7, 5)  1 4 5",
            "2      1      5         (0, 0)  3"])
        self.assertIn("Up to (7, 5): update 5 of view 7 is the last that is kept of the log.", text.decode().splitlines())
        self.assertIn("Moves: 2 of these machines did not carry their shards in view 7.", text.decode().splitlines())

    def test_names_and_caps(self):
        _, text, _ = command("publisher", 2, "examples/night.txt", "--library", support.library())
        self.assertIn("6      2      rack1-b   (9, 5)  rack1-b rack2-a", text.decode().splitlines())
        self.assertIn("7      1      nobody    -       rack2-b", text.decode().splitlines())
        _, text, _ = command("publisher", 0, "examples/caps.txt", "--library", support.library())
        self.assertIn("0      2      4    0         (0, 0)  0 1 2 3", text.decode().splitlines())


class Files(unittest.TestCase):
    """What is handed to a publisher does not change with other subgroups."""

    def setUp(self):
        folder = tempfile.TemporaryDirectory()
        self.addCleanup(folder.cleanup)
        self.folder = folder.name

    def files(self, blocks, subgroup, name):
        """The text, the HTML and the JSON for a publisher, from an input of its own name."""
        path, output = os.path.join(self.folder, name), os.path.join(self.folder, "output")
        with open(path, "wb") as file:
            file.write(words.joined(blocks))
        found = []
        for options in ((), ("-o", output), ("--json", "-o", output)):
            status, text, told = command("publisher", subgroup, path, "--library", support.library(), *options)
            self.assertEqual((status, told), (0, ""))
            if options:
                self.assertEqual(text, b"")
                with open(output, "rb") as file:
                    text = file.read()
            found.append(text)
        return found

    def test_the_pair(self):
        one, other = self.files(PAIR[0], 0, "one"), self.files(PAIR[1], 0, "other")
        self.assertEqual(one, other)
        self.assertEqual(json.loads(one[2])["shards"], [{"shard": 0, "needs": 1, "cap": 1, "holder": 0,
                                                         "target": {"view": 7, "update": 2}, "machines": [0]}])
        self.assertNotEqual(self.files(PAIR[0], 1, "one"), self.files(PAIR[1], 1, "other"))

    def test_random_worlds(self):
        """Everything that is not the subgroup's is another: needs and caps, least size and sets, masks, logs, terminations."""
        same = differ = 0
        for seed in range(120):
            source = random.Random(seed)
            blocks = world(source)
            restart = Restart(support.library(), blocks[0])
            if any(restart.report(block) for block in blocks[1:]):
                continue
            settings = decode.settings_from(blocks[0])
            for subgroup in range(4):
                others = [shard for shard in range(len(settings.shards)) if settings.shards[shard].subgroup != subgroup]
                changed = others_changed(source, settings, blocks, others)
                self.assertEqual(asked(blocks, subgroup), asked(changed, subgroup), "seed %d" % seed)
                if seed < 12:
                    self.assertEqual(self.files(blocks, subgroup, "one"), self.files(changed, subgroup, "other"), "seed %d" % seed)
                same += 1
                differ += any(asked(blocks, other) != asked(changed, other) for other in range(4))
        self.assertGreater(same, 200)
        self.assertGreater(differ, 100)


def others_changed(source, settings, blocks, others):
    """The input with all else than one subgroup changed: `others` are the shards of the others."""
    sets = min(16, settings.failure_sets + 1)
    shards = [replace(shard, needs=source.randint(1, sets), given_cap=0) if number in others else shard
              for number, shard in enumerate(settings.shards)]
    made = replace(settings, failure_sets=sets, least=source.randint(1, len(settings.set_of)), shards=tuple(shards))
    found, views = [encode.settings_words(made)], {}
    for block in blocks[1:]:
        given = decode.report_from(block, settings)
        view = given.view.number
        if view not in views:
            views[view] = other_masks(source, settings, given.view, others), {shard: source.choice([(0, 0), (1, 9), (2, 1)])
                                                                              for shard in others}
        masks, positions = views[view]
        logs = runs(source, settings, view)
        found.append(encode.report_words(replace(
            given, view=View(view, given.view.members, masks),
            termination=tuple(positions.get(shard, at) for shard, at in enumerate(given.termination)) if given.termination else None,
            runs=tuple(logs[shard] if shard in others else log for shard, log in enumerate(given.runs)))))
    return found


def other_masks(source, settings, view, others):
    """The masks of the other subgroups change places within each."""
    masks = list(view.shards)
    for subgroup in range(4):
        mine = [shard for shard in others if settings.shards[shard].subgroup == subgroup]
        for shard, mask in zip(mine, source.sample([view.shards[shard] for shard in mine], len(mine))):
            masks[shard] = mask
    return tuple(masks)


class WrongInputs(unittest.TestCase):
    def ends(self, status, said, *arguments, data=b""):
        found, text, told = command("publisher", *arguments, "--library", support.library(), data=data)
        self.assertEqual((found, text), (status, b""))
        self.assertIn(said, told)

    def test_the_subgroup(self):
        for number in ("4", "-1", "256", "4294967296", "99999999999999999999"):
            self.ends(2, "restart-text: number 15: there is no subgroup %s; subgroups are 0 to 3" % number, number, "examples/case-a.txt")
        for text in ("x", "", "1.0", "0x1"):
            self.ends(3, "argument GROUP: invalid int value", text, "examples/case-a.txt")

    def test_the_file(self):
        self.ends(3, "cannot read /no-such-file: No such file or directory", 0, "/no-such-file")
        self.ends(2, "line 1: expected", 0, "-", data=b"hello\n")
        self.ends(2, "nothing came: standard input is empty", 0, "-")
        self.ends(2, "number 2: the settings is refused", 0, "-", data=words.joined([[0, 0, 0, 0]]))
        bad = words.joined([support.CASE_A[0], support.CASE_A[1], [2, 0, 127, 0]])
        self.ends(2, "number 7: report 2 of 2, which names machine 2 is refused, given when: view outside its limits", 0, "-", data=bad)
        bad = words.joined([support.CASE_A[0], [2, 7, 127, 0]])
        self.ends(2, "number 17 0: report 1 of 1, which names machine 2 is refused", 0, "-", data=bad)

    def test_the_output(self):
        self.ends(3, "cannot write /no-such-folder/page.html", 0, "examples/case-a.txt", "-o", "/no-such-folder/page.html")

    def test_the_library(self):
        for path, said in (("/no-such-library.so", "cannot load the library: /no-such-library.so"),
                           ("libc.so.6", "the library libc.so.6 has no restart_page, so it is of a release that does not have pages")):
            status, text, told = command("publisher", 0, "examples/case-a.txt", "--library", path)
            self.assertEqual((status, text), (3, b""))
            self.assertIn(said, told)


class OtherPhases(unittest.TestCase):
    """The words of a page that a service has read."""

    def said(self, found, *options, size=72):
        data = words.to_bytes(found + [0] * (size - len(found)))
        status, text, told = command("publisher", 0, "-", "--as", "page", *options, data=data)
        self.assertEqual((status, told), (0, ""))
        return text.decode().splitlines()

    def test_phases(self):
        for phase, first, second in (
            (1, "Subgroup 0 is planned, with 2 moves.", "Phase: ordered. A plan stands, and the machines fetch what they lack."),
            (2, "Subgroup 0 is planned, with 2 moves.",
             "Phase: preparing. All machines have fetched what they lacked, and write the new view to their disks."),
            (3, "Subgroup 0 has restarted, with 2 moves.", "Phase: committed. All machines have the new view on disk: the restart is over."),
        ):
            found = page_words([phase, 7, 7, 7, 1, 2], [0, 1, 5], [0, 0, 7, 5], [5, 50, 8])
            said = self.said(found)
            self.assertEqual(said[:3] + said[5:6], [first, second, "The view before the restart is 7.", "0      0         (0, 0)  0 2"])
            self.assertEqual(self.said(found, size=512), said)

    def test_names(self):
        found = page_words([1, 9, 1, 1, 1, 1], [11], [9, 4], [3])
        self.assertEqual(self.said(found, "--names", "examples/night.txt")[5], "0      3      rack4-c   (9, 4)  rack1-a rack1-b")

    def test_what_is_no_page(self):
        good = page_words([1, 7, 7, 7, 1, 2], [0, 1, 5], [0, 0, 7, 5], [5, 50, 8])
        for place, word, said in (
            (0, 4, "word 0, the phase, is 4, allowed are 0 to 3"), (2, 65543, "words 2 and 3, the shards and those that have a holder"),
            (3, 8, "words 2 and 3"), (4, 2, "word 4, whether there is a placement, is 2"), (4, 0, "word 5 is 2 and should be 0"),
            (6, 1, "word 6 is 1 and should be 0"), (7, 1, "word 7 is 1"), (9, 32, "word 9, a holder, is 32, allowed are 0 to 31"),
            (11, 1, "word 11 is 1"), (31, 1, "word 31 is 1"), (57, 0, "word 57, the machines of shard 1, is 0"), (59, 1, "word 59 is 1"),
            (3, 5, "word 9 is 1 and should be 0"),
        ):
            bad = list(good)
            bad[place] = word
            status, text, told = command("publisher", 0, "-", "--as", "page", data=words.to_bytes(bad))
            self.assertEqual((status, text), (2, b""), (place, word))
            self.assertIn("standard input is no page: %s" % said, told)
        for data in (words.to_bytes(good[:71]), words.to_bytes(good + [1]), words.to_bytes(good) + b"\0", b"a page of text.."):
            status, text, told = command("publisher", 0, "-", "--as", "page", data=data)
            self.assertEqual((status, text), (2, b""))
            self.assertIn("standard input is no page: a page", told)


class Json(unittest.TestCase):
    def value(self, subgroup, name):
        status, text, told = command("publisher", subgroup, "examples/" + name, "--json", "--library", support.library())
        self.assertEqual((status, told), (0, ""))
        return json.loads(text)

    def test_the_examples(self):
        for name in ("case-a.txt", "case-b.txt", "case-f.txt", "case-i.txt", "night.txt", "caps.txt"):
            for subgroup in range(4):
                self.assertEqual(faults(self.value(subgroup, name), SCHEMA, root=SCHEMA), [], name)
        value = self.value(2, "night.txt")
        self.assertEqual(value["machines"], [{"node": 1, "name": "rack1-b"}, {"node": 3, "name": "rack2-a"}, {"node": 4, "name": "rack2-b"}])
        self.assertEqual((value["ready"], value["moves"], value["shards"][1]["holder"], value["shards"][1]["target"]), (False, 2, None, None))

    def test_wrong_values_are_found(self):
        good = self.value(0, "case-a.txt")
        for change in (
            lambda value: value.update(schema=2),
            lambda value: value.update(more=1),
            lambda value: value.pop("text"),
            lambda value: value.update(subgroup=4),
            lambda value: value.update(phase="planned"),
            lambda value: value.update(ready=1),
            lambda value: value["shards"][0].update(target=7),
            lambda value: value["shards"][0].update(machines=["rack1-a"]),
            lambda value: value["machines"][0].pop("name"),
        ):
            value = copy.deepcopy(good)
            change(value)
            self.assertNotEqual(faults(value, SCHEMA, root=SCHEMA), [])

    def test_every_definition_is_used(self):
        text = json.dumps(SCHEMA)
        for name in SCHEMA["$defs"]:
            self.assertIn("#/$defs/%s\"" % name, text)


class Html(unittest.TestCase):
    def test_every_world(self):
        for blocks, subgroup, wanted, first in WORLDS:
            page = published(wanted, subgroup, ("a <b> & c",), decode.settings_from(blocks[0]).shards)
            data = html(page)
            read = Reader(data)
            self.assertEqual(read.faults, [])
            self.assertIn(first, read.text)
            self.assertEqual([cell for cell in read.cells if cell == "a <b> & c"], ["a <b> & c"] * data.count(">a &lt;b&gt; &amp; c<"))
            self.assertFalse({name for name, _ in read.attributes} & {"src", "href", "xlink:href", "srcset", "action"})
            for word in ("url(", "@import", "<script", "<link", "<iframe", "<img"):
                self.assertNotIn(word, data)

    def test_the_table_and_the_phase(self):
        read = Reader(html(published(WORLDS[0][2], 0, (), decode.settings_from(WORLDS[0][0][0]).shards)))
        self.assertEqual(read.cells[:10], ["shard", "needs", "log from", "up to", "machines", "0", "2", "0", "(0, 0)", "0 2"])
        self.assertEqual([value for name, value in read.attributes if name == "class"], ["plan", "phases", "now"])
        self.assertIn("gathering ordered preparing committed", read.text)
