"""check: settings that can be met, with all machines, with one away, with a failure set away; against placements tried one by one."""
import copy
import itertools
import json
import os
import random
import tempfile
import unittest
import xml.etree.ElementTree as Tree

import support
from restart_text import encode, words
from restart_text.asking import Program
from restart_text.checking import check, lines
from restart_text.checking_picture import picture
from restart_text.model import Settings, Shard
from restart_text.shapes import AMBER, GREEN, RED
from support import command
from test_draw import SVG, told_by
from test_json import faults

with open(os.path.join(support.ROOT, "operators", "schemas", "check.schema.json"), encoding="utf-8") as file:
    SCHEMA = json.load(file)


def checked(settings):
    return check(settings, Program(support.program()))


def random_settings(source):
    nodes, sets = source.randint(1, 6), source.randint(1, 4)
    shards = tuple(Shard(source.choice((0, 0, 1)), source.randint(1, min(sets, 3))) for _ in range(source.randint(1, 3)))
    return Settings(sets, source.randint(1, nodes), tuple(source.randrange(sets) for _ in range(nodes)), shards)


def placed(settings, shards, free):
    """Whether these shards can be given machines of their own, each from as many failure sets as it needs: all ways are tried."""
    if not shards:
        return True
    for nodes in itertools.combinations(sorted(free), settings.shards[shards[0]].needs):
        if len({settings.set_of[node] for node in nodes}) == len(nodes) and placed(settings, shards[1:], free - set(nodes)):
            return True
    return False


def can_be_met(settings, up):
    return (2 * len(up) > len(settings.nodes) and len(up) >= settings.least
            and all(placed(settings, settings.shards_of(group), set(up)) for group in range(4)))


class Met(unittest.TestCase):
    def test_random_settings(self):
        """Against every placement tried."""
        counts = {"met": 0, "not": 0, "machine": 0, "set": 0, "never": 0, "firm": 0}
        for seed in range(120):
            settings = random_settings(random.Random(seed))
            found = checked(settings)
            self.assertEqual((found.differs, found.whole.met), ([], can_be_met(settings, settings.nodes)), "seed %d" % seed)
            if found.whole.met:
                self.assertEqual(found.needed_machines, [node for node in sorted(settings.nodes) if not can_be_met(settings, settings.nodes - {node})])
                self.assertEqual(found.needed_sets, [number for number in range(settings.failure_sets) if settings.nodes_of(number)
                                                     and not can_be_met(settings, settings.nodes - settings.nodes_of(number))])
            else:
                self.assertEqual(found.never, [number for number in range(len(settings.shards)) if not placed(settings, [number], settings.nodes)])
            self.assertEqual(found.sound, found.whole.met and not found.needed_machines and not found.needed_sets and not found.copies)
            for key, here in (("met", found.whole.met), ("not", not found.whole.met), ("machine", found.needed_machines), ("set", found.needed_sets),
                              ("never", found.never), ("firm", found.sound)):
                counts[key] += bool(here)
        self.assertTrue(all(count > 1 for count in counts.values()), counts)

    def test_case_a(self):
        found = checked(Settings(3, 4, (0, 0, 1, 1, 1, 2, 2), (Shard(0, 2), Shard(0, 3), Shard(0, 1))))
        self.assertEqual((found.needed_machines, found.needed_sets, found.copies), ([], [0, 1, 2], [2]))
        self.assertEqual(lines(found)[0], "These settings can be met with all machines and with any one machine away, but not without failure set 0, 1 or 2.")

    def test_a_shard_that_can_never_be_placed(self):
        """Failure set 2 has no machine."""
        found = checked(Settings(3, 1, (0, 0, 1), (Shard(0, 1), Shard(1, 3))))
        self.assertEqual((found.whole.met, found.never, found.empty), (False, [1], [2]))
        self.assertEqual(lines(found)[:4], [
            "These settings cannot be met, even with all 3 machines.",
            "With all machines: no plan; shard 1 of subgroup 1 needs 3 machines, and the failure sets can give 2.",
            "Shard 1 can never be placed: it needs members of 3 failure sets, and 2 have a machine.", "Failure set 2 has no machine."])

    def test_shards_that_cannot_be_placed_together(self):
        found = checked(Settings(2, 1, (0, 1), (Shard(0, 2), Shard(0, 1))))
        self.assertEqual((found.whole.met, found.never), (False, []))
        self.assertIn("With all machines: no plan; shards 0 and 1 of subgroup 0 together need 3 machines, and the failure sets can give 2.", lines(found))

    def test_more_shards_than_machines(self):
        found = checked(Settings(1, 1, (0, 0), (Shard(1, 1),) * 3))
        self.assertFalse(found.whole.met)
        self.assertIn("With all machines: no plan; subgroup 1 has 3 shards and there are 2 machines: no view can give each a machine of its own.",
                      lines(found))

    def test_a_majority_and_the_least_group_size(self):
        found = checked(Settings(2, 3, (0, 0, 0, 1), (Shard(0, 1),)))
        self.assertIn("  none without failure set 0 (machines 0, 1 and 2): 1 of 4 machines are no majority of a view of all; 1 machine is fewer than the"
                      " least group size, 3", lines(found))
        found = checked(Settings(1, 1, (0,), (Shard(0, 1),)))
        self.assertIn("  none without machine 0: no machine would be left", lines(found))

    def test_firm_settings(self):
        found = checked(Settings(3, 4, (0, 0, 1, 1, 2, 2), (Shard(0, 2),)))
        self.assertTrue(found.sound)
        self.assertEqual(lines(found)[0], "These settings can be met with all machines, with any one machine away and with any one failure set away.")
        self.assertIn("Single points of failure: none.", lines(found))

    def test_a_program_that_differs(self):
        with tempfile.TemporaryDirectory() as folder:
            path = os.path.join(folder, "restart")
            with open(path, "w", encoding="ascii") as file:
                file.write("#!/bin/sh\necho wait 3\n")
            os.chmod(path, 0o755)
            status, text, _ = command("check", "examples/case-a.txt", "--program", path)
        self.assertEqual(status, 3)
        self.assertIn("with machines 0, 1, 2, 3, 4, 5 and 6 up: a plan; the program says: wait 3", text.decode())


class Shown(unittest.TestCase):
    def test_statuses_and_forms(self):
        weak = words.to_bytes(encode.settings_words(Settings(3, 1, (0, 0, 1), (Shard(0, 3),))))
        firm = words.to_bytes(encode.settings_words(Settings(3, 4, (0, 0, 1, 1, 2, 2), (Shard(0, 2),))))
        for data, status in ((firm, 0), (support.example("a").encode(), 1), (weak, 2)):
            self.assertEqual(command("check", "-", "--program", support.program(), data=data)[0], status)
            done = command("check", "-", "--json", "--program", support.program(), data=data)
            self.assertEqual((done[0], faults(json.loads(done[1]), SCHEMA, root=SCHEMA)), (status, []))
        done = command("check", "-", "--program", support.program(), data=words.to_bytes([1, 2, 3]))
        self.assertEqual((done[0], done[1]), (2, b""))
        self.assertIn("has no settings: the settings have", done[2])

    def test_a_folder(self):
        with tempfile.TemporaryDirectory() as folder:
            done = command("check", folder, "--program", support.program())
            self.assertEqual(done, (3, b"", "restart-text: there is no settings.txt or settings.bin in %s\n" % folder))
            self.assertEqual(command("split", "examples/case-a.txt", folder)[0], 0)
            self.assertEqual(command("check", folder, "--program", support.program()),
                             command("check", "examples/case-a.txt", "--program", support.program()))

    def test_wrong_values_are_found(self):
        good = json.loads(command("check", "examples/night.txt", "--json", "--program", support.program())[1])
        self.assertEqual(faults(good, SCHEMA, root=SCHEMA), [])
        for change in (lambda value: value.pop("all"), lambda value: value.update(more=1), lambda value: value["machines"][0].update(met=1),
                       lambda value: value["sets"][0].pop("machines"), lambda value: value["single_points"]["shards"].append("7"),
                       lambda value: value["all"].update(reason=6)):
            value = copy.deepcopy(good)
            change(value)
            self.assertNotEqual(faults(value, SCHEMA, root=SCHEMA), [])

    def test_names(self):
        status, text, _ = command("check", "examples/night.txt", "--program", support.program())
        self.assertEqual(status, 1)
        words_only = command("words", "examples/night.txt")[1]
        self.assertEqual(command("check", "-", "--names", "examples/night.txt", "--program", support.program(), data=words_only), (status, text, ""))
        cut = support.text_of("night.txt").replace("least group size 7", "least group size 12")
        lost = command("check", "-", "--program", support.program(), data=cut.encode())[1].decode()
        self.assertIn("Single points of failure: machines rack1-a, rack1-b,", lost)

    def test_the_picture(self):
        settings = Settings(3, 1, (0, 0, 1, 2, 2), (Shard(0, 3), Shard(1, 1)))
        shown = picture(checked(settings))
        told = told_by(shown)
        self.assertEqual([told["machine-%d" % node][-1] for node in range(5)], ["may be away", "may be away", "must be up", "may be away", "may be away"])
        self.assertEqual([told["set-%d" % number] for number in range(3)], [["set %d: must be up" % number] for number in range(3)])
        self.assertEqual((told["shard-0"], told["shard-1"]), (["shard 0", "needs 3"], ["shard 1", "needs 1", "one copy only"]))
        frames = {part.get("id"): part.find(SVG + "rect").get("stroke") for part in Tree.fromstring(shown.encode()).iter(SVG + "g")
                  if part.find(SVG + "rect") is not None}
        self.assertEqual((frames["machine-0"], frames["machine-2"], frames["set-1"], frames["shard-1"]), (GREEN, RED, RED, AMBER))
        never = told_by(picture(checked(Settings(3, 1, (0, 0, 1), (Shard(0, 1), Shard(1, 3))))))
        self.assertIn("NEVER PLACED", never["shard-1"])
        self.assertNotIn("may be away", json.dumps(never))

    def test_the_file(self):
        with tempfile.TemporaryDirectory() as folder:
            path = os.path.join(folder, "check.svg")
            self.assertEqual(command("check", "examples/case-a.txt", "-o", path, "--program", support.program()), (1, b"", ""))
            self.assertEqual(Tree.parse(path).getroot().tag, SVG + "svg")


if __name__ == "__main__":
    unittest.main()
