"""diff: settings that differ, and JSON."""
import copy
import json
import os
import random

import support
from restart_text import words
from support import command
from test_files import Folder
from test_json import faults
from worlds import world

with open(os.path.join(support.ROOT, "operators", "schemas", "diff.schema.json"), encoding="utf-8") as file:
    SCHEMA = json.load(file)
CASE = support.example("a")


class Settings(Folder):
    def compared(self, text):
        status, printed, told = command("diff", "examples/case-a.txt", self.put("other.txt", text.encode()), "--program", support.program())
        self.assertEqual(told, "")
        return status, printed.decode().splitlines()

    def test_each_value(self):
        for old, new, said in (
            ("least group size 4", "least group size 7", "least group size 7, was 4"),
            ("node 3 set 1", "node 3 set 2", "machine 3: failure set 2, was 1"),
            ("node 3 set 1\nnode 4 set 1", "node 3 set 2\nnode 4 set 2", "machines 3 and 4: failure set 2, was 1"),
            ("shard 1 subgroup 0 needs 3", "shard 1 subgroup 0 needs 2", "shard 1: needs 2, was 3"),
            ("shard 1 subgroup 0 needs 3", "shard 1 subgroup 0 needs 3 cap 5", "shard 1: cap 5, was none"),
            ("shard 2 subgroup 0", "shard 2 subgroup 1", "shard 2: subgroup 1, was 0"),
            ("failure sets 3", "failure sets 4", "failure sets 4, was 3"),
        ):
            self.assertIn(old, CASE)
            self.assertIn("The settings differ: %s." % said, self.compared(CASE.replace(old, new))[1])

    def test_other_settings_and_reports(self):
        lines = self.compared(CASE.replace("least group size 4", "least group size 7").replace("count 5", "count 3"))[1]
        self.assertEqual(lines[-2:], ["The settings differ: least group size 7, was 4.", "The inputs differ: another log of shard 1 on machine 1."])

    def test_the_same_answer(self):
        """Status 0, and what of the inputs differs is said all the same."""
        self.assertEqual(self.compared(CASE.replace("least group size 4", "least group size 3")),
                         (0, ["The answers are the same.", "The settings differ: least group size 3, was 4."]))
        self.assertEqual(self.compared(CASE), (0, ["The answers are the same."]))


class Json(Folder):
    def value(self, one, other):
        status, printed, told = command("diff", one, other, "--program", support.program(), "--json")
        self.assertEqual(told, "")
        value = json.loads(printed)
        self.assertEqual(faults(value, SCHEMA, root=SCHEMA), [])
        self.assertEqual(status, 0 if value["same"] else 1)
        self.assertEqual("\n".join(value["text"]) + "\n", command("diff", one, other, "--program", support.program())[1].decode())
        return value

    def test_two_plans(self):
        other = support.ANSWER_A.replace("view 8", "view 9").replace("moves 2", "moves 1").replace("members 1 4 5", "members 1 4 6")
        other = other.replace("holder 1 target 7 5", "holder 4 target 7 4")
        value = self.value(self.put("one", support.ANSWER_A.encode()), self.put("other", other.encode()))
        self.assertEqual((value["view"], value["moves"], value["inputs_compared"]), ({"was": 8, "now": 9}, {"was": 2, "now": 1}, False))
        self.assertEqual(value["shards"], [{"shard": 1, "come": [6], "leave": [5], "holder": {"was": 1, "now": 4},
                                           "target": {"was": {"view": 7, "update": 5}, "now": {"view": 7, "update": 4}}}])

    def test_two_inputs(self):
        text = CASE.replace("shard 1 subgroup 0 needs 3", "shard 1 subgroup 0 needs 3 cap 5").replace("least group size 4", "least group size 7")
        value = self.value("examples/case-a.txt", self.put("other.txt", text.encode()))
        self.assertEqual([answer["kind"] for answer in value["answers"]], ["plan", "wait"])
        self.assertEqual(value["settings"], [{"part": "whole", "number": None, "value": "least_group_size", "was": 4, "now": 7},
                                             {"part": "shard", "number": 1, "value": "cap", "was": 0, "now": 5}])
        value = self.value("examples/case-a.txt", self.put("bad.bin", support.with_block(6, [5, 0, 127, 0]).data))
        self.assertEqual((value["answers"][1]["kind"], value["inputs"]), ("refusal", ["the second is refused with number 7"]))

    def test_random_inputs(self):
        paths = [self.put("%d.bin" % seed, words.joined(world(random.Random(seed)))) for seed in range(12)]
        kinds = set()
        for one, other in zip(paths, paths[1:]):
            kinds |= {answer["kind"] for answer in self.value(one, other)["answers"]}
        self.assertLessEqual({"plan", "wait"}, kinds)

    def test_wrong_values_are_found(self):
        good = self.value("examples/case-a.txt", "examples/caps.txt")
        for change in (
            lambda value: value.update(schema=2),
            lambda value: value.pop("made"),
            lambda value: value.update(same=1),
            lambda value: value["answers"][0].update(kind="page"),
            lambda value: value["settings"][0].update(value="colour"),
            lambda value: value["settings"][0].pop("was"),
            lambda value: value["shards"][0].update(target=7),
        ):
            value = copy.deepcopy(good)
            change(value)
            self.assertNotEqual(faults(value, SCHEMA, root=SCHEMA), [])

    def test_every_definition_is_used(self):
        text = json.dumps(SCHEMA)
        for name in SCHEMA["$defs"]:
            self.assertIn("#/$defs/%s\"" % name, text)
