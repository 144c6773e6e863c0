"""explain --json against operators/schemas/explain.schema.json, and the schema against wrong values."""
import copy
import json
import os
import random
import unittest

import support
from restart_text import inputs
from restart_text.asking import Program
from restart_text.explaining import asked, explain
from restart_text.answers import Wait
from restart_text.jsoned import json_of
from worlds import damaged, world

with open(os.path.join(support.ROOT, "operators", "schemas", "explain.schema.json"), encoding="utf-8") as file:
    SCHEMA = json.load(file)
KNOWN = {"$schema", "$ref", "$defs", "title", "description", "type", "const", "minimum", "maximum", "items", "required",
         "properties", "additionalProperties", "oneOf"}
TYPES = {"object": dict, "array": list, "string": str, "null": type(None), "boolean": bool, "integer": int}


def is_type(value, name):
    return isinstance(value, TYPES[name]) and (name != "integer" or not isinstance(value, bool))


def faults(value, schema, at="it", root=SCHEMA):
    """Where the value does not fit the schema, which stands in `root`; of JSON Schema only what ours uses."""
    unknown = set(schema) - KNOWN
    if unknown:
        return ["the schema uses %s, which this test does not know" % unknown]
    found = faults(value, root["$defs"][schema["$ref"].rsplit("/", 1)[1]], at, root) if "$ref" in schema else []
    types = schema.get("type", [])
    if types and not any(is_type(value, name) for name in ([types] if isinstance(types, str) else types)):
        return found + ["%s is no %s" % (at, types)]
    if "const" in schema and value != schema["const"]:
        found.append("%s is not %r" % (at, schema["const"]))
    if "minimum" in schema and value < schema["minimum"] or "maximum" in schema and value > schema["maximum"]:
        found.append("%s is out of its limits" % at)
    if "oneOf" in schema and sum(not faults(value, one, at, root) for one in schema["oneOf"]) != 1:
        found.append("%s fits none or several" % at)
    for number, item in enumerate(value if "items" in schema else ()):
        found += faults(item, schema["items"], "%s[%d]" % (at, number), root)
    if isinstance(value, dict):
        found += ["%s lacks %s" % (at, key) for key in schema.get("required", ()) if key not in value]
        for key, item in value.items():
            if key in schema.get("properties", ()):
                found += faults(item, schema["properties"][key], "%s.%s" % (at, key), root)
            elif schema.get("additionalProperties") is False:
                found.append("%s has %s" % (at, key))
    return found


def value_of(given, seconds=60):
    return json.loads(json.dumps(json_of(given, asked(given, Program(support.program(), seconds)))))


class Values(unittest.TestCase):
    def test_the_examples(self):
        for name in ("case-a.txt", "case-b.txt", "case-f.txt", "case-i.txt", "night.txt"):
            self.assertEqual(faults(value_of(support.given(support.text_of(name))), SCHEMA), [], name)

    def test_random_inputs(self):
        kinds = set()
        for seed in range(60):
            source = random.Random(seed)
            blocks = world(source)
            value = value_of(inputs.Input(damaged(source, blocks) if seed % 2 else blocks, []), 0.2)
            self.assertEqual(faults(value, SCHEMA), [], "seed %d" % seed)
            kinds.add(value["answer"]["kind"])
        self.assertEqual(kinds, {"plan", "wait", "refusal"})

    def test_an_answer_that_does_not_fit(self):
        given = support.given(support.example("a"))
        value = json_of(given, explain(given, Wait(2, None)))
        self.assertEqual(faults(value, SCHEMA), [])
        self.assertEqual((value["agrees"], value["differences"], "wait" in value), (False, ["a plan"], False))

    def test_case_a(self):
        value = value_of(support.given(support.example("a")))
        self.assertEqual(value["answer"], {"kind": "plan", "view": 8, "moves": 2})
        self.assertEqual(value["plan"]["moves"], [{"node": 3, "from": None, "to": 2}, {"node": 5, "from": 2, "to": 1}])
        self.assertEqual(value["plan"]["with_one_more"], [{"node": 6, "moves": 0}])
        self.assertEqual(value["plan"]["shards"][1]["logs"][1],
                         {"node": 4, "end": {"view": 7, "update": 4}, "cut": {"view": 7, "update": 4}, "discards": 0, "fetches": 1})

    def test_the_night(self):
        value = value_of(support.given(support.text_of("night.txt")))
        self.assertEqual(len(value["wait"]["switch_on"]["sets"]), 7)
        self.assertEqual(value["wait"]["switch_on"]["needed"], [2])
        self.assertEqual([(one["reason"], one["value"]) for one in value["wait"]["conditions"]],
                         [(2, None), (3, None), (4, 4), (4, 7), (5, 0), (5, 1)])
        self.assertEqual(value["settings"]["machines"][2], {"node": 2, "set": 0, "name": "rack1-c"})

    def test_a_refusal(self):
        value = value_of(support.with_block(3, [2, 0, 127, 0]))
        self.assertEqual((value["answer"]["number"], value["answer"]["record"], value["refusal"]["block"]), (7, None, 3))
        self.assertEqual((value["refusal"]["words"], value["refusal"]["without"][0]["blocks"]), (None, [3]))

    def test_a_refusal_that_names_a_record(self):
        for block, number, words in (([2, 7, 127, 0], 17, [2, 7, 127, 0]), ([2, 7, 127, 9, 256, 5, 0, 0], 8, [2, 7, 127, 9])):
            value = value_of(support.with_block(3, block))
            self.assertEqual(value["answer"], {"kind": "refusal", "number": number, "record": 0})
            self.assertEqual(value["refusal"]["words"], words)
            self.assertEqual(faults(value, SCHEMA), [])


class TheSchema(unittest.TestCase):
    def test_wrong_values_are_found(self):
        good = value_of(support.given(support.text_of("night.txt")))
        for change in (
            lambda value: value.update(schema=2),
            lambda value: value.update(more=1),
            lambda value: value.pop("text"),
            lambda value: value["answer"].update(kind="plan"),
            lambda value: value["answer"].update(reason=6),
            lambda value: value["wait"]["switch_on"].pop("least"),
            lambda value: value["wait"]["switch_on"]["sets"][0].append("rack1-a"),
            lambda value: value["reports"]["kept"].update(members=None),
            lambda value: value["settings"]["machines"][0].update(name=7),
            lambda value: value["settings"].update(failure_sets=True),
        ):
            value = copy.deepcopy(good)
            change(value)
            self.assertNotEqual(faults(value, SCHEMA), [])

    def test_every_definition_is_used(self):
        text = json.dumps(SCHEMA)
        for name in SCHEMA["$defs"]:
            self.assertIn("#/$defs/%s\"" % name, text)
