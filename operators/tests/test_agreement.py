"""The tool's own counting against the program under test, on random inputs, whole and damaged."""
import random
import unittest
from collections import Counter

import support
from restart_text import answers, inputs
from restart_text.asking import Program
from restart_text.explaining import explain
from worlds import damaged, world

INPUTS = 600
NUMBERS = [2, *range(5, 14), 16, 17, 18]
EXPECTED = {"plan"} | {"wait %d" % reason for reason in range(1, 6)} | {"number %d" % number for number in NUMBERS}


class Agreement(unittest.TestCase):
    def test_random_inputs(self):
        program, seen = Program(support.program()), Counter()
        for seed in range(INPUTS):
            source = random.Random(seed)
            blocks = world(source)
            given = inputs.Input(damaged(source, blocks) if seed % 2 else blocks, [])
            answer = program.ask(given.blocks)
            fault = program.fault(given.blocks) if isinstance(answer, answers.Number) else None
            told = explain(given, answer, fault)
            self.assertTrue(told.agrees, "seed %d: %s\n%s" % (seed, answer, "\n".join(told.lines)))
            self.assertTrue(isinstance(answer, answers.Plan) or any(line.startswith("To do") for line in told.lines), told.lines)
            seen[name(answer)] += 1
        self.assertEqual(set(seen), EXPECTED, seen)


def name(answer):
    if isinstance(answer, answers.Plan):
        return "plan"
    return "wait %d" % answer.reason if isinstance(answer, answers.Wait) else "number %d" % answer.number
