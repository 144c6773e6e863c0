"""What the tool says would cure a wait does cure it, and nothing less does."""
import itertools
import random
import unittest

import support
from restart_text import answers, encode, inputs
from restart_text.gathering import gather, shortage, waits
from restart_text.model import Report
from worlds import world


def with_machines(gathered, nodes):
    """The blocks with a report of the kept view from each of these machines, as far as they are its members."""
    reports = [gathered.reports[node] for node in sorted(gathered.held)]
    reports += [Report(node, gathered.kept, None, ((),) * len(gathered.kept.shards)) for node in nodes]
    return [encode.settings_words(gathered.settings)] + [encode.report_words(report) for report in reports]


class Cures(unittest.TestCase):
    def placed(self, gathered, subgroup, nodes):
        """Whether the subgroup has a placement once these machines are back."""
        back = gather(with_machines(gathered, []))
        back.reports.update({node: back.reports.get(node) for node in nodes})
        return shortage(back, subgroup) is None

    def test_missing_placements(self):
        looked = alone = never = 0
        for seed in range(400):
            gathered = gather(world(random.Random(seed)))
            for subgroup in [value for reason, value in waits(gathered) if reason == 5]:
                short = shortage(gathered, subgroup)
                self.assertGreater(short.needed, sum(short.given.values()))
                size = len(gathered.absent) + 1 if short.spare is None else len(short.spare)
                for fewer in range(size):
                    for nodes in itertools.combinations(sorted(gathered.absent), fewer):
                        self.assertFalse(self.placed(gathered, subgroup, nodes), "seed %d: %s" % (seed, nodes))
                if short.spare is not None:
                    self.assertTrue(self.placed(gathered, subgroup, short.spare), "seed %d" % seed)
                self.assertEqual(short.alone, [node for node in sorted(gathered.absent) if self.placed(gathered, subgroup, [node])])
                looked, alone, never = looked + 1, alone + bool(short.alone), never + (short.spare is None)
        self.assertTrue(looked > 40 and alone > 5 and never > 5, (looked, alone, never))

    def test_case_i_with_machine_6(self):
        text = support.example("i") + support.example("i").split("\n\n")[-1].replace("report node 5", "\nreport node 6")
        self.assertTrue(answers.run(support.program(), inputs.from_text(text).blocks).startswith("view 8\n"))

    def test_case_f_with_machine_5(self):
        gathered = gather(inputs.from_text(support.example("f")).blocks)
        self.assertEqual(answers.run(support.program(), with_machines(gathered, [5])), support.ANSWER_A)
