"""Cuts against their definition, and which termination is kept."""
import itertools
import unittest

import support  # noqa: F401, it makes the package known
from restart_text.answers import Placed
from restart_text.gathering import Gathered, add, cut
from restart_text.model import Report, Settings, Shard, View
from restart_text.planning import log_of

SETTINGS = Settings(2, 1, (0, 1), (Shard(0, 1),))


def report(node, number, runs=(), termination=None):
    return Report(node, View(number, frozenset([0, 1]), (frozenset([0, 1]),)), termination, (tuple(runs),))


def small_logs():
    """Every log with views 1 to 3 and counts up to 2."""
    for counts in itertools.product(range(3), repeat=3):
        yield [(view, count) for view, count in enumerate(counts, 1) if count]


def updates(runs):
    """The log update by update."""
    return [(view, k) for view, count in runs for k in range(1, count + 1)]


class Cuts(unittest.TestCase):
    def test_every_small_log_by_the_definition(self):
        """The end of the longest stretch that both logs share from their beginning, the holder's up to the target; what is kept and
        then what is fetched is the holder's log up to the target."""
        places = [(0, 0)] + list(itertools.product(range(1, 4), repeat=2))
        for node, holder in itertools.product(small_logs(), repeat=2):
            gathered = Gathered(SETTINGS, reports={0: report(0, 3, node), 1: report(1, 3, holder)})
            for target in places:
                wanted = [at for at in updates(holder) if at <= target]
                shared = [one for one, _ in itertools.takewhile(lambda both: both[0] == both[1], zip(updates(node), wanted))]
                found = cut(gathered, 0, 0, 1, target)
                self.assertEqual(found, shared[-1] if shared else (0, 0), (node, holder, target))
                kept, fetched = [at for at in updates(node) if at <= found], [at for at in wanted if at > found]
                self.assertEqual(kept + fetched, wanted, (node, holder, target))
                log = log_of(gathered, 0, 0, Placed(1, target, frozenset([0])))
                self.assertEqual((log.discards, log.fetches), (len(updates(node)) - len(kept), len(fetched)))

    def test_the_greatest_counts(self):
        for node, holder, found in ((4294967295, 4294967294, 4294967294), (4294967294, 4294967295, 4294967294)):
            gathered = Gathered(SETTINGS, reports={0: report(0, 3, [(2, node), (3, 1)]), 1: report(1, 3, [(2, holder), (3, 1)])})
            self.assertEqual(cut(gathered, 0, 0, 1, (3, 1)), (2, found))


class Terminations(unittest.TestCase):
    def kept(self, *reports):
        gathered = Gathered(SETTINGS)
        for one in reports:
            add(gathered, one)
        return gathered.kept.number, gathered.termination

    def test_which_is_kept(self):
        ended, other = ((5, 1),), ((4, 1),)
        self.assertEqual(self.kept(report(0, 5), report(1, 5, (), ended)), (5, ended))
        self.assertEqual(self.kept(report(0, 5, (), ended), report(1, 5)), (5, ended))
        self.assertEqual(self.kept(report(0, 5, (), ended), report(1, 6)), (6, None))
        self.assertEqual(self.kept(report(0, 5, (), ended), report(1, 6, (), other)), (6, other))
        self.assertEqual(self.kept(report(0, 6), report(1, 5, (), ended)), (6, None))
        self.assertEqual(self.kept(report(0, 6, (), ended), report(1, 5, (), other)), (6, ended))
