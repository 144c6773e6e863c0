"""What the reports show of views: that one was never served, and what two stories of one view most likely mean."""
import ctypes
import itertools
import json
import random
import unittest

import support
from restart_text import evidence, words
from restart_text.asking import Program
from restart_text.drawing import draw
from restart_text.evidence import NEVER, UNDECIDED, judged, kept_story
from restart_text.explaining import asked
from restart_text.jsoned import json_of
from test_json import SCHEMA, faults

SETTINGS = "settings\nfailure sets 5\nleast group size 1\n" + "".join("node %d set %d\n" % (node, node) for node in range(5))
SETTINGS += "shard 0 subgroup 0 needs 1\n"
A = support.example("a")


def report(node, view, members, shard, *more):
    return "\nreport node %d view %d\nmembers %s\nshard 0 members %s\n" % (node, view, members, shard) + "".join(line + "\n" for line in more)


# docs/ASSUMPTIONS.md, duty 16: view 3 of 2, 3 and 4 is on machine 2 alone, and 0, 1 and 3 have made another view 3 and stored an update.
STRAY = report(2, 3, "2 3 4", "2")
OLD = report(4, 2, "0-4", "0")
SERVED = [report(node, 3, "0 1 3", "0", "run shard 0 view 3 count 1") for node in (0, 1, 3)]


def told(text):
    return asked(support.given(text), Program(support.program(), 60))


class Judgement(unittest.TestCase):
    def test_against_the_library(self):
        """Every case of three machines, and random masks of 32."""
        call = ctypes.CDLL(support.library()).restart_open_view
        call.argtypes, call.restype = [ctypes.c_uint32] * 5, ctypes.c_uint32
        source = random.Random(7)
        some = [[source.getrandbits(32) & source.getrandbits(32) for _ in range(5)] for _ in range(2000)]
        for masks in itertools.chain(itertools.product(range(8), repeat=5), some):
            self.assertEqual(judged(*map(words.nodes_of, masks)), call(*masks) % 256, masks)


class LoneViews(unittest.TestCase):
    def test_a_view_that_a_restart_left_open(self):
        lines = told(A.replace("report node 4 view 7", "report node 4 view 8")).lines
        self.assertTrue(lines[1].startswith("Only machine 4 reports view 8, the next lower is 7; without its report: wait 5 0"), lines[1])
        self.assertEqual(lines[2:4], [
            "View 8 was never served if the duties were kept: machines 0, 1, 2, 3 and 5 are members of it, back, and have not logged it, and a view is"
            " served only once all its members have it on disk (duty 1). Then nothing was stored in it.",
            "Most likely a restart was given up while it prepared, and machine 4 reports the view that it left open."])
        for piece in ("restart_open_view", "duty 16", "restart(3), PERSISTENCE", "plan nothing until you have found which"):
            self.assertIn(piece, lines[4])
        self.assertTrue(lines[4].startswith("To do: have the leader ask every machine for its views"), lines[4])

    def test_a_damaged_number(self):
        lines = told(A.replace("report node 4 view 7", "report node 4 view 4000")).lines
        self.assertIn("Most likely the report of machine 4 is damaged: a restart that was given up leaves view 8, the next after 7.", lines)

    def test_no_other_member_is_back(self):
        lines = told(SETTINGS + report(2, 3, "2 3", "2") + report(4, 2, "0-4", "0")).lines
        self.assertIn("No other member of view 3 is back, so that the reports do not show whether it was served; machine 3 would.", lines)
        self.assertFalse([line for line in lines if "never served if" in line])

    def test_a_view_of_one_member(self):
        text = SETTINGS.replace("least group size 1", "least group size 3") + report(2, 3, "2", "2") + report(4, 2, "0-4", "0")
        self.assertIn("All members of view 3 have it, so it counts.", told(text).lines)

    def test_a_plan_by_a_stray_view(self):
        """The planner plans by view 3, and the update that the others have stored would be lost."""
        found = told(SETTINGS + STRAY + OLD)
        self.assertEqual(found.lines[:2], ["Plan: new view 4 after view 3, 0 moves.",
                                           "Do not go yet: a duty was broken or a disk went back, and what is proved of plans supposes neither."])
        self.assertTrue(found.lines[2].startswith("View 3 was never served if the duties were kept: machine 4 is a member of it, back, and has"))
        self.assertFalse([line for line in found.lines if "Nothing stored is lost" in line])
        for narrow in (False, True):
            self.assertIn("Do not go yet: a duty was broken", draw(found, narrow))

    def test_several_that_report_it(self):
        lines = told(A.replace("report node 3 view 7", "report node 3 view 6")).lines
        self.assertIn("Most likely a restart was given up while it prepared, and machines 0, 1, 2, 4 and 5 report the view that it left open; or the"
                      " disk of machine 3 went back.", lines)

    def test_nothing_is_said_where_nothing_shows(self):
        """All members that are back have the view; a machine that is no member of it may have an older one."""
        for text in (A, support.example("b"), support.text_of("night.txt"),
                     SETTINGS + report(0, 3, "0 1", "0") + report(1, 3, "0 1", "0") + report(4, 2, "0-4", "0")):
            self.assertFalse([line for line in told(text).lines if "never served if" in line or "Do not go" in line])


class Stories(unittest.TestCase):
    def test_a_restart_that_was_given_up(self):
        found = told(SETTINGS + STRAY + OLD + "".join(SERVED))
        self.assertEqual(found.answer.number, 12)
        self.assertEqual(found.lines[3:6], [
            "What it most likely means: a restart was given up while it prepared and left its view 3 open on some disks, and another restart made a"
            " view 3 of its own. If the duties were kept, one of them at most was served:",
            "  view 3 of members 2 3 4, reported by machine 2: never served, for its members 3 and 4 are back without it",
            "  view 3 of members 0 1 3, reported by machines 0, 1 and 3: all its members have it, so it counts"])
        self.assertTrue(found.lines[-1].startswith("To do: Plan nothing yet: have the leader ask every machine for its views"), found.lines[-1])
        self.assertIn("restart_open_view", found.lines[-1])

    def test_in_any_order_and_undecided(self):
        reports = [STRAY, SERVED[0], SERVED[1]]
        for order in itertools.permutations(reports):
            lines = told(SETTINGS + "".join(order)).lines
            self.assertIn("  view 3 of members 0 1 3, reported by machines 0 and 1: undecided until its member 3 is back", lines)
            self.assertIn("  view 3 of members 2 3 4, reported by machine 2: undecided until its members 3 and 4 are back", lines)

    def test_the_same_members(self):
        """Then it is no restart that was given up."""
        start = "report node 4 view 7\nmembers 0-6\nshard 0 members 0 "
        found = told(A.replace(start + "2", start + "3"))
        self.assertEqual(found.answer.number, 12)
        self.assertIn("What it most likely means: a report that is damaged or of another group. A restart that was given up leaves a view of the same"
                      " number, but with other members; here the members are the same and only shards differ.", found.lines)
        self.assertTrue(found.lines[-1].startswith("To do: Two machines tell different stories of one view."), found.lines[-1])

    def test_a_later_view_does_not_speak_against_it(self):
        """A machine that reports a later view may have this one in its past."""
        one = kept_story(told(SETTINGS + report(0, 3, "0 1 3", "0") + report(3, 4, "0 1 3", "0")).gathered)
        self.assertEqual((one.have, one.lack, one.away, one.finding), ({3}, {0}, {1}, NEVER))
        found = evidence.stories_of(3, told(SETTINGS + report(0, 3, "0 1 3", "0") + report(3, 4, "0 1 3", "0")).gathered.reports.values())
        self.assertEqual([(one.have, one.lack, one.away, one.finding) for one in found], [({0}, frozenset(), {1, 3}, UNDECIDED)])

    def test_json(self):
        given = support.given(SETTINGS + STRAY + OLD + "".join(SERVED))
        value = json.loads(json.dumps(json_of(given, asked(given, Program(support.program(), 60)))))
        self.assertEqual(faults(value, SCHEMA), [])
        self.assertEqual(value["refusal"]["stories"], [
            {"view": 3, "members": [2, 3, 4], "reported_by": [2], "not_logged_by": [3, 4], "not_known_of": [], "finding": "never"},
            {"view": 3, "members": [0, 1, 3], "reported_by": [0, 1, 3], "not_logged_by": [], "not_known_of": [], "finding": "sure"}])
        given = support.given(SETTINGS + STRAY + OLD)
        value = json.loads(json.dumps(json_of(given, asked(given, Program(support.program(), 60)))))
        self.assertEqual(faults(value, SCHEMA), [])
        self.assertIsNone(value["plan"]["stored"]["lost"])
        self.assertEqual(value["reports"]["kept"]["evidence"], {"reported_by": [2], "not_logged_by": [4], "not_known_of": [3], "finding": "never"})
