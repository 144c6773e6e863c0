"""Every kind of bad text is refused with its line and what was expected."""
import unittest

import support
from restart_text import inputs, state, texts
from restart_text.lines import BadText, sections

GOOD = support.example("a")
FIRST_REPORT = GOOD.splitlines().index("report node 0 view 7") + 1

# What to replace in case A (at its first place), by what, the line at fault and a piece of the message.
EDITS = [
    ("settings\n", "setings\n", 3, "expected a head line first"),
    ("settings\n", "settings now\n", 3, "expected 'settings' or 'settings of COUNT words', found 'settings now'"),
    ("failure sets 3\n", "", 3, "expected a line 'failure sets COUNT' in the section that begins here"),
    ("failure sets 3\n", "failure sets three\n", 4, "expected a number from 0 to 4294967295, found 'three'"),
    ("failure sets 3\n", "failure sets 17\n", 4, "expected failure sets from 1 to 16, found 17"),
    ("failure sets 3\n", "failure sets 3\nfailure sets 3\n", 5, "expected 'failure sets COUNT' once, found it in line 4 already"),
    ("least group size 4\n", "least group size 8\n", 5, "expected a least group size from 1 to 7, found 8"),
    ("least group size 4\n", "least size 4\n", 5, "expected 'least group size COUNT', found 'least size 4'"),
    ("node 3 set 1\n", "node 3 set 3\n", 9, "expected a failure set from 0 to 2, found 3"),
    ("node 3 set 1\n", "", 3, "expected a line 'node NODE set SET' for node 3"),
    ("node 3 set 1\n", "node 2 set 1\n", 9, "expected 'node NODE set SET' once for 2, found it in line 8 already"),
    ("node 6 set 2\n", "node 32 set 2\n", 12, "expected a node from 0 to 31, found 32"),
    ("shard 1 subgroup 0 needs 3\n", "shard 1 subgroup 4 needs 3\n", 14, "expected a subgroup from 0 to 3, found 4"),
    ("shard 1 subgroup 0 needs 3\n", "shard 1 subgroup 0 needs 4\n", 14,
     "expected needed members (there are 3 failure sets) from 1 to 3, found 4"),
    ("shard 1 subgroup 0 needs 3\n", "shard 1 subgroup 0 needs 3 cap 2\n", 14, "expected a cap (the shard needs 3) from 3 to 16, found 2"),
    ("shard 1 subgroup 0 needs 3\n", "shard 1 subgroup 0 needs 3 cap 17\n", 14, "expected a cap (the shard needs 3) from 3 to 16, found 17"),
    ("shard 1 subgroup 0 needs 3\n", "shard 1 subgroup 0 needs 3 cap 0\n", 14, "expected a cap (the shard needs 3) from 3 to 16, found 0"),
    ("shard 1 subgroup 0 needs 3\n", "shard 1 subgroup 0 needs 3 cap\n", 14,
     "expected 'shard SHARD subgroup SUBGROUP needs COUNT' or 'shard SHARD subgroup SUBGROUP needs COUNT cap COUNT', found"),
    ("shard 1 subgroup 0 needs 3\n", "shard 1 subgroup 0 needs 3\nshard 1 subgroup 0 needs 3 cap 4\n", 15,
     "expected 'shard SHARD subgroup SUBGROUP needs COUNT' once for 1, found it in line 14 already"),
    ("shard 2 subgroup 0 needs 1\n", "shard 16 subgroup 0 needs 1\n", 15, "expected a shard from 0 to 15, found 16"),
    ("report node 0 view 7\n", "settings\nreport node 0 view 7\n", 17, "expected the settings once, found them in line 3 already"),
    ("report node 0 view 7\n", "report machine 0 view 7\n", 17, "expected 'report node NODE view VIEW'"),
    ("report node 0 view 7\n", "report node 7 view 7\n", 17, "expected a node from 0 to 6, found 7"),
    ("report node 0 view 7\n", "report node 0 view 0\n", 17, "expected a view from 1 to 4294967294, found 0"),
    ("report node 0 view 7\n", "report node 0 view 4294967295\n", 17, "expected a view from 1 to 4294967294"),
    ("report node 0 view 7\n", "report node 0 view 4294967296\n", 17, "expected a number from 0 to 4294967295"),
    ("report node 0 view 7\n", "order node 0 view 7\n", 17, "expected a report, found 'order node NODE view VIEW'"),
    ("members 0-6\n", "", 17, "expected a line 'members NODES' in the section that begins here"),
    ("members 0-6\n", "members 1-6\n", 18, "expected node 0 among the members"),
    ("members 0-6\n", "members 0-7\n", 18, "expected nodes from 0 to 6, found 7"),
    ("members 0-6\n", "members 0-32\n", 18, "expected nodes from 0 to 31 or a range such as 0-6, found '0-32'"),
    ("members 0-6\n", "members 6-0\n", 18, "expected nodes from 0 to 31 or a range such as 0-6, found '6-0'"),
    ("members 0-6\n", "members 0-6 3\n", 18, "expected each node once, found node 3 twice"),
    ("members 0-6\n", "members\n", 18, "expected numbers of nodes, or none, found nothing"),
    ("shard 0 members 0 2\n", "shard 0 members none\n", 19, "expected at least one member of shard 0"),
    ("shard 0 members 0 2\n", "shard 0 members 0 2,\n", 19, "expected a number from 0 to 4294967295, found '2,'"),
    ("shard 0 members 0 2\n", "", 17, "expected a line 'shard SHARD members NODES' for shard 0"),
    ("shard 1 members 1 4 6\n", "shard 1 members 1 2 6\n", 20, "found node 2, which is in shard 0 (line 19)"),
    ("shard 2 members 5\n", "shard 3 members 5\n", 21, "expected a shard from 0 to 2, found 3"),
    ("shard 2 members 5\n", "shard 2 member 5\n", 21, "expected 'shard SHARD members NODES', found 'shard 2 member 5'"),
    ("shard 2 members 5\n", "shard 2 members 5\nhello\n", 22, "expected 'members NODES' or 'shard SHARD members NODES' or"),
]

# Lines after the last line of case A's first report (line 21), the line at fault and a piece of the message.
ADDED = [
    (["run shard 3 view 7 count 1"], 22, "expected a shard from 0 to 2, found 3"),
    (["run shard 0 view 7 count 0"], 22, "expected a count from 1 to 4294967295, found 0"),
    (["run shard 0 view 0 count 1"], 22, "expected a view (the report's is 7) from 1 to 7, found 0"),
    (["run shard 0 view 8 count 1"], 22, "expected a view (the report's is 7) from 1 to 7, found 8"),
    (["run shard 0 view 7 count 1", "run shard 0 view 7 count 2"], 23, "once for 0 7, found it in line 22 already"),
    (["termination shard 0 view 7 update 1"], 17, "expected a line 'termination shard SHARD view VIEW update UPDATE' for shard 1"),
    (["termination shard %d view 0 update 3" % shard for shard in range(3)], 22,
     "expected view and update from 1, or both 0, found view 0 update 3"),
    (["termination shard %d view 7 update 0" % shard for shard in range(3)], 22, "expected view and update from 1, or both 0"),
    (["termination shard %d view 8 update 1" % shard for shard in range(3)], 22, "expected a view from 0 to 7, found 8"),
]


class Inputs(unittest.TestCase):
    def refused(self, text, line, message):
        with self.assertRaises(BadText, msg=text) as caught:
            inputs.from_text(text)
        self.assertEqual(caught.exception.line, line, caught.exception)
        self.assertIn(message, str(caught.exception))

    def test_case_a_has_the_lines_that_these_tests_suppose(self):
        self.assertEqual(FIRST_REPORT, 17)
        inputs.from_text(GOOD)

    def test_a_line_that_is_wrong(self):
        for old, new, line, message in EDITS:
            with self.subTest(new or "without " + old):
                self.assertIn(old, GOOD)
                self.refused(GOOD.replace(old, new, 1), line, message)

    def test_a_line_too_much(self):
        lines = GOOD.splitlines()
        for added, line, message in ADDED:
            with self.subTest(added[0]):
                self.refused("\n".join(lines[:21] + added + lines[21:]), line, message)

    def test_a_member_outside_the_view(self):
        self.refused(GOOD.replace("members 0-6", "members 0-5", 1), 20, "expected only members of the view, found node 6")

    def test_too_many_records(self):
        runs = "".join("run shard 0 view %d count 1\n" % view for view in range(1, 126))
        report = "report node 0 view 200\nmembers 0-6\nshard 0 members 0 2\nshard 1 members 1 4 6\nshard 2 members 5\n"
        self.refused(GOOD + report + runs, GOOD.count("\n") + 1, "expected a report of at most 128 records, found 129")
        inputs.from_text(GOOD + report + runs.replace("run shard 0 view 1 count 1\n", ""))

    def test_no_settings(self):
        self.refused("", 1, "expected 'settings' first")
        self.refused("report node 0 view 7\nmembers 0\n", 1, "expected 'settings' first")

    def test_blocks_word_by_word(self):
        self.refused("settings of 3 words\n1 2\n", 1, "expected 3 words after this line, found 2")
        self.refused("settings of 1 words\n1\nreport node 0 view 7\n", 3,
                     "expected 'message of COUNT words', for the settings cannot be read")
        self.refused("settings of 1 words\nx\n", 2, "expected a number")


class OrdersAndStates(unittest.TestCase):
    def refused(self, read, text, edits):
        for old, new, line, message in edits:
            with self.subTest(new or "without " + old):
                self.assertIn(old, text)
                with self.assertRaises(BadText) as caught:
                    read(sections(text.replace(old, new, 1))[0])
                self.assertEqual(caught.exception.line, line, caught.exception)
                self.assertIn(message, str(caught.exception))

    def test_orders(self):
        self.refused(texts.order_of, support.ORDER_TEXT, [
            ("view 8", "view 1", 1, "expected a view from 2 to 4294967295, found 1"),
            ("target shard 2 view 0 update 0\n", "", 1, "expected a line 'target shard SHARD view VIEW update UPDATE' for shard 2"),
            ("target shard 1 view 7", "target shard 1 view 8", 7, "expected a view from 0 to 7, found 8"),
            ("holder shard 1 node 1", "holder shard 1 node 6", 9, "expected a holder among the members, found node 6"),
            ("holder shard 1", "holder shard 0", 9, "expected no such line for shard 0, which node 4 does not carry"),
            ("cut shard 1 view 7 update 4\n", "", 1, "expected a line 'cut shard SHARD view VIEW update UPDATE' for shard 1"),
            ("cut shard 1 view 7 update 4", "run shard 1 view 7 count 4", 10,
             "or 'cut shard SHARD view VIEW update UPDATE', found 'run"),
        ])

    def test_states(self):
        self.refused(state.from_section, support.STATE_TEXT, [
            ("state ordered", "state lost", 1, "expected 'state gathering' or 'state ordered' or"),
            ("state ordered", "state gathering", 16, "expected no plan while gathering"),
            ("remembered node 5 view 7", "remembered node 32 view 7", 15, "expected a node from 0 to 31, found 32"),
            ("remembered node 5 view 7", "remembered node 5 view 0", 15, "expected a view from 1 to 4294967295, found 0"),
            ("remembered node 5 view 7", "remembered node 4 view 7", 15, "once for 4, found it in line 14 already"),
            ("remembered node 5 view 7", "remembered node 5", 15, "expected 'remembered node NODE view VIEW', found 'remembered node 5'"),
            ("held 0 1 2 3 4 5\n", "", 1, "expected a line 'held NODES'"),
            ("kept view 7\n", "", 1, "expected a line 'kept view VIEW'"),
            ("kept view 7\n", "kept view 0\n", 2, "expected a view from 1 to 4294967294, found 0"),
            ("kept shard 2 members 5\n", "kept shard 2 members none\n", 6, "expected at least one member of shard 2, found none"),
            ("held 0 1 2 3 4 5\n", "held 0 1 2 3 4 5\nkept termination shard 0 view 7 update 1\n", 1, "for shard 1 in the section"),
            ("plan shard 1 holder 1 target 7 5 members 1 4 5\n", "", 1, "for shard 1 in the section that begins here"),
        ])
