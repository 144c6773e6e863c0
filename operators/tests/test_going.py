"""What is asked first of a plan: what is lost, what is fetched, and which machines would save moves, against every set asked of the program."""
import itertools
import os
import random
import re
import time
import unittest
from dataclasses import replace
from unittest import mock

import support
from restart_text import decode, encode, inputs, words
from restart_text.answers import Plan, Wait
from restart_text.asking import Program
from restart_text.explaining import asked, explain
from restart_text.gathering import gather
from restart_text.going import CLAIMS, DUTIES, stretches
from restart_text.jsoned import json_of
from restart_text.model import Report, Settings, Shard, View
from restart_text.planning import updates_after
from restart_text.repairing import Source
from restart_text.running import Running, after_reports
from restart_text.saving import fetched
from worlds import world

A = support.example("a")


def told(text, seconds=60):
    return asked(support.given(text), Program(support.program(), seconds))


def first_part(lines):
    return lines[: lines.index("")]


def plans(count, seeds=600):
    """Random inputs that have a plan, with the program that was asked."""
    for seed in range(seeds):
        source = random.Random(seed)
        blocks = world(source)
        given = inputs.Input(blocks[:1] + [block for block in blocks[1:] if source.random() < 0.8], [])
        program = Program(support.program(), 60)
        answer = program.ask(given.blocks)
        if isinstance(answer, Plan):
            yield seed, given, answer, program
            count -= 1
        if not count:
            return


def crippled(source):
    """Ten machines, four of them away, and shards in two subgroups that have lost members."""
    settings = Settings(3, 1, tuple(source.randrange(3) for _ in range(10)), tuple(Shard(number % 2, source.choice((1, 2, 2))) for number in range(5)))
    places = {}
    for group in range(2):
        pool = source.sample(range(10), 10)
        places.update({shard: frozenset(pool[3 * place : 3 * place + 3]) for place, shard in enumerate(settings.shards_of(group))})
    view = View(6, frozenset(range(10)), tuple(places[shard] for shard in range(5)))
    reports = [Report(node, view, None, ((),) * 5) for node in sorted(source.sample(range(10), 6))]
    return inputs.Input([encode.settings_words(settings)] + list(map(encode.report_words, reports)), [])


class Stored(unittest.TestCase):
    """Nothing is lost, by claims and duties that the pages have."""

    def test_what_is_named_is_there(self):
        with open(os.path.join(support.ROOT, "docs", "PROMISES.md"), encoding="utf-8") as file:
            promises = file.read()
        with open(os.path.join(support.ROOT, "docs", "ASSUMPTIONS.md"), encoding="utf-8") as file:
            duties = {int(number) for number in re.findall(r"(?m)^(\d+)\. \*\*", file.read())}
        for name in {name for names in CLAIMS.values() for name in names}:
            crate, file, claim = re.fullmatch(r"(\w+)/(\w+)\.(\S+)", name).groups()
            self.assertRegex(promises, r"\[`%s`\]\(\.\./crates/%s/(?:specs|proofs)/%s\.antt#L" % (re.escape(claim), crate, file))
        self.assertLessEqual(set(DUTIES), duties)
        with open(os.path.join(support.ROOT, "man", "restart-model.7"), encoding="utf-8") as file:
            self.assertIn(".SH SAFETY\n", file.read())

    def test_every_plan_says_so_and_no_wait_does(self):
        lines = told(A).lines
        self.assertTrue(lines[1].startswith("Nothing stored is lost if you go now: "), lines[1])
        self.assertIn("history_laws/Definitions.Claims, history_course_laws/Ever.logged_lasts) of a service that keeps duties 1-4, 6, 7, 11, 12 and 14-17",
                      lines[1])
        self.assertFalse(any("is lost if you go" in line for line in told(support.example("b")).lines))

    def test_a_kept_termination_rests_on_another_claim(self):
        ending = "".join("termination shard %d view %d update %d\n" % row for row in ((0, 0, 0), (1, 7, 5), (2, 0, 0)))
        found = told(A + ending)
        self.assertIn("not past its target, which the termination gives.", found.lines[1])
        self.assertIn("history_course_laws/Lasting.settled_held", found.lines[1])
        value = json_of(support.given(A + ending), found)["plan"]["stored"]
        self.assertEqual(value, {"lost": False, "claims": list(CLAIMS[True]), "duties": list(DUTIES)})

    def test_an_answer_that_does_not_fit_says_nothing_of_it(self):
        given = support.given(A)
        other = Plan(9, 2, Program(support.program()).ask(given.blocks).shards)
        self.assertFalse(any("Nothing stored" in line for line in explain(given, other).lines))

    def test_stretches(self):
        self.assertEqual(stretches((1, 2, 3, 5, 6, 9)), ["1-3", "5", "6", "9"])


class Fetched(unittest.TestCase):
    def test_case_a(self):
        self.assertIn("To fetch: 6 updates in all, 5 of them by machine 5; besides, what the reports leave out of earlier views (duty 7).",
                      told(A).lines)

    def test_nothing_and_one(self):
        parts = A.split("\n\n")
        whole = (A + "\n" + parts[-1].replace("report node 5", "report node 6") + "run shard 1 view 7 count 5\n").replace("count 4", "count 5")
        self.assertIn("To fetch: nothing.", told(whole).lines)
        self.assertIn("To fetch: 1 update in all, by machine 4.", told(whole.replace("count 5", "count 4", 2).replace("count 4", "count 5", 1)).lines)

    def test_whole_logs_leave_nothing_out(self):
        lines = told(A.replace("run shard 1 view 7 count 4", "run shard 1 view 6 count 2\nrun shard 1 view 7 count 4")).lines
        self.assertTrue(any(line.startswith("To fetch: ") and "duty 7" not in line for line in lines), lines)

    def test_what_is_thrown_away(self):
        """Machine 4's log goes on otherwise after (6, 1)."""
        lines = told(A.replace("run shard 1 view 7 count 4", "run shard 1 view 6 count 3")
                     .replace("run shard 1 view 7 count 5", "run shard 1 view 6 count 1\nrun shard 1 view 7 count 5")).lines
        self.assertIn("Thrown away: 2 updates after a cut, never stored or fetched again.", lines)

    def test_against_the_orders_of_the_library(self):
        """What each machine's order has it fetch, for random plans."""
        looked = some = 0
        for seed, given, answer, _ in plans(60):
            gathered = gather(given.blocks)
            running = after_reports(support.library(), given.blocks)
            self.assertEqual(running.decide(), answer, "seed %d" % seed)
            by_order = {}
            for node in gathered.held:
                order = decode.order_from(running.order(node), gathered.settings)
                count = sum(updates_after(gathered.reports[holder].runs[shard], order.cuts[shard], order.targets[shard])
                            for shard, holder in order.holders.items())
                by_order.update({node: count} if count else {})
            self.assertEqual(fetched(gathered, answer), by_order, "seed %d" % seed)
            looked, some = looked + 1, some + bool(by_order)
        self.assertTrue(looked == 60 and some > 20, (looked, some))

    def test_an_order_that_differs(self):
        """A library whose orders have another cut, or that decides otherwise, is a difference."""
        given, source = support.given(A), Source(support.library())
        self.assertEqual(asked(given, Program(support.program()), library=source).differing, [])
        order = decode.order_from(support.ORDER_A)
        changed = encode.order_words(replace(order, cuts={1: (7, 3)}))
        whole = Running.order
        with mock.patch.object(Running, "order", lambda self, node: changed if node == 4 else whole(self, node)):
            found = asked(given, Program(support.program()), library=source)
        self.assertFalse(found.agrees)
        self.assertIn("  machine 4 keeps its log of shard 1 up to (7, 4), and its order says otherwise", found.lines)
        with mock.patch.object(Running, "decide", lambda self: Wait(2, None)):
            self.assertIn("  the library decides: wait 2", asked(given, Program(support.program()), library=source).lines)


class Cheaper(unittest.TestCase):
    def test_against_every_set(self):
        """Size after size, the sets with the fewest moves, where these are fewer than with any smaller set."""
        looked = steps = several = 0
        for seed in range(200):
            given, program = crippled(random.Random(seed)), Program(support.program(), 60)
            answer = program.ask(given.blocks)
            if not isinstance(answer, Plan) or answer.moves < 2:
                continue
            found = explain(given, answer, None, program).advice
            pool, wanted, reached = found.supposed.pool, [], answer.moves
            for size in range(1, len(pool) + 1):
                moves = {nodes: program.ask(found.supposed.blocks_with(nodes)).moves for nodes in itertools.combinations(pool, size)}
                if min(moves.values()) < reached:
                    reached = min(moves.values())
                    wanted.append((reached, sorted(nodes for nodes, count in moves.items() if count == reached)))
            told_of = [(step[0].moves, sorted(offer.nodes for offer in step)) for step in found.cheaper.steps]
            self.assertEqual((told_of, found.cheaper.fewest, found.cheaper.cut_short), (wanted, reached, False), "seed %d" % seed)
            looked, steps, several = looked + 1, max(steps, len(wanted)), several + any(len(sets) > 1 for _, sets in wanted)
            if looked == 30:
                break
        self.assertTrue(looked == 30 and steps > 1 and several > 3, (looked, steps, several))

    def test_the_price_of_each_set(self):
        """Two shards, their machines away but one copy each on 0; with either one move fewer, with both none."""
        settings = "settings\nfailure sets 2\nleast group size 1\n" + "".join("node %d set %d\n" % (node, node % 2) for node in range(6))
        settings += "shard 0 subgroup 0 needs 2\nshard 1 subgroup 1 needs 2\n"
        view = "members 0-5\nshard 0 members 0 1\nshard 1 members 0 3\n"
        text = settings + "".join("\nreport node %d view 4\n%s" % (node, view) for node in (0, 2, 4, 5))
        text = text.replace("report node 0 view 4\n" + view, "report node 0 view 4\n" + view + "run shard 0 view 4 count 3\nrun shard 1 view 4 count 9\n")
        found = told(text)
        self.assertEqual(found.answer.moves, 2)
        line = next(line for line in found.lines if "as well" in line)
        self.assertEqual(line, "With machine 1 or 3 as well: 1 move, up to 12 updates to fetch."
                               " With machines 1 and 3 as well: 0 moves, up to 12 updates to fetch.")
        value = json_of(support.given(text), found)["plan"]["with_more"]
        self.assertEqual(value, {"fewest_moves": 0, "complete": True, "sets": [
            {"machines": [1], "moves": 1, "fetches": 12}, {"machines": [3], "moves": 1, "fetches": 12}, {"machines": [1, 3], "moves": 0, "fetches": 12}]})

    def test_a_program_that_differs(self):
        """One that says a plan, and more moves with a machine more."""
        given, program = support.given(A), Program(support.program(), 60)
        answer = program.ask(given.blocks)
        supposed = explain(given, answer, None, program).advice.supposed
        key = words.joined(supposed.blocks_with([6]))
        program.answers[key] = Plan(answer.view, 1, program.answers[key].shards)
        found = explain(given, answer, None, program)
        self.assertFalse(found.agrees)
        self.assertIn("  with machine 6 back: not what the program answers", found.lines)

    def test_a_large_group_ends_in_time(self):
        source, set_of = random.Random(3), tuple(node // 4 for node in range(32))
        settings = Settings(8, 9, set_of, tuple(Shard(number // 4, 2) for number in range(16)))
        places = []
        for _ in range(4):
            pool = source.sample(range(32), 32)
            places += [frozenset((pool[2 * place], pool[2 * place + 1], pool[8 + place])) for place in range(4)]
        view = View(9, frozenset(range(32)), tuple(places))
        held = sorted({min(nodes) for nodes in places} | set(range(0, 32, 2)))
        given = inputs.Input([encode.settings_words(settings)] + [encode.report_words(Report(node, view, None, ((),) * 16)) for node in held], [])
        began = time.monotonic()
        found = asked(given, Program(support.program(), 1))
        self.assertIsInstance(found.answer, Plan)
        self.assertGreater(found.answer.moves, 2)
        self.assertLess(time.monotonic() - began, 15)
        cheaper = found.advice.cheaper
        self.assertTrue(cheaper.steps or cheaper.cut_short)


if __name__ == "__main__":
    unittest.main()
