"""Run the programs restart and sheet on the worked cases and those of the manual pages, on a run for each number that they can give, on inputs
that are cut, and where reading or writing fails. What they must print is written here by hand.

    python3 tests/programs/cases.py [RESTART [SHEET]]        target/bin/restart and target/bin/sheet unless told otherwise

The last line is `N passed, M failed`."""
import contextlib
import fcntl
import os
import signal
import socket
import struct
import subprocess
import sys
import termios
import time

ROOT = os.path.dirname(os.path.dirname(os.path.dirname(os.path.abspath(__file__))))
RESTART, SHEET = [sys.argv[1 + place] if len(sys.argv) > 1 + place else os.path.join(ROOT, "target", "bin", name)
                  for place, name in enumerate(("restart", "sheet"))]
LARGEST = 2**32 - 1

# Case A's settings and masks: nodes a to g as 0 to 6, view 7.
SETTINGS = [7, 3, 4, 3, 0, 0, 1, 1, 1, 2, 2, 2, 3, 1]
MASKS = [5, 82, 32]
ALL = [0, 1, 2, 3, 4, 5]
PLAN = """view 8
moves 2
shard 0 holder 0 target 0 0 members 0 2
shard 1 holder 1 target 7 5 members 1 4 5
shard 2 holder 5 target 0 0 members 3
"""


def message(node, view, members, records):
    """The words of a message: a head and records of three words, each linked to the next."""
    heads = [[node, view, members]] + records
    last = len(heads) - 1
    return [word for i, head in enumerate(heads) for word in head + [i + 1 if i < last else 0]]


def shard_masks(masks):
    return [[256 + s, mask, 0] for s, mask in enumerate(masks)]


def termination(positions):
    return [[512 + s, view, k] for s, (view, k) in enumerate(positions)]


def runs(shard, *pairs):
    return [[768 + shard, view, count] for view, count in pairs]


def report(node, more=(), view=7, members=127, masks=MASKS):
    return message(node, view, members, shard_masks(masks) + list(more))


def of_case_a(node):
    """Node 1 has logged (7, 5) of shard 1 and node 4 (7, 4); all else is empty."""
    return report(node, runs(1, (7, {1: 5, 4: 4}[node])) if node in (1, 4) else [])


def changed(words, at, word):
    return words[:at] + [word] + words[at + 1 :]


def bytes_of(words):
    return struct.pack("<%dI" % len(words), *words)


def blocks(*parts):
    return b"".join(bytes_of([len(words)] + words) for words in parts)


def case(nodes, settings=SETTINGS):
    return blocks(settings, *[of_case_a(node) for node in nodes])


def after(*messages):
    """Case A's settings, then these messages."""
    return blocks(SETTINGS, *messages)


CASE_A = case(ALL)


def named():
    """Cases A to F and I."""
    yield "A", CASE_A, PLAN
    for nodes in ([0, 1, 2], [3, 4, 5], [1, 3, 4]):
        yield "B %s" % nodes, case(nodes), "wait 2\n"
    six = [6, 1, 1, 1, 0, 0, 0, 0, 0, 0, 1]
    members = [report(node, view=3, members=63, masks=[1]) for node in range(4)]
    yield "C with 3", blocks(six, *members[:3]), "wait 2\n"
    yield "C with 4", blocks(six, *members), "view 4\nmoves 0\nshard 0 holder 0 target 0 0 members 0\n"
    yield "D", case([]), "wait 1\n"
    yield "E", case(ALL, changed(SETTINGS, 2, 7)), "wait 3\n"
    yield "F", case([0, 1, 2, 3, 4]), "wait 4 2\n"
    yield "I", case(ALL, changed(SETTINGS, 11, 3)), "wait 5 0\n"


def logs_of_cuts():
    """The logs of cases G, H and J. Their cuts stand in orders, which restart does not print (tests/c/cuts.c has them); what it prints
    is whose log is taken and up to where, and that is not the end of a log that is stale or differs below its end."""
    others = [of_case_a(n) for n in (0, 2, 3)]

    def with_logs(holder, four, five=(), view=7):
        return after(*others, report(1, runs(1, *holder)), report(4, runs(1, *four), view=view), report(5, runs(1, *five)))

    yield "G", with_logs([(5, 3), (6, 8)], [(5, 3), (6, 9)], view=6), PLAN.replace("target 7 5", "target 6 8")
    yield "H", with_logs([(5, 3), (7, 2)], [(5, 3), (6, 9)], [(5, 2)]), PLAN.replace("target 7 5", "target 7 2")
    yield "J", with_logs([(5, 3), (6, 2)], [(5, 2), (6, 2)]), PLAN.replace("target 7 5", "target 6 2")
    # of two logs with one end the lower machine's is taken, whatever lies below it
    yield "J the other way", with_logs([(5, 2), (6, 2)], [(5, 3), (6, 2)]), PLAN.replace("target 7 5", "target 6 2")


def more_plans():
    """What else a plan's lines and a wait can show."""
    # A stale machine's longer log is no target, and its member is kept without a move.
    stale = [of_case_a(n) for n in (0, 2, 3, 5)]
    stale += [report(1, runs(1, (6, 8))), report(4, runs(1, (6, 9)), view=6)]
    lines = PLAN.replace("target 7 5", "target 6 8")
    yield "stale log", after(*stale), lines
    # A kept termination decides the target, and only a log that holds it makes a holder.
    ended = termination([(0, 0), (7, 4), (0, 0)])
    kept = [of_case_a(n) for n in (0, 2, 3, 5)] + [report(1, ended + runs(1, (7, 3))), of_case_a(4)]
    yield "kept termination", after(*kept), PLAN.replace("holder 1 target 7 5", "holder 4 target 7 4")
    # An older report of a node is replaced: node 1's log is empty now.
    yield "replaced", case(ALL + [1]) + blocks(report(1)), PLAN.replace("holder 1 target 7 5", "holder 4 target 7 4")
    # A report of the same view is no step back, and another machine's later view plays no part.
    yield "replaced in the same view", case(ALL + ALL), PLAN
    yield "each its own view", after(*[of_case_a(n) for n in ALL[:4]], report(4, view=6), report(4, runs(1, (7, 4))), of_case_a(5)), PLAN
    # Moves are counted by node: shard {0, 2}, node 0 down, node 1 of its failure set up.
    by_node = [3, 2, 1, 1, 0, 0, 1, 2]
    up = [report(node, view=5, members=7, masks=[5]) for node in (1, 2)]
    yield "moves by node", blocks(by_node, *up), "view 6\nmoves 1\nshard 0 holder 2 target 0 0 members 1 2\n"
    yield from first_plans()
    yield from kept_members()
    # The greatest view and run, and 16 members.
    wide = [32, 16, 1, 1] + [n % 16 for n in range(32)] + [16]
    great = [report(n, runs(0, (LARGEST - 1, LARGEST)), view=LARGEST - 1, members=LARGEST, masks=[0xFFFF]) for n in range(32)]
    line = "shard 0 holder 0 target 4294967294 4294967295 members %s\n" % " ".join(str(n) for n in range(16))
    yield "greatest numbers", blocks(wide, *great), "view 4294967295\nmoves 0\n" + line
    # Subgroup 3: shard 1 needs a node of each failure set, so it takes node 2, the only one of set 1, and shard 2 must move. Where
    # shard 2 needs both sets too there is no valid placement.
    narrow = [3, 2, 1, 3, 0, 0, 1, 1, 3 * 256 + 2, 3 * 256 + 1]
    parts = [report(n, view=2, members=7, masks=[1, 2, 4]) for n in range(3)]
    yield "subgroup 3", blocks(narrow, *parts), (
        "view 3\nmoves 2\nshard 0 holder 0 target 0 0 members 0\nshard 1 holder 1 target 0 0 members 1 2\n"
        "shard 2 holder 2 target 0 0 members 0\n"
    )
    yield "subgroup 3 without a placement", blocks(changed(narrow, 9, 3 * 256 + 2), *parts), "wait 5 3\n"


def first_plans():
    """Of the placements of least moves the first, in whatever order the machines report."""
    # 0 3 comes before 1 3 and 2 3; where 2 and 3 stay without a move, 0 and 1 are not taken.
    sets = [4, 4, 1, 1, 0, 1, 2, 3, 2]
    for nodes in (range(4), (3, 1, 0, 2)):
        told = [[report(node, view=5, members=15, masks=[mask]) for node in nodes] for mask in (8, 12)]
        name = "first, from %s" % list(nodes)
        yield name, blocks(sets, *told[0]), "view 6\nmoves 1\nshard 0 holder 3 target 0 0 members 0 3\n"
        yield "least " + name, blocks(sets, *told[1]), "view 6\nmoves 0\nshard 0 holder 2 target 0 0 members 2 3\n"
    # Shards 0 and 2 of one subgroup around shard 1 of another: the lower shard has the lower node.
    around = [6, 2, 1, 3, 1, 1, 1, 1, 0, 0, 258, 2, 258]
    lines = "".join("shard %d holder %d target 0 0 members %s\n" % row for row in ((0, 4, "0 4"), (1, 4, "0 4"), (2, 5, "1 5")))
    for nodes in (range(6), (5, 0, 4, 1, 3, 2)):
        told = [report(node, view=5, members=63, masks=[16, 16, 32]) for node in nodes]
        yield "first by shards, from %s" % list(nodes), blocks(around, *told), "view 6\nmoves 3\n" + lines


def capped(need, cap, subgroup=0):
    """A shard's settings word."""
    return cap * 65536 + subgroup * 256 + need


def kept_members():
    """A shard keeps as many old members as its cap allows, of a failure set any number, and needs no fewer sets for it."""

    def plan(moves, *rows):
        return "view 8\nmoves %d\n" % moves + "".join("shard %d holder %d target 0 0 members %s\n" % (s, *row) for s, row in enumerate(rows))

    def restart(sets, words, masks, nodes=None):
        count = len(sets)
        told = [report(n, members=2**count - 1, masks=masks) for n in (range(count) if nodes is None else nodes)]
        return blocks([count, max(sets) + 1, 1, len(words)] + sets + words, *told)

    # A shard that needs two members and had 0, 1, 2 and 3.
    six = [0, 1, 2, 0, 1, 2]
    for cap, members in ((0, "0 1"), (2, "0 1"), (3, "0 1 2"), (4, "0 1 2 3"), (5, "0 1 2 3"), (16, "0 1 2 3")):
        yield "four members, cap %d" % cap, restart(six, [capped(2, cap)], [15]), plan(0, (0, members))
    yield "four members, one down", restart(six, [capped(2, 4)], [15], (0, 2, 3, 4, 5)), plan(0, (0, "0 2 3"))
    yield "four members, two sets down", restart(six, [capped(2, 4)], [9]), plan(1, (0, "0 1 3"))
    yield "three of one set", restart([0, 0, 0, 1], [capped(2, 4)], [7]), plan(1, (0, "0 1 2 3"))
    yield "caps are no cure of wait 5", restart([0, 0, 0, 1], [capped(2, 16)], [7], (0, 1, 2)), "wait 5 0\n"
    # Of one move each: shard 1 takes node 2, which leaves no shard, and not node 1; without a cap node 1, which is lower.
    yield "stays before the order", restart([0, 1, 2, 3], [capped(1, 2), 2], [3, 8]), plan(1, (0, "0 1"), (3, "2 3"))
    yield "the order alone", restart([0, 1, 2, 3], [1, 2], [3, 8]), plan(1, (0, "0"), (3, "1 3"))
    # Shard 0 or shard 2 loses one of two: 0 comes before 0 1, and 0 1 before 1.
    three = [capped(1, 2), 2, capped(1, 2)]
    yield "a beginning first", restart([0, 1, 2, 3, 4], three, [3, 4, 24]), plan(1, (0, "0"), (2, "1 2"), (3, "3 4"))
    yield "not by numbers", restart([1, 0, 0, 1, 1], three, [3, 4, 24]), plan(1, (0, "0 1"), (2, "2 3"), (3, "4"))
    yield "A with caps at m", case(ALL, SETTINGS[:11] + [capped(2, 2), capped(3, 3), capped(1, 1)]), PLAN
    yield "A with caps of 16", case(ALL, SETTINGS[:11] + [capped(2, 16), capped(3, 16), capped(1, 16)]), PLAN
    yield "I with a cap", case(ALL, changed(SETTINGS, 11, capped(3, 16))), "wait 5 0\n"
    yield "caps in subgroup 3", restart(six, [capped(2, 4, 3), capped(1, 16, 0)], [15, 48]), plan(0, (0, "0 1 2 3"), (4, "4 5"))


def cures():
    """restart(1)'s cures of waits 4 and 5, and what comes near to them and cures nothing."""
    five = [of_case_a(n) for n in range(5)]
    yield "wait 4, the shard's machine under an older view", after(*five, report(5, view=6)), "wait 4 2\n"
    yield "wait 4, cured under the kept view", after(*five, report(5, view=6), of_case_a(5)), PLAN
    # A kept termination: a log without its update is no cure.
    ended = termination([(0, 0), (7, 5), (0, 0)])
    kept = [of_case_a(n) for n in (0, 2, 3, 5)] + [report(1, ended + runs(1, (7, 3)))]
    yield "wait 4, the termination's update is missing", after(*kept), "wait 4 1\n"
    yield "wait 4, another log without it", after(*kept, of_case_a(4)), "wait 4 1\n"
    yield "wait 4, cured by a log that has it", after(*kept, report(6, runs(1, (7, 5)))), (
        "view 8\nmoves 1\nshard 0 holder 0 target 0 0 members 0 2\nshard 1 holder 6 target 7 5 members 1 3 6\n"
        "shard 2 holder 5 target 0 0 members 5\n"
    )
    # Two shards that need both failure sets: set 1 has one machine back, and the cure is its other one.
    two = [4, 2, 1, 2, 0, 0, 1, 1, 2, 2]
    four = [report(n, view=1, members=15, masks=[5, 10]) for n in range(4)]
    yield "wait 5, one machine of set 1", blocks(two, *four[:3]), "wait 5 0\n"
    yield "wait 5, cured by a set that is back already", blocks(two, *four), (
        "view 2\nmoves 0\nshard 0 holder 0 target 0 0 members 0 2\nshard 1 holder 1 target 0 0 members 1 3\n"
    )
    # A set that has as many back as there are shards gives no more by another.
    three = [5, 2, 1, 2, 0, 0, 0, 1, 1, 2, 2]
    back = [report(n, view=1, members=31, masks=[9, 18]) for n in (0, 1, 3, 2, 4)]
    yield "wait 5, two machines of set 0", blocks(three, *back[:3]), "wait 5 0\n"
    yield "wait 5, a third one", blocks(three, *back[:4]), "wait 5 0\n"
    yield "wait 5, cured by set 1", blocks(three, *back[:3], back[4]), (
        "view 2\nmoves 0\nshard 0 holder 0 target 0 0 members 0 3\nshard 1 holder 1 target 0 0 members 1 4\n"
    )


def refused():
    """A run for each number that restart can give, in the order of their rows: 2, 5 to 9, 16, 17, 10, 11, 18, 12 and 13. Numbers 8, 9,
    16 and 17 have the index of a record."""
    good = of_case_a(0)
    yield "number 2: no nodes", blocks(changed(SETTINGS, 0, 0)), 2
    yield "number 2: no words", blocks([]), 2
    yield "number 2: a word too many", blocks(SETTINGS + [0]), 2
    for need, cap in ((2, 1), (2, 17), (2, 18), (2, 256 + 2), (2, 65535), (3, 2), (1, 17)):
        yield "number 2: m %d, cap %d" % (need, cap), blocks(changed(SETTINGS, 12, capped(need, cap)), good), 2
    yield "number 2: a cap and no m", blocks(changed(SETTINGS, 11, capped(0, 4)), good), 2
    yield "number 2: a cap and m above F", blocks(changed(SETTINGS, 11, capped(4, 4)), good), 2
    yield "number 2: a cap and subgroup 4", blocks(changed(SETTINGS, 11, capped(2, 4, 4)), good), 2
    yield "number 2 before 5", blocks(changed(SETTINGS, 0, 0), good[:6]), 2
    yield "number 5: 6 words", after(good[:6]), 5
    yield "number 5: no words", after([]), 5
    yield "number 5: 513 words", after(good + [0] * 497), 5
    yield "number 5: 516 words", after(good + [0] * 500), 5
    yield "number 6: node 7 of 7", after(report(7)), 6
    yield "number 6: greatest node", after(report(LARGEST)), 6
    yield "number 7: view 0", after(report(0, view=0)), 7
    yield "number 7: greatest view", after(report(0, view=LARGEST)), 7
    yield "number 7: member 7 of 7", after(report(0, members=255)), 7
    yield "number 7: without the node", after(report(0, members=126)), 7
    yield "number 8: record 2 names 2", after(changed(good, 11, 2)), 8, 2
    yield "number 8: past the end", after(changed(good, 15, 4)), 8, 3
    yield "number 8: the head names 200", after(changed(good, 3, 200)), 8, 0
    yield "number 8: a gap, then a cut", after(with_gap([769, 7, 1], 7)), 8, 5
    yield "number 8: the head names what is cut off", after(changed(good, 3, 5)), 8, 0
    yield "number 8 before 9", after(changed(changed(good, 11, 2), 4, 9 * 256)), 8, 2
    yield "number 9: kind 9", after(changed(good, 4, 9 * 256)), 9, 1
    yield "number 9: kind 9 after a gap", after(with_gap([9 * 256, 7, 1])), 9, 5
    yield "number 9: word 2", after(changed(good, 6, 1)), 9, 1
    yield "number 9: word 2, then kind 9", after(changed(report(0, [[9 * 256, 7, 1]]), 14, 1)), 9, 3
    yield "number 9: kind 9, then word 2", after(changed(changed(good, 8, 9 * 256), 14, 1)), 9, 2
    yield "number 9: an order's record", after(report(0, [[1024, 1, 0]])), 9, 4
    yield "number 9: an order's cut", after(report(0, [[1280, 1, 1]])), 9, 4
    yield "number 9: the greatest kind", after(changed(good, 4, LARGEST)), 9, 1
    yield "number 9 before 16", after(changed(report(0, [[9 * 256, 7, 1]]), 4, 256 + 3)), 9, 4
    yield "number 16: shard 3 of 3", after(report(0, [[256 + 3, 1, 0]])), 16, 4
    yield "number 16: a run of shard 255", after(report(0, [[768 + 255, 7, 1]])), 16, 4
    yield "number 16: the first of two", after(report(0, runs(3, (6, 1), (7, 1)))), 16, 4
    yield "number 16 after a gap", after(with_gap([768 + 3, 7, 1])), 16, 5
    yield "number 16 before 17", after(changed(report(0, [[768 + 3, 7, 1]]), 4, 257)), 16, 4
    yield "number 17: a mask is missing", after(report(0, masks=MASKS[:2])), 17, 2
    yield "number 17: a mask is missing, and a run is the last", after(report(0, runs(1, (7, 1)), masks=MASKS[:2])), 17, 3
    yield "number 17: a mask is missing, and a run behind a gap is the last", after(changed(with_gap([769, 7, 1]), 11, 5)), 17, 5
    yield "number 17: the head alone", after([0, 7, 127, 0]), 17, 0
    yield "number 17: one position of three", after(report(0, [[512, 1, 1]])), 17, 4
    yield "number 17: one position of three, and a run is the last", after(report(0, [[512, 1, 1]] + runs(1, (7, 1)))), 17, 5
    yield "number 17: one position after a gap", after(with_gap([512, 1, 1])), 17, 5
    yield "number 17: two runs of one view", after(report(0, runs(1, (5, 1), (5, 2)))), 17, 5
    yield "number 17: a run of an earlier view", after(report(0, runs(1, (6, 1), (5, 2), (7, 1)))), 17, 5
    yield "number 17: a run of an earlier shard", after(report(0, runs(1, (5, 1)) + runs(0, (6, 2)))), 17, 5
    yield "number 17: a mask twice", after(report(0, masks=MASKS[:2] + [32], more=[[256 + 2, 32, 0]])), 17, 4
    yield "number 17: masks in another order", after(changed(changed(good, 4, 257), 8, 256)), 17, 2
    yield "number 17: a mask behind a run", after(message(0, 7, 127, shard_masks(MASKS[:2]) + runs(1, (7, 1)) + [[258, 32, 0]])), 17, 4
    yield "number 17 before 10", after(report(0, masks=[0, 82])), 17, 2
    yield "number 17 before 10, by a run", after(report(0, runs(1, (5, 1), (5, 2)), masks=[0, 82, 32])), 17, 5
    yield "number 10: no members", after(changed(good, 5, 0)), 10
    yield "number 10: outside the members", after(report(0, members=123, masks=[5, 82, 32])), 10
    yield "number 10: a node twice", after(report(0, masks=[5, 83, 32])), 10
    yield "number 10 before 11", after(report(0, runs(1, (7, 0)), masks=[0, 82, 32])), 10
    yield "number 11: a run of count 0", after(report(0, runs(1, (7, 0)))), 11
    yield "number 11: position (0, 3)", after(report(0, termination([(0, 3), (0, 0), (0, 0)]))), 11
    yield "number 11: a run above the view", after(report(0, runs(1, (8, 1)))), 11
    yield "number 18: view 6 after view 7", after(good, report(0, view=6)), 18
    yield "number 18: view 1 after the greatest", after(report(0, view=LARGEST - 1), report(0, view=1)), 18
    yield "number 18: views 6, 7 and 6", after(report(0, view=6), good, report(0, view=6)), 18
    yield "number 18: others have reported since", after(good, of_case_a(1), report(2, view=8), report(1, view=6)), 18
    yield "number 11 before 18", after(good, report(0, runs(1, (6, 0)), view=6)), 11
    yield "number 12: other members", after(good, report(1, members=119)), 12
    yield "number 12: other shard", after(good, report(1, masks=[1, 82, 32])), 12
    at_five = termination([(0, 0), (7, 5), (0, 0)])
    at_four = termination([(0, 0), (7, 4), (0, 0)])
    yield "number 13: (7, 4) against (7, 5)", after(report(0, at_five), report(1, at_four)), 13
    yield "number 12 before 13", after(report(0, at_five), report(1, at_four, members=119)), 12
    yield "the first refusal speaks", after(report(7), good[:6]), 6
    yield "what follows a refusal is not read", after(good[:6]) + b"\x07" * 100_000, 5


def with_gap(last, following=0):
    """A report of node 0 whose record 4 is off the chain, and record 5 is this one."""
    words = changed(of_case_a(0), 15, 5)
    return words + [LARGEST] * 4 + last + [following]


def cut_at(starts, decided, at):
    """What an input cut after so many bytes must print: `decided` after the blocks that start at each place, or inside one its number."""
    block = max(i for i, start in enumerate(starts) if start <= at)
    inside = at - starts[block]
    if inside < 4:
        # the blocks before; a cut count ends the input
        return decided[block]
    if block == 0:
        return "number 2\n"
    words = (inside - 4) // 4
    # no words or no whole records, or a chain whose last record that is left leads out of the message
    return "number 5\n" if words == 0 or words % 4 != 0 else "number 8 %d\n" % (words // 4 - 1)


def cut():
    """Case A cut at every byte. Blocks start at 0 (15 words), 60, 128, 212, 280, 348 and 432."""
    starts = [0, 60, 128, 212, 280, 348, 432, len(CASE_A)]
    decided = ["number 2\n", "wait 1\n", "wait 2\n", "wait 2\n", "wait 2\n", "wait 4 2\n", "wait 4 2\n", PLAN]
    for at in range(len(CASE_A) + 1):
        yield "A cut at %d" % at, CASE_A[:at], cut_at(starts, decided, at)


def counts():
    """Counts that are wrong, and what follows the last block."""
    last = of_case_a(5)
    before = case(ALL[:5])
    for more in (b"\x00", b"\x09\x00", b"\xff\xff\xff"):
        yield "A and %d bytes" % len(more), CASE_A + more, PLAN
    for count in (0, 9, LARGEST):
        yield "A and a count of %d" % count, CASE_A + bytes_of([count]), "number 5\n"
    for count in (17, 20, 512, 513, 514, 2**30, LARGEST):
        yield "last count %d" % count, before + bytes_of([count] + last), PLAN
        yield "last count %d and 3 bytes" % count, before + bytes_of([count] + last) + b"abc", PLAN
    # Records off the chain carry nothing: 512 words are as good as 16, 513 are too many, whatever the count.
    full = last + [LARGEST] * 496
    for count in (512, 513, LARGEST):
        yield "512 words, count %d" % count, before + bytes_of([count] + full), PLAN
        # with count 512 the word after them is the count of a block without words
        yield "513 words, count %d" % count, before + bytes_of([count] + full + [0]), "number 5\n"
    for count in (15, 52, 53, 54, LARGEST):
        yield "settings of count %d" % count, bytes_of([count] + SETTINGS), "wait 1\n"
    yield "long settings", bytes_of([LARGEST] + SETTINGS + [0] * 1000), "number 2\n"
    yield "long settings and reports", bytes_of([LARGEST]) + bytes_of(SETTINGS) + CASE_A, "number 2\n"
    yield "nothing", b"", "number 2\n"
    yield "half a count", b"\x0e\x00", "number 2\n"


def long_runs():
    """More input than is read at once: reports that replace each other."""
    many = [of_case_a(node) for node in ALL] * 200
    yield "1,200 reports", after(*many), PLAN
    yield "1,200 reports and one that is refused", after(*many, report(7)), "number 6\n"
    full = [of_case_a(node) + [0] * (512 - len(of_case_a(node))) for node in ALL]
    yield "reports of 512 words", after(*full), PLAN


# ---- the sheet


SEVEN = case(ALL + [6])


def count(mask):
    """How many nodes a mask has."""
    return bin(mask).count("1")


def sheet(nodes, number, last):
    """The text of a sheet: a line for each mask with its number, then the last line."""
    return "".join("%d %d\n" % (mask, number(mask)) for mask in range(2**nodes)) + last + "\n"


def of_seven(plans, logs=MASKS):
    """The number of each mask of case A's settings with all seven reporting: four are a majority, a shard has a log where one of `logs` is up,
    and of the others these have a plan."""

    def number(mask):
        if count(mask) < 4:
            return 2
        if any(mask & log == 0 for log in logs):
            return 4
        return 0 if mask in plans else 5

    return number


PLANS = (63, 111, 119, 123, 125, 126, 127)
SHEET_SEVEN = sheet(7, of_seven(PLANS), "7 64 0 28 29")


def one_set(nodes, back=None, view=1):
    """Settings with so many nodes in one failure set and one shard, which node 0 carried, and the reports of these."""
    told = [report(node, view=view, members=2**nodes - 1, masks=[1]) for node in (range(nodes) if back is None else back)]
    return [[nodes, 1, 1, 1] + [0] * nodes + [1]] + told


def sheets():
    """Whole sheets."""
    yield "one node", blocks(*one_set(1)), "0 2\n1 0\n1 1 0 0 0\n"
    yield "A and node 6", SEVEN, SHEET_SEVEN
    yield "A and node 6, node 0 twice", SEVEN + blocks(of_case_a(0)), SHEET_SEVEN
    yield "A and node 6, the other way round", case([6, 5, 4, 3, 2, 1, 0]), SHEET_SEVEN
    # node 6 missed view 7: its log of shard 1 counts no more, and it can still be placed
    yield "node 6 under view 6", CASE_A + blocks(report(6, view=6)), sheet(7, of_seven(PLANS, [5, 18, 32]), "7 64 0 32 25")
    yield "node 6 under view 6, then 7", CASE_A + blocks(report(6, view=6), of_case_a(6)), SHEET_SEVEN
    # the update with which the kept termination ends is in node 1's log alone, whoever reported the termination
    ended = termination([(0, 0), (7, 5), (0, 0)])
    kept = sheet(7, of_seven((63, 111, 119, 123, 126, 127), [5, 2, 32]), "6 64 0 42 16")
    for node in (6, 0):
        yield "a termination of node %d" % node, SEVEN + blocks(report(node, ended)), kept
    # wait 2 before 3, and 3 before 4
    all_seven = sheet(7, lambda mask: 2 if count(mask) < 4 else 3 if count(mask) < 7 else 0, "1 64 63 0 0")
    yield "least size 7", case(ALL + [6], changed(SETTINGS, 2, 7)), all_seven
    # view 7 is the kept one, whether its members 0, 1 and 2 are up or not
    four = [4, 2, 1, 1, 0, 0, 1, 1, 2]
    told = [report(node, members=7, masks=[3]) for node in range(3)] + [report(3, view=6, members=15, masks=[8])]
    text = sheet(4, lambda mask: int("2225200022202000"[mask]), "7 8 0 0 1")
    yield "four nodes", blocks(four, *told), text
    yield "four nodes, node 3 first", blocks(four, told[3], *told[:3]), text
    # caps change no line
    for cap in (0, 2, 4, 16):
        six = [report(node, members=63, masks=[15]) for node in range(6)]
        text = sheet(6, lambda mask: 0 if count(mask) > 3 else 2, "22 42 0 0 0")
        yield "cap %d" % cap, blocks([6, 3, 3, 1, 0, 0, 1, 1, 2, 2, capped(2, cap)], *six), text
    # 1,025 lines: a majority, and node 0, which alone has a log
    ten = sheet(10, lambda mask: 2 if count(mask) < 6 else 0 if mask % 2 else 4, "256 638 0 130 0")
    yield "ten nodes", blocks(*one_set(10)), ten
    yield "ten nodes, the greatest view", blocks(*one_set(10, view=LARGEST - 1)), ten


def no_sheets():
    """Numbers 22 and 23, after every block was read and judged, and 22 first."""
    yield "number 23: no report", case([]), 23
    for missing in range(7):
        yield "number 23: without node %d" % missing, case([node for node in ALL + [6] if node != missing]), 23
    yield "number 23: node 0 seven times", case([0] * 7), 23
    yield "number 23: ten nodes, no report", blocks(*one_set(10, [])), 23
    yield "number 23: ten nodes, nine reports", blocks(*one_set(10, range(1, 10))), 23
    yield "number 18 before 23", CASE_A + blocks(report(0, view=6)), 18
    for nodes in (11, 12, 31, 32):
        for back in ([], [0], range(nodes - 1), range(nodes)):
            yield "number 22: %d nodes, %d reports" % (nodes, len(back)), blocks(*one_set(nodes, back)), 22
        yield "%d nodes, and a bad last block" % nodes, blocks(*one_set(nodes), [0] * 6), 5
        yield "%d nodes, and a bad first report" % nodes, blocks(*one_set(nodes, []), of_case_a(0)[:6], of_case_a(0)), 5
        yield "%d nodes, and a node too many" % nodes, blocks(*one_set(nodes), report(nodes)), 6
    yield "number 2 before 22", blocks(one_set(11)[0] + [0]), 2


def cut_sheets():
    """Case A and node 6 cut at every byte, counts that are wrong, and what follows the last block."""
    starts = [0, 60, 128, 212, 280, 348, 432, 500, len(SEVEN)]
    decided = ["number 2\n"] + ["number 23\n"] * 7 + [SHEET_SEVEN]
    for at in range(len(SEVEN) + 1):
        yield "sheet cut at %d" % at, SEVEN[:at], cut_at(starts, decided, at)
    for more in (b"\x00", b"\x09\x00", b"\xff\xff\xff"):
        yield "sheet and %d bytes" % len(more), SEVEN + more, SHEET_SEVEN
    for count in (0, 9, LARGEST):
        yield "sheet and a count of %d" % count, SEVEN + bytes_of([count]), "number 5\n"
    for count in (17, 512, 2**30, LARGEST):
        yield "sheet, last count %d" % count, CASE_A + bytes_of([count] + of_case_a(6)) + b"abc", SHEET_SEVEN
    for count in (15, 53, LARGEST):
        yield "sheet, settings of count %d" % count, bytes_of([count] + SETTINGS), "number 23\n"


def long_sheets():
    many = [of_case_a(node) for node in ALL + [6]] * 200
    yield "1,400 reports", after(*many), SHEET_SEVEN
    yield "1,400 reports and one that is refused", after(*many, report(7)), "number 6\n"
    yield "reports of 512 words", after(*[of_case_a(node) + [0] * (512 - len(of_case_a(node))) for node in ALL + [6]]), SHEET_SEVEN


# ---- running a program


def waiting(read_end):
    """How many bytes lie in a pipe."""
    return struct.unpack("i", fcntl.ioctl(read_end, termios.FIONREAD, b"\0" * 4))[0]


def printed(program, data, piece):
    """What a program prints and says on standard error, given the input whole, or so many bytes a read."""
    if piece is None:
        done = subprocess.run([program], input=data, capture_output=True, check=False)
        return done.stdout, done.stderr
    read_end, write_end = os.pipe()
    child = subprocess.Popen([program], stdin=read_end, stdout=subprocess.PIPE, stderr=subprocess.PIPE)
    for at in range(0, len(data), piece):
        os.write(write_end, data[at : at + piece])
        while waiting(read_end):
            if child.poll() is not None:
                return child.communicate()
            time.sleep(0)
    os.close(write_end)
    os.close(read_end)
    return child.communicate()


# ---- where reading or writing fails


def run_with(program, stdin, stdout=subprocess.PIPE):
    done = subprocess.run([program], stdin=stdin, stdout=stdout, stderr=subprocess.PIPE, check=False)
    return done.stdout or b"", done.stderr


def redirected(program, words, data=b""):
    """A program in a shell, with its descriptors changed by these words."""
    done = subprocess.run(["sh", "-c", 'exec "$0" ' + words, program], input=data, capture_output=True, check=False)
    return done.stdout, done.stderr


def opened(program, path, flags, data=None):
    """A program with a file as standard input, or as standard output if there is data to read."""
    file = os.open(path, flags)
    try:
        if data is None:
            return run_with(program, file)
        done = subprocess.run([program], input=data, stdout=file, stderr=subprocess.PIPE, check=False)
        return b"", done.stderr
    finally:
        os.close(file)


def broken(program, data):
    """A stream that breaks after these bytes: its other end is closed while bytes to it were not read."""
    ours, theirs = socket.socketpair()
    with theirs:
        theirs.send(b"x")
        ours.sendall(data)
        ours.close()
        return run_with(program, theirs)


def state_of(child):
    with open("/proc/%d/stat" % child.pid, encoding="ascii") as file:
        return file.read().rsplit(")", 1)[1].split()[0]


def until(child, state):
    while child.poll() is None and state_of(child) != state:
        time.sleep(0.001)


def interrupt(child):
    """Stop a program while it waits in a read, and let it go on: the read ends with EINTR, for its stream has a time limit."""
    until(child, "S")
    child.send_signal(signal.SIGSTOP)
    until(child, "T")
    child.send_signal(signal.SIGCONT)
    until(child, "S")


def interrupted(program, data, pieces):
    """A program with a read interrupted before each of so many pieces of the input, and before its end."""
    ours, theirs = socket.socketpair()
    theirs.setsockopt(socket.SOL_SOCKET, socket.SO_RCVTIMEO, struct.pack("ll", 600, 0))
    child = subprocess.Popen([program], stdin=theirs, stdout=subprocess.PIPE, stderr=subprocess.PIPE)
    theirs.close()
    size = -(-len(data) // pieces)
    for at in range(0, len(data), size):
        interrupt(child)
        with contextlib.suppress(OSError):
            ours.sendall(data[at : at + size])
    interrupt(child)
    ours.close()
    return child.communicate()


def failures(own, program, data, text):
    """(name, what is printed and said, what must be printed, what must be said). `own` is the program's name, `data` a good input, and `text`
    what is printed for it."""
    read, written = b"%s: standard input: " % own, b"%s: standard output: " % own
    yield "a folder as input", opened(program, "/", os.O_RDONLY), b"", read + b"Is a directory\n"
    yield "an input for writing only", opened(program, "/dev/null", os.O_WRONLY), b"", read + b"Bad file descriptor\n"
    yield "a closed input", redirected(program, "<&-"), b"", read + b"Bad file descriptor\n"
    for name, part in (("at once", b""), ("after settings", case([])), ("after three reports", case([0, 1, 2])), ("after all reports", data)):
        yield "a stream that breaks %s" % name, broken(program, part), b"", read + b"Connection reset by peer\n"
    # a refusal ends the run, so nothing after it is read
    yield "a stream that breaks after a refusal", broken(program, case([0]) + blocks([0])), b"number 5\n", b""
    for pieces in (1, 3):
        yield "interrupted, %d pieces" % pieces, interrupted(program, data, pieces), text.encode(), b""
    yield "a full device as output", opened(program, "/dev/full", os.O_WRONLY, data), b"", written + b"No space left on device\n"
    yield "a closed output", redirected(program, ">&-", data), b"", written + b"Bad file descriptor\n"


def own_input(name):
    """The input of the program's own test, nothing where it has none."""
    with contextlib.suppress(FileNotFoundError), open(os.path.join(ROOT, "crates", name, "stdin"), "rb") as file:
        return file.read()
    return b""


def numbered(rows):
    """Rows that end with a number, and perhaps a record's index, as rows that end with the text."""
    return [(name, data, "number %s\n" % " ".join(map(str, told))) for name, data, *told in rows]


def tried(program, rows, in_pieces):
    """Each row given to the program whole, and these (row, bytes a read) in pieces: name, what it printed and said, and what it must."""
    for name, data, text in rows:
        yield name, printed(program, data, None), text.encode(), b""
    for (name, data, text), piece in in_pieces:
        yield "%s, %d bytes a read" % (name, piece), printed(program, data, piece), text.encode(), b""


def of_restart():
    rows = [*named(), *logs_of_cuts(), *more_plans(), *cures(), *cut(), *counts(), *long_runs(), *numbered(refused())]
    in_pieces = [(row, 1) for row in named()] + [(row, piece) for row in long_runs() for piece in (1021, 4095, 4096)]
    yield from tried(RESTART, rows, in_pieces)
    yield from failures(b"restart", RESTART, CASE_A, PLAN)
    yield "crates/restart/stdin is case A", (own_input("restart"), b""), CASE_A, b""


def of_sheet():
    rows = [*sheets(), *cut_sheets(), *long_sheets(), *numbered(no_sheets()), *numbered(refused())]
    in_pieces = [(row, 1) for row in list(sheets())[:2]] + [(row, piece) for row in long_sheets() for piece in (1021, 4095, 4096)]
    yield from tried(SHEET, rows, in_pieces)
    yield from failures(b"sheet", SHEET, SEVEN, SHEET_SEVEN)
    yield "crates/sheet/stdin is case A and node 6", (own_input("sheet"), b""), SEVEN, b""


def main():
    passed = failed = 0
    for program, results in (("restart", of_restart()), ("sheet", of_sheet())):
        for name, got, text, said in results:
            if got == (text, said):
                passed += 1
                continue
            failed += 1
            print("%s, %s: printed %r, said %r, and must print %r and say %r" % (program, name, *got, text, said))
    print("%d passed, %d failed" % (passed, failed))
    sys.exit(1 if failed else 0)


main()
