"""The worked examples of restart-model(7) are what the planner does: model.py PAGE PROGRAM LIBRARY

The example's text, turned into words, gives PROGRAM's answer as it stands in the page, and waits 2 before the last report; the report's
words are those of the text; the order's words and the page's are those that LIBRARY writes; with a termination the target is its position. The two logs
of the page's cut, reported by two machines, give an order with that cut; the page's shards get the members that it names, with a cap and
without; rounds reach what its table says. The last line is `N passed, M failed`."""
import ctypes
import itertools
import os
import re
import struct
import subprocess
import sys

TOOL = os.path.join(os.path.dirname(os.path.abspath(__file__)), "..", "..", "operators", "restart-text")
COUNTS = {True: 0, False: 0}
PLANNER, WATCHER = 256, 512


def check(what, found, expected):
    COUNTS[found == expected] += 1
    if found != expected:
        print("FAILED: %s: found %r, expected %r" % (what, found, expected))


def example(page, name):
    """The lines of the page that stand after this mark."""
    return re.search(r'^\.\\" example: %s\n\.nf\n(.*?)^\.fi$' % name, page, re.M | re.S).group(1)


def record_words(lines):
    """The four words that each line starts with."""
    return [int(word) for line in lines.splitlines() for word in line.split()[:4]]


def blocks(text):
    """The blocks of words that a text tells of."""
    data = subprocess.run([sys.executable, TOOL, "words", "-"], input=text.encode(), stdout=subprocess.PIPE, check=True).stdout
    while data:
        size = 4 * struct.unpack_from("<I", data)[0]
        yield data[4 : 4 + size]
        data = data[4 + size :]


def answer(program, given):
    data = b"".join(struct.pack("<I", len(block) // 4) + block for block in given)
    return subprocess.run([program], input=data, stdout=subprocess.PIPE, check=True).stdout.decode()


class Restart:
    """A restart in the library: these reports are taken."""

    def __init__(self, path, settings, messages):
        self.library, self.settings = ctypes.CDLL(os.path.abspath(path)), settings
        self.state, self.desk = (ctypes.create_string_buffer(size) for size in (640, 65536))
        self.call("fresh", PLANNER, self.state)
        for message in messages:
            check("a report is taken", self.call("report", PLANNER, *self.lent, message), 0)

    @property
    def lent(self):
        return self.settings, self.state, self.desk

    def call(self, name, *arguments):
        pairs = [part for piece in arguments for part in ((piece, ctypes.c_size_t(len(piece))) if not isinstance(piece, int) else (piece,))]
        return getattr(self.library, "restart_" + name)(*pairs)

    def written(self, name, role, number):
        """The words that a call writes, for a node or of a subgroup."""
        buffer = ctypes.create_string_buffer(2048)
        length = self.library.restart_length_of(self.call(name, role, *self.lent, number, buffer))
        return list(struct.unpack_from("<%dI" % length, buffer.raw))


def order(path, settings, messages, node):
    """The words of the order that the library writes for a node."""
    restart = Restart(path, settings, messages)
    check("a plan", restart.library.restart_is_plan(restart.call("decide", PLANNER, *restart.lent)), 1)
    return restart.written("order", PLANNER, node)


def page_words(lines):
    """The words of the page that these lines tell of; all others are 0."""
    words = [0] * 72
    for line in lines.splitlines():
        place, numbers = re.match(r"words (\d+) \D+\d+ +((?:\d+ )+) ", line).groups()
        words[int(place) : int(place) + len(numbers.split())] = map(int, numbers.split())
    return words


def terminated(text):
    """The example with the termination that the page speaks of, in the report of machine 3."""
    lines = "termination shard 0 view 4 update 1\ntermination shard 1 view 4 update 1\n"
    return text.replace("\nreport node 4 ", lines + "\nreport node 4 ")


def positions(line):
    return [(int(view), int(k)) for view, k in re.findall(r"\((\d+), (\d+)\)", line)]


def reported(node, log):
    """The report of a machine with this log of shard 0, which in the kept view is on machine 0 alone."""
    runs = ["run shard 0 view %d count %d" % (view, sum(at[0] == view for at in log)) for view in sorted({at[0] for at in log})]
    return "\n".join(["report node %d view 6" % node, "members 0 1", "shard 0 members 0", *runs]) + "\n"


def cut_of_two_logs(lines, library):
    """What the library writes where machine 0 has the holder's log of these lines and machine 1 the other."""
    head, *logs = [positions(line) for line in lines.splitlines()]
    target, holder, (machine, shared) = head[0], head[1:], logs
    same = itertools.takewhile(lambda both: both[0] == both[1], zip(holder, machine))
    check("what the two logs share", [one for one, _ in same], shared)
    text = "settings\nfailure sets 2\nleast group size 1\nnode 0 set 0\nnode 1 set 1\nshard 0 subgroup 0 needs 2\n"
    settings, *messages = blocks("\n".join([text, reported(0, holder), reported(1, machine)]))
    found = order(library, settings, messages, 1)
    check("the target, the holder and the cut", found[8:11] + found[12:15] + found[16:19], [512, *target, 1024, 0, 0, 1280, *shared[-1]])


def with_caps(page, program):
    """The answer for the page's shards, which all machines but the last report, beside what the page says of it."""
    numbers, sets, *shards = [line[28:] for line in example(page, "caps").splitlines()]
    carried = [[str(node) for node, mark in enumerate(line[::3]) if mark == "x"] for line in shards]
    text = ["settings", "failure sets 3", "least group size 1"]
    text += ["node %s set %s" % both for both in zip(numbers.split(), sets.split())]
    caps, members = [" cap 4", ""], ["shard %d members %s" % (shard, " ".join(nodes)) for shard, nodes in enumerate(carried)]
    reports = ["\n".join(["report node %s view 5" % node, "members 0-5", *members]) for node in numbers.split()[:-1]]
    said = re.search(r"first placement is ([\d ]+) for shard 0 and ([\d ]+) for shard 1\. Without a cap it is ([\d ]+) and ([\d ]+)\.", page)
    for cap, expected in zip(caps, (said.groups()[:2], said.groups()[2:])):
        settings = "\n".join(text + ["shard 0 subgroup 0 needs 2%s" % cap, "shard 1 subgroup 0 needs 2"])
        found = answer(program, blocks("\n\n".join([settings, *reports]))).splitlines()
        check("the moves%s" % cap, found[1], "moves 1")
        check("the members%s" % cap, tuple(line.partition(" members ")[2] for line in found[2:]), expected)


def by_rounds(lines, library):
    """What the library decides by rounds where shards 0 and 1 of a subgroup, had by machines 2 and 0 of three, need one each."""
    text = ["settings", "failure sets 1", "least group size 1", *("node %d set 0" % node for node in range(3))]
    text += ["shard %d subgroup 0 needs 1" % shard for shard in range(2)]
    members = "members 0-2\nshard 0 members 2\nshard 1 members 0"
    settings, *messages = blocks("\n\n".join(["\n".join(text), *("report node %d view 5\n%s" % (node, members) for node in range(3))]))
    for line in lines.splitlines()[1:]:
        rounds, *expected = map(int, line.split())
        restart = Restart(library, settings, messages)
        gap = restart.library.restart_gap_of(restart.call("decide_within", PLANNER, *restart.lent, rounds))
        state = struct.unpack("<160I", restart.state.raw)
        check("after %d rounds" % rounds, [mask.bit_length() - 1 for mask in state[58:60]] + [state[57], gap], expected)


def main():
    path, program, library = sys.argv[1:]
    with open(path) as file:
        page = file.read()
    text = example(page, "input")
    settings, *messages = blocks(text)
    check("the answer", answer(program, [settings, *messages]), example(page, "answer"))
    for count in (1, 2, 3):
        check("after %d reports" % count, answer(program, [settings, *messages[:count]]), "wait 2\n")
    last = list(struct.unpack("<%dI" % (len(messages[-1]) // 4), messages[-1]))
    check("the report", record_words(example(page, "report")), last)
    check("the order", record_words(example(page, "order")), order(library, settings, messages, 1))
    check("the page", page_words(example(page, "page")), Restart(library, settings, messages).written("page", WATCHER, 0))
    with_termination = list(blocks(terminated(text)))
    check("the target with a termination", "shard 0 holder 2 target 4 1 members 1 2" in answer(program, with_termination).splitlines(), True)
    thrown_out = order(library, with_termination[0], with_termination[1:], 2)
    check("what machine 2 throws out", thrown_out[-4:-1], [1280, 4, 1])
    cut_of_two_logs(example(page, "cut"), library)
    with_caps(page, program)
    by_rounds(example(page, "rounds"), library)
    print("%d passed, %d failed" % (COUNTS[True], COUNTS[False]))
    sys.exit(1 if COUNTS[False] else 0)


main()
