"""status: how far a running restart is, from the leader's file and from state and desk; and the leader's file itself."""
import copy
import ctypes
import json
import os
import random
import struct
import subprocess
import sys
import tempfile
import time
import unittest
import zlib

import support
from restart_text import inputs, leading, words
from restart_text.answers import Plan, Wait
from restart_text.asking import Program
from restart_text.gathering import gather, waits
from restart_text.library import PLANNER, lent, loaded
from restart_text.model import Refused
from restart_text.progress import changes, lines, progress, value_of
from restart_text.running import after_reports
from restart_text.saving import fetched
from support import command
from test_json import faults
from worlds import world

with open(os.path.join(support.ROOT, "operators", "schemas", "status.schema.json"), encoding="utf-8") as file:
    SCHEMA = json.load(file)
MARKING = {"restart_fetched": "nrwrn", "restart_prepared": "nrwrn"}
TAG = (5 << 40) + 7


def marked(running, call, nodes):
    """These machines say that they have fetched or are prepared."""
    calls = loaded(support.library(), MARKING, "drive a restart")
    for node in nodes:
        assert getattr(calls, call)(*lent(PLANNER, running.settings, running.state, running.desk, node)) == 0, (call, node)


def leader_of(blocks, fetched_by=(), prepared_by=(), decide=True, own=b"", tag=TAG):
    running = after_reports(support.library(), blocks)
    if decide:
        assert isinstance(running.decide(), Plan)
    marked(running, "restart_fetched", fetched_by)
    marked(running, "restart_prepared", prepared_by)
    return leading.Leader(tag, running.settings, running.state.raw, running.desk.raw, own)


def case_a(*more, **options):
    return leader_of(support.CASE_A, *more, **options)


def told(leader):
    return lines(progress(leader, support.library()))


def summed(data):
    """The bytes with the right sum at their end."""
    return data[:-4] + struct.pack("<I", zlib.crc32(data[:-4]))


def damaged_files(data):
    """A leader's file with one thing wrong, and its number."""
    return [(b"", 33), (b"abcd" + data[4:], 32), (data[:3], 33), (data[:20], 33), (data[:-1], 33), (data + b"\0", 33),
            (data[:40] + b"\1" + data[41:], 34), (summed(data[:4] + b"\1" + data[5:]), 35), (summed(data[:20] + b"\0" + data[21:]), 34)]


class Phases(unittest.TestCase):
    def test_ordered(self):
        self.assertEqual(told(case_a([0, 1])), [
            "Ordered, tag %d: view 8 after view 7, 2 moves. 2 of 6 machines have fetched; 6 updates still to fetch." % TAG,
            "Owed: fetched of machines 2, 3, 4 and 5.",
            "The most is fetched by machine 5: 5 updates.",
            "Must stay up until all have fetched, for its log is fetched: machine 1 (duty 8).",
            "If one of the held machines stays away, the leader gives the plan up: all report anew, under another tag (duties 2 and 9).",
            "",
            "machine  fetched  prepared  still fetches",
            "0        yes      no        nothing",
            "1        yes      no        nothing",
            "2        no       no        nothing",
            "3        no       no        nothing",
            "4        no       no        1 of shard 1 from machine 1",
            "5        no       no        5 of shard 1 from machine 1"])

    def test_who_has_fetched_fetches_nothing(self):
        found = progress(case_a([0, 1, 5]), support.library())
        self.assertEqual((found.left(4), found.left(5), sorted(found.owing)), (1, 0, [2, 3, 4]))
        self.assertIn("1 update still to fetch", lines(found)[0])

    def test_preparing(self):
        text = told(case_a(range(6), [0, 1, 2, 3]))
        self.assertEqual(text[:2], ["Preparing, tag %d: view 8 after view 7, 2 moves. 4 of 6 machines are prepared." % TAG,
                                    "Owed: prepared of machines 4 and 5."])
        self.assertIn("4        yes      no        -", text)

    def test_committed(self):
        self.assertEqual(told(case_a(range(6), range(6)))[:2], [
            "Committed, tag %d: view 8 after view 7, 2 moves. Every machine is prepared; it is served once they are told." % TAG,
            "Members: machines 0, 1, 2, 3, 4 and 5."])

    def test_gathering(self):
        self.assertEqual(told(leader_of(support.CASE_A, decide=False)), [
            "Gathering, tag %d: 6 of 7 machines have reported, view 7 is kept. Decided now: a plan, new view 8, 2 moves." % TAG,
            "Held: 0 1 2 3 4 5. Absent: 6."])
        self.assertEqual(told(leader_of(support.CASE_A[:4], decide=False))[0],
                         "Gathering, tag %d: 3 of 7 machines have reported, view 7 is kept. Decided now: wait 2, no majority of the kept view." % TAG)
        self.assertEqual(told(leader_of(support.CASE_A[:1], decide=False))[0],
                         "Gathering, tag %d: 0 of 7 machines have reported. Decided now: wait 1, no report." % TAG)

    def test_random_restarts(self):
        """Against the explanation of the same reports: the same answer, and as many updates to fetch, less those of who has fetched."""
        ordered = waiting = 0
        for seed in range(200):
            blocks = world(random.Random(seed))
            gathered = gather(blocks)
            if gathered.refused:
                continue
            answer = Program(support.program()).ask(blocks)
            before = progress(leader_of(blocks, decide=False), support.library())
            self.assertEqual(before.answer, answer, "seed %d" % seed)
            self.assertEqual(faults(json.loads(json.dumps({"schema": 1, "made": "", "version": "", **value_of(before)})), SCHEMA, root=SCHEMA), [])
            waiting += isinstance(answer, Wait)
            if isinstance(answer, Plan):
                done = random.Random(seed).sample(sorted(gathered.held), len(gathered.held) // 2)
                found = progress(leader_of(blocks, done), support.library())
                wanted = fetched(gathered, answer)
                self.assertEqual({node: found.left(node) for node in gathered.held if found.left(node)},
                                 {node: count for node, count in wanted.items() if node not in done}, "seed %d" % seed)
                self.assertEqual(sorted(found.owing), sorted(gathered.held - set(done)))
                self.assertEqual(faults(json.loads(json.dumps({"schema": 1, "made": "", "version": "", **value_of(found)})), SCHEMA, root=SCHEMA), [])
                ordered += 1
            self.assertEqual(waits(gathered) == [], isinstance(answer, Plan))
        self.assertTrue(ordered > 20 and waiting > 10, (ordered, waiting))

    def test_changes(self):
        one, two = (progress(leader, support.library()) for leader in (case_a([0]), case_a([0, 1, 4])))
        self.assertEqual({what: names for what, names in changes(one, two).items() if names}, {"fetched": ["1", "4"]})
        last = progress(leader_of(support.CASE_A[:3], decide=False, tag=TAG + 1), support.library())
        self.assertEqual({what: names for what, names in changes(two, last).items() if names},
                         {"tag": [str(TAG + 1)], "phase": ["gathering"], "no longer held": ["2", "3", "4", "5"]})


class Files(unittest.TestCase):
    def test_there_and_back(self):
        leader = case_a([0], own=words.to_bytes([1, 2, 3]))
        data = leading.to_bytes(leader)
        self.assertEqual(leading.from_bytes(data), leader)
        self.assertEqual((data[:4], len(data)), (b"rldr", 28 + 56 + 640 + 65536 + 12 + 4))

    def test_what_does_not_fit(self):
        for other, number in damaged_files(leading.to_bytes(case_a([0]))):
            with self.assertRaises(Refused) as raised:
                leading.from_bytes(other)
            self.assertEqual(raised.exception.number, number, raised.exception)

    def test_as_text(self):
        leader = case_a([0], own=words.to_bytes([7, 8]))
        status, text, errors = command("text", "--as", "leader", "-", data=leading.to_bytes(leader))
        self.assertEqual((status, errors), (0, ""))
        shown = text.decode()
        self.assertTrue(shown.startswith("# a leader's file of format 2, tag %d\nsettings\nfailure sets 3\n" % TAG), shown[:90])
        self.assertIn("\n\n" + support.STATE_TEXT, shown)
        self.assertEqual(shown.count("\nreport node "), 6)
        self.assertIn("# 2 words of the service's own\n# 7 8\n", shown)
        parts = shown.split("\n\nstate ordered")
        again = parts[0].split("\n", 1)[1] + "\n\n" + parts[1].split("# desk\n")[1].split("\n\n# 2 words")[0] + "\n"
        self.assertEqual(inputs.from_text(again).blocks, support.CASE_A)

    def test_it_is_told_apart(self):
        data = leading.to_bytes(case_a([0]))
        done = command("text", "-", data=data)
        self.assertEqual(done[:2], (2, b""))
        self.assertIn("it looks like a leader's file: --as leader", done[2])
        done = command("explain", "-", "--program", support.program(), data=data)
        self.assertEqual(done[:2], (2, b""))
        self.assertIn("it looks like a leader's file: restart-text status says how far its restart is", done[2])

    @unittest.skipUnless("restart_leader_take" in open(os.path.join(support.ROOT, "include", "restart.h"), encoding="utf-8").read(),
                         "the header has no leader's file")
    def test_against_the_library(self):
        """The library saves the same bytes, takes them, and refuses damaged ones with the same number."""

        class Kept(ctypes.Structure):
            _fields_ = [("tag", ctypes.c_uint64), ("settings_len", ctypes.c_size_t), ("settings", ctypes.c_uint8 * 208),
                        ("state", ctypes.c_uint8 * 640), ("desk", ctypes.c_uint8 * 65536)]

        library = ctypes.CDLL(support.library())
        save, take = library.restart_leader_save, library.restart_leader_take
        save.restype = take.restype = ctypes.c_uint32
        save.argtypes = [ctypes.c_void_p, ctypes.c_char_p, ctypes.c_size_t, ctypes.c_void_p, ctypes.c_size_t]
        take.argtypes = [ctypes.c_void_p, ctypes.c_void_p, ctypes.c_size_t, ctypes.c_char_p, ctypes.c_size_t]
        leader = case_a([0, 1], own=words.to_bytes([4, 5, 6]))
        kept = Kept(leader.tag, len(leader.settings))
        for name in ("settings", "state", "desk"):
            ctypes.memmove(ctypes.addressof(kept) + getattr(Kept, name).offset, getattr(leader, name), len(getattr(leader, name)))
        buffer = ctypes.create_string_buffer(70000)
        answer = save(ctypes.byref(kept), leader.own, len(leader.own), buffer, len(buffer))
        data = leading.to_bytes(leader)
        self.assertEqual((answer, buffer.raw[: len(data)]), ((1 << 24) + len(data) // 4, data))
        source, numbers, others = random.Random(4), set(), [other for other, _ in damaged_files(data)]
        for _ in range(100):
            place = source.choice((source.randrange(32), source.randrange(len(data)), source.randrange(84)))
            other = source.choice((data[:place], data[:place] + bytes([data[place] ^ 1 << source.randrange(8)]) + data[place + 1 :], data))
            others.append(summed(other) if source.random() < 0.4 and len(other) > 32 else other)
        for other in others:
            answer = take(ctypes.byref(Kept()), ctypes.create_string_buffer(64), 64, other, len(other))
            says = 0 if answer >> 24 == 1 else answer % 256
            try:
                leading.from_bytes(other)
                number = 0
            except Refused as refused:
                number = refused.number
            self.assertEqual(number, says if says >= 32 else 0)
            numbers.add(says)
        self.assertLessEqual({0, 32, 33, 34, 35}, numbers)


class Command(unittest.TestCase):
    def setUp(self):
        folder = tempfile.TemporaryDirectory()
        self.addCleanup(folder.cleanup)
        self.folder = folder.name

    def put(self, name, data):
        path = os.path.join(self.folder, name)
        with open(path + ".new", "wb") as file:
            file.write(data)
        os.replace(path + ".new", path)
        return path

    def status(self, *arguments, **more):
        return command("status", *arguments, "--library", support.library(), **more)

    def test_a_leader_s_file(self):
        path = self.put("leader", leading.to_bytes(case_a([0, 1])))
        status, text, errors = self.status(path)
        self.assertEqual((status, text.decode().splitlines(), errors), (0, told(case_a([0, 1])), ""))
        with open(path, "rb") as file:
            self.assertEqual(self.status("-", data=file.read()), (0, text, ""))

    def test_state_and_desk(self):
        leader = case_a([0, 1])
        paths = [self.put(name, data) for name, data in (("state", leader.state), ("desk", leader.desk), ("settings", leader.settings))]
        status, text, _ = self.status(*paths[:2], "--settings", paths[2])
        self.assertEqual((status, text.decode().replace("Ordered: ", "Ordered, tag %d: " % TAG).splitlines()), (0, told(leader)))
        self.assertEqual(self.status(*paths[:2], "--settings", "examples/case-a.txt")[1], text)
        for arguments, message in (
            ([paths[0]], "%s looks like a state; give its desk after it, and --settings FILE" % paths[0]),
            (paths[:2], "a state and a desk are read by their settings: give --settings FILE"),
            ([paths[1], paths[0], "--settings", paths[2]], "%s is no state: it has 65536 bytes, a state has 640" % paths[1]),
        ):
            self.assertEqual(self.status(*arguments), (2, b"", "restart-text: %s\n" % message))

    def test_names(self):
        leader = leader_of(support.given(support.text_of("night.txt")).blocks, decide=False)
        path = self.put("leader", leading.to_bytes(leader))
        status, text, _ = self.status(path, "--names", "examples/night.txt")
        self.assertEqual(status, 1)
        self.assertIn("Held: rack1-b rack2-a rack2-b rack2-c rack3-c rack4-a.", text.decode())

    def test_what_is_refused(self):
        state = bytearray(case_a([0]).state)
        state[4 * 57] += 1  # another total of moves
        leader = case_a([0])
        torn = leading.Leader(TAG, leader.settings, bytes(state), leader.desk)
        for data, message in ((leading.to_bytes(torn), "number 3: the state is not sound with these settings and this desk"),
                              (leading.to_bytes(leader)[:-8], "is no leader's file: it was cut off"),
                              (support.bytes_a(), "is no leader's file: it does not begin as a leader's file does"),
                              (b"", "nothing came")):
            done = self.status(self.put("leader", data))
            self.assertEqual(done[:2], (2, b""))
            self.assertIn(message, done[2])
        self.assertEqual(command("status", self.put("leader", leading.to_bytes(leader)), "--library", "/no-such-library.so")[0], 3)

    def test_json(self):
        path = self.put("leader", leading.to_bytes(case_a([0, 1])))
        value = json.loads(self.status(path, "--json")[1])
        self.assertEqual(faults(value, SCHEMA, root=SCHEMA), [])
        self.assertEqual((value["tag"], value["phase"], value["owes"], value["updates_left"]),
                         (str(TAG), "ordered", {"mark": "fetched", "machines": [2, 3, 4, 5]}, 6))
        self.assertEqual(value["machines"][5], {"node": 5, "name": None, "fetched": False, "prepared": False, "updates_left": 5,
                                                "fetches": [{"shard": 1, "from": 1, "updates": 5}]})
        for change in (lambda one: one.pop("tag"), lambda one: one.update(tag=7), lambda one: one.update(phase="late"),
                       lambda one: one["owes"].update(mark="paid"), lambda one: one["machines"][0].pop("name")):
            other = copy.deepcopy(value)
            change(other)
            self.assertNotEqual(faults(other, SCHEMA, root=SCHEMA), [])

    def test_watch(self):
        """The file appears and is replaced while it is watched: each step is shown, with what has happened, and the end is the new view."""
        steps = [leading.to_bytes(case_a(*marks)) for marks in (([0],), ([0, 1],), (range(6), range(3)), (range(6), range(6)))]
        path = os.path.join(self.folder, "leader")
        watching = subprocess.Popen([sys.executable, support.COMMAND, "watch", path, "--every", "0.05", "--seconds", "60", "--until", "committed",
                                     "--library", support.library()], stdout=subprocess.PIPE, text=True)
        self.addCleanup(watching.stdout.close)
        self.addCleanup(watching.kill)
        heads, last = [], ""
        for line in watching.stdout:
            if path in line:
                heads.append(line.partition(path)[2].strip())
                if steps and len(heads) != 1:
                    self.put("leader", steps.pop(0))
            last = line if "tag" in line else last
        self.assertEqual(heads, ["", "is not there yet, neither a folder nor a leader's file", "", "fetched: 1",
                                 "phase: preparing; fetched: 2, 3, 4, 5; prepared: 0, 1, 2", "phase: committed; prepared: 3, 4, 5"])
        self.assertTrue(last.startswith("Committed, tag %d" % TAG), last)
        self.assertEqual(watching.wait(), 0)

    def test_watch_of_a_bad_file(self):
        path = self.put("leader", b"rldr")
        began = time.monotonic()
        status, text, _ = command("watch", path, "--seconds", "0", "--library", support.library())
        self.assertEqual((status, "it was cut off" in text.decode()), (2, True))
        self.assertLess(time.monotonic() - began, 2)
        status, _, errors = command("watch", self.folder, "--until", "committed", "--seconds", "0", "--program", support.program())
        self.assertEqual((status, errors), (3, "restart-text: --until committed is for a leader's file: reports do not tell when a view is committed\n"))


if __name__ == "__main__":
    unittest.main()
