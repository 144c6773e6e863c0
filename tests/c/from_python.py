"""The shared library from Python, by ctypes: from_python.py LIBRARY

Every function that the header declares is there; a restart of two machines, as in outside.c, whose lines this prints too."""
import ctypes
import os
import re
import subprocess
import sys

HERE = os.path.dirname(os.path.abspath(__file__))
STATE, DESK, BUFFER, WORD = 640, 65536, 2048, ctypes.c_uint32
PLANNER = 256
library = ctypes.CDLL(os.path.abspath(sys.argv[1]))
for name in ("version_text", "number_text", "reason_text", "phase_text", "view_text"):
    getattr(library, "restart_" + name).restype = ctypes.c_char_p


def words(*numbers):
    """Lent memory that holds these words."""
    data = b"".join(number.to_bytes(4, "little") for number in numbers)
    return ctypes.create_string_buffer(data, len(data))


def call(name, *given):
    """Calls with these words and pieces, each piece followed by its length, and hands the answer back."""
    arguments = []
    for one in given:
        arguments += [WORD(one)] if isinstance(one, int) else [one, ctypes.c_size_t(len(one))]
    return WORD(getattr(library, "restart_" + name)(*arguments)).value


def helper(name, *numbers):
    """A small function of a word."""
    return getattr(library, "restart_" + name)(*map(WORD, numbers))


def is_there():
    declared = subprocess.run(["sh", os.path.join(HERE, "..", "..", "c", "names.sh")], stdout=subprocess.PIPE, text=True, check=True)
    names = declared.stdout.split()
    assert len(names) >= 30
    for name in names:
        getattr(library, name)


def versions():
    with open(os.path.join(HERE, "..", "..", "include", "restart.h")) as header:
        macros = dict(re.findall(r'^#define (RESTART_[A-Z_]+) "?([0-9.]+)"?', header.read(), re.M))
    parts = [int(macros["RESTART_VERSION_" + part]) for part in ("MAJOR", "MINOR", "PATCH")]
    assert library.restart_version_text().decode() == macros["RESTART_VERSION"] == ".".join(map(str, parts))
    assert library.restart_version() == int(macros["RESTART_VERSION_NUMBER"]) == 10000 * parts[0] + 100 * parts[1] + parts[2]
    assert library.restart_format() == int(macros["RESTART_FORMAT"]) == 2


def small_functions():
    assert helper("number_text", 0) == b"accepted"
    assert helper("number_text", 3) == b"the state is unsound"
    assert helper("number_text", 14) == b"the machine is not held, or marked already"
    assert helper("reason_text", 5) == b"a subgroup cannot be laid out"
    assert [helper("phase_text", phase) for phase in range(4)] == [b"gathering", b"ordered", b"preparing", b"committed"]
    assert helper("number_text", 15) == b"not allowed to this role"
    assert helper("number_text", 16) == b"a record names an unknown shard"
    assert helper("number_text", 18) == b"the machine has reported a later view before"
    assert helper("number_text", 23) == b"no kept view, or a machine has no valid report"
    assert helper("number_text", 20) == b"a run of the flat report has count 0"
    assert helper("view_text", 2) == b"the open view was never served"
    for name, first, called in (("number", 24, "number"), ("reason", 6, "reason"), ("phase", 4, "phase"), ("view", 5, "finding")):
        assert {helper(name + "_text", word) for word in (first, 255, 4294967295)} == {b"unknown " + called.encode()}
    wait = 3 * 16777216 + 256 * 4 + 15
    found = [helper(name, wait) for name in ("class_of", "is_wait", "is_plan", "is_refusal", "reason_of", "value_of", "number_of")]
    assert found == [3, 1, 0, 0, 4, 15, 0]
    assert [helper(name, 256 * 7 + 9) for name in ("is_refusal", "number_of", "has_index", "index_of", "length_of")] == [1, 9, 1, 7, 0]
    assert [helper("has_index", number) for number in (7, 8, 10, 16, 17, 18)] == [0, 1, 0, 1, 1, 0]
    assert helper("length_of", 16777216 + 512) == 512
    assert [helper("gap_of", answer) for answer in (33554432, 33554432 + 1, 33554432 + 128, 16777216 + 5, 50331648 + 1280, 7)] == [0, 1, 128, 0, 0, 0]
    assert [helper("view_of", helper("open_view", *masks)) for masks in ((7, 8, 0, 0, 0), (7, 0, 5, 0, 8), (7, 0, 5, 8, 0))] == [1, 2, 3]
    games = [5 * 16777216 + rest for rest in (0, 256, 256 + 9, 256 + 32)]
    told = [(helper("is_game", game), helper("outage_wins", game), helper("first_of", game)) for game in games]
    assert told == [(1, 0, 32), (1, 1, 0), (1, 1, 9), (1, 1, 32)]
    assert [helper("watcher", subgroup) for subgroup in (0, 3, 4, 4294967295)] == [512, 515, 516, 516]
    lent = words(1, 2, 3)
    library.restart_put_word(lent, ctypes.c_size_t(1), WORD(4026531841))
    assert WORD(library.restart_get_word(lent, ctypes.c_size_t(1))).value == 4026531841 and lent.raw[4:8] == b"\1\0\0\xf0"


def restart():
    settings, state, desk = words(2, 2, 1, 1, 0, 1, 1), ctypes.create_string_buffer(STATE), ctypes.create_string_buffer(DESK)
    assert call("check_settings", settings) == 0
    assert call("fresh", PLANNER, state) == 0
    for node in range(2):
        print("report %d, " % call("report", PLANNER, settings, state, desk, words(node, 3, 3, 1, 256, 3, 0, 0)), end="")
        seen = ctypes.create_string_buffer(BUFFER)
        print("%d word, must" % helper("length_of", call("preview_all", PLANNER, settings, state, desk, seen)), end="")
        print(" stay %d, " % WORD(library.restart_get_word(seen, ctypes.c_size_t(0))).value, end="")
        print("reason %d, " % helper("reason_of", call("preview", PLANNER, settings, state, desk, node, seen)), end="")
        assert call("game", PLANNER, settings, state, desk, 3, 1) == (23, 5 * 16777216 + 256)[node]
        copy = ctypes.create_string_buffer(state.raw, STATE)
        print("gap %d, " % helper("gap_of", call("decide_within", PLANNER, settings, copy, desk, 0)), end="")
        answer = call("decide", PLANNER, settings, state, desk)
        if helper("is_wait", answer):
            print("wait %d" % helper("reason_of", answer))
        else:
            print("plan %d" % WORD(library.restart_get_word(state, ctypes.c_size_t(55))).value)
    watcher, page = helper("watcher", 0), ctypes.create_string_buffer(BUFFER)
    length = helper("length_of", call("page", watcher, settings, state, desk, 0, page))
    print("page of %d words, placed %d" % (length, WORD(library.restart_get_word(page, ctypes.c_size_t(56))).value))
    assert call("page", watcher, settings, state, desk, 1, page) == call("drop", watcher, settings, state, desk, 0) == 15


is_there()
versions()
small_functions()
restart()
