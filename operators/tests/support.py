"""What the tests share: the programs and the library under test, the files of the repository, and case A word by word."""
import contextlib
import io
import os
import re
import sys
from unittest import mock

ROOT = os.path.dirname(os.path.dirname(os.path.dirname(os.path.abspath(__file__))))
sys.path.insert(0, os.path.join(ROOT, "operators"))
COMMAND = os.path.join(ROOT, "operators", "restart-text")
os.environ["SOURCE_DATE_EPOCH"] = "1772337906"  # 2026-03-01 04:05:06 UTC, for whatever is dated

from restart_text import inputs
from restart_text.command import main

BUILT = ["target/bin/%s", "target/cargo/release/%s-reference", "reference/target/release/%s-reference"]


def program(name="restart"):
    """The program under test: named by RESTART_PROGRAM, MONDAYS_PROGRAM or SHEET_PROGRAM, else the first that has been built."""
    named = os.environ.get(name.upper() + "_PROGRAM")
    found = [named] if named else [path for path in (os.path.join(ROOT, place % name) for place in BUILT) if os.path.exists(path)]
    if not found:
        sys.exit("no program %s to test: name it, as in operators/tests/run.py RESTART MONDAYS LIBRARY SHEET" % name)
    return os.path.abspath(found[0])


def library():
    """The library under test: named by RESTART_LIBRARY, else the one that has been built."""
    found = os.environ.get("RESTART_LIBRARY") or os.path.join(ROOT, "target", "librestart.so.1")
    if not os.path.exists(found):
        sys.exit("no library to test: make lib, or name it after the programs, as in operators/tests/run.py RESTART MONDAYS LIBRARY")
    return os.path.abspath(found)


def command(*arguments, data=b""):
    """The exit status, output and errors of the command with these arguments, from the repository's root."""
    streams = [io.TextIOWrapper(io.BytesIO(start), encoding="utf-8") for start in (data, b"", b"")]
    with mock.patch.multiple(sys, stdin=streams[0], stdout=streams[1], stderr=streams[2]), contextlib.chdir(ROOT):
        try:
            status = main([str(argument) for argument in arguments])
        except SystemExit as end:
            status = end.code
        for stream in streams[1:]:
            stream.flush()
    return status, streams[1].buffer.getvalue(), streams[2].buffer.getvalue().decode()


def text_of(name):
    with open(os.path.join(ROOT, "examples", name), encoding="utf-8") as file:
        return file.read()


def undated(picture):
    """The picture without its date and release, which change."""
    return re.sub("Made [^<]*", "Made", picture)


def example(name):
    return text_of("case-%s.txt" % name)


def given(text):
    """The input that a text tells of."""
    return inputs.from_text(text)


# Case A: settings, then the reports of machines 0 to 5.
CASE_A = [
    [7, 3, 4, 3, 0, 0, 1, 1, 1, 2, 2, 2, 3, 1],
    [0, 7, 127, 1, 256, 5, 0, 2, 257, 82, 0, 3, 258, 32, 0, 0],
    [1, 7, 127, 1, 256, 5, 0, 2, 257, 82, 0, 3, 258, 32, 0, 4, 769, 7, 5, 0],
    [2, 7, 127, 1, 256, 5, 0, 2, 257, 82, 0, 3, 258, 32, 0, 0],
    [3, 7, 127, 1, 256, 5, 0, 2, 257, 82, 0, 3, 258, 32, 0, 0],
    [4, 7, 127, 1, 256, 5, 0, 2, 257, 82, 0, 3, 258, 32, 0, 4, 769, 7, 4, 0],
    [5, 7, 127, 1, 256, 5, 0, 2, 257, 82, 0, 3, 258, 32, 0, 0],
]

# What the program must print for it.
ANSWER_A = """view 8
moves 2
shard 0 holder 0 target 0 0 members 0 2
shard 1 holder 1 target 7 5 members 1 4 5
shard 2 holder 5 target 0 0 members 3
"""

# The order to machine 4 that follows from this plan.
ORDER_A = [4, 8, 63, 1, 256, 5, 0, 2, 257, 50, 0, 3, 258, 8, 0, 4, 512, 0, 0, 5, 513, 7, 5, 6, 514, 0, 0, 7, 1025, 1, 0, 8]
ORDER_A += [1281, 7, 4, 0]

ORDER_TEXT = """order node 4 view 8
members 0 1 2 3 4 5
shard 0 members 0 2
shard 1 members 1 4 5
shard 2 members 3
target shard 0 view 0 update 0
target shard 1 view 7 update 5
target shard 2 view 0 update 0
holder shard 1 node 1
cut shard 1 view 7 update 4
"""


def state_a():
    """The state after this plan, machine 0 having fetched."""
    state = [0] * 160
    state[0:3] = [1, 7, 127]
    state[4:7] = [5, 82, 32]
    state[52:54] = [63, 1]
    state[55:58] = [8, 63, 2]
    state[58:61] = [5, 50, 8]
    state[74:77] = [0, 1, 5]
    state[92:94] = [7, 5]
    state[122:128] = [7] * 6
    return state


STATE_TEXT = """state ordered
kept view 7
kept members 0 1 2 3 4 5 6
kept shard 0 members 0 2
kept shard 1 members 1 4 6
kept shard 2 members 5
held 0 1 2 3 4 5
fetched 0
prepared none
remembered node 0 view 7
remembered node 1 view 7
remembered node 2 view 7
remembered node 3 view 7
remembered node 4 view 7
remembered node 5 view 7
plan view 8 moves 2
plan members 0 1 2 3 4 5
plan shard 0 holder 0 target 0 0 members 0 2
plan shard 1 holder 1 target 7 5 members 1 4 5
plan shard 2 holder 5 target 0 0 members 3
"""


def bytes_a():
    """Case A as bytes, put together without the package."""
    data = b""
    for block in CASE_A:
        for word in [len(block)] + block:
            data += word.to_bytes(4, "little")
    return data


def with_block(number, block):
    """Case A with another block in one place."""
    blocks = [list(one) for one in CASE_A]
    blocks[number] = block
    return inputs.Input(blocks, [])
