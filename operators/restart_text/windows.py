"""Moves files and what the program `mondays` prints for them: for every 64 consecutive restarts the sum of their moves and the
greatest single one. The windows are counted here once more, and an answer that has others is refused."""
import io
import os
import re
import struct
import subprocess
from argparse import ArgumentTypeError
from array import array
from collections import deque
from dataclasses import dataclass

from .answers import BadAnswer
from .plotting import plot
from .sentences import counted

WINDOW, MOST_MOVES = 64, 128
LINE = struct.Struct("<2I")  # restart number, moves
PRINTED = re.compile(rb"(\d{1,4}) (\d{1,3})\n")
REFUSED = re.compile(rb"number (2[45])\n")


@dataclass
class Moves:
    """The good lines of a moves file, and what is wrong with the line after them."""

    restarts: array
    moves: array
    number: int = 0  # 24 or 25; 0 if every line is good
    fault: str = ""


@dataclass
class Windows:
    """Each window's sum and greatest, and the number after the last."""

    sums: array
    greatest: array
    number: int = 0


def draw(data, printed, last=None):
    """The plot of a moves file or of its last restarts, by what `mondays` printed for it, and what is wrong with the file."""
    moves, answer = moves_of(data), parse(printed)
    compare(moves, answer)
    if not answer.sums:
        reason = moves.fault or "the file has %s" % counted(len(moves.moves), "restart")
        raise BadAnswer("there is no window to draw, %d restarts make one: %s" % (WINDOW, reason))
    return plot(moves, answer, WINDOW, last), moves.fault


def moves_of(data):
    """The lines of a moves file up to the first bad one."""
    found, before = Moves(array("L"), array("B")), -1
    whole = len(data) - len(data) % LINE.size
    for restart, moves in LINE.iter_unpack(memoryview(data)[:whole]):
        if restart <= before:
            return refused(found, 24, "restart %d does not come after restart %d" % (restart, before))
        if moves > MOST_MOVES:
            return refused(found, 25, "restart %d has %d moves, more than %d" % (restart, moves, MOST_MOVES))
        found.restarts.append(restart)
        found.moves.append(moves)
        before = restart
    if whole < len(data):
        return refused(found, 24, "it is cut short, %d of %d bytes" % (len(data) - whole, LINE.size))
    return found


def refused(found, number, what):
    found.number, found.fault = number, "line %d is bad (number %d): %s" % (len(found.moves) + 1, number, what)
    return found


def windows_of(moves):
    """Every window of these moves: the sum is carried along, and so are the lines that can still become the greatest."""
    found, total, rivals = Windows(array("H"), array("B")), 0, deque()
    for line, own in enumerate(moves):
        total += own - (moves[line - WINDOW] if line >= WINDOW else 0)
        while rivals and moves[rivals[-1]] <= own:
            rivals.pop()
        rivals.append(line)
        if rivals[0] == line - WINDOW:
            rivals.popleft()
        if line >= WINDOW - 1:
            found.sums.append(total)
            found.greatest.append(moves[rivals[0]])
    return found


def parse(printed):
    """What `mondays` printed."""
    found = Windows(array("H"), array("B"))
    for line in io.BytesIO(printed):
        window, number = PRINTED.fullmatch(line), REFUSED.fullmatch(line)
        if found.number or not (window or number):
            text = line.decode("ascii", "replace").strip()
            raise BadAnswer("expected windows, then perhaps 'number 24' or 'number 25', found '%s'" % text)
        if number:
            found.number = int(number[1])
        else:
            found.sums.append(int(window[1]))
            found.greatest.append(min(int(window[2]), 255))
    return found


def compare(moves, answer):
    """Refuses an answer that is not this file's."""
    own = windows_of(moves.moves)
    own.number = moves.number
    if own == answer:
        return
    for place, ours in enumerate(zip(own.sums, own.greatest)):
        printed = (answer.sums[place], answer.greatest[place]) if place < len(answer.sums) else None
        if printed != ours:
            raise BadAnswer("the answer does not fit the file: window %d is %s, it should be %d %d"
                            % (place + 1, "missing" if printed is None else "%d %d" % printed, *ours))
    raise BadAnswer("the answer does not fit the file: it should end after %s%s"
                    % (counted(len(own.sums), "window"), " with number %d" % own.number if own.number else ""))


def run(program, data):
    """What the program, named by its path or found by its name, prints for a moves file."""
    path = os.path.abspath(program) if os.path.exists(program) else program
    try:
        done = subprocess.run([path], input=data, capture_output=True, check=False)
    except OSError as error:
        raise BadAnswer("%s does not run: %s" % (program, error.strerror)) from None
    if done.returncode != 0 or done.stderr:
        told = done.stderr.decode("utf-8", "replace").strip()
        raise BadAnswer("%s ended with status %d%s" % (program, done.returncode, ": " + told if told else ""))
    return done.stdout


def options(made):
    """The command's options."""
    source = made.add_mutually_exclusive_group()
    source.add_argument("--program", metavar="PATH", help="the program mondays; without it the one built in this checkout, or installed")
    source.add_argument("--answer", metavar="FILE", help="a file with what mondays printed; then it is not started")
    made.add_argument("--last", type=positive, metavar="N", help="draw the last N restarts only; the windows are still those of the file")
    made.add_argument("-o", "--output", metavar="FILE", help="the file to write; standard output without it")


def positive(text):
    if not re.fullmatch("0*[1-9][0-9]*", text):
        raise ArgumentTypeError("expected a number from 1 up, found '%s'" % text)
    return int(text)
