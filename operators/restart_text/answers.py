"""What `restart` prints: a plan, a wait or a number. And running it."""
import re
import subprocess
from dataclasses import dataclass

from . import words
from .model import LOCATED, number_line


class BadAnswer(Exception):
    """Lines that `restart` does not print, or a program that does not run."""


@dataclass(frozen=True)
class Placed:
    """A shard of a plan."""

    holder: int
    target: tuple
    members: frozenset


@dataclass(frozen=True)
class Plan:
    view: int
    moves: int
    shards: tuple  # of Placed


@dataclass(frozen=True)
class Wait:
    reason: int
    value: int | None  # the shard of reason 4, the subgroup of reason 5


@dataclass(frozen=True)
class Number:
    number: int
    index: int | None = None  # of the record looked at, for the numbers that name one


SHARD = re.compile(r"shard (\d+) holder (\d+) target (\d+) (\d+) members((?: \d+)+)")


def parse(text):
    lines = text.splitlines()
    if not lines:
        raise BadAnswer("the answer is empty")
    if len(lines) == 1:
        return one_line(lines[0])
    view, moves = re.fullmatch(r"view (\d+)", lines[0]), re.fullmatch(r"moves (\d+)", lines[1])
    if not view or not moves:
        raise BadAnswer("expected 'view NUMBER' and 'moves NUMBER', found '%s' and '%s'" % tuple(lines[:2]))
    shards = tuple(placed(number, line) for number, line in enumerate(lines[2:]))
    return Plan(int(view[1]), int(moves[1]), shards)


def one_line(line):
    wait = re.fullmatch(r"wait ([1-3])|wait ([45]) (\d+)", line)
    number = re.fullmatch(r"number (\d+)(?: (\d+))?", line)
    if number and (int(number[1]) in LOCATED) == (number[2] is not None):
        return Number(int(number[1]), int(number[2]) if number[2] else None)
    if wait:
        return Wait(int(wait[1]), None) if wait[1] else Wait(int(wait[2]), int(wait[3]))
    raise BadAnswer("expected a plan, 'wait REASON' or 'number NUMBER' (with a record after %s), found '%s'"
                    % (", ".join(map(str, LOCATED)), line))


def placed(number, line):
    found = SHARD.fullmatch(line)
    if not found or int(found[1]) != number:
        raise BadAnswer("expected 'shard %d holder NODE target VIEW UPDATE members NODES', found '%s'" % (number, line))
    members = frozenset(map(int, found[5].split()))
    return Placed(int(found[2]), (int(found[3]), int(found[4])), members)


def run(program, blocks):
    """What the program prints for these blocks."""
    try:
        done = subprocess.run([program], input=words.joined(blocks), capture_output=True, check=False)
    except OSError as error:
        raise BadAnswer("%s does not run: %s" % (program, error.strerror)) from None
    if done.returncode != 0:
        raise BadAnswer("%s ended with status %d" % (program, done.returncode))
    return done.stdout.decode("ascii", "replace")


def printed(answer):
    """The answer in a few words."""
    if isinstance(answer, Plan):
        return "a plan, new view %d, %d move%s" % (answer.view, answer.moves, "s" * (answer.moves != 1))
    if isinstance(answer, Wait):
        return "wait %d" % answer.reason + (" %d" % answer.value if answer.value is not None else "")
    return number_line(answer.number, answer.index)
