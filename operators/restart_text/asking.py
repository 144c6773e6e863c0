"""Asking the program `restart`: which one it is, and questions within a time."""
import os
import shutil
import sys
import time

from . import words
from .answers import BadAnswer, Number, parse, run

HERE = os.path.dirname(os.path.dirname(os.path.realpath(__file__)))
SECONDS = 3.0  # for questions beside the one that is explained


class OutOfTime(Exception):
    """The time for further questions is over."""


def default_program(name="restart"):
    """In a checkout the program that was built there; else the one beside this tool's own; else the first on the path."""
    places = [os.path.dirname(os.path.realpath(sys.argv[0]))]
    if os.path.exists(os.path.join(HERE, "..", "crates.txt")):
        places.insert(0, os.path.normpath(os.path.join(HERE, "..", "target", "bin")))
    found = shutil.which(name, path=os.pathsep.join(places)) or shutil.which(name)
    if not found:
        raise BadAnswer("there is no program %s on the path; give --program PATH, or --answer FILE with what it printed" % name)
    return found


def absolute(path):
    """The path of a program that is there, whatever the folder; else its name."""
    return os.path.abspath(path) if os.path.exists(path) else path


class Clock:
    """A time by which work that may be left out must be done."""

    def __init__(self, seconds=SECONDS):
        self.start(seconds)

    def start(self, seconds):
        self.until = time.monotonic() + seconds

    def in_time(self):
        if time.monotonic() > self.until:
            raise OutOfTime


class Program(Clock):
    """The program, which is started once for each question; an answer given before is remembered. The time is for questions that
    may be left out."""

    def __init__(self, path=None, seconds=SECONDS):
        super().__init__(seconds)
        self.path = absolute(path or default_program())
        self.answers = {}

    @property
    def asked(self):
        """How often it was started."""
        return len(self.answers)

    def ask(self, blocks):
        key = words.joined(blocks)
        if key not in self.answers:
            self.answers[key] = parse(run(self.path, blocks))
        return self.answers[key]

    def ask_in_time(self, blocks):
        self.in_time()
        return self.ask(blocks)

    def fault(self, blocks, guess=0):
        """The number of the first block that the program refuses: it refuses the input cut off after this block, and no shorter
        one. Refusals end the run, so longer ones are refused as well and halving finds it, where it is not the guess."""
        low, high = 0, max(len(blocks) - 1, 0)
        if guess <= high and isinstance(self.ask(blocks[: guess + 1]), Number):
            low, high = (guess if guess and not isinstance(self.ask(blocks[:guess]), Number) else 0), guess
        while low < high:
            middle = (low + high) // 2
            if isinstance(self.ask(blocks[: middle + 1]), Number):
                high = middle
            else:
                low = middle + 1
        return low
