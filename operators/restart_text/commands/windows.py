"""restart-text windows: what mondays prints for a moves file, as a plot."""
import sys

from .. import windows
from ..asking import default_program
from ..files import read, write
from ..statuses import REFUSAL
from .shared import file_argument


def arguments(parser):
    file_argument(parser, about="the moves file, - for standard input")
    windows.options(parser)


def work(chosen):
    data = read(chosen.file, most=None)
    printed = read(chosen.answer, most=None) if chosen.answer else windows.run(chosen.program or default_program("mondays"), data)
    picture, fault = windows.draw(data, printed, chosen.last)
    write(chosen.output, picture.encode())
    if fault:
        print("restart-text: %s" % fault, file=sys.stderr)
    return REFUSAL if fault else 0
