"""What several subcommands share: their arguments, and an answer with its explanation."""
import argparse

from ..answers import Number, parse, printed
from ..asking import SECONDS, Program
from ..choosing import gone_in, without_in
from ..explaining import explain
from ..files import Trouble, Unfit, read
from ..gathering import gather
from ..missing import asked_without, explained_without, left_out
from ..model import Refused
from ..refusing import TABLE, block_name
from ..repairing import NOT_ASKED, Source
from ..taking import read_input


def file_argument(parser, name="file", about="the file to read, text or words, - for standard input"):
    parser.add_argument(name, metavar="FILE", help=about)


def input_argument(parser):
    parser.add_argument("file", metavar="FILE", nargs="+",
                        help="an input, text or words, - for standard input; or a folder, as watch takes it; or settings, then reports")


def output_argument(parser, about="the file to write; standard output without it"):
    parser.add_argument("-o", "--output", metavar="FILE", help=about)


def program_argument(parser):
    parser.add_argument("--program", metavar="PATH",
                        help="the program restart; without it the one built in this checkout, or installed")


def library_argument(parser):
    parser.add_argument("--library", metavar="PATH",
                        help="the library librestart.so.1; without it the one built in this checkout, or installed")


def names_argument(parser):
    parser.add_argument("--names", metavar="FILE", help="a text whose settings have the machines' names")


def program_arguments(parser, with_answer=True):
    source = parser.add_mutually_exclusive_group()
    program_argument(source)
    if with_answer:
        source.add_argument("--answer", metavar="FILE", help="a file with what restart printed; then it is not started")
    library_argument(parser)
    names_argument(parser)
    parser.add_argument("--gone", metavar="MACHINES", help="machines that will not come back, by number or name, such as 3,5-7")
    parser.add_argument("--without", metavar="MACHINES",
                        help="machines that are back: what would be decided, lost or missing if they were not")
    parser.add_argument("--search", metavar="SECONDS", type=seconds, default=SECONDS,
                        help="how long to ask about other inputs, %g seconds without it" % SECONDS)


def seconds(text):
    value = float(text)
    if not 0 <= value < 1e9:
        raise argparse.ArgumentTypeError("expected seconds, found '%s'" % text)
    return value


def picks(chosen, given, strict=True):
    """The machines that are said to be gone, those that are left out, and remarks on both."""
    gathered = gather(given.blocks, given.names)
    (gone, first), (without, second) = gone_in(chosen.gone, given, gathered, strict), without_in(chosen.without, given, gathered, strict)
    return gone, without, first + second


def explained(chosen):
    """The input, and the answer to it explained; with --without, the input that is left."""
    given = read_input(chosen.file, chosen.names)
    gone, without, _ = picks(chosen, given)
    if chosen.answer:
        answer = parse(read(chosen.answer).decode("ascii", "replace"))
        source = Source(chosen.library, None if chosen.library else NOT_ASKED)
        told = explained_without(given, answer, without, gone, source) if without else explain(given, answer, None, None, gone, source)
    else:
        told = asked_without(given, Program(chosen.program, chosen.search), without, gone, Source(chosen.library))
    return left_out(given, without), told


def drawable(told):
    """The explanation, if there is something to draw."""
    if not told.agrees:
        raise Trouble("the answer does not fit the input; explain says why")
    if isinstance(told.answer, Number):
        raise Unfit("the input is refused with %s, so that there is nothing to draw; explain says why" % printed(told.answer))
    return told


def refused(answer, given, block):
    """What to say where the library has refused."""
    if isinstance(answer, Number):
        raise Refused(answer.number, "%s is refused, given when: %s; restart-text explain says more"
                      % (block_name(block, given), TABLE[answer.number]), answer.index)
