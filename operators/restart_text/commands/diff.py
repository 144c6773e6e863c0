"""restart-text diff: two answers compared."""
import json
import os

from ..answers import parse
from ..asking import Program
from ..differing import cause_lines, difference_lines, input_parts, settings_lines
from ..files import read, read_names, something, write, write_told
from ..gathering import gather, named
from ..inputs import is_text
from ..jsoned import difference_value
from ..model import Settings
from ..taking import read_input
from .shared import names_argument, program_argument

SAME, DIFFERENT = 0, 1


def arguments(parser):
    parser.add_argument("file", metavar="A", help="what restart printed; or an input, text or words, or a folder, which it is then asked about")
    parser.add_argument("other", metavar="B", help="the same for the second answer")
    program_argument(parser)
    names_argument(parser)
    parser.add_argument("--json", action="store_true", help="write JSON, as operators/schemas/diff.schema.json has it")


def work(chosen):
    paths = chosen.file, chosen.other
    (one, first), (other, second) = [answer_in(path, chosen.program) for path in paths]
    given = [source.names for source in (second, first) if source and source.names]
    names = read_names(chosen.names) if chosen.names else given[0] if given else ()
    settings = named(Settings(1, 1, (0,) * 32, ()), names)
    gathered = [gather(source.blocks, names) if source else None for source in (first, second)]
    lines = difference_lines(one, other, settings)
    status = DIFFERENT if lines else SAME
    lines += cause_lines(one, other, gathered, settings) if lines else same_lines(gathered, settings)
    if chosen.json:
        write(None, (json.dumps(difference_value(paths, (one, other), gathered, settings, lines), indent=1) + "\n").encode())
    else:
        write_told(None, lines)
    return status


def same_lines(gathered, settings):
    """The answers are the same; their inputs may still differ."""
    if None in gathered:
        return ["The answers are the same."]
    return ["The answers are the same."] + settings_lines(*gathered) + ["The inputs differ: %s." % part for part in input_parts(*gathered, settings)]


def answer_in(path, program):
    """The answer that a file has or leads to, and the input where that is there."""
    if not os.path.isdir(path):
        data = something(path, read(path))
        if is_text(data) and data.split()[0] in (b"view", b"wait", b"number"):
            return parse(data.decode("ascii", "replace")), None
    given = read_input(path)
    return Program(program).ask(given.blocks), given
