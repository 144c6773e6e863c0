"""restart-text explain: what the answer means and what to do."""
import json

from ..drawing import draw
from ..files import Unfit, write, write_told
from ..jsoned import json_of
from ..page import page
from ..statuses import status_of
from ..taking import names_of
from .shared import drawable, explained, input_argument, output_argument, program_arguments


def arguments(parser):
    input_argument(parser)
    program_arguments(parser)
    output_argument(parser, "the file to write: a picture if its name ends in .svg, a page if in .html, JSON if in .json, else the text;"
                    " standard output without it")
    parser.add_argument("--json", action="store_true", help="write JSON, as operators/schemas/explain.schema.json has it")


def work(chosen):
    kind = (chosen.output or "").rpartition(".")[2]
    if chosen.json and kind in ("svg", "html"):
        raise Unfit("%s: --json is for a name that does not end in .%s" % (chosen.output, kind))
    given, told = explained(chosen)
    if kind == "svg":
        write(chosen.output, draw(drawable(told)).encode())
    elif kind == "html":
        write(chosen.output, page(told, names_of(chosen.file)).encode())
    elif chosen.json or kind == "json":
        write(chosen.output, (json.dumps(json_of(given, told), indent=1) + "\n").encode())
    else:
        write_told(chosen.output, told.lines)
    return status_of(told)
