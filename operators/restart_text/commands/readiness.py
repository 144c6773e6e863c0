"""restart-text readiness: how often a layout could restart, by the sheet of the program sheet."""
import json

from ..files import Unfit, name_of, read, write, write_told
from ..readiness import Unready, ready
from ..readiness_json import readiness_value
from ..readiness_lines import comparison_lines, lines, unready_lines
from ..readiness_page import page
from ..readiness_picture import picture
from ..statuses import REFUSAL
from ..taking import read_input
from .shared import file_argument, names_argument


def arguments(parser):
    file_argument(parser)
    parser.add_argument("other", metavar="FILE2", nargs="?", help="a second layout, to be shown beside the first")
    source = parser.add_mutually_exclusive_group()
    source.add_argument("--program", metavar="PATH", help="the program sheet; without it the one built in this checkout, or installed")
    source.add_argument("--answer", metavar="FILE", action="append",
                        help="a file with what sheet printed, for each layout; then it is not started")
    names_argument(parser)
    parser.add_argument("--suppose", action="store_true", help="suppose that machines whose reports are missing report the kept view")
    parser.add_argument("-o", "--output", metavar="FILE",
                        help="write the picture (.svg), a page with picture and tables (.html), or with --json that; without it the text"
                        " is printed")
    parser.add_argument("--json", action="store_true", help="write JSON, as operators/schemas/readiness.schema.json has it")


def work(chosen):
    paths = [chosen.file] + [chosen.other] * bool(chosen.other)
    answers = [read(path).decode("ascii", "replace") for path in chosen.answer or ()]
    if answers and len(answers) != len(paths):
        raise Unfit("expected --answer once for each layout, found it %d times for %d" % (len(answers), len(paths)))
    found = [ready(name_of(path), read_input(path, chosen.names), chosen.program, answers[place] if answers else None, chosen.suppose)
             for place, path in enumerate(paths)]
    refused = [one for one in found if isinstance(one, Unready)]
    if chosen.json:
        write(chosen.output, (json.dumps(readiness_value(found), indent=1) + "\n").encode())
    elif chosen.output and chosen.output.endswith((".html", ".htm")):
        write(chosen.output, page(found).encode())
    elif chosen.output:
        if refused:
            raise Unfit("of %s there is no sheet, so that there is nothing to draw: %s" % (refused[0].name, " ".join(unready_lines(refused[0]))))
        write(chosen.output, picture(found).encode())
    else:
        write_told(None, text(found))
    return REFUSAL if refused else 0


def text(found):
    """The lines of one layout, or of two after what sets them apart."""
    parts = [unready_lines(one) if isinstance(one, Unready) else lines(one) for one in found]
    if len(found) == 1:
        return parts[0]
    told = comparison_lines(*found) if not any(isinstance(one, Unready) for one in found) else []
    for name, one, part in zip("AB", found, parts):
        told += [""] * bool(told) + ["%s: %s" % (name, one.name)] + part
    return told
