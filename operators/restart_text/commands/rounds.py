"""restart-text rounds: moves and gap after each improving round."""
import json
from dataclasses import replace

from ..decode import settings_from
from ..files import write, write_told
from ..jsoned import rounds_value
from ..library import Decisions
from ..rounding import course, draw, lines
from ..statuses import PLAN, WAIT
from ..taking import read_input
from .shared import input_argument, library_argument, names_argument, refused


def arguments(parser):
    input_argument(parser)
    parser.add_argument("-o", "--output", metavar="PICTURE.svg", help="also draw moves and gap over the rounds; a wait has no picture")
    names_argument(parser)
    library_argument(parser)
    parser.add_argument("--json", action="store_true", help="print JSON, as operators/schemas/rounds.schema.json has it")


def work(chosen):
    given = read_input(chosen.file, chosen.names)
    decisions = Decisions(chosen.library, given.blocks[0] if given.blocks else [])
    for number in range(1, len(given.blocks)):
        refused(decisions.report(given.blocks[number]), given, number)
    refused(decisions.full(), given, 0)
    settings = replace(settings_from(given.blocks[0]), names=given.names or ())
    made = course(decisions, settings.shards)
    refused(made, given, 0)
    if chosen.output and not made.wait:
        write(chosen.output, draw(made).encode())
    if chosen.json:
        write(None, (json.dumps(rounds_value(made, settings), indent=1) + "\n").encode())
    else:
        write_told(None, lines(made, settings))
    return WAIT if made.wait else PLAN
