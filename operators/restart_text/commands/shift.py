"""restart-text shift: outage against crew, for planning repairs."""
import json

from ..decode import settings_from
from ..files import Trouble, write, write_told
from ..gathering import named
from ..jsoned import shift_value
from ..library import Games
from ..lines import BadText, node_list
from ..model import Refused
from ..refusing import TABLE, block_name
from ..sentences import machines
from ..shifting import lines, shift
from ..statuses import PLAN, WAIT
from ..taking import read_input
from .shared import input_argument, library_argument, names_argument, output_argument

ROUNDS = 3


def arguments(parser):
    input_argument(parser)
    parser.add_argument("--losses", "--rounds", dest="rounds", metavar="K", type=int, default=ROUNDS,
                        help="how many machines are lost one after another, 0 to %d, each in a round of the game; %d without it" % (ROUNDS, ROUNDS))
    parser.add_argument("--held", metavar="MACHINES", help="the machines that are on, by number or name, such as 3,5-7; all without it")
    output_argument(parser)
    names_argument(parser)
    library_argument(parser)
    parser.add_argument("--json", action="store_true", help="write JSON, as operators/schemas/shift.schema.json has it")


def work(chosen):
    given = read_input(chosen.file, chosen.names)
    games = Games(chosen.library, given.blocks[0] if given.blocks else [])
    for number in range(1, len(given.blocks)):
        answer = games.report(given.blocks[number])
        if answer:
            raise Refused(answer.number, "%s is refused, given when: %s; restart-text explain says more"
                          % (block_name(number, given), TABLE[answer.number]), answer.index)
    settings = named(settings_from(given.blocks[0] if given.blocks else []), given.names)
    if chosen.rounds < 0:
        raise Trouble("--losses: expected a number of machines, found '%d'" % chosen.rounds)
    found, refused = shift(settings, games, held_mask(chosen, settings), chosen.rounds)
    if refused:
        raise Refused(refused.number, why(refused.number, given, settings))
    if chosen.json:
        write(chosen.output, (json.dumps(shift_value(found), indent=1) + "\n").encode())
    else:
        write_told(chosen.output, lines(found))
    return PLAN if found.first is None else WAIT


def held_mask(chosen, settings):
    """The machines that are on, as a mask; all without --held."""
    if chosen.held is None:
        return (1 << len(settings.set_of)) - 1
    names = list(settings.names)
    found = [str(names.index(word)) if word in names else word for word in chosen.held.split(",") if word]
    try:
        return sum(1 << node for node in node_list(0, found))
    except BadText as bad:
        raise Trouble("--held: %s" % bad.message) from None


def why(number, given, settings):
    """What to say where the library refuses a game."""
    if number == 22:
        return "a shift is planned over at most 10 machines and %d rounds, and with machines of the settings" % ROUNDS
    reported = {block[0] for block in given.blocks[1:] if block}
    missing = [node for node in range(len(settings.set_of)) if node not in reported]
    if number == 23 and missing:
        return "%s not reported; a shift is planned over a report of every machine" % (
            machines(settings, missing) + (" has" if len(missing) == 1 else " have"))
    return "given when: %s" % TABLE[number]
