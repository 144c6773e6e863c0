"""restart-text publisher: a subgroup's page for the publisher who rents it."""
import json

from .. import words
from ..answers import BadAnswer
from ..decode import settings_from
from ..files import Unfit, name_of, read, read_named, write, write_told
from ..inputs import is_text
from ..jsoned import published_value
from ..library import Restart
from ..model import SUBGROUPS, Refused
from ..publishing import BadPage, html, lines, published
from ..taking import read_input
from .shared import file_argument, library_argument, names_argument, refused

FORMS = ("input", "page")


def arguments(parser):
    parser.add_argument("subgroup", metavar="GROUP", type=int, help="the subgroup, 0 to %d" % (SUBGROUPS - 1))
    file_argument(parser)
    parser.add_argument("-o", "--output", metavar="PAGE.html", help="write one file of HTML, or with --json that; without it the text is printed")
    parser.add_argument("--as", dest="form", choices=FORMS, default="input",
                        help="what the file is: an input, or the words of a page that a service has read; an input without it")
    names_argument(parser)
    library_argument(parser)
    parser.add_argument("--json", action="store_true", help="write JSON, as operators/schemas/publisher.schema.json has it")


def work(chosen):
    if not 0 <= chosen.subgroup < SUBGROUPS:
        raise Refused(15, "there is no subgroup %d; subgroups are 0 to %d" % (chosen.subgroup, SUBGROUPS - 1))
    page = of_page(chosen) if chosen.form == "page" else of_input(chosen)
    if chosen.json:
        write(chosen.output, (json.dumps(published_value(page), indent=1) + "\n").encode())
    elif chosen.output:
        write(chosen.output, html(page).encode())
    else:
        write_told(None, lines(page))


def of_input(chosen):
    """The page that the library gives the subgroup's watcher after these reports."""
    given = read_input(chosen.file, chosen.names)
    restart = Restart(chosen.library, given.blocks[0] if given.blocks else [])
    for number in range(1, len(given.blocks)):
        refused(restart.report(given.blocks[number]), given, number)
    found = restart.page(chosen.subgroup)
    refused(found, given, 0)
    try:
        return published(found, chosen.subgroup, given.names, settings_from(given.blocks[0]).shards)
    except BadPage as bad:
        raise BadAnswer("restart_page writes what is no page: %s" % bad) from None


def of_page(chosen):
    """The page that these words are."""
    data, settings = read(chosen.file), read_named(chosen.names) if chosen.names else None
    try:
        if len(data) % 4 or is_text(data):
            raise BadPage("a page is words of 4 bytes")
        return published(words.from_bytes(data), chosen.subgroup, *((settings.names, settings.shards) if settings else ()))
    except BadPage as bad:
        raise Unfit("%s is no page: %s" % (name_of(chosen.file), bad)) from None
