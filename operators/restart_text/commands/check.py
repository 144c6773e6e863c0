"""restart-text check: whether settings can be met, and what hangs on one machine, one failure set or one copy."""
import json
import os

from ..asking import Program
from ..checking import check, lines, named_settings, value_of
from ..checking_picture import picture
from ..files import Trouble, read_names, read_settings, write, write_told
from ..folders import settings_paths
from ..jsoned import settings_value
from ..stamping import head
from ..statuses import OTHER, PLAN, REFUSAL, WAIT
from .shared import names_argument, program_argument

SCHEMA = 1


def arguments(parser):
    parser.add_argument("file", metavar="SETTINGS", help="the settings, text or words, or an input or a folder that has them; - for standard input")
    program_argument(parser)
    names_argument(parser)
    parser.add_argument("-o", "--output", metavar="FILE", help="write the picture (SVG), or with --json that; without it the text is printed")
    parser.add_argument("--json", action="store_true", help="write JSON, as operators/schemas/check.schema.json has it")


def work(chosen):
    settings = named_settings(read_settings(settings_in(chosen.file)), read_names(chosen.names) if chosen.names else ())
    found = check(settings, Program(chosen.program))
    if chosen.json:
        write(chosen.output, (json.dumps({**head(SCHEMA), "settings": settings_value(settings), **value_of(found)}, indent=1) + "\n").encode())
    elif chosen.output:
        write(chosen.output, picture(found).encode())
    else:
        write_told(None, lines(found))
    return OTHER if found.differs else PLAN if found.sound else WAIT if found.whole.met else REFUSAL


def settings_in(path):
    """The file with the settings: the one that is named, or that of the folder."""
    if not os.path.isdir(path):
        return path
    found = [one for one in settings_paths(path) if os.path.exists(one)]
    if not found:
        raise Trouble("there is no settings.txt or settings.bin in %s" % path)
    return found[0]
