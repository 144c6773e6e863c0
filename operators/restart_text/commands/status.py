"""restart-text status: how far a running restart is, by its leader's file or by state and desk."""
import json
import os

from .. import leading, words
from ..encode import settings_words
from ..files import Unfit, name_of, read, read_names, read_settings, something, write, write_told
from ..model import Refused
from ..progress import lines, progress, value_of
from ..stamping import head
from ..statuses import PLAN, WAIT
from .shared import library_argument, names_argument, output_argument

SCHEMA = 1


def arguments(parser):
    parser.add_argument("file", metavar="FILE", help="the leader's file, or the words of its state; - for standard input")
    parser.add_argument("desk", metavar="DESK", nargs="?", help="where the file is a state: the words of its desk")
    parser.add_argument("--settings", metavar="FILE", help="where the file is a state: its settings, text or words")
    names_argument(parser)
    library_argument(parser)
    output_argument(parser)
    parser.add_argument("--json", action="store_true", help="write JSON, as operators/schemas/status.schema.json has it")


def work(chosen):
    found = standing(chosen)
    if chosen.json:
        write(chosen.output, (json.dumps({**head(SCHEMA), **value_of(found)}, indent=1) + "\n").encode())
    else:
        write_told(chosen.output, lines(found))
    return WAIT if found.waits else PLAN


def standing(chosen):
    """How far the restart is that the arguments name."""
    names = read_names(chosen.names) if chosen.names else ()
    leader, names = kept_by_file(chosen, names) if chosen.desk is None else kept_apart(chosen, names)
    try:
        return progress(leader, chosen.library, names)
    except Refused as refused:
        raise Unfit("%s: %s" % (name_of(chosen.file), refused)) from None


def kept_by_file(chosen, names):
    if os.path.isdir(chosen.file):
        raise Unfit("%s is a folder, and status is for a leader's file; of settings and reports restart-text explain tells, or watch" % chosen.file)
    data = something(chosen.file, read(chosen.file, leading.MOST_BYTES))
    if len(data) == leading.STATE_BYTES and data[:4] != leading.MARK:
        raise Unfit("%s looks like a state; give its desk after it, and --settings FILE" % name_of(chosen.file))
    try:
        return leading.from_bytes(data), names
    except Refused as refused:
        raise Unfit("%s is no leader's file: %s" % (name_of(chosen.file), refused.why)) from None


def kept_apart(chosen, names):
    """State, desk and settings from files of their own."""
    if not chosen.settings:
        raise Unfit("a state and a desk are read by their settings: give --settings FILE")
    settings = read_settings(chosen.settings)
    parts = [read(path) for path in (chosen.file, chosen.desk)]
    for path, data, wanted, what in zip((chosen.file, chosen.desk), parts, (leading.STATE_BYTES, leading.DESK_BYTES), ("state", "desk")):
        if len(data) != wanted:
            raise Unfit("%s is no %s: it has %d bytes, a %s has %d" % (name_of(path), what, len(data), what, wanted))
    return leading.Leader(None, words.to_bytes(settings_words(settings)), *parts), names or settings.names
