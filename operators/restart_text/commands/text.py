"""restart-text text: from words to text."""
from .. import leading
from ..files import MOST_BYTES, Unfit, read, read_settings, something, write, write_lines
from ..inputs import is_text, load, to_text
from ..kinds import READERS, text_of
from .shared import file_argument


def arguments(parser):
    file_argument(parser, about="the words to read, - for standard input")
    parser.add_argument("--as", dest="form", choices=list(READERS), default="input", help="what the words are; an input without it")
    parser.add_argument("--settings", metavar="FILE", help="for a report, desk or order: settings, text or words, to check it by")
    parser.add_argument("--damaged", action="store_true", help="for an input: print word by word what does not fit")


def work(chosen):
    data = something(chosen.file, read(chosen.file, leading.MOST_BYTES if chosen.form == "leader" else MOST_BYTES))
    if is_text(data):
        raise Unfit("this is a text already")
    if chosen.damaged and chosen.form == "input":
        write(None, to_text(load(data)).encode())
        return
    write_lines(None, text_of(chosen.form, data, read_settings(chosen.settings) if chosen.settings else None))
