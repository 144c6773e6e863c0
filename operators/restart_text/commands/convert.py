"""restart-text convert: a folder of flat reports of the former seller into ours, and back."""
import json
import os
import sys
import time

from ..converting import Folder, last_lines, names_in, places, settings_path, write_settings
from ..files import Trouble, make_folder, read_settings, write, write_lines
from ..jsoned import conversion_value
from ..library import Library
from ..readings import FORMS
from .shared import library_argument


def arguments(parser):
    parser.add_argument("file", metavar="FOLDER", help="the folder whose files are converted, or those of its folder reports")
    parser.add_argument("-o", "--output", metavar="FOLDER", required=True,
                        help="where they are written, each under its name; no file is ever overwritten")
    parser.add_argument("--settings", metavar="FILE", help="the settings, text or words; without it settings.txt or settings.bin of the folder")
    parser.add_argument("--as", dest="form", choices=list(FORMS), help="what every file is; without it each is told by itself")
    way = parser.add_mutually_exclusive_group()
    way.add_argument("--back", action="store_true", help="turn ours into flat reports")
    way.add_argument("--drop-empty", action="store_true", help="leave out triples of count 0, which name no update")
    library_argument(parser)
    parser.add_argument("--json", action="store_true", help="write JSON, as operators/schemas/convert.schema.json has it")


def work(chosen):
    if not os.path.isdir(chosen.file):
        raise Trouble("%s is no folder" % chosen.file)
    path = settings_path(chosen.file, chosen.settings)
    settings = read_settings(path)
    library = Library(chosen.library, settings)
    place, output = places(chosen.file, chosen.output)
    names = names_in(place, path)
    if not names:
        raise Trouble("there is nothing to convert in %s" % place)
    make_folder(output)
    write_settings(chosen.file, chosen.output, path, settings)
    folder = Folder(place, output, settings, library, chosen.back, chosen.drop_empty, chosen.form)
    progress, outcomes = Progress(sys.stderr, len(names), sys.stdout.isatty()), []
    try:
        for name in names:
            outcomes.append(folder.convert(name))
            if not chosen.json:
                progress.make_room()
                write_lines(None, [file_line(outcomes[-1])])
            progress.show(len(outcomes))
    except KeyboardInterrupt:
        raise Trouble("interrupted after %d of %d files" % (len(outcomes), len(names))) from None
    finally:
        progress.wipe()
    if chosen.json:
        write(None, (json.dumps(conversion_value(folder, outcomes), indent=1) + "\n").encode())
    else:
        write_lines(None, last_lines(folder, outcomes))
    return max(outcome.status for outcome in outcomes)


def file_line(outcome):
    """A file's line, without what a terminal could not show."""
    return "".join(letter if letter.isprintable() else "?" for letter in "%s: %s." % (outcome.name, outcome.line))


class Progress:
    """How far the work is, on a terminal only, in one line that is written over and wiped in the end. `among` says that other lines are
    printed on the same terminal; it then stays below them."""

    def __init__(self, stream, total, among):
        self.stream, self.total, self.among = stream, total, among
        self.next = time.monotonic() + 0.5 if stream.isatty() else float("inf")
        self.begun = self.shown = False

    def show(self, done):
        due = time.monotonic() >= self.next
        if due or self.begun and not self.shown:
            self.begun = self.shown = True
            self.next = time.monotonic() + 0.1
            self.put("\r%d of %d files\x1b[K" % (done, self.total))

    def make_room(self):
        """Before another line is printed."""
        if self.among:
            self.wipe()

    def wipe(self):
        if self.shown:
            self.shown = False
            self.put("\r\x1b[K")

    def put(self, text):
        self.stream.write(text)
        self.stream.flush()
