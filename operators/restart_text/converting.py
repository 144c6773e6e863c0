"""A folder of reports converted: flat ones of the former seller into ours, or ours into flat ones. The library converts; this finds the
files, tells which form each has, writes what it is turned into, and says what happened."""
import os
from collections import Counter
from dataclasses import dataclass, field

from . import decode, encode, words
from .files import Trouble, Unfit, read, read_settings, write_new
from .flat import told
from .inputs import is_text
from .model import Settings
from .printing import settings_text
from .readings import as_flat, as_ours, fitting, refusal_line, to_do
from .sentences import counted, machine
from .statuses import OTHER, REFUSAL
from .folders import SETTINGS, place_of, settings_paths

# Settings as files, in either form: the name, and the bytes with no report after them.
SETTINGS_TEXT = SETTINGS[0], lambda settings: ("\n".join(settings_text(settings)) + "\n").encode()
SETTINGS_WORDS = SETTINGS[1], lambda settings: words.to_bytes(encode.settings_words(settings))
# What can happen to a file: the exit status.
HAPPENED = {"converted": 0, "kept": 0, "text": 0, "refused": REFUSAL, "both": REFUSAL, "failed": OTHER}


@dataclass
class Outcome:
    """What happened to a file."""

    name: str
    happened: str
    line: str
    readings: list = field(default_factory=list)  # those that decided it
    output: str | None = None  # the file that was written
    advice: tuple | None = None  # number and text, of what to do

    @property
    def status(self):
        return HAPPENED[self.happened]


@dataclass
class Folder:
    """The folder to convert, and how."""

    place: str  # where its files stand
    output: str  # where they are written
    settings: Settings
    library: object
    back: bool = False
    drop: bool = False
    form: str | None = None  # the form that every file is said to have

    @property
    def source(self):
        return "ours" if self.back else "flat"

    @property
    def target(self):
        return "flat" if self.back else "ours"

    def convert(self, name):
        """Converts the file with this name."""
        path = os.path.join(self.place, name)
        try:
            data = read(path)
            outcome = self.judged(name, data)
            if outcome.happened in ("converted", "kept"):
                made = data if outcome.happened == "kept" else words.to_bytes(outcome.readings[0].words)
                outcome.output = os.path.join(self.output, self.new_name(name))
                write_new(outcome.output, made, like=path)
            return outcome
        except (Trouble, Unfit) as trouble:
            return Outcome(name, "failed", str(trouble))

    def new_name(self, name):
        """A file keeps its name. What is ours gets one that watch takes."""
        return name if self.back or name.endswith(".bin") else name + ".bin"

    def judged(self, name, data):
        """Which form the file has, and what is to happen to it."""
        if is_text(data):
            return Outcome(name, "text", "a text, left alone")
        readings = [as_flat(data, self.settings, self.library, self.drop), as_ours(data, self.settings, self.library)]
        readings = [reading for reading in readings if self.form in (None, reading.form)]
        differing = [reading.differs for reading in readings if reading.differs]
        if differing:
            return Outcome(name, "failed", "WARNING: %s. Nothing is written; keep the file and call the developers" % "; ".join(differing), readings)
        taken = [reading for reading in readings if reading.words]
        if not taken:
            return self.refused(name, data, fitting(readings))
        if len(taken) > 1:
            return Outcome(name, "both", "a flat report as well as one of ours, not converted; --as flat or --as ours says which it is", taken)
        if taken[0].form == self.target:
            return Outcome(name, "kept", "%s already, copied as it is" % self.target, taken)
        return Outcome(name, "converted", self.converted_line(data, taken[0]), taken)

    def refused(self, name, data, readings):
        own = [reading for reading in readings if reading.form == self.source] or readings
        return Outcome(name, "refused", refusal_line(readings), readings, advice=(own[0].refused.number, to_do(own[0], data)))

    def converted_line(self, data, reading):
        before = words.from_bytes(data)
        line = "converted, %s in view %d, %s %s, %d %s" % (
            machine(self.settings, before[0]), before[1], counted(len(before), "word"), self.source, len(reading.words), self.target)
        if reading.dropped:
            line += "; left out: %s" % told(reading.dropped)
        surplus = len(before) - len(encode.report_words(decode.report_from(before, self.settings))) if self.back else 0
        return line + ("; %s off the chain, which carry nothing, left out" % counted(surplus, "word") if surplus else "")


def places(folder, output):
    """Where the folder's files stand and where they are written: in folders reports, or in the folders themselves."""
    place = place_of(folder)
    if os.path.exists(output) and any(os.path.samefile(one, output) for one in (folder, place)):
        raise Trouble("%s would be read and written, and nothing is overwritten; give -o another folder" % output)
    return place, output if place == folder else os.path.join(output, "reports")


def names_in(place, settings):
    """The names of the files to convert: all but hidden ones and the settings."""
    try:
        found = sorted(os.listdir(place))
    except OSError as error:
        raise Trouble("cannot read %s: %s" % (place, error.strerror)) from None
    paths = {name: os.path.join(place, name) for name in found if not name.startswith(".") and name not in SETTINGS}
    return [name for name, path in paths.items() if os.path.isfile(path) and not os.path.samefile(path, settings)]


def settings_path(folder, named):
    """The settings: the file that is named, or that of the folder."""
    if named == "-":
        raise Trouble("--settings takes a file")
    found = [named] if named else [path for path in settings_paths(folder) if os.path.exists(path)]
    if not found:
        raise Trouble("there is no settings.txt or settings.bin in %s; give --settings FILE" % folder)
    return found[0]


def write_settings(folder, output, path, settings):
    """Writes the settings to the output, so that watch takes it: those of the folder as they are, of another file without the reports that
    it may have. Settings that are there already must be the same."""
    there = [one for one in settings_paths(output) if os.path.exists(one)]
    for one in there:
        if read_settings(one) != settings:
            raise Trouble("%s has other settings than %s, and is not overwritten; give -o another folder" % (one, path))
    if not there:
        data = read(path)
        name, alone = SETTINGS_TEXT if is_text(data) else SETTINGS_WORDS
        write_new(os.path.join(output, name), data if path in settings_paths(folder) else alone(settings), like=path)


def last_lines(folder, outcomes):
    """What to do about each kind of refusal, then how many files there were of each kind."""
    lines, advice = [], Counter(outcome.advice for outcome in outcomes if outcome.advice)
    for (number, text), count in sorted(advice.items()):
        lines.append("To do about number %d (%s): %s" % (number, counted(count, "file"), text))
    names = {"converted": "converted", "kept": "%s already" % folder.target, "text": "left alone", "refused": "refused",
             "both": "not told apart", "failed": "failed"}
    found = Counter(outcome.happened for outcome in outcomes)
    counts = ", ".join("%d %s" % (found[kind], name) for kind, name in names.items() if found[kind])
    return lines + ["%s: %s." % (counted(len(outcomes), "file"), counts)]
