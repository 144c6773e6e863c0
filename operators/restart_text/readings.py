"""A file read as a flat report and as one of ours: what the library makes of it, and why it is refused, in words."""
from dataclasses import dataclass

from . import decode, words
from .answers import Number, printed
from .flat import FlatRefused, flat_in, flat_words, message_words, refuse, without_empty
from .kinds import whole_words
from .model import Refused
from .refusing import message_to_do

FORMS = {"flat": "a flat report", "ours": "one of ours"}
ADVICE = {
    19: "The file was cut off, has something after its end, or a count in it is damaged. Copy it again from the machine's disk, as long as it is"
        " there.",
    20: "A triple of count 0 names no update, so leaving it out loses nothing: the updates of the log are those of the other triples. Ours cannot"
        " hold such a triple. --drop-empty converts these files without them.",
    21: "Ours has no room for so many runs. Do not leave some out: updates would be lost. Keep the machine's disk; explain says whether the others"
        " are enough for a plan.",
}


@dataclass
class Reading:
    """What library and tool make of a file as one form."""

    form: str
    words: list | None = None  # what it is turned into; None where it is refused
    refused: Refused | None = None  # by the tool's own counting
    fits: bool = False  # whether its counts, or its chain, are those of this form
    dropped: tuple = ()  # the triples of count 0 that were left out
    differs: str = ""  # where the tool's own counting comes to something else than the library


def as_flat(data, settings, library, drop=False):
    """The file as a flat report; `drop` leaves its triples of count 0 out."""
    reading, flat, answer = Reading("flat"), None, library.from_flat(data)
    try:
        flat = flat_in(data)
        reading.fits = bool(flat.masks)
        if drop and answer == Number(20):
            flat, reading.dropped = without_empty(flat)
            answer = library.from_flat(words.to_bytes(flat.words))
        refuse(flat, settings)
    except FlatRefused as refused:
        reading.refused = refused
    return compared(reading, answer, lambda: message_words(flat))


def as_ours(data, settings, library):
    """The file as a report of ours."""
    reading, report, answer = Reading("ours"), None, library.to_flat(data)
    try:
        found = whole_words(data)
        reading.fits = is_chain(found)
        report = decode.report_from(found, settings)
    except Refused as refused:
        reading.refused = refused
    return compared(reading, answer, lambda: flat_words(report))


def is_chain(found):
    """Whether there are records after the head, each naming a later one up to the last."""
    try:
        decode.length(found)
        return bool(decode.chain(found))
    except Refused:
        return False


def compared(reading, answer, expected):
    """The reading with the library's answer, and where the tool's own counting comes to another, with both."""
    refused = reading.refused
    own = Number(refused.number, refused.index) if refused else expected()
    if answer != own:
        reading.differs = "the library gives %s, this tool's own counting %s%s" % (shown(answer), shown(own), ": %s" % refused.why if refused else "")
    elif not refused:
        reading.words = answer
    return reading


def shown(answer):
    return printed(answer) if isinstance(answer, Number) else "the words %s" % " ".join(map(str, answer))


def fitting(readings):
    """Of readings that are refused those to tell of: the one whose form the file has, else all."""
    found = [reading for reading in readings if reading.fits]
    return found if len(found) == 1 else readings


def refusal_line(readings):
    if len(readings) == 1:
        return "refused as %s with %s" % (FORMS[readings[0].form], reason(readings[0].refused))
    return "refused, neither %s nor %s" % tuple("%s (%s)" % (FORMS[reading.form], reason(reading.refused)) for reading in readings)


def reason(refused):
    record = "" if refused.record is None else " at record %d" % refused.record
    return "number %d%s: %s" % (refused.number, record, refused.why)


def to_do(reading, data):
    """What to do about a file that is refused."""
    refused = reading.refused
    return ADVICE.get(refused.number) or message_to_do(Number(refused.number, refused.index), words.from_bytes(data))
