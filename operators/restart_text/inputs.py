"""An input of `restart`: its blocks, from a text or from words, and back to either."""
from dataclasses import dataclass, field

from . import decode, encode, printing, words
from .lines import BadText, sections
from .model import Refused
from .sentences import counted
from .texts import report_of, settings_of


@dataclass
class Input:
    blocks: list  # of lists of words: the settings, then the messages
    lines: list  # where the input was a text, the line at which each block begins
    names: tuple = ()  # each machine's name or None, where a text gave names
    files: list = field(default_factory=list)  # where each block has a file of its own, its path

    @property
    def data(self):
        return words.joined(self.blocks)


def is_text(data):
    """Whether these bytes are a text: an input of words has zero bytes in its first count, a text has none."""
    try:
        return bool(data.strip()) and "\0" not in data.decode("utf-8")
    except UnicodeDecodeError:
        return False


def load(data):
    """The input that these bytes are, text or words."""
    if is_text(data):
        return from_text(data.decode("utf-8-sig"))
    return Input(words.split(data), [])


def from_text(text):
    found = sections(text)
    if not found or not found[0].head.form.startswith("settings"):
        raise BadText(found[0].line if found else 1, "expected 'settings' first")
    settings, blocks = None, []
    for section in found:
        form = section.head.form
        if section is not found[0] and form.startswith("settings"):
            raise BadText(section.line, "expected the settings once, found them in line %d already" % found[0].line)
        if form.endswith("words"):
            blocks.append(raw_words(section))
        elif form == "settings":
            settings = settings_of(section)
            blocks.append(encode.settings_words(settings))
        elif form.startswith("report"):
            blocks.append(encode.report_words(report_of(section, settings or readable(section, blocks[0]))))
        else:
            raise BadText(section.line, "expected a report, found '%s'" % form)
    return Input(blocks, [section.line for section in found], settings.names if settings else ())


def readable(section, block):
    """The settings of a block that was given word by word."""
    try:
        return decode.settings_from(block)
    except Refused as refused:
        raise BadText(section.line, "expected 'message of COUNT words', for the settings cannot be read: %s"
                      % refused.why) from None


def raw_words(section):
    """The words of a block that is given word by word."""
    found = [word for item in section.entries for word in item.values]
    if len(found) != section.head.values[0]:
        raise BadText(section.line, "expected %s after this line, found %d" % (counted(section.head.values[0], "word"), len(found)))
    return found


def to_text(given):
    """The text of an input. A block that the planner refuses is given word by word, after a remark that says why."""
    settings, parts = None, []
    for number, block in enumerate(given.blocks or [[]]):
        try:
            if number == 0:
                settings = decode.settings_from(block)
                parts.append(printing.settings_text(settings))
            else:
                parts.append(message_text(block, settings))
        except Refused as refused:
            name = "message" if number else "settings"
            parts.append(["# %s" % refused] + printing.raw_text(name, block))
    return "\n\n".join("\n".join(part) for part in parts) + "\n"


def message_text(block, settings):
    if settings is None:
        raise Refused(2, "this message cannot be read without settings")
    report = decode.report_from(block, settings)
    lines = printing.report_text(report)
    surplus = len(block) - len(encode.report_words(report))
    return lines if not surplus else ["# %s off the chain, which carry nothing, are left out" % counted(surplus, "word")] + lines
