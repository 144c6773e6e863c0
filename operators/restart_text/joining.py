"""One input from a file with settings and files with reports."""
from . import decode, encode, words
from .files import Unfit, name_of, placed, read
from .flat import LOOKS_FLAT, looks_flat
from .inputs import Input, from_text, is_text
from .lines import sections
from .model import Refused
from .texts import report_of


def join(paths, anyway=False):
    """The input: the settings of the first file, then the reports of the others in this order. What is not whole words, no settings
    or no report is refused with its file; `anyway` takes a report that the planner would refuse."""
    given = first_of(paths[0], read(paths[0]))
    settings = decode.settings_from(given.blocks[0])
    for path in paths[1:]:
        for block in reports_in(path, read(path), settings, anyway):
            given.blocks.append(block)
            given.files.append(path)
    return given


def first_of(path, data):
    """The settings, with the reports that a text, or an input of words, may have after them."""
    if is_text(data):
        given = placed(path, lambda: from_text(data.decode("utf-8-sig")))
    else:
        given = Input([whole(path, data)], [])
        blocks = words.split(data)
        given = Input(blocks, []) if is_settings(blocks[:1]) and words.joined(blocks) == data else given
    try:
        decode.settings_from(given.blocks[0])
    except Refused as refused:
        hint = "; it " + LOOKS_FLAT if looks_flat(given.blocks[0]) else ""
        raise Unfit("%s is not settings: %s%s" % (name_of(path), refused.why, hint)) from None
    return Input(given.blocks, [], given.names, [path] * len(given.blocks))


def is_settings(blocks):
    try:
        return bool(blocks) and bool(decode.settings_from(blocks[0]))
    except Refused:
        return False


def reports_in(path, data, settings, anyway=False):
    """The blocks of a file with a report's words, or of a text with reports."""
    if is_text(data):
        return placed(path, lambda: [report_block(path, section, settings) for section in sections(data.decode("utf-8-sig"))])
    block = whole(path, data)
    try:
        decode.report_from(block, settings)
    except Refused as refused:
        if not anyway:
            hint = "; it " + LOOKS_FLAT if looks_flat(block) else ""
            raise Unfit("%s is no report for these settings: %s%s" % (name_of(path), refused, hint)) from None
    return [block]


def report_block(path, section, settings):
    if not section.head.form.startswith("report"):
        raise Unfit("%s, line %d: expected a report, found '%s'" % (name_of(path), section.line, section.head.form))
    return encode.report_words(report_of(section, settings))


def whole(path, data):
    if len(data) % 4:
        raise Unfit("%s: %s" % (name_of(path), words.no_words(data)))
    return words.from_bytes(data)
