"""What a command was given: an input in one file, a folder as watch reads it, or settings and reports in files of their own. What is none of
these is refused, with what it looks like."""
import os
from dataclasses import replace

from . import decode, words
from .files import Trouble, Unfit, name_of, placed, read, read_names, something
from .folders import paths_in, reports_in
from .inputs import is_text, load
from .joining import join
from .kinds import looks_like
from .model import Refused

# The first word of a text that is no input, and what it is.
TEXTS = {"report": "a report: give the settings before it", "order": "an order", "state": "a state",
         **dict.fromkeys(("view", "wait", "number"), "what restart printed: give the input, and this with --answer FILE")}
MOST_BLOCKS = 4096


def read_input(paths, names=None):
    """The input, with the machines' names of its text or of a file that has them."""
    given = taken([paths] if isinstance(paths, str) else paths)
    return replace(given, names=read_names(names) if names else given.names)


def names_of(paths):
    """What people call what was given."""
    more = len(paths) - 1
    return name_of(paths[0]) + (" and %d more" % more if more else "")


def taken(paths):
    if len(paths) == 1:
        return of_folder(paths[0]) if os.path.isdir(paths[0]) else of_file(paths[0])
    reports = [[path for path, *_ in reports_in(one)] if os.path.isdir(one) else [one] for one in paths[1:]]
    return join(paths[:1] + sum(reports, []), anyway=True)


def of_folder(folder):
    """Settings and reports of a folder, these in the order in which they were written."""
    paths = paths_in(folder)
    if not paths:
        raise Trouble("there is no settings.txt or settings.bin in %s" % folder)
    return join(paths, anyway=True)


def of_file(path):
    data = something(path, read(path))
    if is_text(data):
        other = text_kind(data.decode("utf-8-sig"))
        if other:
            raise Unfit("%s is no input; it looks like %s" % (name_of(path), other))
        return placed(path, lambda: load(data))
    given = load(data)
    try:
        decode.settings_from(given.blocks[0] if given.blocks else [])
    except Refused as refused:
        like = looks_like(data)
        if like:
            raise Unfit("%s is no input; it %s" % (name_of(path), like)) from None
        if words.joined(given.blocks) != data or not given.blocks[0]:
            raise Unfit("%s is no input: %s. Nor does it look like anything else that restart-text text knows"
                        % (name_of(path), refused.why)) from None
    if len(given.blocks) > MOST_BLOCKS:
        raise Unfit("%s has %d blocks, and at most %d are read" % (name_of(path), len(given.blocks), MOST_BLOCKS))
    return given


def text_kind(text):
    """What a text is that is no input; nothing where it may be one."""
    return TEXTS.get(next((word for line in text.splitlines() for word in line.split("#")[0].split()[:1]), ""), "")
