"""The lines of a text. A text is sections; a section is a head line and the lines after it up to the next head.

A form such as 'node NODE set SET' says what a line looks like: small words stand as they are, a capital word stands for a number,
NAME at the end for a machine's name, and NODES at the end for a list of numbers, ranges such as 0-6, or `none`. What follows a # is
a remark. A bad line is told with its number and with what was expected there."""
import re
from dataclasses import dataclass
from difflib import get_close_matches

from .model import GREATEST

HEADS = [
    "settings",
    "settings of COUNT words",
    "report node NODE view VIEW",
    "message of COUNT words",
    "order node NODE view VIEW",
    "state gathering",
    "state ordered",
    "state preparing",
    "state committed",
]
NEXT = ["report node NODE view VIEW", "message of COUNT words"]  # the heads that may follow settings and reports
HEAD_WORDS = {form.split()[0] for form in HEADS}
SETTINGS = [
    "failure sets COUNT",
    "least group size COUNT",
    "node NODE set SET",
    "node NODE set SET name NAME",
    "shard SHARD subgroup SUBGROUP needs COUNT",
    "shard SHARD subgroup SUBGROUP needs COUNT cap COUNT",
]
REPORT = [
    "members NODES",
    "shard SHARD members NODES",
    "termination shard SHARD view VIEW update UPDATE",
    "run shard SHARD view VIEW count COUNT",
]
ORDER = [
    "members NODES",
    "shard SHARD members NODES",
    "target shard SHARD view VIEW update UPDATE",
    "holder shard SHARD node NODE",
    "cut shard SHARD view VIEW update UPDATE",
]
STATE = [
    "kept view VIEW",
    "kept members NODES",
    "kept shard SHARD members NODES",
    "kept termination shard SHARD view VIEW update UPDATE",
    "held NODES",
    "fetched NODES",
    "prepared NODES",
    "remembered node NODE view VIEW",
    "plan view VIEW moves COUNT",
    "plan members NODES",
    "plan shard SHARD holder NODE target VIEW UPDATE members NODES",
]
FORMS = {"settings": SETTINGS, "report": REPORT, "order": ORDER, "state": STATE}


class BadText(Exception):
    """A text that says nothing the planner could read: the line, and what was expected."""

    def __init__(self, line, message):
        super().__init__("line %d: %s" % (line, message))
        self.line = line
        self.message = message


@dataclass
class Entry:
    """A line that has one of the forms: its number, the form, and what stands for the form's capital words."""

    line: int
    form: str
    values: list


@dataclass
class Section:
    head: Entry
    entries: list

    @property
    def line(self):
        return self.head.line


def sections(text):
    """The sections of a text."""
    found = []
    for number, line in enumerate(text.splitlines(), 1):
        words = line.split("#")[0].split()
        if not words:
            continue
        if words[0] in HEAD_WORDS:
            found.append(Section(entry(number, words, HEADS), []))
        elif not found:
            raise BadText(number, "expected a head line first, %s, found '%s'" % (either(like(words[0], HEADS) or HEADS), " ".join(words)))
        elif found[-1].head.form.endswith("words"):
            found[-1].entries.append(Entry(number, "WORDS", [whole(number, word) for word in words]))
        else:
            kind = found[-1].head.form.split()[0]
            found[-1].entries.append(entry(number, words, FORMS[kind], NEXT if kind in ("settings", "report") else ()))
    return found


def entry(line, words, forms, after=()):
    """The line as an entry in one of these forms. A bad one is told what may stand there, a head that may come after them included: the forms
    that begin with its first word or with one like it, or else all."""
    for form in forms:
        values = matched(line, words, form.split())
        if values is not None:
            return Entry(line, form.removesuffix(" name NAME").removesuffix(" cap COUNT"), values)
    every = [*forms, *after]
    raise BadText(line, "expected %s, found '%s'" % (either(like(words[0], every) or every), " ".join(words)))


def like(word, forms):
    """The forms that begin with this word, or else with the one that is most like it."""
    firsts = {form.split()[0] for form in forms}
    close = [word] if word in firsts else get_close_matches(word.lower(), firsts, 1, 0.6)
    return [form for form in forms if form.split()[0] in close]


def matched(line, words, form):
    """What stands for the form's capital words, or None where the line has another form."""
    listed = form[-1] == "NODES"
    size = len(form) - 1 if listed else len(form)
    if len(words) < size or not listed and len(words) != size:
        return None
    if any(wanted.islower() and wanted != word for wanted, word in zip(form[:size], words)):
        return None
    found = [(wanted, word) for wanted, word in zip(form[:size], words) if wanted.isupper()]
    values = [name(line, word) if wanted == "NAME" else whole(line, word) for wanted, word in found]
    return values + [node_list(line, words[size:])] if listed else values


def whole(line, word):
    """A decimal number that fits into a word."""
    if not re.fullmatch("[0-9]{1,10}", word) or int(word) > GREATEST:
        raise BadText(line, "expected a number from 0 to %d, found '%s'" % (GREATEST, word))
    return int(word)


def name(line, word):
    """A machine's name, which cannot be taken for a number."""
    if not re.fullmatch("[A-Za-z0-9][A-Za-z0-9._-]{0,23}", word) or not re.search("[A-Za-z]", word):
        raise BadText(line, "expected a name of at most 24 letters, digits and . _ -, with a letter in it, found '%s'" % word)
    return word


def node_list(line, words):
    """Numbers from 0 to 31 and ranges of them, none twice."""
    if words == ["none"]:
        return frozenset()
    nodes = []
    for word in words:
        ends = [whole(line, end) for end in word.split("-", 1)]
        if ends[-1] > 31 or ends[0] > ends[-1]:
            raise BadText(line, "expected nodes from 0 to 31 or a range such as 0-6, found '%s'" % word)
        nodes += range(ends[0], ends[-1] + 1)
    twice = [node for node in nodes if nodes.count(node) > 1]
    if twice:
        raise BadText(line, "expected each node once, found node %d twice" % twice[0])
    if not nodes:
        raise BadText(line, "expected numbers of nodes, or none, found nothing")
    return frozenset(nodes)


def either(forms):
    return " or ".join("'%s'" % form for form in forms)


def within(at, what, value, low, high):
    """The value, if it lies within its limits."""
    if not low <= value <= high:
        raise BadText(at.line, "expected %s from %d to %d, found %d" % (what, low, high, value))
    return value


def only(section, form):
    """The section's one entry of this form."""
    found = [entry for entry in section.entries if entry.form == form]
    if not found:
        raise BadText(section.line, "expected a line '%s' in the section that begins here, found none" % form)
    if len(found) > 1:
        raise BadText(found[1].line, "expected '%s' once, found it in line %d already" % (form, found[0].line))
    return found[0]


def by_key(section, form, size=1):
    """The section's entries of this form by their first values, each of which stands once."""
    found = {}
    for item in section.entries:
        if item.form == form:
            key = tuple(item.values[:size])
            if key in found:
                raise BadText(item.line, "expected '%s' once for %s, found it in line %d already"
                              % (form, " ".join(map(str, key)), found[key].line))
            found[key] = item
    return {key[0] if size == 1 else key: item for key, item in found.items()}


def each(section, form, count):
    """The section's entries of this form for 0 to count - 1, in this order."""
    found = by_key(section, form)
    name = next(word for word in form.split() if word.isupper()).lower()
    for number, item in found.items():
        within(item, "a " + name, number, 0, count - 1)
    for number in range(count):
        if number not in found:
            raise BadText(section.line, "expected a line '%s' for %s %d in the section that begins here, found none"
                          % (form, name, number))
    return [found[number] for number in range(count)]
