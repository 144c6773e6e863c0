"""Where things stand in a picture: a row of machines grouped by failure set, and a row of shards grouped by subgroup."""
import textwrap
from dataclasses import dataclass

from .shapes import group, label, shape, width_of

MARGIN, GAP, PAD, LINE = 24, 16, 10, 16
BETWEEN = 170  # from the machines down to the shards
LEAST = 760  # the picture's least width
SMALL, PHONE = 8, 360  # the margin and the width of a picture for a phone


@dataclass
class Box:
    left: float
    top: float
    width: float
    height: float

    @property
    def bottom(self):
        return self.top + self.height

    @property
    def middle(self):
        return self.left + self.width / 2


@dataclass
class Row:
    """Groups of items, each item as wide and high as any other."""

    groups: dict  # each group's items
    width: float
    height: float

    def group_width(self, number):
        return max(len(self.groups[number]) * (self.width + PAD) + PAD, 100)

    @property
    def full(self):
        return sum(self.group_width(number) + GAP for number in self.groups) - GAP

    def boxes(self, inner, top):
        """Where each item stands; the row is in the middle."""
        found, left = {}, MARGIN + (inner - self.full) / 2
        for number, items in self.groups.items():
            start = left + (self.group_width(number) - len(items) * (self.width + PAD) + PAD) / 2
            for place, item in enumerate(items):
                found[item] = Box(start + place * (self.width + PAD), top, self.width, self.height)
            left += self.group_width(number) + GAP
        return found

    def frames(self, picture, inner, top, kind, names, below=False, colours=None):
        """A frame around each group, with its name above the items or below."""
        left, offset = MARGIN + (inner - self.full) / 2, self.height + PAD - 2 if below else -LINE
        for number in self.groups:
            colour = (colours or {}).get(number)
            frame = group(picture, "%s-%d" % (kind, number))
            shape(frame, "rect", x=left, y=top + min(offset, 0) - PAD, width=self.group_width(number),
                  height=self.height + LINE + 2 * PAD, rx=6, fill="none", stroke=colour or "#777777",
                  stroke_width=2 if colour else 1)
            label(frame, left + PAD, top + offset + LINE - 8, names[number], 13, "bold" if colour else "normal", fill=colour)
            left += self.group_width(number) + GAP


@dataclass
class Stack:
    """Groups one below another, the items of each in as many rows as they need; for a picture as wide as a phone."""

    groups: dict  # each group's items
    width: float
    height: float

    def most(self, inner):
        """How many items stand in a row."""
        return max(1, int((inner - PAD) // (self.width + PAD)))

    def rows(self, number, inner):
        """The items of a group in rows."""
        items, most = self.groups[number], self.most(inner)
        return [items[start : start + most] for start in range(0, len(items), most)] or [[]]

    def group_height(self, number, inner):
        return LINE + PAD + len(self.rows(number, inner)) * (self.height + PAD)

    def full(self, inner):
        return sum(self.group_height(number, inner) + PAD for number in self.groups)

    def boxes(self, inner, top):
        """Where each item stands; the rows are full."""
        found, width = {}, (inner - PAD) / self.most(inner) - PAD
        for number in self.groups:
            for line, items in enumerate(self.rows(number, inner)):
                for place, item in enumerate(items):
                    found[item] = Box(SMALL + PAD + place * (width + PAD), top + LINE + PAD + line * (self.height + PAD), width, self.height)
            top += self.group_height(number, inner) + PAD
        return found

    def frames(self, picture, inner, top, kind, names, colours=None):
        """A frame around each group, with its name above the items."""
        for number in self.groups:
            colour, height = (colours or {}).get(number), self.group_height(number, inner)
            frame = group(picture, "%s-%d" % (kind, number))
            shape(frame, "rect", x=SMALL, y=top, width=inner, height=height, rx=6, fill="none", stroke=colour or "#777777",
                  stroke_width=2 if colour else 1)
            label(frame, SMALL + PAD, top + LINE + 2, names[number], 13, "bold" if colour else "normal", fill=colour)
            top += height + PAD


def machine_row(settings, least, height, form=Row):
    """A box has room for the longest name."""
    longest = max((width_of(name, 12) + 14 for name in settings.names if name), default=0)
    return form({number: sorted(settings.nodes_of(number)) for number in range(settings.failure_sets)}, max(least, longest), height)


def shard_row(settings, lines, form=Row):
    """A box has room for the shard with the most lines, and for the longest of them."""
    groups = {number: settings.shards_of(number) for number in range(4)}
    longest = max(width_of(line, 12) for told in lines for line in told)
    height = 36 + LINE * max(map(len, lines))
    return form({number: items for number, items in groups.items() if items}, max(126, longest + 16), height)


def wrapped(name, nodes, settings, most=22):
    """A name and machines after it, some in a line."""
    text = "%s %s" % (name, settings.those(nodes) if nodes else "-")
    return textwrap.wrap(text, most, subsequent_indent="  ", break_long_words=False, break_on_hyphens=False)


def paragraph(text, inner, size):
    """The text in lines that fit the picture."""
    return textwrap.wrap(text, int(inner / width_of("n", size)), subsequent_indent="  ", break_on_hyphens=False)
