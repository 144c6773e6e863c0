"""Readiness as a picture (SVG): how often a restart exists by how many machines are up, by failure set lost and by machine, each bar
divided by answer. Two layouts stand side by side. The number of a wait stands in its part of a bar wherever there is room, so that the
picture can be read in black and white."""
from .layout import paragraph
from .readiness_lines import brief, headline, least_lines, needed_lines, percent, sizes, why
from .sentences import counted, machines
from .shapes import GREEN, RED, finished, group, label, shape, sheet, width_of
from .sheets import NUMBERS

MARGIN, WIDTH, BETWEEN = 28, 700, 48  # the sides, a layout, and the room between two
BAR, ROW, LINE = 180, 24, 20  # the heights of an upright bar, of one that lies, and of a line of signs
FILLS = dict(zip(NUMBERS, ("#2f8f4e", "#d9dce3", "#f0d27a", "#c9534b", "#7d9fd0")))
INKS = dict(zip(NUMBERS, ("#ffffff", "#333333", "#333333", "#ffffff", "#10233f")))
MEANINGS = {0: "a restart exists", 2: "wait 2: no majority", 3: "wait 3: too few machines", 4: "wait 4: a log is missing",
            5: "wait 5: no placement"}
FAINT = "#666666"


def picture(found):
    """The picture of one layout, or of two, as text."""
    most = max([held.part for ready in found for *_, held in ready.by_machine()] + [0.01])
    columns = [Column(MARGIN + place * (WIDTH + BETWEEN), ready, letter, most) for place, (ready, letter) in enumerate(zip(found, "AB"))]
    for column in columns if len(found) > 1 else ():
        column.name = "%s: %s" % (column.letter, column.name)
    inner = len(found) * (WIDTH + BETWEEN) - BETWEEN
    signs = legend_places(inner)
    tops, top = [], 62 + LINE * (signs[-1][1] + 1)
    for part in PARTS:
        tops.append(top)
        top += max(part(column, None, 0) for column in columns)
    title = "How often %s could restart" % ("this layout" if len(found) == 1 else "two layouts")
    drawn = sheet(2 * MARGIN + inner, top + 12, title)
    label(drawn, MARGIN, 40, title, 22, "bold")
    legend(drawn, signs)
    for column in columns:
        whole = group(drawn, "layout-%s" % column.letter)
        for part, at in zip(PARTS, tops):
            part(column, whole, at)
    return finished(drawn)


def legend_places(inner):
    """Where each sign stands: from the left, and in which row."""
    placed, left, row = [], 0, 0
    for number in NUMBERS:
        width = 22 + width_of(MEANINGS[number], 13) + 14
        if left and left + width > inner:
            left, row = 0, row + 1
        placed.append((left, row, number))
        left += width
    return placed


def legend(drawn, signs):
    part = group(drawn, "legend")
    for place, row, number in signs:
        left, top = MARGIN + place, 62 + LINE * row
        piece(part, left, top - 11, 16, 14, number)
        if number:
            label(part, left + 8, top, str(number), 11, "normal", "middle", INKS[number])
        label(part, left + 22, top, MEANINGS[number], 13)


def piece(part, left, top, width, height, number):
    """A part of a bar, in the colour of its answer."""
    shape(part, "rect", x=round(left, 2), y=round(top, 2), width=round(width, 2), height=round(height, 2), fill=FILLS[number],
          stroke="#555555", stroke_width=0.5)


def fitting(text, size, room):
    """The size, or the one with which the text has room."""
    return min(size, size * room / width_of(text, size))


class Column:
    """A layout's part of the picture. Each method draws one thing below `top`, where there is something to draw on, and gives its height."""

    def __init__(self, left, ready, letter, most):
        self.left, self.ready, self.letter, self.name = left, ready, letter, ready.name
        self.most = most  # the greatest share of a machine that is up, in any layout

    def heading(self, drawn, top):
        settings = self.ready.settings
        counts = counted(len(settings.set_of), "machine"), counted(settings.failure_sets, "failure set"), counted(len(settings.shards), "shard")
        size = "%s in %s, %s, least group size %d" % (*counts, settings.least)
        told = paragraph(self.name, WIDTH, 15) + [size]
        first = len(told) - 1
        told += paragraph(headline(self.ready), WIDTH, 14)
        if drawn is not None:
            for number, text in enumerate(told):
                label(drawn, self.left, top + 26 + 20 * number, text, 15 if number < first else 14, "bold" if number != first else "normal")
        return 26 + 20 * len(told)

    # ---- Upright bars

    def title(self, drawn, top, text, more):
        label(drawn, self.left, top + 22, text, 16, "bold")
        label(drawn, self.left + 1.14 * width_of(text, 16) + 8, top + 22, more, 12, fill=FAINT)

    def bars(self, drawn, top, rows):
        """Bars side by side: (share, text above, texts below)."""
        step = min(WIDTH / len(rows), 92)
        shape(drawn, "path", d="M %g %g H %g" % (self.left, top + BAR, self.left + step * len(rows)), stroke="#000000", stroke_width=1.2)
        for place, (share, above, below) in enumerate(rows):
            width = min(step - 10, 64)
            left = self.left + step * place + (step - width) / 2
            self.bar(drawn, left, top, width, share)
            weight, colour = ("bold", GREEN) if share.plans else ("normal", FAINT)
            label(drawn, left + width / 2, top - 6, above, fitting(above, 12, step - 4), weight, "middle", colour)
            for line, (text, colour) in enumerate(below):
                size = fitting(text, 13 - line, step - 2)
                label(drawn, left + width / 2, top + BAR + 17 + 15 * line, text, size, "normal", "middle", colour)

    def bar(self, drawn, left, top, width, share):
        """A bar divided by answer, plans below."""
        bottom = top + BAR
        for number, count in zip(NUMBERS, share.counts):
            height = BAR * count / share.total
            if count:
                piece(drawn, left, bottom - height, width, height, number)
            if number and height > 13:
                label(drawn, left + width / 2, bottom - height / 2 + 4, str(number), 12, "normal", "middle", INKS[number])
            bottom -= height

    def by_up(self, drawn, top):
        if drawn is not None:
            part, shares = group(drawn, "by-up-%s" % self.letter), self.ready.by_up()
            self.title(part, top, "By how many machines are up", "each bar: all sets of so many machines")
            self.bars(part, top + 52, [(share, "%d of %d" % (share.plans, share.total), [("%d up" % count, None), (percent(share), FAINT)])
                                       for count, share in enumerate(shares)])
        return 52 + BAR + 48

    def by_set(self, drawn, top):
        if drawn is not None:
            part = group(drawn, "by-set-%s" % self.letter)
            self.title(part, top, "By failure set lost", "each bar: all sets of the other machines; below it, the answer with all of them up")
            whole, everyone = self.ready.share(), self.ready.waits[self.ready.all]
            rows = [(whole, "%d of %d" % (whole.plans, whole.total), [("none lost", None), self.mark(everyone)])]
            for number, nodes in self.ready.failure_sets():
                share, wait = self.ready.without(nodes)
                rows.append((share, "%d of %d" % (share.plans, share.total), [("set %d lost" % number, None), self.mark(wait)]))
            self.bars(part, top + 52, rows)
        return 52 + BAR + 48

    @staticmethod
    def mark(wait):
        return ("✗ " + brief(wait), RED) if wait[0] else ("✓ restart", GREEN)

    # ---- Machines

    def by_machine(self, drawn, top):
        rows = self.ready.by_machine()
        if drawn is not None:
            part = group(drawn, "by-machine-%s" % self.letter)
            self.title(part, top, "Keep on first", "sets that restart with the machine down (bar) and with it up (line)")
            names = ["%s (set %d)" % (machines(self.ready.settings, [node]), self.ready.settings.set_of[node]) for node, *_ in rows]
            room = max(width_of(name, 13) for name in names) + 12
            for place, (row, name) in enumerate(zip(rows, names)):
                self.machine(part, top + 36 + ROW * place, (*row, name), room, (WIDTH - room - 170) / self.most)
        return 36 + ROW * len(rows) + 18

    def machine(self, part, top, row, room, scale):
        _, down, held, name = row
        left = self.left + room
        label(part, self.left, top + 15, name, 13)
        shape(part, "rect", x=left, y=top + 3, width=round(down.part * scale, 2), height=ROW - 8, fill=FILLS[0])
        shape(part, "path", d="M %.1f %g V %g" % (left, top + 1, top + ROW - 3), stroke="#000000", stroke_width=1)
        whole = "M %.1f %g H %.1f m 0 -5 v 10" % (left, top + ROW / 2 - 1, left + held.part * scale)
        shape(part, "path", d=whole, stroke="#000000", stroke_width=1.2, fill="none")
        label(part, left + held.part * scale + 8, top + 15, "down %d, up %d of %d" % (down.plans, held.plans, down.total), 12, fill=FAINT)

    # ---- Waits

    def in_the_way(self, drawn, top):
        rows = self.ready.in_the_way()
        if drawn is not None:
            part = group(drawn, "in-the-way-%s" % self.letter)
            self.title(part, top, "What stands in the way", "sets of machines by the first reason to wait")
            room = max(width_of(why(row[:2]), 13) for row in rows) + 16
            scale = (WIDTH - room - 60) / max(count for *_, count in rows)
            for place, (number, value, count) in enumerate(rows):
                at, left = top + 36 + ROW * place, self.left + room
                label(part, self.left, at + 15, why((number, value)), 13)
                piece(part, left, at + 2, count * scale, ROW - 6, number)
                label(part, left + count * scale + 8, at + 15, str(count), 13)
        return 36 + ROW * len(rows) + 18

    # ---- Words

    def words(self, drawn, top):
        told = [sizes(self.ready)] + needed_lines(self.ready) + least_lines(self.ready)
        told += ["Assumed: %s" % self.ready.assumed] * bool(self.ready.assumed)
        lines = [line for text in told for line in paragraph(text, WIDTH, 13)]
        if drawn is not None:
            part = group(drawn, "words-%s" % self.letter)
            for number, text in enumerate(lines):
                label(part, self.left, top + 18 + 18 * number, text, 13)
        return 18 + 18 * len(lines)


PARTS = (Column.heading, Column.by_up, Column.by_set, Column.in_the_way, Column.by_machine, Column.words)
