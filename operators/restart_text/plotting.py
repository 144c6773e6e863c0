"""A moves file as a plot (SVG). Above, the sum of moves in each window of restarts; below, the greatest single restart of each
window, over bars for the moves of each restart. Both stand over the restart numbers: a window at its last restart.

Where restarts crowd, each column of the plot shows the least, the greatest and the mean of the windows in it, and the bars are left
out: the picture of years is no larger than that of some months, and no peak is lost."""
import xml.etree.ElementTree as Tree
from array import array
from bisect import bisect_left
from dataclasses import dataclass

from .shapes import finished, label, shape, sheet

WIDTH, LEFT, RIGHT = 1080, 84, 112
PLOT = WIDTH - LEFT - RIGHT
CROWD = 4 * PLOT  # more restarts than this crowd
SUM, GREATEST, SINGLE, FAINT, GRID, WARNING = "#1f5fa8", "#a8441f", "#b9b9b9", "#666666", "#dddddd", "#b00020"
SHADE = "#e1bfb1"
# A text with this stands out from what is drawn below it.
HALO = {"stroke": "#ffffff", "stroke-width": "5", "stroke-linejoin": "round", "paint-order": "stroke"}


@dataclass
class Panel:
    """A rectangle with axes: restart numbers to the right, values upwards from 0."""

    top: float
    height: float
    first: int  # the restart numbers at the ends
    last: int
    most: float  # the value at the upper end

    def x(self, restart):
        return LEFT + PLOT * (restart - self.first) / max(self.last - self.first, 1)

    def y(self, value):
        return self.top + self.height * (1 - value / self.most)

    @property
    def bottom(self):
        return self.top + self.height


@dataclass
class Shown:
    """What is drawn: the last restarts of a file, and the windows that end with one of them, each with its first and last restart."""

    restarts: array
    moves: array
    starts: array
    ends: array
    sums: array
    greatest: array
    total: int  # restarts in the file
    fault: str


def shown(moves, windows, size, last):
    """The last so many restarts, or all, and their windows."""
    total = len(moves.moves)
    first = max(total - last, 0) if last else 0
    window = max(first - size + 1, 0)
    return Shown(moves.restarts[first:], moves.moves[first:], moves.restarts[window:], moves.restarts[window + size - 1 :],
                 windows.sums[window:], windows.greatest[window:], total, moves.fault)


def plot(moves, windows, size, last=None):
    """The picture of the last so many restarts, or of all, as text. There is at least one window."""
    view = shown(moves, windows, size, last)
    upper = Panel(166 if view.fault else 142, 230, view.restarts[0], view.restarts[-1], ceiling(max(view.sums)))
    lower = Panel(upper.bottom + 76, 190, view.restarts[0], view.restarts[-1], ceiling(max(max(view.moves), max(view.greatest))))
    picture = sheet(WIDTH, lower.bottom + 72)
    shape(picture, "rect", x=0, y=0, width="100%", height="100%", fill="#ffffff")
    heading(picture, view, size)
    for panel, name, text in (
        (upper, "sum", "Sum of moves in %d restarts" % size),
        (lower, "greatest", "Greatest single restart of the %d" % size),
    ):
        before_first(picture, panel, view.ends[0])
        axes(picture, panel, name, text)
    why_none(picture, upper, view.ends[0], size)
    crowded = len(view.moves) > CROWD
    if not crowded:
        bars(picture, lower, view)
    legend(picture, lower, size, crowded)
    for panel, name, found, colour in ((upper, "sum", view.sums, SUM), (lower, "greatest", view.greatest, GREATEST)):
        group = Tree.SubElement(picture, "g", {"id": name})
        if crowded:
            band(group, panel, view.ends, found, colour)
        else:
            line(group, panel, view.ends, found, colour, name == "sum")
    peaks(picture, upper, lower, view)
    label(picture, LEFT + PLOT / 2, lower.bottom + 48, "restart number (of a window, its last restart)", 14, "normal", "middle")
    return finished(picture)


def heading(picture, view, size):
    headline = "Moves in every %d consecutive restarts" % size
    Tree.SubElement(picture, "title").text = headline
    label(picture, LEFT, 38, headline, 22, "bold")
    count = "{:,}".format(view.total)
    if len(view.moves) < view.total:
        count = "The last {:,} of {}".format(len(view.moves), count)
    label(picture, LEFT, 64, "%s restarts, numbers %d to %d" % (count, view.restarts[0], view.restarts[-1]), 14)
    now = (size, view.starts[len(view.ends) - 1], view.ends[-1], view.sums[-1], view.greatest[-1])
    label(picture, LEFT, 85, "The last %d restarts, %d to %d: sum %d, greatest %d." % now, 14)
    if view.fault:
        text = Tree.SubElement(picture, "g", {"id": "fault", "fill": WARNING})
        label(text, LEFT, 110, "The file goes on, but %s." % view.fault, 13, "bold")


def axes(picture, panel, name, text):
    """The frame, grid lines with their values, and the panel's name."""
    group = Tree.SubElement(picture, "g", {"id": "axes-" + name})
    label(group, LEFT, panel.top - 12, text, 15, "bold")
    side = Tree.SubElement(group, "g", {"transform": "translate(%d %.1f) rotate(-90)" % (LEFT - 58, panel.top + panel.height / 2)})
    label(side, 0, 0, "moves", 14, "normal", "middle")
    for value in ticks(0, panel.most, 5):
        y = panel.y(value)
        shape(group, "path", d="M %d %.1f H %d" % (LEFT, y, LEFT + PLOT), stroke=GRID)
        label(group, LEFT - 9, y + 4.5, str(value), 13, "normal", "end")
    for restart in ticks(panel.first, panel.last, 8):
        x = panel.x(restart)
        shape(group, "path", d="M %.1f %.1f V %.1f" % (x, panel.bottom, panel.bottom + 6), stroke="#000000")
        label(group, x, panel.bottom + 22, str(restart), 13, "normal", "middle")
    shape(group, "path", d="M %d %.1f V %.1f H %d" % (LEFT, panel.top, panel.bottom, LEFT + PLOT), stroke="#000000", fill="none")


def before_first(picture, panel, end):
    """A shade over the restarts before the end of the first window."""
    shape(picture, "rect", x=LEFT, y=panel.top, width=panel.x(end) - LEFT, height=panel.height, fill="#f5f5f5")


def why_none(picture, panel, end, size):
    """Says in the shade, if there is room, why it has no line."""
    if panel.x(end) - LEFT > 130:
        text = Tree.SubElement(picture, "g", {"fill": FAINT})
        label(text, (LEFT + panel.x(end)) / 2, panel.top + panel.height / 2, "not yet %d restarts" % size, 13, "normal", "middle")


def bars(picture, panel, view):
    """A bar for the moves of each restart."""
    places = zip(view.restarts, view.moves)
    path = " ".join("M %.1f %.1f V %.1f" % (panel.x(restart), panel.bottom, panel.y(own)) for restart, own in places if own)
    width = min(max(0.6 * PLOT / max(panel.last - panel.first, 1), 1), 8)
    shape(picture, "path", id="moves", d=path or "M 0 0", stroke=SINGLE, fill="none", **{"stroke-width": "%.2f" % width})


def legend(picture, panel, size, crowded):
    """What line and bars, or line and shade, are: at the right above the panel."""
    group = Tree.SubElement(picture, "g", {"id": "legend"})
    y, right = panel.top - 17, LEFT + PLOT
    drawn, other = ("mean of a column", "least to greatest") if crowded else ("greatest of %d" % size, "each restart alone")
    shape(group, "path", d="M %d %.1f h 26" % (right - 304, y), stroke=GREATEST, **{"stroke-width": "2"})
    label(group, right - 272, y + 4.5, drawn, 13)
    shape(group, "rect", x=right - 140, y=y - 6, width=12, height=12, fill=SHADE if crowded else SINGLE)
    label(group, right - 122, y + 4.5, other, 13)


def line(group, panel, ends, found, colour, filled):
    """The values of the windows as a line in steps."""
    places = zip(ends, found)
    steps = "M %.1f %.1f" % (panel.x(ends[0]), panel.y(found[0]))
    steps += "".join(" H %.1f V %.1f" % (panel.x(end), panel.y(value)) for end, value in places)
    if filled:
        area = steps + " V %.1f H %.1f Z" % (panel.bottom, panel.x(ends[0]))
        shape(group, "path", d=area, fill=colour, **{"fill-opacity": "0.12"})
    width = "2" if len(ends) <= PLOT else "1"
    shape(group, "path", d=steps, fill="none", stroke=colour, **{"stroke-width": width, "stroke-linejoin": "round"})


def columns(panel, ends, found):
    """The least, the greatest and the mean of the windows in each column of the plot that has any, with its place."""
    at, span = 0, panel.last - panel.first + 1
    for column in range(PLOT):
        end = bisect_left(ends, panel.first + span * (column + 1) / PLOT, at)
        if end > at:
            part = found[at:end]
            yield LEFT + column + 0.5, min(part), max(part), sum(part) / len(part)
        at = end


def band(group, panel, ends, found, colour):
    """The values of many windows: a shade from the least to the greatest of each column, and a line through the means."""
    shade, means = [], []
    for x, low, high, mean in columns(panel, ends, found):
        shade.append("M %.1f %.1f V %.1f" % (x, panel.y(low) + 0.5, panel.y(high) - 0.5))
        means.append("%s %.1f %.1f" % ("L" if means else "M", x, panel.y(mean)))
    shape(group, "path", d=" ".join(shade), fill="none", stroke=colour, **{"stroke-opacity": "0.35"})
    shape(group, "path", d=" ".join(means), fill="none", stroke=colour, **{"stroke-width": "1.5", "stroke-linejoin": "round"})


def peaks(picture, upper, lower, view):
    """Marks the greatest sum and the greatest restart, and tells the last window's values at the right."""
    place = view.sums.index(max(view.sums))
    told = "most: %d, restarts %d to %d" % (view.sums[place], view.starts[place], view.ends[place])
    mark(picture, upper, "most-sum", view.ends[place], view.sums[place], told, SUM)
    most = max(max(view.moves), max(view.greatest))
    if most in view.moves:
        restart = view.restarts[view.moves.index(most)]
        mark(picture, lower, "most-moves", restart, most, "most: %d, restart %d" % (most, restart), GREATEST)
    else:
        told = "most: %d, before restart %d" % (most, view.restarts[0])
        mark(picture, lower, "most-moves", view.ends[view.greatest.index(most)], most, told, GREATEST)
    for panel, value, colour in ((upper, view.sums[-1], SUM), (lower, view.greatest[-1], GREATEST)):
        end = Tree.SubElement(picture, "g", {"fill": colour})
        shape(end, "circle", cx=panel.x(panel.last), cy=panel.y(value), r=4)
        label(end, LEFT + PLOT + 12, panel.y(value) + 5, "now %d" % value, 15, "bold")


def mark(picture, panel, name, restart, value, text, colour):
    """A ring at a value, unless it is 0, and a text above it, kept inside the panel's sides."""
    if value == 0:
        return
    group = Tree.SubElement(picture, "g", {"id": name, "fill": colour})
    x, y = panel.x(restart), panel.y(value)
    shape(group, "circle", cx=x, cy=y, r=4.5, fill="#ffffff", stroke=colour, **{"stroke-width": "2"})
    half = 3.9 * len(text)
    group = Tree.SubElement(group, "g", HALO)
    label(group, min(max(x, LEFT + half), LEFT + PLOT - half), y - 11, text, 13, "normal", "middle")


def step(span, most):
    """The least of 1, 2, 5, 10, 20 and so on that divides the span into at most so many parts."""
    size = 1
    while True:
        for part in (size, 2 * size, 5 * size):
            if span <= part * most:
                return part
        size *= 10


def ticks(first, last, most):
    """Round numbers from first to last."""
    part = step(last - first, most)
    return range(-(-first // part) * part, int(last) + 1, part)


def ceiling(value):
    """A round upper end with some room above the value, for a text."""
    part = step(max(value * 1.16, 4), 5)
    return -(-max(value * 1.16, 4) // part) * part
