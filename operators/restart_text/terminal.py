"""What is different on a terminal: the first line is bold, and what is shown again and again fits on the screen."""
import os
import shutil
import textwrap
import time

BOLD, PLAIN = "\x1b[1m", "\x1b[0m"
MOST_ROWS = 4  # of one line, where all do not fit


def may_be_bold(stream):
    """Whether the stream is a terminal, and nobody has asked for plain text."""
    return stream.isatty() and not os.environ.get("NO_COLOR") and os.environ.get("TERM") != "dumb"


def headed(lines, stream):
    """The lines with the first one bold, where that may be."""
    return ["%s%s%s" % (BOLD, lines[0], PLAIN)] + lines[1:] if lines and may_be_bold(stream) else lines


class Screen:
    """Where lines are shown again and again. A terminal shows one screen, written over in place; all else gets one text after another."""

    def __init__(self, stream):
        self.stream, self.terminal, self.last = stream, stream.isatty(), []

    def __enter__(self):
        if self.terminal:
            self.put("\x1b[?1049h\x1b[?25l")
        return self

    def __exit__(self, *_):
        if self.terminal:
            self.put("\x1b[?25h\x1b[?1049l" + "\n".join(self.last) + "\n")

    def show(self, name, news, lines, whole):
        """`news` has the paths of what happened, by what happened; `whole` is the command that prints all lines."""
        told = "; ".join("%s: %s" % (what, ", ".join(map(os.path.basename, paths))) for what, paths in news.items() if paths)
        first = time.strftime("%H:%M:%S  ") + name + "  " * bool(told) + told
        self.last = [first, ""] + headed(lines, self.stream)
        self.put(over(first, lines, whole, *shutil.get_terminal_size(), self.stream) if self.terminal else "\n".join(self.last) + "\n\n")

    def put(self, text):
        self.stream.write(text)
        self.stream.flush()


def over(first, lines, whole, width, height, stream):
    """What writes these lines over a screen of this size, without clearing it first."""
    shown = fitted(first, lines, whole, width, height)
    if may_be_bold(stream) and lines:
        end = next((number for number, row in enumerate(shown) if number > 2 and not row.startswith("    ")), len(shown))
        shown[2:end] = [BOLD + row + PLAIN for row in shown[2:end]]
    return "\x1b[H" + "\n".join("\x1b[K" + row for row in shown) + "\x1b[J"


def fitted(first, lines, whole, width, height):
    """Rows that fit on the screen. Where not all do, every line gets so few rows that the first two parts, up to the second empty line, stand
    there; then come as many of the others as there is room for, and how to see all."""
    shown = [cut(first, width), ""] + [row for line in lines for row in rows_of(line, width)]
    if len(shown) <= height:
        return shown
    empty = [number for number, line in enumerate(lines) if not line] + [len(lines)] * 2
    for most in range(MOST_ROWS, 0, -1):
        if sum(len(rows_of(line, width, most)) for line in lines[: empty[1]]) <= height - 3:
            break
    shown, told = [cut(first, width), ""], 0
    for line in lines:
        rows = rows_of(line, width, most)
        if len(shown) + len(rows) > height - 1:
            break
        shown, told = shown + rows, told + 1
    left = sum(bool(line) for line in lines[told:])
    more = "%d lines more" % left if left > 1 else "1 line more" if left else "all of each line"
    return shown + [cut("(%s: %s)" % (more, whole), width)]


def rows_of(line, width, most=None):
    """The line in rows. One that is a row of a table is cut, and so is one with more rows than may be."""
    if "  " in line.strip():
        return [cut(line, width)]
    rows = textwrap.wrap(line, width, subsequent_indent="    ", break_on_hyphens=False) or [""]
    return rows if most is None or len(rows) <= most else rows[: most - 1] + [cut(rows[most - 1] + " " * width, width).rstrip()]


def cut(text, width):
    """The text, or what fits of it before three dots."""
    return text if len(text) <= width else text[: width - 3].rstrip() + "..."
