"""Shapes, labels and colours of a picture (SVG)."""
import colorsys
import xml.etree.ElementTree as Tree

from .stamping import made_line

TAG, MADE = 20, 20
RED, BLUE, AMBER, GREEN, GREY = "#b3261e", "#0b57d0", "#b25e00", "#1e7b34", "#6b6b6b"


def sheet(width, height, title=None):
    """An empty picture; with a title, on white."""
    picture = Tree.Element("svg", {"xmlns": "http://www.w3.org/2000/svg", "viewBox": "0 0 %d %d" % (width, height),
                                   "width": str(round(width)), "height": str(round(height)), "font-family": "sans-serif"})
    if title:
        Tree.SubElement(picture, "title").text = title
        shape(picture, "rect", x=0, y=0, width="100%", height="100%", fill="#ffffff")
    return picture


def finished(picture):
    """The picture as text, with a last line that says when it was made."""
    width, height = (int(picture.get(name)) for name in ("width", "height"))
    picture.set("height", str(height + MADE))
    picture.set("viewBox", "0 0 %d %d" % (width, height + MADE))
    label(group(picture, "made"), 24, height + MADE - 8, made_line(), 11, fill=GREY)
    Tree.indent(picture)
    return '<?xml version="1.0" encoding="UTF-8"?>\n' + Tree.tostring(picture, encoding="unicode") + "\n"


def group(parent, name):
    return Tree.SubElement(parent, "g", {"id": name})


def shape(parent, name, **attributes):
    """`stroke_width` and `stroke_dasharray` stand for the names with a hyphen."""
    texts = {key.replace("_", "-"): "%g" % value if isinstance(value, float) else str(value) for key, value in attributes.items()}
    Tree.SubElement(parent, name, texts)


def label(parent, x, y, text, size, weight="normal", anchor="start", fill=None):
    style = {"font-size": "%g" % size, "font-weight": weight, "text-anchor": anchor, **({"fill": fill} if fill else {})}
    Tree.SubElement(parent, "text", {"x": "%g" % x, "y": "%g" % y, **style}).text = text


def width_of(text, size):
    """About how wide a text of this size is."""
    return len(text) * size * 0.56


def square(parent, left, top, text, fill, thick):
    """A shard that a machine carries; one that it moves to has a thick frame."""
    shape(parent, "rect", x=left, y=top, width=TAG, height=TAG, fill=fill, stroke="#000000", stroke_width=2.5 if thick else 0.7)
    label(parent, left + TAG / 2, top + 15, text, 12, anchor="middle")


def disc(parent, left, top, text, fill):
    """A shard whose log is taken from a machine."""
    shape(parent, "circle", cx=left + TAG / 2, cy=top + TAG / 2, r=TAG / 2, fill=fill, stroke="#000000", stroke_width=0.7)
    label(parent, left + TAG / 2, top + 14.5, text, 12, anchor="middle")


def arrow(parent, start, end, bend, colour):
    """A thick line that ends in a head."""
    shape(parent, "path", d=curve(start, end, bend), fill="none", stroke=colour, stroke_width=3.5)
    x, y = end
    shape(parent, "polygon", points="%.1f,%.1f %.1f,%.1f %.1f,%.1f" % (x - 7, y - 6, x + 7, y - 6, x, y + 8), fill=colour)


def line(parent, start, end, bend, colour, dashes):
    shape(parent, "path", d=curve(start, end, bend), fill="none", stroke=colour, stroke_width=1.3,
          **({"stroke_dasharray": dashes} if dashes else {}))


def curve(start, end, bend):
    return "M %.1f %.1f C %.1f %.1f %.1f %.1f %.1f %.1f" % (*start, start[0], start[1] + bend, end[0], end[1] - bend, *end)


def light(shard):
    return colour(shard, 0.84)


def dark(shard):
    return colour(shard, 0.36)


def colour(shard, lightness):
    """Neighbouring numbers lie far apart on the colour circle."""
    parts = colorsys.hls_to_rgb(shard * 0.382 % 1, lightness, 0.75)
    return "#" + "".join("%02x" % round(255 * part) for part in parts)
