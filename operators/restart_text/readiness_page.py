"""Readiness as one file of HTML, which refers to nothing outside: sentences, picture and tables."""
from html import escape

from .page import inline, table, whole
from .readiness import Unready
from .readiness_lines import comparison, first_lines, tables, unready_lines
from .readiness_picture import picture


def page(found):
    """The page of one layout, or of two, as text."""
    good = [one for one in found if not isinstance(one, Unready)]
    title = "How often %s could restart" % ("this layout" if len(found) == 1 else "two layouts")
    parts = ['<header class="%s"><h1>%s</h1>' % ("plan" if len(good) == len(found) else "refusal", escape(title))]
    parts += ["<p>%s</p>" % escape(named(found, one)) for one in found] + ["</header>"]
    if len(good) == 2:
        told, rows = comparison(*good)
        parts += ["<p>%s</p>" % escape(line) for line in told[1:]]
        parts += ["<h2>In how many cases a restart exists, by how many machines are down</h2>", table(rows)]
    if good:
        parts += ["<h2>Drawing</h2>", '<div class="drawing">', inline(picture(good)), "</div>"]
    for one in found:
        parts.append("<h2>%s</h2>" % escape(named(found, one)))
        parts += ["<p>%s</p>" % escape(line) for line in (unready_lines(one) if isinstance(one, Unready) else first_lines(one))]
        for head, rows in tables(one) if one in good else ():
            parts += ["<h3>%s</h3>" % escape(head), table(rows)]
    return whole(title, parts)


def named(found, one):
    """The layout's name, after its letter where there are two."""
    return one.name if len(found) == 1 else "%s: %s" % ("AB"[found.index(one)], one.name)
