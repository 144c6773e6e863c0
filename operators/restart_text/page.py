"""Drawing, table and explanation as one file of HTML, which refers to nothing outside."""
import re
from html import escape

from .answers import Number, Plan, printed
from .drawing import draw
from .planning import place_head, place_row, shard_rows
from .stamping import made_line
from .telling import reason

STYLE = """
body { font: 15px/1.45 sans-serif; margin: 1.5em auto; max-width: 1500px; padding: 0 1.2em; color: #111; background: #fff;
 overflow-wrap: anywhere; }
h1 { font-size: 1.5em; margin: 0 0 .3em; } h2 { font-size: 1.15em; margin: 1.6em 0 .4em; }
.plan { border-left: 8px solid #1e7b34; } .wait { border-left: 8px solid #b25e00; } .refusal { border-left: 8px solid #b3261e; }
header { padding: .4em 1em; background: #f5f5f5; } header p { margin: .2em 0; }
.drawing { overflow-x: auto; border: 1px solid #ccc; padding: .4em; }
.drawing svg { display: block; margin: auto; max-width: 100%; height: auto; }
table { border-collapse: collapse; } th { background: #f0f0f0; }
th, td { border: 1px solid #bbb; padding: .25em .6em; text-align: left; }
footer { margin: 1.6em 0 .4em; color: #666; font-size: .85em; }
pre { font: 13px/1.4 monospace; background: #f8f8f8; border: 1px solid #ddd; padding: .8em; white-space: pre-wrap; }
.narrow { display: none; }
@media (max-width: 640px) { body { padding: 0 .5em; margin: .5em auto; } .wide { display: none; } .narrow { display: block; padding: 0; border: 0; }
 table { display: block; overflow-x: auto; } th, td { overflow-wrap: normal; } }
@media print { .drawing { overflow: visible; border: 0; } .drawing svg { max-width: 100%; height: auto; } }
""".strip()


def page(told, name):
    """The page as text; `name` is that of the input."""
    title, kind = headline(told.answer), {Plan: "plan", Number: "refusal"}.get(type(told.answer), "wait")
    first = told.lines[: told.lines.index("")] if "" in told.lines else told.lines
    parts = ["<header class=\"%s\"><h1>%s</h1>" % (kind, escape(title))]
    parts += ["<p>%s</p>" % escape(line) for line in first] + ["<p>Input: %s</p></header>" % escape(name)]
    if told.agrees and not isinstance(told.answer, Number):
        parts += ["<h2>Drawing</h2>", '<div class="drawing wide">', inline(draw(told)), "</div>"]
        parts += ['<div class="drawing narrow">', inline(draw(told, narrow=True)).replace(' id="', ' id="narrow-'), "</div>"]
        parts += ["<h2>Shards</h2>", table(shard_rows(told.gathered, told.answer) if kind == "plan" else wait_rows(told.gathered))]
    if first != told.lines:
        parts += ["<h2>Explanation</h2>", "<pre>%s</pre>" % escape("\n".join(told.lines))]
    return whole(title, parts)


def whole(title, parts, style=STYLE):
    """The file that has these parts."""
    head = '<meta charset="utf-8"><meta name="viewport" content="width=device-width"><title>%s</title><style>%s</style>'
    return "<!DOCTYPE html>\n<html lang=\"en\"><head>%s</head>\n<body>\n%s\n</body></html>\n" % (
        head % (escape(title), style), "\n".join(parts + ["<footer>%s</footer>" % escape(made_line())]))


def headline(answer):
    if isinstance(answer, Plan):
        return "Restart plan: new view %d, %d move%s" % (answer.view, answer.moves, "s" * (answer.moves != 1))
    if isinstance(answer, Number):
        return "Refused: %s" % printed(answer)
    return "Waiting, reason %d: %s" % (answer.reason, reason(answer))


def inline(picture):
    """The picture without the lines that only a file of its own has. It shrinks with the window, but not so far that nobody can
    read it."""
    body = re.sub(r'\s*<g id="made">.*?</g>', "", picture.split("\n", 1)[1], flags=re.S).strip()
    width = int(re.search(r'<svg [^>]*width="(\d+)"', body)[1])
    return body.replace("<svg ", '<svg style="min-width: %dpx" ' % (width * 0.6), 1)


def wait_rows(gathered):
    """Each shard as the kept view has it, and who is back."""
    settings, kept = gathered.settings, gathered.kept
    rows = [place_head(settings) + ["members", "back", "absent"]]
    for number in range(len(settings.shards)):
        old = kept.shards[number] if kept else frozenset()
        rows.append(place_row(settings, number)
                    + [settings.those(nodes) if nodes else "-" for nodes in (old, old & gathered.held, old - gathered.held)])
    return rows


def table(rows):
    head, *rest = ["".join("<%s>%s</%s>" % (cell, escape(text), cell) for text in row)
                   for cell, row in [("th", rows[0])] + [("td", row) for row in rows[1:]]]
    return "<table>\n<tr>%s</tr>\n%s\n</table>" % (head, "\n".join("<tr>%s</tr>" % row for row in rest))
