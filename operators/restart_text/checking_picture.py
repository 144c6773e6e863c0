"""A check of settings as a picture (SVG): machines by failure set above, shards by subgroup below, and what hangs on one of them in red."""
from .checking import headline, lines
from .layout import GAP, LEAST, LINE, MARGIN, PAD, machine_row, paragraph, shard_row
from .shapes import AMBER, GREEN, GREY, RED, finished, group, label, light, shape, sheet, width_of

MAY, MUST = "may be away", "must be up"


def picture(found):
    """The picture as text."""
    settings = found.settings
    texts = [shard_lines(found, number) for number in range(len(settings.shards))]
    machines = machine_row(settings, 94, 46 + LINE * bool(settings.names))
    shards = shard_row(settings, texts)
    inner = max(machines.full, shards.full, LEAST)
    first = paragraph(headline(found), inner, 22)
    told = [text for line in lines(found)[1:] for text in paragraph(line, inner, 14)]
    top = 50 + 24 * len(first) + 18 * len(told) + 2 * LINE
    below = top + machines.height + 2 * PAD + 4 * GAP
    bottom = below + shards.height + 4 * GAP
    drawn = sheet(inner + 2 * MARGIN, bottom + 2 * GAP, headline(found))
    for number, text in enumerate(first):
        label(drawn, MARGIN, 36 + 24 * number, text, 20, "bold", fill=None if found.whole.met else RED)
    for number, text in enumerate(told):
        label(drawn, MARGIN, 36 + 24 * len(first) + 18 * number, text, 14)
    bad = [number for number in machines.groups if number in found.needed_sets]
    machines.frames(drawn, inner, top, "set", {number: "set %d%s" % (number, ": must be up" * (number in bad)) for number in machines.groups},
                    colours=dict.fromkeys(bad, RED))
    shards.frames(drawn, inner, below, "subgroup", {number: "subgroup %d" % number for number in shards.groups}, True)
    for node, box in machines.boxes(inner, top).items():
        draw_machine(drawn, found, node, box)
    for number, box in shards.boxes(inner, below).items():
        draw_shard(drawn, found, number, box, texts[number])
    legend(drawn, found, bottom)
    return finished(drawn)


def shard_lines(found, number):
    shard = found.settings.shards[number]
    told = ["needs %d" % shard.needs + (", cap %d" % shard.cap if found.settings.capped else "")]
    return told + ["NEVER PLACED"] * (number in found.never) + ["one copy only"] * (number in found.copies)


def draw_machine(drawn, found, node, box):
    colour = GREY if not found.machines else GREEN if found.machines[node].met else RED
    part = group(drawn, "machine-%d" % node)
    shape(part, "rect", x=box.left, y=box.top, width=box.width, height=box.height, rx=5, fill="#ffffff", stroke=colour, stroke_width=2.5)
    label(part, box.middle, box.top + 20, str(node), 18, "bold", "middle")
    top = box.top + 20
    if found.settings.names:
        top += LINE
        label(part, box.middle, top, found.settings.names[node] or "", 12, "bold", "middle")
    text = (MAY if colour == GREEN else MUST) if found.machines else ""
    label(part, box.middle, top + LINE, text, 12, "normal", "middle", colour)


def draw_shard(drawn, found, number, box, told):
    colour = RED if number in found.never else AMBER if number in found.copies else "#777777"
    part = group(drawn, "shard-%d" % number)
    shape(part, "rect", x=box.left, y=box.top, width=box.width, height=box.height, rx=4, fill="#ffffff", stroke=colour,
          stroke_width=1 if colour == "#777777" else 3)
    shape(part, "rect", x=box.left, y=box.top, width=box.width, height=24, rx=4, fill=light(number), stroke=colour)
    label(part, box.middle, box.top + 17, "shard %d" % number, 14, "bold", "middle")
    for place, text in enumerate(told):
        label(part, box.left + 8, box.top + 40 + LINE * place, text, 12, "bold" if place else "normal", fill=colour if place else None)


def legend(drawn, found, top):
    part, left = group(drawn, "legend"), MARGIN
    signs = [(GREEN, "there is a plan without it")] * bool(found.machines)
    signs += [(RED, "must be up, or can never be placed"), (AMBER, "its log may be on one machine only")]
    for colour, text in signs:
        shape(part, "rect", x=left, y=top - 8, width=26, height=16, rx=4, fill="#ffffff", stroke=colour, stroke_width=2.5)
        label(part, left + 34, top + 4, text, 13)
        left += 34 + width_of(text, 13) + 10
