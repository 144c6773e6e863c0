"""An answer as a picture (SVG): above the machines, grouped by failure set, below the shards, grouped by subgroup.

In a plan a thick arrow is a move, a thin dotted line a machine that stays in its shard; a machine that may not be taken out for repair has
a red frame. In a wait a line leads from each machine to the shards
that it carried in the kept view, and a list says which conditions are met. Each shard has a colour, and its number stands wherever
the colour does, so that the picture can be read in black and white."""
from .answers import Plan
from .evidence import NEVER, STOP, kept_story
from .explaining import stale
from .gathering import holding, shortage
from .going import saving_line
from .layout import BETWEEN, GAP, LEAST, LINE, MARGIN, PAD, PHONE, SMALL, Stack, machine_row, paragraph, shard_row, wrapped
from .sentences import counted, pair
from .shapes import AMBER, BLUE, GREEN, GREY, RED, TAG
from .shapes import arrow, dark, disc, finished, group, label, light, line, shape, sheet, square, width_of
from .telling import reason


def draw(told, narrow=False):
    """The picture as text, or one that is as wide as a phone."""
    return (Narrow if narrow else Picture)(told).drawn()


class Picture:
    letters = 22  # in a line of a shard's box

    def __init__(self, told):
        self.gathered, self.answer, self.settings = told.gathered, told.answer, told.gathered.settings
        self.plan = told.answer if isinstance(told.answer, Plan) else None
        self.kept = told.gathered.kept
        first = saving_line(told.gathered, told.answer, told.advice) if self.plan else told.lines[told.before]
        self.stop = bool(self.plan) and kept_story(self.gathered).finding == NEVER
        self.first = STOP if self.stop else " ".join(told.lines[: min(told.before, 1)] + [first] * bool(first))
        found = told.advice.found
        self.wanted = frozenset(found.sets[0]) if found and found.sets else frozenset()
        self.instead = frozenset().union(*found.sets) - self.wanted if found else frozenset()
        self.left_out = told.what_if.nodes if told.what_if else frozenset()
        self.stale = dict(stale(self.gathered)) if self.kept else {}
        self.needed = frozenset(told.repair.must) if told.repair else frozenset()
        shards = range(len(self.settings.shards))
        self.logs = [holding(self.gathered, shard) if self.kept else None for shard in shards]
        self.short = [group_number for group_number in range(4) if not self.plan and shortage(self.gathered, group_number)]
        self.texts = [self.shard_lines(shard) for shard in shards]

    # ---- The whole

    def drawn(self):
        settings = self.settings
        machines = machine_row(settings, 54 if self.plan else 78, self.machine_height())
        shards = shard_row(settings, self.texts)
        inner = max(machines.full, shards.full, LEAST)
        back = "held %s; absent %s" % (settings.those(self.gathered.held), settings.those(self.gathered.absent))
        told = [(text, "normal") for text in paragraph(back, inner, 14)]
        told += [(text, "bold" if self.stop or not self.plan else "normal") for text in paragraph(self.first, inner, 15)]
        conditions = [] if self.plan or not self.kept else self.conditions()
        machine_top = 74 + 18 * len(told) + 20 * len(conditions) + 2 * LINE + PAD
        shard_top = machine_top + machines.height + 2 * PAD + BETWEEN + LINE
        bottom = shard_top + shards.height + 4 * GAP
        signs = self.signs(inner)
        picture = sheet(inner + 2 * MARGIN, bottom + (1 + signs[-1][1]) * 2 * GAP, self.headline())
        self.head(picture, told, conditions)
        sets = {number: "failure set %d" % number for number in machines.groups}
        machines.frames(picture, inner, machine_top, "set", sets)
        names = {number: "subgroup %d%s" % (number, ": no placement" * (number in self.short)) for number in shards.groups}
        shards.frames(picture, inner, shard_top, "subgroup", names, True, dict.fromkeys(self.short, RED))
        above, below = machines.boxes(inner, machine_top), shards.boxes(inner, shard_top)
        self.links(picture, above, below)
        for node, box in above.items():
            self.machine(picture, node, box)
        for shard, box in below.items():
            self.shard(picture, shard, box)
        legend(picture, signs, bottom)
        return finished(picture)

    def headline(self):
        if self.plan:
            return "View %d after view %d: %s" % (self.plan.view, self.kept.number, counted(self.plan.moves, "move"))
        return "Waiting, reason %d: %s" % (self.answer.reason, reason(self.answer))

    def head(self, picture, told, conditions):
        label(picture, MARGIN, 36, self.headline(), 20, "bold", fill=None if self.plan else RED)
        for number, (text, weight) in enumerate(told):
            label(picture, MARGIN, 60 + number * 18, text, 14, weight, fill=RED if self.stop and weight == "bold" else None)
        top = 58 + 18 * len(told)
        for number, (met, text) in enumerate(conditions):
            row = group(picture, "condition-%d" % number)
            mark(row, MARGIN, top + 20 * number, met)
            label(row, MARGIN + 24, top + 20 * number + 12, text, 13, "normal" if met else "bold", fill=None if met else RED)

    def conditions(self):
        """Each condition of a restart: whether it is met, and the count."""
        gathered, kept, least = self.gathered, self.kept, self.settings.least
        back, needed = len(kept.members & gathered.held), len(kept.members) // 2 + 1
        found = [(back >= needed, "%d of the %s of view %d are back, at least %d needed"
                  % (back, counted(len(kept.members), "member"), kept.number, needed)),
                 (len(gathered.held) >= least, "%s back, at least %d needed" % (counted(len(gathered.held), "machine"), least))]
        without = [shard for shard, log in enumerate(self.logs) if not log]
        found.append((not without, "no log of shard%s %s" % ("s" * (len(without) > 1), " ".join(map(str, without)))
                      if without else "every shard has a log"))
        for number in self.short:
            short = shortage(gathered, number)
            found.append((False, "no placement of subgroup %d: %s, the failure sets give %d"
                          % (number, needs(short), sum(short.given.values()))))
        return found if self.short else found + [(True, "every subgroup has a placement")]

    # ---- Machines

    def carried(self, node):
        """The shards that the machine carries: by the plan, or else in the kept view."""
        shards = [placed.members for placed in self.plan.shards] if self.plan else self.kept.shards if self.kept else ()
        return [shard for shard, members in enumerate(shards) if node in members]

    def given(self, node):
        """The shards whose log is taken from the machine."""
        return [shard for shard, log in enumerate(self.logs) if log and log[0] == node]

    def machine_height(self):
        rows = [(len(self.carried(node)) + 1) // 2 + (len(self.given(node)) + 1) // 2 for node in self.settings.nodes]
        return 46 + LINE * bool(self.settings.names) + max(1, max(rows)) * (TAG + 4)

    def state(self, node):
        """The line under the machine's number: its text, colour, and the frame's colour, width and dashes."""
        if node in self.wanted:
            return "switch on", BLUE, BLUE, 3, "6 3"
        if node in self.instead:
            return "or this", BLUE, BLUE, 1, "6 3"
        if node not in self.gathered.held:
            return "left out" if node in self.left_out else "absent", GREY, GREY, 1, "4 3"
        if node in self.needed:
            return ("must stay, view %d" % self.stale[node] if node in self.stale else "must stay"), RED, RED, 2.5, None
        if node in self.stale:
            return "view %d" % self.stale[node], AMBER, AMBER, 2, None
        return "", "#000000", "#000000", 1.5, None

    def machine(self, picture, node, box):
        text, colour, stroke, width, dashes = self.state(node)
        part = group(picture, "machine-%d" % node)
        shape(part, "rect", x=box.left, y=box.top, width=box.width, height=box.height, rx=5, fill="#ffffff", stroke=stroke,
              stroke_width=width, **({"stroke_dasharray": dashes} if dashes else {}))
        label(part, box.middle, box.top + 20, str(node), 18, "bold" if node in self.gathered.held else "normal", "middle")
        top = box.top + 20
        if self.settings.names:
            top += LINE
            label(part, box.middle, top, self.settings.name(node) if self.settings.names[node] else "", 12, "bold", "middle")
        if text:
            size = min(12, 12 * (box.width - 6) / width_of(text, 12))
            label(part, box.middle, top + LINE, text, size, "bold" if node in self.wanted else "normal", "middle", colour)
        self.tags(part, node, box, top + LINE + 8)

    def tags(self, part, node, box, top):
        """Squares for what the machine carries, discs for the logs that are taken from it."""
        carried, given, back = self.carried(node), self.given(node), node in self.gathered.held
        for shard, left, down in pairs_of(carried, box.middle):
            moves = bool(self.plan) and node not in self.kept.shards[shard]
            square(part, left, top + down, str(shard), light(shard) if back else "#f2f2f2", moves)
        top += (len(carried) + 1) // 2 * (TAG + 4)
        for shard, left, down in pairs_of(given, box.middle):
            disc(part, left, top + down, str(shard), light(shard))

    # ---- Shards

    def shard_lines(self, shard):
        """What stands in a shard's box."""
        settings, old = self.settings, self.kept.shards[shard] if self.kept else frozenset()
        own = settings.shards[shard]
        lines = ["needs %d" % own.needs + ", cap %d" % own.cap * settings.capped]
        if self.plan:
            placed = self.plan.shards[shard]
            lines += wrapped("log from", [placed.holder], settings, self.letters) + ["up to %s" % pair(placed.target)]
            lines += wrapped("stay", placed.members & old, settings, self.letters) + wrapped("move in", placed.members - old, settings, self.letters)
            beyond = len(placed.members) - own.needs
            return lines + ["%d beyond the need" % beyond] * (beyond > 0)
        if not self.kept:
            return lines
        log = self.logs[shard]
        lines += wrapped("log from", [log[0]], settings, self.letters) + ["up to %s" % pair(log[1])] if log else ["NO LOG"]
        for name, nodes in (("back", old & self.gathered.held - set(self.stale)), ("older view", old & set(self.stale)),
                            ("absent", old - self.gathered.held)):
            lines += wrapped(name, nodes, settings, self.letters) if nodes else []
        return lines

    def shard(self, picture, shard, box):
        part, bad = group(picture, "shard-%d" % shard), not self.plan and bool(self.kept) and not self.logs[shard]
        edge = {"stroke": RED, "stroke_width": 3} if bad else {"stroke": dark(shard)}
        shape(part, "rect", x=box.left, y=box.top, width=box.width, height=box.height, fill="#ffffff", rx=4, **edge)
        shape(part, "rect", x=box.left, y=box.top, width=box.width, height=24, fill=light(shard), rx=4, **edge)
        label(part, box.middle, box.top + 17, "shard %d" % shard, 14, "bold", "middle")
        for number, text in enumerate(self.texts[shard]):
            no_log = text == "NO LOG"
            label(part, box.left + 8, box.top + 40 + number * LINE, text, 12, "bold" if no_log else "normal",
                  fill=RED if no_log else None)

    # ---- Lines between them

    def links(self, picture, above, below):
        """A line from each member to its shard; the ends at a shard stand in the order of the machines above."""
        if not self.plan and not self.kept:
            return
        for shard, box in below.items():
            members = self.plan.shards[shard].members if self.plan else self.kept.shards[shard]
            nodes = sorted(members, key=lambda node: above[node].left)
            for place, node in enumerate(nodes, 1):
                start, end = (above[node].middle, above[node].bottom), (box.left + box.width * place / (len(nodes) + 1), box.top)
                self.link(picture, node, shard, start, end)

    def link(self, picture, node, shard, start, end):
        bend = BETWEEN * 0.6
        if self.plan and node not in self.kept.shards[shard]:
            arrow(group(picture, "move-%d-%d" % (node, shard)), start, (end[0], end[1] - 8), bend, dark(shard))
        elif self.plan:
            line(picture, start, end, bend, GREY, "1.5 3")
        elif node not in self.gathered.held:
            line(picture, start, end, bend, BLUE if node in self.wanted | self.instead else GREY, "6 4")
        else:
            line(picture, start, end, bend, AMBER if node in self.stale else dark(shard), "1.5 3" if node in self.stale else None)

    # ---- Legend

    def signs(self, inner):
        """Each sign: where it stands in the row, in which row, its width, what it means, and how it is drawn."""
        def stroke(colour, dashes):
            return lambda part, left, top: line(part, (left, top), (left + 34, top), 0, colour, dashes)

        def tag(draw_one, *more):
            return lambda part, left, top: draw_one(part, left, top - 10, "n", "#eeeeee", *more)

        signs = [(28, "carries shard n" if self.plan else "carried shard n", tag(square, False)),
                 (28, "shard n's log is taken from here", tag(disc))]
        if self.plan:
            signs = [(42, "moves in", level_arrow), (42, "stays", stroke(GREY, "1.5 3")),
                     (28, "moves to shard n", tag(square, True))] + signs
            signs += [(42, "must stay: it would wait without", stroke(RED, None))] * bool(self.needed)
        else:
            signs = [(42, "back", stroke("#000000", None)), (42, "older view", stroke(AMBER, "1.5 3")),
                     (42, "absent", stroke(GREY, "6 4")), (42, "to switch on", stroke(BLUE, "6 4"))] + signs
        return in_rows(signs, inner)


class Narrow(Picture):
    """The same for a phone: failure sets and subgroups one below another, and no lines between them, for squares, discs and the words in the
    boxes say the same."""

    letters = 19

    def drawn(self):
        inner, settings = PHONE - 2 * SMALL, self.settings
        texts = [(line, 17, "bold", None if self.plan else RED) for line in paragraph(self.headline(), inner, 17)]
        for name, nodes in (("held", self.gathered.held), ("absent", self.gathered.absent)):
            texts += [(line, 13, "normal", None) for line in paragraph("%s %s" % (name, settings.those(nodes)), inner, 13)]
        loud = self.stop or not self.plan
        texts += [(line, 14, "bold" if loud else "normal", RED if self.stop else None) for line in paragraph(self.first, inner, 15.5 if loud else 14)]
        conditions = [] if self.plan or not self.kept else [(met, paragraph(text, inner - 24, 13 if met else 14.5)) for met, text in self.conditions()]
        machines, shards = machine_row(settings, 64 if self.plan else 78, self.machine_height(), Stack), shard_row(settings, self.texts, Stack)
        condition_top = 20 + sum(size + 5 for _, size, *_ in texts)
        machine_top = condition_top + sum(18 * len(lines) + 2 for _, lines in conditions) + PAD
        shard_top = machine_top + machines.full(inner) + PAD
        bottom = shard_top + shards.full(inner) + GAP
        signs = self.signs(inner)
        picture = sheet(PHONE, bottom + (1 + signs[-1][1]) * 2 * GAP - GAP, self.headline())
        self.words(picture, texts)
        self.met(picture, conditions, condition_top)
        machines.frames(picture, inner, machine_top, "set", {number: "failure set %d" % number for number in machines.groups})
        names = {number: "subgroup %d%s" % (number, ": no placement" * (number in self.short)) for number in shards.groups}
        shards.frames(picture, inner, shard_top, "subgroup", names, dict.fromkeys(self.short, RED))
        for node, box in machines.boxes(inner, machine_top).items():
            self.machine(picture, node, box)
        for shard, box in shards.boxes(inner, shard_top).items():
            self.shard(picture, shard, box)
        legend(picture, signs, bottom, SMALL)
        return finished(picture)

    @staticmethod
    def words(picture, texts):
        top = 4
        for text, size, weight, fill in texts:
            top += size + 5
            label(picture, SMALL, top, text, size, weight, fill=fill)

    @staticmethod
    def met(picture, conditions, top):
        for number, (met, lines) in enumerate(conditions):
            row = group(picture, "condition-%d" % number)
            mark(row, SMALL, top, met)
            for text in lines:
                label(row, SMALL + 24, top + 12, text, 13, "normal" if met else "bold", fill=None if met else RED)
                top += 18
            top += 2

    def signs(self, inner):
        """Those of frames, squares and discs."""
        def frame(colour, width, dashes):
            return lambda part, left, top: shape(part, "rect", x=left, y=top - 9, width=20, height=18, rx=4, fill="#ffffff", stroke=colour,
                                                 stroke_width=width, **({"stroke_dasharray": dashes} if dashes else {}))

        def tag(draw_one, *more):
            return lambda part, left, top: draw_one(part, left, top - 10, "n", "#eeeeee", *more)

        signs = [(28, "carries shard n" if self.plan else "carried shard n", tag(square, False)), (28, "gives the log of shard n", tag(disc))]
        if self.plan:
            signs = [(28, "moves to shard n", tag(square, True))] + signs
            signs += [(28, "must stay: it would wait without", frame(RED, 2.5, None))] * bool(self.needed)
        else:
            signs = [(28, "to switch on", frame(BLUE, 3, "6 3")), (28, "absent", frame(GREY, 1, "4 3"))] + signs
        signs += [(28, "older view", frame(AMBER, 2, None))] * bool(self.stale)
        return in_rows(signs, inner)


def in_rows(signs, inner):
    """Each sign with its place: from the left, and in which row."""
    placed, left, row = [], 0, 0
    for width, text, draw_one in signs:
        full = width + width_of(text, 13) + 22
        if left and left + full > inner:
            left, row = 0, row + 1
        placed.append((left, row, width, text, draw_one))
        left += full
    return placed


def legend(picture, signs, top, margin=MARGIN):
    part = group(picture, "legend")
    for left, row, width, text, draw_one in signs:
        draw_one(part, margin + left, top + 2 * GAP * row)
        label(part, margin + left + width, top + 2 * GAP * row + 4, text, 13)


def pairs_of(shards, middle):
    """Where small signs stand, two in a row: each shard, its left edge, and how far down."""
    for place, shard in enumerate(shards):
        alone = place % 2 == 0 and place + 1 == len(shards)
        left = middle - TAG / 2 if alone else middle - TAG - 2 + place % 2 * (TAG + 4)
        yield shard, left, place // 2 * (TAG + 4)


def needs(short):
    shards = " ".join(map(str, short.shards))
    return ("shard %s needs %s" if len(short.shards) == 1 else "shards %s need %s") % (shards, counted(short.needed, "machine"))


def level_arrow(part, left, top):
    shape(part, "path", d="M %g %g H %g" % (left, top, left + 24), stroke="#000000", stroke_width=3.5)
    shape(part, "polygon", points="%g,%g %g,%g %g,%g" % (left + 24, top - 7, left + 24, top + 7, left + 37, top), fill="#000000")


def mark(part, left, top, met):
    """A tick for a condition that is met, a cross for one that is not."""
    path = "M %g %g l 4 5 l 8 -11" % (left + 2, top + 8) if met else "M %g %g l 11 11 m 0 -11 l -11 11" % (left + 2, top + 2)
    shape(part, "path", d=path, fill="none", stroke=GREEN if met else RED, stroke_width=3)
