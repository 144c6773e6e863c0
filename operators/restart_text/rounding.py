"""Decisions by improving rounds: what each round reaches, asked of the library, in sentences and a table, and as a picture (SVG)."""
from dataclasses import dataclass, field
from itertools import pairwise

from .answers import BadAnswer, Number, Wait, printed
from .model import SUBGROUPS
from .plotting import ticks
from .sentences import counted, table
from .shapes import BLUE, GREY, RED, finished, group, label, shape, sheet
from .words import nodes_of

MOST_ROUNDS, MOST_GAP = 128, 128
WIDTH, LEFT, RIGHT, TOP, HEIGHT = 960, 76, 190, 132, 300
PLOT = WIDTH - LEFT - RIGHT


@dataclass
class Course:
    """What is reached round by round, until nothing is bettered: Reached by the number of rounds, and the subgroup that each round
    changed; or the wait."""

    steps: list = field(default_factory=list)
    subgroups: list = field(default_factory=list)  # None for the start
    wait: Wait | None = None

    @property
    def enough(self):
        """So many rounds reach the fewest moves."""
        return len(self.steps) - 1 if self.steps else None

    @property
    def fewest(self):
        return self.steps[-1].moves if self.steps else None

    @property
    def floor(self):
        """The moves that cannot be avoided at first sight."""
        return self.steps[0].moves - self.steps[0].gap if self.steps else None


def course(decisions, shards):
    """The course of a restart whose shards' subgroups are these; or the Number by which it is refused."""
    full, found = decisions.full(), decisions.within(0)
    if isinstance(full, Number) or isinstance(found, Number):
        return found if isinstance(found, Number) else full
    if isinstance(full, Wait) or isinstance(found, Wait):
        must(found == full, "restart_decide_within says %s, restart_decide %s" % (said(found), said(full)))
        return Course(wait=full)
    steps = [found]
    for rounds in range(1, MOST_ROUNDS + 1):
        found = decisions.within(rounds)
        must(not isinstance(found, (Number, Wait)), "restart_decide_within says %s with %s and a plan with fewer" % (said(found), counted(rounds, "round")))
        if found.masks == steps[-1].masks:
            break
        steps.append(found)
    made = Course(steps, [None] + [changed(shards, *both) for both in pairwise(steps)])
    check(made, full, decisions.within(MOST_ROUNDS))
    return made


def said(answer):
    return printed(answer) if isinstance(answer, (Wait, Number)) else "a plan of %s" % counted(answer.moves, "move")


def must(holds, text):
    if not holds:
        raise BadAnswer(text)


def changed(shards, before, after):
    """The one subgroup in which two placements differ."""
    found = {shards[shard].subgroup for shard, masks in enumerate(zip(before.masks, after.masks)) if masks[0] != masks[1]}
    must(len(found) == 1, "a round of restart_decide_within changes %s" % counted(len(found), "subgroup"))
    return found.pop()


def check(made, full, last):
    """What is promised of the rounds, as far as it can be seen here."""
    for rounds, (before, after) in enumerate(pairwise(made.steps), 1):
        must(after.moves < before.moves, "round %d goes from %s to %d" % (rounds, counted(before.moves, "move"), after.moves))
    must(all(low <= high for low, high in pairwise(made.subgroups[1:])), "a round goes back to a lower subgroup")
    must(all(step.gap <= MOST_GAP and step.moves - step.gap == made.floor for step in made.steps), "a gap is not the moves less what cannot be avoided")
    must(made.fewest == full.moves, "the rounds end with %s, and the full plan has %d" % (counted(made.fewest, "move"), full.moves))
    must(last == made.steps[-1], "%d rounds do not reach what the rounds end with" % MOST_ROUNDS)
    must(made.floor >= 0, "a gap is greater than the moves")


def lines(made, settings):
    """Sentences, and a line for each number of rounds."""
    if made.wait:
        return ["The planner would wait (%s), whatever the rounds; restart-text explain says what is missing." % printed(made.wait)]
    start = made.steps[0]
    told = ["Without rounds the plan has %s and a gap of %d: no plan has fewer than %d." % (counted(start.moves, "move"), start.gap, made.floor)]
    if not made.enough:
        told.append("No round betters it: the full plan has %s too." % counted(made.fewest, "move"))
    else:
        told.append("%s reach%s the fewest moves, %d, as the full plan has them; more rounds change nothing."
                    % (counted(made.enough, "round").capitalize(), "es" * (made.enough == 1), made.fewest))
    last = made.steps[-1]
    if last.gap:
        told.append("The gap stays at %d there: by itself it would leave open whether fewer are possible." % last.gap)
    return told + [""] + table([("rounds", "moves", "gap", "what the round changed"), *rows(made, settings)])


def rows(made, settings):
    yield "0", str(made.steps[0].moves), str(made.steps[0].gap), "the first valid placement of every subgroup"
    for rounds, (before, after) in enumerate(pairwise(made.steps), 1):
        parts = [exchange(settings, shard, *masks) for shard, masks in enumerate(zip(before.masks, after.masks)) if masks[0] != masks[1]]
        yield str(rounds), str(after.moves), str(after.gap), "subgroup %d: %s" % (made.subgroups[rounds], "; ".join(parts))


def exchange(settings, shard, before, after):
    """Who leaves a shard, and who comes."""
    out, new = (sorted(nodes_of(mask)) for mask in (before & ~after, after & ~before))
    parts = ["%s %s" % (word, settings.those(nodes)) for word, nodes in (("without", out), ("with", new)) if nodes]
    return "shard %d %s" % (shard, ", ".join(parts))


# ---- The picture ----


def draw(made):
    """Moves, and below them the gap down to what cannot be avoided, over the rounds."""
    headline = "Moves and gap after each improving round"
    picture = sheet(WIDTH, TOP + HEIGHT + 70, headline)
    label(picture, LEFT, 38, headline, 22, "bold")
    label(picture, LEFT, 64, "%s without rounds; the fewest, %d, with %s" % (counted(made.steps[0].moves, "move").capitalize(), made.fewest,
                                                                             counted(made.enough, "round")), 14)
    label(picture, LEFT, 85, "No plan has fewer moves than the dashed line: %d." % made.floor, 14)
    most = max(made.steps[0].moves + 1, 4)
    axes(picture, most, max(made.enough, 1))
    floor = y(made.floor, most)
    xs = [x(rounds, made) for rounds in range(len(made.steps))]
    ys = [y(step.moves, most) for step in made.steps]
    steps = "M %.1f %.1f" % (xs[0], ys[0]) + "".join(" H %.1f V %.1f" % place for place in zip(xs[1:], ys[1:])) + " H %.1f" % (LEFT + PLOT)
    shape(group(picture, "gap"), "path", d=steps + " V %.1f H %.1f Z" % (floor, xs[0]), fill=BLUE, fill_opacity=0.12)
    shape(group(picture, "floor"), "path", d="M %d %.1f H %d" % (LEFT, floor, LEFT + PLOT), stroke=GREY, stroke_width=1.5, stroke_dasharray="6 4")
    moves = group(picture, "moves")
    shape(moves, "path", d=steps, fill="none", stroke=BLUE, stroke_width=2)
    for place in zip(xs, ys):
        shape(moves, "circle", cx="%.1f" % place[0], cy="%.1f" % place[1], r=3 if len(xs) > 40 else 4.5, fill=BLUE)
    subgroups(picture, made)
    ends(picture, made, ys[-1], floor)
    return finished(picture)


def x(rounds, made):
    return LEFT + PLOT * rounds / max(made.enough, 1) * (0.94 if made.enough else 0)


def y(value, most):
    return TOP + HEIGHT * (1 - value / most)


def axes(picture, most, rounds):
    axis = group(picture, "axes")
    for value in ticks(0, most, 6):
        shape(axis, "path", d="M %d %.1f H %d" % (LEFT, y(value, most), LEFT + PLOT), stroke="#dddddd")
        label(axis, LEFT - 9, y(value, most) + 4.5, str(value), 13, anchor="end")
    for value in ticks(0, rounds, 10):
        place = LEFT + PLOT * value / rounds * 0.94
        shape(axis, "path", d="M %.1f %d v 6" % (place, TOP + HEIGHT), stroke="#000000")
        label(axis, place, TOP + HEIGHT + 22, str(value), 13, anchor="middle")
    shape(axis, "path", d="M %d %d V %d H %d" % (LEFT, TOP, TOP + HEIGHT, LEFT + PLOT), stroke="#000000", fill="none")
    label(axis, LEFT + PLOT / 2, TOP + HEIGHT + 50, "rounds", 14, anchor="middle")
    label(axis, LEFT - 9, TOP - 14, "moves", 14, anchor="end")


def subgroups(picture, made):
    """Above the line, where the rounds of each subgroup begin."""
    marks = group(picture, "subgroups")
    used = [number for number in range(SUBGROUPS) if number in made.subgroups]
    for number in used:
        first = made.subgroups.index(number)
        place = x(first - 1, made)
        if len(used) > 1:
            shape(marks, "path", d="M %.1f %d V %d" % (place, TOP, TOP + HEIGHT), stroke="#cccccc", stroke_dasharray="2 3")
        label(marks, place + 4, TOP - 4, "subgroup %d" % number, 12, fill=GREY)


def ends(picture, made, last, floor):
    """At the right: the moves and the gap that are left."""
    end = group(picture, "ends")
    step = made.steps[-1]
    label(end, LEFT + PLOT + 10, min(last, floor - 20) + 5, "%s, the fewest" % counted(step.moves, "move"), 14, "bold", fill=BLUE)
    label(end, LEFT + PLOT + 10, floor + 5, "gap %d" % step.gap, 14, fill=RED if step.gap else GREY)
