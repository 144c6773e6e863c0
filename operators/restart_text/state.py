"""The planner's state: 160 words, as the calls for C take and leave it, and its text.

What can be told from the words alone is checked: places that mean nothing hold 0. Whether the state is sound takes the desk as well
and is the planner's to say."""
from dataclasses import dataclass

from .lines import STATE, BadText, by_key, each, only, within
from .model import GREATEST, MOST_NODES, MOST_SHARDS, Refused, View
from .printing import numbers
from .texts import numbered
from .words import mask_of, nodes_of

WORDS = 160
PHASES = ["gathering", "ordered", "preparing", "committed"]
KEPT_SHARDS, TERMINATION, MARKS, PLAN, PLAN_SHARDS, HOLDERS, TARGETS, LATEST = 4, 20, 52, 55, 58, 74, 90, 122


@dataclass(frozen=True)
class Plan:
    """The new view with its shards, how many moves it takes, and each shard's holder and target."""

    view: View
    moves: int
    holders: tuple
    targets: tuple


@dataclass(frozen=True)
class State:
    phase: str
    kept: View | None
    termination: tuple | None
    held: frozenset
    fetched: frozenset
    prepared: frozenset
    plan: Plan | None
    latest: tuple = (0,) * MOST_NODES  # for each node the greatest view that it has reported, 0: none


def to_words(state):
    words = [0] * WORDS
    words[0] = PHASES.index(state.phase)
    if state.kept:
        words[1], words[2] = state.kept.number, mask_of(state.kept.members)
        put(words, KEPT_SHARDS, map(mask_of, state.kept.shards))
    if state.termination:
        words[3] = 1
        put(words, TERMINATION, sum(state.termination, ()))
    put(words, MARKS, map(mask_of, (state.held, state.fetched, state.prepared)))
    if state.plan:
        put(words, PLAN, [state.plan.view.number, mask_of(state.plan.view.members), state.plan.moves])
        put(words, PLAN_SHARDS, map(mask_of, state.plan.view.shards))
        put(words, HOLDERS, state.plan.holders)
        put(words, TARGETS, sum(state.plan.targets, ()))
    put(words, LATEST, state.latest)
    return words


def put(words, place, values):
    for offset, value in enumerate(values):
        words[place + offset] = value


def from_words(words):
    """The state that these words are, or number 3."""
    if len(words) != WORDS:
        raise Refused(3, "the state has %d words, it should have %d" % (len(words), WORDS))
    if words[0] >= len(PHASES):
        raise Refused(3, "word 0, the phase, is %d, allowed are 0 to 3" % words[0])
    if words[3] > 1:
        raise Refused(3, "word 3, whether a termination is kept, is %d, allowed are 0 and 1" % words[3])
    shards = 0
    while words[1] and shards < MOST_SHARDS and words[KEPT_SHARDS + shards]:
        shards += 1
    state = State(
        PHASES[words[0]],
        View(words[1], nodes_of(words[2]), masks(words, KEPT_SHARDS, shards)) if words[1] else None,
        pairs(words, TERMINATION, shards) if words[3] else None,
        *(nodes_of(mask) for mask in words[MARKS:PLAN]),
        plan_from(words, shards) if words[0] else None,
        tuple(words[LATEST : LATEST + MOST_NODES]),
    )
    for place, (there, wanted) in enumerate(zip(words, to_words(state))):
        if there != wanted:
            raise Refused(3, "word %d is %d and should be %d, for nothing is kept in this place" % (place, there, wanted))
    return state


def remarks(state):
    """Why the planner refuses this state, as far as its remembered views alone tell it."""
    unknown = [node for node in state.held if not state.latest[node]]
    above = [node for node in state.held if state.kept and state.latest[node] > state.kept.number]
    lines = []
    if unknown:
        lines.append("# held, and no view remembered: %s. A release before 0.3.0 has saved this state, and it is refused with number 3:"
                     " start fresh, and let every machine report again" % numbers(unknown))
    if above:
        lines.append("# held, and a view above the kept one remembered: %s. This state is refused with number 3" % numbers(above))
    return lines


def masks(words, place, shards):
    return tuple(nodes_of(mask) for mask in words[place : place + shards])


def pairs(words, place, shards):
    return tuple((words[place + 2 * shard], words[place + 2 * shard + 1]) for shard in range(shards))


def plan_from(words, shards):
    view = View(words[PLAN], nodes_of(words[PLAN + 1]), masks(words, PLAN_SHARDS, shards))
    return Plan(view, words[PLAN + 2], tuple(words[HOLDERS : HOLDERS + shards]), pairs(words, TARGETS, shards))


def from_section(section):
    """The state that a section of a text tells of."""
    *_, termination, held, fetched, prepared, _, _, _, _ = STATE
    kept, positions = kept_of(section), None
    if by_key(section, termination):
        positions = tuple(tuple(item.values[1:]) for item in each(section, termination, len(kept.shards)))
    marks = (only(section, form).values[0] for form in (held, fetched, prepared))
    plan = plan_of(section, len(kept.shards) if kept else 0)
    return State(section.head.form.split()[1], kept, positions, *marks, plan, latest_of(section))


def latest_of(section):
    """The views that are remembered; 0 where no line tells one."""
    *_, remembered, _, _, _ = STATE
    views = [0] * MOST_NODES
    for node, item in by_key(section, remembered).items():
        within(item, "a node", node, 0, MOST_NODES - 1)
        views[node] = within(item, "a view", item.values[1], 1, GREATEST)
    return tuple(views)


def kept_of(section):
    """The kept view, if the section tells of one."""
    view, members, shard, *_ = STATE
    if not any(item.form.startswith("kept") for item in section.entries):
        return None
    places = each(section, shard, numbered(section, shard, MOST_SHARDS))
    for item in places:
        if not item.values[1]:
            raise BadText(item.line, "expected at least one member of shard %d, found none" % item.values[0])
    number = within(only(section, view), "a view", only(section, view).values[0], 1, GREATEST - 1)
    return View(number, only(section, members).values[0], tuple(item.values[1] for item in places))


def plan_of(section, shards):
    """The plan, which there is in every phase but the first."""
    *_, view, members, shard = STATE
    if section.head.form == "state gathering":
        for item in section.entries:
            if item.form.startswith("plan"):
                raise BadText(item.line, "expected no plan while gathering")
        return None
    items = [item.values for item in each(section, shard, shards)]
    number, moves = only(section, view).values
    made = View(number, only(section, members).values[0], tuple(nodes for *_, nodes in items))
    return Plan(made, moves, tuple(item[1] for item in items), tuple((item[2], item[3]) for item in items))
