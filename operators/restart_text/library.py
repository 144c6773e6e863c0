"""Asking the library for C: which one it is, its calls that convert reports, and a restart of its own up to a subgroup's page, to
previews, to decisions by rounds, or to a game of outage and crew."""
import ctypes
import os
import sys
from dataclasses import dataclass

from . import words
from .answers import BadAnswer, Number, Wait
from .asking import HERE
from .encode import settings_words
from .model import LOCATED, MOST_RECORDS

SONAME = "librestart.so.1"
# The calls, each with its arguments: n is a number, r a piece that is read, w one that is written.
CONVERTING = {"restart_from_flat": "rrw", "restart_to_flat": "rrw"}
REPORTING = {"restart_fresh": "nw", "restart_report": "nrwwr"}
WATCHING = {"restart_page": "nrrrnw", "restart_watcher": "n", **REPORTING}
PREVIEWING = {"restart_preview": "nrrrnw", "restart_preview_all": "nrrrw", **REPORTING}
PLAYING = {"restart_game": "nrrrnn", "restart_drop": "nrwrn", "restart_decide": "nrwr", **REPORTING}
DECIDING = {"restart_decide": "nrwr", "restart_decide_within": "nrwrn", **REPORTING}
CLASS, REFUSAL, LENGTH, PLAN, WAIT, GAME = 16777216, 0, 1, 2, 3, 5  # an answer is class x 16777216 + rest
MOVES, MASKS = 57, 58  # the words of a state that have its plan's moves, and from where on its shards' members
PASSING = 32  # where the outage begins with no node
PLANNER = 256
STATE_BYTES, DESK_BYTES, BUFFER_BYTES = 640, 65536, 16 * MOST_RECORDS
WORD, SIZE = ctypes.c_uint32, ctypes.c_size_t
ARGUMENTS = {"n": [WORD], "r": [ctypes.c_char_p, SIZE], "w": [ctypes.c_void_p, SIZE]}


def default_library():
    """In a checkout the library that was built there; else the one installed with this tool; else the one that the system finds."""
    places = [os.path.join(os.path.dirname(os.path.realpath(sys.argv[0])), "..", "lib", SONAME)]
    if os.path.exists(os.path.join(HERE, "..", "crates.txt")):
        places.insert(0, os.path.join(HERE, "..", "target", SONAME))
    return next((os.path.normpath(place) for place in places if os.path.exists(place)), SONAME)


def loaded(path, calls, what):
    """The library with these calls; of one that lacks a call it is said `what` its release does not do."""
    named = os.path.abspath(path) if path and os.path.exists(path) else path or default_library()
    try:
        library = ctypes.CDLL(named)
    except OSError as error:
        raise BadAnswer("cannot load the library: %s%s" % (error, "" if path else "; give --library PATH")) from None
    for name, kinds in calls.items():
        if not hasattr(library, name):
            raise BadAnswer("the library %s has no %s, so it is of a release that does not %s; --library PATH names another"
                            % (named, name, what))
        call = getattr(library, name)
        call.argtypes, call.restype = [argument for kind in kinds for argument in ARGUMENTS[kind]], WORD
    return library


def lent(*given):
    """The arguments of a call: each piece with its length."""
    return [part for one in given for part in ([one] if isinstance(one, int) else [one, len(one)])]


def taken(name, answer, buffer):
    """The words that a call has written, or the Number by which it refused."""
    kind, rest = divmod(answer, CLASS)
    if kind == LENGTH and 0 < rest <= len(buffer) // 4:
        return words.from_bytes(buffer.raw[: 4 * rest])
    return refusal(name, answer)


def refusal(name, answer):
    kind, rest = divmod(answer, CLASS)
    index, number = divmod(rest, 256)
    if kind != REFUSAL or not number or (index and number not in LOCATED):
        raise BadAnswer("%s answers %d, which is neither a length nor a number" % (name, answer))
    return Number(number, index if number in LOCATED else None)


class Library:
    """The library, with what it converts under these settings."""

    def __init__(self, path, settings):
        self.calls = loaded(path, CONVERTING, "convert flat reports")
        self.settings = words.to_bytes(settings_words(settings))

    def from_flat(self, flat):
        """The words of the report that these bytes are turned into, or the Number by which they are refused."""
        return self.turned("restart_from_flat", flat)

    def to_flat(self, message):
        """The words of the flat report that these bytes are turned into, or the Number by which they are refused."""
        return self.turned("restart_to_flat", message)

    def turned(self, name, data):
        buffer = ctypes.create_string_buffer(BUFFER_BYTES)
        return taken(name, getattr(self.calls, name)(*lent(self.settings, data, buffer)), buffer)


class Restart:
    """A restart in the library, from the fresh state on: the planner reports, a subgroup's watcher reads its page."""

    def __init__(self, path, settings, calls=WATCHING, what="have pages"):
        self.calls = loaded(path, calls, what)
        self.settings = words.to_bytes(settings)
        self.state, self.desk = (ctypes.create_string_buffer(size) for size in (STATE_BYTES, DESK_BYTES))
        if self.calls.restart_fresh(*lent(PLANNER, self.state)):
            raise BadAnswer("restart_fresh refuses a state of %d bytes" % STATE_BYTES)

    def report(self, message):
        """Takes a report; the Number by which it is refused, or None."""
        data = words.to_bytes(message)
        answer = self.calls.restart_report(*lent(PLANNER, self.settings, self.state, self.desk, data))
        return refusal("restart_report", answer) if answer else None

    def page(self, subgroup):
        """The words of a subgroup's page, as its watcher reads it, or the Number by which it is refused."""
        buffer = ctypes.create_string_buffer(BUFFER_BYTES)
        role = self.calls.restart_watcher(subgroup)
        answer = self.calls.restart_page(*lent(role, self.settings, self.state, self.desk, subgroup, buffer))
        return taken("restart_page", answer, buffer)


@dataclass(frozen=True)
class Foreseen:
    """A plan that would come of a drop."""

    moves: int


@dataclass(frozen=True)
class Reached:
    """A plan that so many rounds reach, or the full one."""

    moves: int
    gap: int  # 0 of the full one, where it says nothing
    masks: tuple  # by shard


class Decisions(Restart):
    """A restart in the library, and what would be decided by rounds and in full. Its state stays."""

    def __init__(self, path, settings):
        super().__init__(path, settings, DECIDING, "decide by rounds")
        self.shards = settings[3] if len(settings) > 3 else 0

    def within(self, rounds):
        """What so many rounds reach: Reached, Wait, or the Number of a refusal."""
        return self.decided("restart_decide_within", rounds)

    def full(self):
        return self.decided("restart_decide")

    def decided(self, name, *rounds):
        copy = ctypes.create_string_buffer(self.state.raw, STATE_BYTES)
        answer = getattr(self.calls, name)(*lent(PLANNER, self.settings, copy, self.desk, *rounds))
        kind, rest = divmod(answer, CLASS)
        if kind == PLAN:
            state = words.from_bytes(copy.raw)
            return Reached(state[MOVES], rest, tuple(state[MASKS : MASKS + self.shards]))
        return waited(answer) or refusal(name, answer)


def waited(answer):
    """The Wait that an answer is, or None."""
    kind, rest = divmod(answer, CLASS)
    reason, value = divmod(rest, 256)
    return Wait(reason, value if reason > 3 else None) if kind == WAIT and 1 <= reason <= 5 else None


class Previews(Restart):
    """A restart in the library after these reports, and what would be decided without a machine."""

    def __init__(self, path, blocks):
        super().__init__(path, blocks[0], PREVIEWING, "have previews")
        for block in blocks[1:]:
            refused = self.report(block)
            if refused:
                raise BadAnswer("the library refuses a report with number %d, which the program takes" % refused.number)

    def without(self, node):
        """What would be decided without a held machine: Foreseen or Wait."""
        buffer = ctypes.create_string_buffer(BUFFER_BYTES)
        answer = self.calls.restart_preview(*lent(PLANNER, self.settings, self.state, self.desk, node, buffer))
        if answer // CLASS == PLAN:
            return Foreseen(words.from_bytes(buffer.raw)[MOVES])
        found = waited(answer)
        if found is None:
            raise BadAnswer("restart_preview answers %d for a held machine, which is neither a plan nor a wait" % answer)
        return found

    def must_stay(self):
        """The machines without which it would wait."""
        buffer = ctypes.create_string_buffer(BUFFER_BYTES)
        answer = self.calls.restart_preview_all(*lent(PLANNER, self.settings, self.state, self.desk, buffer))
        found = taken("restart_preview_all", answer, buffer)
        if isinstance(found, Number):
            raise BadAnswer("restart_preview_all refuses with number %d what restart_preview takes" % found.number)
        return words.nodes_of(found[0])


class Games(Restart):
    """A restart in which every machine has reported, and games of outage and crew on it."""

    def __init__(self, path, settings):
        super().__init__(path, settings, PLAYING, "play games")

    def game(self, held, rounds):
        """What the outage begins with where it wins, a node or PASSING, or None where the crew can hold; and the Number by which the
        game is refused, or None."""
        answer = self.calls.restart_game(*lent(PLANNER, self.settings, self.state, self.desk, held, rounds))
        kind, rest = divmod(answer, CLASS)
        if kind == GAME and rest == 0:
            return None, None
        if kind == GAME and 256 <= rest <= 256 + PASSING:
            return rest - 256, None
        return None, refusal("restart_game", answer)

    def decided(self, dropped):
        """The Wait of restart_decide once these nodes are dropped, or None where there is a plan: on a copy of the state."""
        state = ctypes.create_string_buffer(self.state.raw, STATE_BYTES)
        for node in dropped:
            answer = self.calls.restart_drop(*lent(PLANNER, self.settings, state, self.desk, node))
            if answer:
                raise BadAnswer("restart_drop answers %d for machine %d, which has reported" % (answer, node))
        kind, rest = divmod(self.calls.restart_decide(*lent(PLANNER, self.settings, state, self.desk)), CLASS)
        if kind not in (PLAN, WAIT):
            raise BadAnswer("restart_decide answers %d x %d + %d, which is neither a plan nor a wait" % (kind, CLASS, rest))
        return Wait(rest // 256, rest % 256) if kind == WAIT else None
