"""What the planner's words mean: settings, views, reports and orders as plain values.

A node is a machine. Nodes stand in frozensets of their numbers. A position in a log is a pair (view, update); START is before all
updates and the end of an empty log. A run is a pair (view, count): the log holds updates 1 to count of that view."""
from dataclasses import dataclass, field

MOST_NODES, MOST_SETS, MOST_SHARDS, SUBGROUPS = 32, 16, 16, 4
MOST_RECORDS = 128
MOST_CAP = 16
GREATEST = 2**32 - 1
START = (0, 0)
LOCATED = (8, 9, 16, 17)  # the numbers of refusals that name a record by its index


@dataclass(frozen=True)
class Shard:
    """A shard's place in the settings: its subgroup, from how many different failure sets it needs members, and how many members it
    may have; where no cap is given, as many as it needs."""

    subgroup: int
    needs: int
    given_cap: int = 0  # 0: none is given

    @property
    def cap(self):
        return self.given_cap or self.needs


@dataclass(frozen=True)
class Settings:
    failure_sets: int
    least: int
    set_of: tuple  # each node's failure set
    shards: tuple  # of Shard
    names: tuple = field(default=(), compare=False)  # each node's name or None, where a text gave names

    @property
    def nodes(self):
        return frozenset(range(len(self.set_of)))

    @property
    def capped(self):
        """Whether a cap is given for some shard."""
        return any(shard.given_cap for shard in self.shards)

    def shards_of(self, subgroup):
        return [number for number, shard in enumerate(self.shards) if shard.subgroup == subgroup]

    def nodes_of(self, failure_set):
        return frozenset(node for node in self.nodes if self.set_of[node] == failure_set)

    def name(self, node):
        """What people call the node: its name, or else its number."""
        return node < len(self.names) and self.names[node] or str(node)

    def those(self, nodes):
        """The nodes in a row, as people call them."""
        return " ".join(self.name(node) for node in sorted(nodes)) or "none"


@dataclass(frozen=True)
class View:
    """A view: its number, its members, and each shard's members."""

    number: int
    members: frozenset
    shards: tuple  # of frozensets


@dataclass(frozen=True)
class Report:
    node: int
    view: View
    termination: tuple | None  # each shard's position
    runs: tuple  # each shard's runs, ascending by view

    def end(self, shard):
        """The last position of the shard's log."""
        return self.runs[shard][-1] if self.runs[shard] else START

    def has(self, shard, position):
        """Whether the shard's log has the update at this position; every log has START."""
        return position == START or any(view == position[0] and position[1] <= count for view, count in self.runs[shard])


@dataclass(frozen=True)
class Order:
    node: int
    view: View
    targets: tuple  # each shard's position
    holders: dict  # the holder of each shard that the node carries
    cuts: dict  # and the node's cut there


class Trouble(Exception):
    """What keeps the command from doing its work, in one line."""


class Unfit(Exception):
    """Something that is refused: what it is, and why it does not fit."""


class Refused(Exception):
    """Words that the planner refuses: the number as in restart(7), for some numbers the index of the record looked at, and what is
    wrong, in words. `record` is the index of the record at fault where this tool knows it and the number does not tell it."""

    def __init__(self, number, why, index=None, record=None):
        super().__init__("%s: %s" % (number_line(number, index), why))
        self.number = number
        self.index = index
        self.record = index if record is None else record
        self.why = why


def number_line(number, index):
    """As `restart` prints it; an index 0 is an index."""
    return "number %d" % number if index is None else "number %d %d" % (number, index)
