"""Which placement the planner takes: of those with the fewest moves one in which the most old members stay, and of these the first, shards
ascending, each shard's machines listed ascending, the smaller list at the first shard that differs. Counted here once more, by a flow of
least cost.

What flows leads from the source to each shard's need, as many as it needs; from there to each failure set, one; and from the source to
each shard's room, as many as its cap is above its need. From a set of a shard it leads to each held machine of the set in this shard, from
a room to every held machine in this shard; from there to the machine, one, at the cost of a move or a stay; from a machine to the sink,
one."""
from collections import deque
from dataclasses import dataclass

from .model import SUBGROUPS

SOURCE, SINK = 0, 1
NEED, MOVE, STAY = -100000, 100, -1  # a subgroup has at most 32 moves and stays


@dataclass
class First:
    """The placement that a plan must have, of all subgroups."""

    members: dict  # by shard
    moves: int
    stays: int
    others: list  # shards that have other members in another placement of as few moves and as many stays


class Network:
    """Arcs between numbered places. Arc i's way back is arc i ^ 1."""

    def __init__(self):
        self.end, self.room, self.cost, self.leaving = [], [], [], [[], []]

    def place(self):
        self.leaving.append([])
        return len(self.leaving) - 1

    def add(self, start, end, room, cost=0):
        self.leaving[start].append(len(self.end))
        self.leaving[end].append(len(self.end) + 1)
        self.end += [end, start]
        self.room += [room, 0]
        self.cost += [cost, -cost]
        return len(self.end) - 2

    def fill(self):
        """Sends what flows at the least cost. At the end each place has the cost of a cheapest way to it, from anywhere."""
        way = self.cheapest()
        while way:
            self.send(way)
            way = self.cheapest()
        self.costs, _ = self.costs_from(dict.fromkeys(range(len(self.leaving)), 0))

    def cheapest(self):
        """The arcs of a cheapest way from source to sink with room, or None where none saves anything."""
        costs, by = self.costs_from({SOURCE: 0})
        if costs.get(SINK, 0) >= 0:
            return None
        arcs, place = [], SINK
        while place != SOURCE:
            arcs.append(by[place])
            place = self.end[by[place] ^ 1]
        return arcs

    def costs_from(self, costs):
        """The least costs of places from those that have one, and the arc by which each is reached."""
        by, waiting = {}, deque(costs)
        while waiting:
            place = waiting.popleft()
            for arc in self.leaving[place]:
                if self.room[arc]:
                    cost, to = costs[place] + self.cost[arc], self.end[arc]
                    if to not in costs or cost < costs[to]:
                        costs[to], by[to] = cost, arc
                        waiting.append(to)
        return costs, by

    def free(self, arc):
        """Whether the arc has room and lies on cheapest ways alone: what flows round by such arcs costs nothing together."""
        start, end = self.end[arc ^ 1], self.end[arc]
        return self.room[arc] and self.costs[start] + self.cost[arc] == self.costs[end]

    def round(self, arc):
        """Sends one round by this arc if that costs nothing together; whether it does."""
        start, by = self.end[arc], {}
        waiting = [start] if self.free(arc) else []
        while waiting:
            place = waiting.pop()
            for one in self.leaving[place]:
                to = self.end[one]
                if to not in by and to != start and self.free(one):
                    by[to] = one
                    waiting.append(to)
        place, arcs = self.end[arc ^ 1], [arc]
        if place not in by:
            return False
        while place != start:
            arcs.append(by[place])
            place = self.end[by[place] ^ 1]
        self.send(arcs)
        return True

    def send(self, arcs):
        for arc in arcs:
            self.room[arc] -= 1
            self.room[arc ^ 1] += 1


class Subgroup:
    """A subgroup's network, filled with a placement of the fewest moves and, of those, the most stays."""

    def __init__(self, gathered, number):
        self.network, self.shards, self.held = Network(), gathered.settings.shards_of(number), sorted(gathered.held)
        self.pairs = {}  # by shard and node the arc that places the node there
        nodes = {node: self.network.place() for node in self.held}
        for place in nodes.values():
            self.network.add(place, SINK, 1)
        for shard in self.shards:
            self.add_shard(gathered, shard, nodes)
        self.network.fill()

    def add_shard(self, gathered, shard, nodes):
        network, settings, own = self.network, gathered.settings, gathered.settings.shards[shard]
        need, room = network.place(), network.place()
        network.add(SOURCE, need, own.needs, NEED)
        network.add(SOURCE, room, own.cap - own.needs)
        sets = {number: network.place() for number in sorted({settings.set_of[node] for node in nodes})}
        for place in sets.values():
            network.add(need, place, 1)
        for node, place in nodes.items():
            here = network.place()
            network.add(sets[settings.set_of[node]], here, 1)
            network.add(room, here, 1)
            self.pairs[shard, node] = network.add(here, place, 1, STAY if node in gathered.kept.shards[shard] else MOVE)

    def has(self, shard, node):
        return not self.network.room[self.pairs[shard, node]]

    def free(self, shard):
        """Whether another placement that is as good has other members of the shard."""
        kept = list(self.network.room)
        found = any(self.network.round(self.pairs[shard, node] ^ self.has(shard, node)) for node in self.held)
        self.network.room = kept
        return found

    def first(self):
        """Each shard's members in the first placement. What is decided, shard by shard and node by node, stays so."""
        return {shard: self.first_of(shard) for shard in self.shards}

    def first_of(self, shard):
        found = set()
        for place, node in enumerate(self.held):
            if self.ended(shard, self.held[place:]):
                break
            arc = self.pairs[shard, node]
            if self.has(shard, node) or self.network.round(arc):
                found.add(node)
            self.network.room[arc] = self.network.room[arc ^ 1] = 0
        return frozenset(found)

    def ended(self, shard, nodes):
        """Whether the shard can do without all these nodes; if so, it does."""
        room = self.network.room
        kept = list(room)
        for node in nodes:
            arc = self.pairs[shard, node]
            if not room[arc] and not self.network.round(arc ^ 1):
                room[:] = kept
                return False
            room[arc] = 0
        return True


def first_placement(gathered):
    """The first placement, where every subgroup has one."""
    members, others = {}, []
    for number in range(SUBGROUPS):
        subgroup = Subgroup(gathered, number)
        others += [shard for shard in subgroup.shards if subgroup.free(shard)]
        members.update(subgroup.first())
    old = gathered.kept.shards
    moves, stays = (sum(map(len, lists)) for lists in zip(*((nodes - old[shard], nodes & old[shard]) for shard, nodes in members.items())))
    return First(members, moves, stays, sorted(others))


def fewest_moves(gathered):
    """The moves of that placement, where every subgroup has one."""
    count = 0
    for number in range(SUBGROUPS):
        subgroup = Subgroup(gathered, number)
        count += sum(subgroup.has(shard, node) and node not in gathered.kept.shards[shard] for shard in subgroup.shards for node in subgroup.held)
    return count
