"""Two answers compared, in words, and what of their inputs differs: the same settings and reports give the same plan."""
from dataclasses import dataclass

from .answers import Plan, Wait, printed
from .sentences import counted, listed, machine, machines, pair
from .telling import reason


def difference_lines(one, other, settings):
    """Where the second answer differs from the first; nothing where it does not."""
    if one == other:
        return []
    if not isinstance(one, Plan) or not isinstance(other, Plan):
        return ["First: %s." % told(one), "Second: %s." % told(other)]
    lines = []
    if one.view != other.view:
        lines.append("The new view is %d, was %d." % (other.view, one.view))
    if one.moves != other.moves:
        lines.append("%s, was %d." % (counted(other.moves, "move"), one.moves))
    if len(one.shards) != len(other.shards):
        return lines + ["%s, was %d." % (counted(len(other.shards), "shard"), len(one.shards))]
    for shard, both in enumerate(zip(one.shards, other.shards)):
        lines += shard_lines(shard, *both, settings)
    return lines


def told(answer):
    if isinstance(answer, Wait):
        return "%s, %s" % (printed(answer), reason(answer))
    return printed(answer)


def shard_lines(shard, one, other, settings):
    """What changed of a shard, in one line."""
    parts = []
    if other.members != one.members:
        come, go = other.members - one.members, one.members - other.members
        parts += ["%s come%s in" % (machines(settings, come), "s" * (len(come) == 1))] if come else []
        parts += ["%s leave%s" % (machines(settings, go), "s" * (len(go) == 1))] if go else []
    if other.holder != one.holder:
        parts.append("the log is taken from %s, was from %s" % (machine(settings, other.holder), machine(settings, one.holder)))
    if other.target != one.target:
        parts.append("the target is %s, was %s" % (pair(other.target), pair(one.target)))
    return ["Shard %d: %s." % (shard, "; ".join(parts))] if parts else []


def cause_lines(one, other, gathered, settings):
    """What the two answers come from, as far as that can be known; `gathered` is what each input adds up to, or None where there is
    only the answer."""
    if None not in gathered:
        return settings_lines(*gathered) + ["The inputs differ: %s." % part for part in input_parts(*gathered, settings)] or [
            "The inputs say the same, and the same inputs give the same answer: keep both files and call the developers."]
    if not isinstance(one, Plan) or not isinstance(other, Plan):
        return []
    return ["The same settings and reports give the same plan, so these were made from different ones: %s." % known(one, other)]


def known(one, other):
    """What two plans alone show of what they were made from."""
    if len(one.shards) != len(other.shards):
        return "other settings"
    if one.view != other.view:
        return "the kept view was %d, then %d" % (one.view - 1, other.view - 1)
    pairs = list(zip(one.shards, other.shards))
    logs = [shard for shard, (was, now) in enumerate(pairs) if (was.holder, was.target) != (now.holder, now.target)]
    if logs:
        return "other reports of shard%s %s, or another termination" % ("s" * (len(logs) > 1), listed(logs))
    return "other machines were held, or the settings or the kept view's members were others; the inputs would show it"


@dataclass(frozen=True)
class Change:
    """A value of the settings that differs: of the whole (part ""), of a machine or of a shard."""

    part: str
    number: int | None
    name: str
    was: int
    now: int


def settings_changes(one, other):
    """Where the second settings differ from the first; of machines and shards that only one has, their number tells."""
    found = [Change("", None, name, was, now) for name, was, now in (
        ("machines", len(one.set_of), len(other.set_of)), ("failure sets", one.failure_sets, other.failure_sets),
        ("shards", len(one.shards), len(other.shards)), ("least group size", one.least, other.least))]
    found += [Change("machine", node, "failure set", *both) for node, both in enumerate(zip(one.set_of, other.set_of))]
    for shard, both in enumerate(zip(one.shards, other.shards)):
        found += [Change("shard", shard, name, *(getattr(place, given) for place in both))
                  for name, given in (("subgroup", "subgroup"), ("needs", "needs"), ("cap", "given_cap"))]
    return [change for change in found if change.was != change.now]


def settings_lines(one, other):
    """The settings' changes in one line, those of several machines or shards together."""
    if None in (one.settings, other.settings):
        return []
    told, groups = [], {}
    for change in settings_changes(one.settings, other.settings):
        value = "%s %s, was %s" % (change.name, *("none" if change.name == "cap" and not one else one for one in (change.now, change.was)))
        if change.part:
            groups.setdefault((change.part, value), []).append(change.number)
        else:
            told.append(value)
    for (part, value), numbers in groups.items():
        named = machines(other.settings, numbers) if part == "machine" else "shard%s %s" % ("s" * (len(numbers) > 1), listed(numbers))
        told.append("%s: %s" % (named, value))
    return ["The settings differ: %s." % "; ".join(told)] if told else []


def input_parts(one, other, settings):
    """Where the second input differs from the first, one thing after another."""
    if one.refused or other.refused:
        told = ["%s is refused with number %d" % (name, gathered.refused.number)
                for name, gathered in (("the first", one), ("the second", other)) if gathered.refused]
        return [listed(told)]
    if len(one.settings.shards) != len(other.settings.shards):
        return []
    parts = ["only the %s has a report of %s" % (name, machines(settings, more))
             for name, more in (("first", one.held - other.held), ("second", other.held - one.held)) if more]
    found = {}
    for node in sorted(one.held & other.held):
        for what in report_parts(one.reports[node], other.reports[node]):
            found.setdefault(what, []).append(node)
    parts += ["%s on %s" % (what, machines(settings, nodes)) for what, nodes in found.items()]
    if not parts and (one.kept, one.termination) != (other.kept, other.termination):
        parts.append("an earlier report, which was replaced, had a termination")
    return parts


def report_parts(one, other):
    """How a machine's report differs from its other one."""
    if one.view.number != other.view.number:
        return ["view %d, was %d," % (other.view.number, one.view.number)]
    if one.view != other.view:
        return ["other members of view %d" % one.view.number]
    parts = ["another termination"] if one.termination != other.termination else []
    logs = [shard for shard, both in enumerate(zip(one.runs, other.runs)) if both[0] != both[1]]
    return parts + (["another log of shard%s %s" % ("s" * (len(logs) > 1), listed(logs))] if logs else [])
