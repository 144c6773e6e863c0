"""A plan in words: its shards as a table, who stays, who moves, and from where each member's log is completed."""
from dataclasses import dataclass

from .gathering import cut, holding, up_to
from .model import START
from .printing import numbers
from .sentences import counted, listed, machine, machines, pair, table


def plan_lines(gathered, plan, first):
    settings = gathered.settings
    idle = gathered.held - frozenset().union(*(shard.members for shard in plan.shards))
    lines = ["Members: %s." % machines(settings, gathered.held)]
    if idle:
        lines.append("Without a shard: %s." % machines(settings, idle))
    lines += [""] + table(shard_rows(gathered, plan)) + [""] + order_lines(settings, first) + [""] + move_lines(gathered, plan)
    if settings.capped:
        lines += [""] + kept_lines(gathered, plan)
    return lines + [""] + cut_lines(gathered, plan)


def shard_rows(gathered, plan):
    settings = gathered.settings
    rows = [place_head(settings) + ["holder", "target", "members", "stay", "move in", "leave", "absent"]]
    for number, placed in enumerate(plan.shards):
        old = gathered.kept.shards[number]
        new, back = placed.members, old & gathered.held
        lists = [new, new & old, new - old, back - new, old - back]
        rows.append(place_row(settings, number) + [settings.name(placed.holder), pair(placed.target)]
                    + [settings.those(nodes) if nodes else "-" for nodes in lists])
    return rows


def place_head(settings):
    """The heads of a table's columns for what the settings say of a shard: its cap where one is given for some shard."""
    return ["shard", "subgroup", "needs"] + ["cap"] * settings.capped


def place_row(settings, number):
    shard = settings.shards[number]
    return [str(number), str(shard.subgroup), str(shard.needs)] + [str(shard.cap)] * settings.capped


def order_lines(settings, first):
    """Why it is this placement and no other. Without caps as few moves are as many stays."""
    if not first.others:
        return ["No other placement has as few moves%s." % (" and as many members that stay" * settings.capped)]
    several, stays = len(first.others) > 1, " and %s" % counted(first.stays, "stay")
    shorter = ", a list before those that go on from it" * settings.capped
    return ["Other placements with %s%s as well have other members in shard%s %s. This is the first of them: shards ascending, the members"
            " of each listed ascending, the lower machine where two lists differ%s. The same reports give any leader this one."
            % (counted(first.moves, "move"), stays * settings.capped, "s" * several, listed(first.others), shorter)]


def kept_lines(gathered, plan):
    """Who stays beyond what a shard needs, and why others that are back do not."""
    settings, lines = gathered.settings, []
    for number, placed in enumerate(plan.shards):
        needs = settings.shards[number].needs
        if len(placed.members) > needs:
            lines.append("  shard %d: %s, %d beyond the need of %d"
                         % (number, machines(settings, placed.members), len(placed.members) - needs, needs))
    lines = ["Kept beyond the need:"] + lines if lines else ["No shard keeps more members than it needs."]
    gone = {}
    for node, number, other in not_kept(gathered, plan):
        gone.setdefault((number, other), []).append(node)
    for (number, other), nodes in gone.items():
        why = "the cap of %d is reached" % settings.shards[number].cap if other is None else "%s to shard %d" % (
            "goes" if len(nodes) == 1 else "go", other)
        lines.append("  %s of shard %d: %s" % (machines(settings, nodes), number, why))
    lines.insert(len(lines) - len(gone), "Not kept:")
    return lines if gone else lines[:-1]


def not_kept(gathered, plan):
    """Old members that are back and do not stay, as (machine, shard, shard of the subgroup that it goes to or None)."""
    settings, found = gathered.settings, []
    for number, placed in enumerate(plan.shards):
        for node in sorted(gathered.kept.shards[number] & gathered.held - placed.members):
            others = settings.shards_of(settings.shards[number].subgroup)
            found.append((node, number, next((other for other in others if node in plan.shards[other].members), None)))
    return found


def moves(gathered, plan):
    """Each move as (machine, shard that it left or None, shard that it comes to), by machine."""
    found, settings, old = [], gathered.settings, gathered.kept.shards
    for shard, placed in enumerate(plan.shards):
        for node in placed.members - old[shard]:
            before = [other for other in settings.shards_of(settings.shards[shard].subgroup) if node in old[other]]
            found.append((node, before[0] if before else None, shard))
    return sorted(found, key=lambda move: (move[0], move[2]))


def move_lines(gathered, plan):
    found = moves(gathered, plan)
    if not found:
        return ["No machine moves."]
    rows = [["machine", "failure set", "goes to shard", "comes from shard"]]
    rows += [[gathered.settings.name(node), str(gathered.settings.set_of[node]), str(shard), "-" if before is None else str(before)]
             for node, before, shard in found]
    return ["Moves (-: it had no shard of the subgroup):"] + ["  " + row for row in table(rows)]


def cut_lines(gathered, plan):
    """What each member of each shard keeps and fetches."""
    lines, empty = ["Logs, where (7, 5) is update 5 of view 7, and (0, 0) is before the first:"], []
    for shard, placed in enumerate(plan.shards):
        if placed.target == START and not any(gathered.reports[node].runs[shard] for node in placed.members):
            empty.append(shard)
            continue
        lines.append("  shard %d up to %s, from %s" % (shard, pair(placed.target), machine(gathered.settings, placed.holder)))
        rows = [log_row(gathered, node, shard, placed) for node in sorted(placed.members)]
        lines += ["    " + row for row in table(rows)]
        lines += ["    " + line for line in parting_lines(gathered, shard, placed)]
    if empty:
        lines.append("  shard%s %s: no updates, nothing to fetch" % ("s" * (len(empty) > 1), numbers(empty)))
    return lines


@dataclass(frozen=True)
class Log:
    """What becomes of a member's log of a shard: where it ends, up to where it is kept, and how many updates are thrown away after
    that and fetched from the holder."""

    node: int
    end: tuple
    cut: tuple
    discards: int
    fetches: int


def log_of(gathered, node, shard, placed):
    report, kept = gathered.reports[node], cut(gathered, node, shard, placed.holder, placed.target)
    fetches = updates_after(gathered.reports[placed.holder].runs[shard], kept, placed.target)
    return Log(node, report.end(shard), kept, updates_after(report.runs[shard], kept, report.end(shard)), fetches)


def log_row(gathered, node, shard, placed):
    log = log_of(gathered, node, shard, placed)
    keeps = "keeps all" if log.cut == log.end else "keeps up to the cut"
    if log.cut == START:
        keeps = "has nothing" if log.end == START else "keeps nothing"
    if log.discards:
        keeps += ", discards %s" % counted(log.discards, "update")
    return [machine(gathered.settings, node), "log ends at %s" % pair(log.end), "cut %s" % pair(log.cut), keeps,
            "fetches %s" % (counted(log.fetches, "update") if log.fetches else "nothing")]


def parting_lines(gathered, shard, placed):
    """Where a member's log goes on after the cut otherwise than the holder's does, as after a disk image was put back."""
    lines, holders = [], up_to(gathered.reports[placed.holder].runs[shard], placed.target)
    for node in sorted(placed.members):
        log = log_of(gathered, node, shard, placed)
        own, taken = (next_update(runs, log.cut) for runs in (gathered.reports[node].runs[shard], holders))
        if own and taken:
            names = [machine(gathered.settings, one) for one in (node, placed.holder)]
            lines.append("%s: after %s its log has %s, that of %s has %s" % (names[0], pair(log.cut), pair(own), names[1], pair(taken)))
    return lines


def next_update(runs, position):
    """The first update of a log after this position; None where there is none."""
    for view, count in runs:
        if view > position[0]:
            return view, 1
        if view == position[0] and count > position[1]:
            return view, position[1] + 1
    return None


def updates_after(runs, start, target):
    """How many updates of a log lie after one position and not after another."""

    def below(view, count, position):
        return count if view < position[0] else min(count, position[1]) if view == position[0] else 0

    return sum(below(view, count, target) - below(view, count, min(start, target)) for view, count in runs)


def faults(gathered, plan, first):
    """What this plan has otherwise than this tool's own counting."""
    settings, found = gathered.settings, []
    if plan.view != gathered.kept.number + 1:
        found.append("the new view is %d, not %d" % (plan.view, gathered.kept.number + 1))
    if len(plan.shards) != len(settings.shards):
        return found + ["the plan has %s, the settings have %d" % (counted(len(plan.shards), "shard"), len(settings.shards))]
    for shard, placed in enumerate(plan.shards):
        if (placed.holder, placed.target) != holding(gathered, shard):
            found.append("shard %d has another holder or target" % shard)
        wrong = invalid(gathered, settings.shards[shard], placed.members)
        if wrong:
            found.append("the members of shard %d are not valid: %s" % (shard, wrong))
        for other in settings.shards_of(settings.shards[shard].subgroup):
            if other < shard and placed.members & plan.shards[other].members:
                found.append("shards %d and %d share a machine" % (other, shard))
    if not found and plan.moves != len(moves(gathered, plan)):
        found.append("the moves add up to %d" % len(moves(gathered, plan)))
    return found or placement_faults(gathered, plan, first)


def invalid(gathered, shard, members):
    """Why a shard cannot have these members; nothing where it can: at most its cap, held, from as many sets as it needs."""
    settings = gathered.settings
    if members - gathered.held:
        return "%s not held" % (machines(settings, members - gathered.held) + (" is" if len(members - gathered.held) == 1 else " are"))
    sets = {settings.set_of[node] for node in members}
    if len(sets) < shard.needs:
        return "they are of %s, it needs %d" % (counted(len(sets), "failure set"), shard.needs)
    return "they are %d, at most %d are allowed" % (len(members), shard.cap) if len(members) > shard.cap else ""


def placement_faults(gathered, plan, first):
    """Where the placement is not the first of the fewest moves and, of those, the most stays."""
    if first.moves < plan.moves:
        return ["%s are enough" % counted(first.moves, "move") if first.moves != 1 else "1 move is enough"]
    stays = sum(len(placed.members & gathered.kept.shards[shard]) for shard, placed in enumerate(plan.shards))
    if first.stays > stays:
        return ["%s can stay, in this plan %d do" % (counted(first.stays, "old member"), stays)]
    equal = counted(first.moves, "move") + " and %s" % counted(first.stays, "stay") * gathered.settings.capped
    for shard, placed in enumerate(plan.shards):
        if placed.members != first.members[shard]:
            return ["shard %d with machines %s: of the placements with %s that is the first"
                    % (shard, gathered.settings.those(first.members[shard]), equal)]
    return []
