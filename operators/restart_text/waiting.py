"""A wait in words: which condition fails, by counting, and what would cure it."""
from .gathering import shortage
from .model import START
from .sentences import counted, listed, machine, machines, table, update


def wait_lines(gathered, reason, value):
    """A sentence that says what fails, then what to do."""
    return [no_report, no_majority, too_few, no_holder, no_placement][reason - 1](gathered, value)


def wait_block(gathered, reason, values):
    """The same for one condition, or for several shards or subgroups together."""
    if len(values) == 1:
        return wait_lines(gathered, reason, values[0])
    return no_holders(gathered, values) if reason == 4 else no_placements(gathered, values)


def no_report(gathered, _):
    return ["No machine has reported, so no view is known.",
            "To do: bring machines back and give their reports."]


def no_majority(gathered, _):
    kept = gathered.kept
    held, missing = kept.members & gathered.held, kept.members - gathered.held
    more = len(kept.members) // 2 + 1 - len(held)
    return ["%d of the %s of view %d are held (%s); more than half are needed, so at least %d."
            % (len(held), counted(len(kept.members), "member"), kept.number, machines(gathered.settings, held), len(held) + more),
            "To do: bring back %s." % some(gathered.settings, more, missing)]


def too_few(gathered, _):
    least, held = gathered.settings.least, len(gathered.held)
    return ["%s held; the least group size is %d." % (counted(held, "machine") + (" is" if held == 1 else " are"), least),
            "To do: bring back %s. Members of view %d or not, all count."
            % (some(gathered.settings, least - held, gathered.absent), gathered.kept.number)]


def some(settings, count, nodes):
    """So many of these machines, of which there are enough."""
    return machines(settings, nodes) if count == len(nodes) else "at least %d more of %s" % (count, machines(settings, nodes))


def no_holder(gathered, shard):
    kept, members, settings = gathered.kept, gathered.kept.shards[shard], gathered.settings
    absent, wanted = members - gathered.held, "a report of view %d%s" % (kept.number, wanted_update(gathered, shard))
    lines = ["Shard %d has no machine to take its log from. Its members in view %d: %s."
             % (shard, kept.number, machines(settings, members))]
    older = {node: gathered.reports[node].view.number for node in sorted(members & gathered.held)
             if gathered.reports[node].view.number != kept.number}
    if len(older) == 1:
        lines += ["Machine %s is back but reported view %d, so its log of this shard is not used." % (settings.name(node), number)
                  for node, number in older.items()]
    elif older:
        lines.append("%s are back but reported older views (%s), so their logs of this shard are not used."
                     % (machines(settings, older).capitalize(), listed(older.values())))
    if gathered.candidates(shard):
        lines += no_such_update(gathered, shard)
    if absent:
        return lines + ["Absent: %s." % machines(settings, absent),
                        "To do: bring back %s with %s." % (machines(settings, absent, "or"), wanted)]
    return lines + ["All members of the shard are back, so waiting will not help.",
                    "To do: look at the disks of %s for %s." % (machines(settings, members), wanted)]


def no_holders(gathered, shards):
    """Several shards at once, a row for each."""
    settings, kept, held = gathered.settings, gathered.kept, gathered.held
    rows = [["shard", "members in view %d" % kept.number, "absent", "back with an older view"]]
    for shard in shards:
        members = kept.shards[shard]
        older = [node for node in members & held if gathered.reports[node].view.number != kept.number]
        rows.append([str(shard)] + [settings.those(nodes) if nodes else "-" for nodes in (members, members - held, older)])
    lines = ["Shards %s have no machine to take their logs from:" % listed(shards)] + ["  " + row for row in table(rows)]
    ended = [shard for shard in shards if gathered.candidates(shard)]
    if ended:
        lines.append("The termination, first reported by %s, ends these at updates that no log has that may be used:"
                     % machine(settings, gathered.termination_from))
        lines += ["  shard %d at %s: %s" % (shard, update(gathered.termination[shard]), "; ".join(logs_of(gathered, shard))) for shard in ended]
    waited = [shard for shard in shards if kept.shards[shard] - held]
    if waited:
        update_too = " whose log has the update where the termination ends the shard" if gathered.termination else ""
        lines.append("To do: bring back an absent machine of %s, with a report of view %d%s."
                     % ("each" if len(waited) == len(shards) else "each of shards %s" % listed(waited) if len(waited) > 1 else "shard %d" % waited[0],
                        kept.number, update_too))
    left = [shard for shard in shards if shard not in waited]
    if left:
        lines += ["All members of shard%s %s are back, so waiting will not help." % ("s" * (len(left) > 1), listed(left)),
                  "To do: look at their disks for a report of view %d." % kept.number]
    return lines


def no_such_update(gathered, shard):
    """With a kept termination: who reported the kept view, and where their logs end."""
    settings = gathered.settings
    lines = ["The termination, first reported by %s, ends this shard at %s. No log that may be used has it:"
             % (machine(settings, gathered.termination_from), update(gathered.termination[shard]))]
    return lines + ["  %s" % told for told in logs_of(gathered, shard)]


def logs_of(gathered, shard):
    """The logs from which the shard's could be taken."""
    return ["%s: %s" % (machine(gathered.settings, report.node), runs(report.runs[shard])) for report in gathered.candidates(shard)]


def runs(log):
    return "runs " + ", ".join("view %d updates 1 to %d" % run for run in log) if log else "empty log"


def wanted_update(gathered, shard):
    """What a log must have besides, where a termination is kept."""
    target = gathered.termination[shard] if gathered.termination else START
    return " whose log of shard %d has %s" % (shard, update(target)) if target != START else ""


def no_placement(gathered, subgroup):
    short, settings = shortage(gathered, subgroup), gathered.settings
    count = len(short.shards)
    need = "Shard %s needs %s" if count == 1 else "Shards %s together need %s"
    need %= (listed(short.shards), counted(short.needed, "machine"))
    lines = ["Subgroup %d has no valid placement. %s, and a failure set counts only once for each shard:" % (subgroup, need)]
    for failure_set, given in short.given.items():
        nodes = settings.nodes_of(failure_set)
        lack = ", lacks %d" % (count - given) if given < count else ""
        lines.append("  failure set %d can give %d%s: held %s, absent %s"
                     % (failure_set, given, lack, settings.those(nodes & gathered.held), settings.those(nodes - gathered.held)))
    lines.append("That makes %d of %d." % (sum(short.given.values()), short.needed))
    return lines + [placement_cure(settings, short)]


def no_placements(gathered, subgroups):
    """Several subgroups at once, a row for each, and what each failure set has."""
    settings, shorts = gathered.settings, {subgroup: shortage(gathered, subgroup) for subgroup in subgroups}
    sets = range(settings.failure_sets)
    rows = [["subgroup", "shards", "need"] + ["set %d" % number for number in sets] + ["in all"]]
    for subgroup, short in shorts.items():
        rows.append([str(subgroup), " ".join(map(str, short.shards)), str(short.needed)]
                    + ["%d of %d" % (short.given[number], len(short.shards)) for number in sets] + [str(sum(short.given.values()))])
    lines = ["Subgroups %s have no valid placement. What their failure sets can give, each at most one machine to each shard:" % listed(subgroups)]
    lines += ["  " + row for row in table(rows)]
    for number in sets:
        nodes = settings.nodes_of(number)
        lines.append("  failure set %d: held %s, absent %s" % (number, settings.those(nodes & gathered.held), settings.those(nodes - gathered.held)))
    cures = {}
    for subgroup, short in shorts.items():
        cures.setdefault(cure(settings, short), []).append(subgroup)
    return lines + ["To do%s: %s" % (" for subgroup%s %s" % ("s" * (len(those) > 1), listed(those)) * (len(cures) > 1), told)
                    for told, those in cures.items()]


def placement_cure(settings, short):
    return "To do: " + cure(settings, short)


def cure(settings, short):
    if short.spare is None:
        return "change the settings. They ask for more than the machines can give, even with all of them back."
    if short.alone:
        sets = sorted({settings.set_of[node] for node in short.alone})
        return "bring back %s (failure set %s)." % (machines(settings, short.alone, "or"), listed(sets, "or"))
    spare = machines(settings, short.spare)
    return "bring back %d machines, for instance %s; fewer will not do." % (len(short.spare), spare)
