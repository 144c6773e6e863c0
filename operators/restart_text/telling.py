"""Advice in words: the first lines of an explanation."""
import math

from .answers import Number, Wait, printed
from .documents import document
from .evidence import STOP, kept_lines, story_lines, undecided_line
from .going import fetch_lines, offered, saving_line, stored_line
from .sentences import counted, listed, machine, machines, update
from .supposing import wanted_update

REASONS = {1: "no report", 2: "no majority of the kept view", 3: "fewer machines than the least group size",
           4: "no log of shard %d", 5: "no placement of subgroup %d"}
MOST_TOLD = 60  # machines in all the sets that are told one by one


def plan_advice(gathered, plan, advice):
    """The plan in a line, then what is asked first."""
    lines = ["Plan: new view %d after view %d, %s." % (plan.view, gathered.kept.number, counted(plan.moves, "move"))]
    shown = kept_lines(gathered)
    lines += ([STOP] + shown if shown else [stored_line(gathered)]) + fetch_lines(gathered, plan)
    saving = saving_line(gathered, plan, advice)
    lines += [saving] if saving else []
    more = offered(advice.cheaper)
    return lines + ["Assumed: %s; updates to fetch are counted as if its logs were empty." % assumed(gathered, more)[:-1]] * bool(more)


def wait_advice(gathered, answer, advice, program):
    """Which machines to switch on."""
    if answer.reason == 1:
        return ["Switch on any machine: none has reported, and which are needed shows once the first has. At least %s needed."
                % (counted(gathered.settings.least, "machine") + (" is" if gathered.settings.least == 1 else " are"))]
    lines = helpless(gathered, advice) if advice.found.helpless else switch_on(gathered, advice, program)
    if advice.lone:
        return lines[:1] + lone_view(gathered, advice) + lines[1:]
    return lines + kept_lines(gathered)


def switch_on(gathered, advice, program):
    found, settings = advice.found, gathered.settings
    fewer = "; with fewer machines there is none" if found.least else "; that fewer machines would not do is this tool's own count"
    if not found.by_size:
        fewer = "; fewer machines may do"
    first, *rest = priced(settings, found)
    lines = ["Switch on %s: then there is a plan with %s%s."
             % (first, counted(found.moves[found.sets[0]], "move"), fewer if len(found.sets[0]) > 1 else "")]
    lines += ["Or instead%s: %s." % one for one in rest]
    lines.append("Assumed: %s" % assumed(gathered, sorted(set().union(*found.sets))))
    if not program:
        lines.append("The program was not asked; all this is this tool's own count.")
    elif found.others:
        lines.append("The program was asked about %d of these sets; the rest is this tool's own count, and may have a cheaper one." % len(found.sets))
    if found.cut_short:
        lines.append("The search was cut short after its time; --search SECONDS gives it more.")
    return lines + needed_lines(settings, found)


def needed_lines(settings, found):
    """The machines without which there is no plan, in one line."""
    if len(found.without) == 1:
        return ["There is no plan without %s, whoever else comes back: %s. If it is lost, --gone %s says what is left."
                % (machine(settings, node), reason(other), settings.name(node)) for node, other in found.without.items()]
    groups = {}
    for node, other in found.without.items():
        groups.setdefault(reason(other), []).append(node)
    told = "; ".join("%s, %s" % (machines(settings, nodes, "or"), why) for why, nodes in groups.items())
    return ["There is no plan, whoever else comes back, without %s. If one of these is lost, --gone says what is left." % told] if groups else []


def priced(settings, found):
    """The sets in words, fewest moves first: the first one, or where that says it so many of a few machines; then for each number of moves
    what it is, and the sets with it."""
    rest, first, room = [], None, max(MOST_TOLD // len(found.sets[0]), 3)
    for moves in sorted(set(found.moves.values())):
        sets = [nodes for nodes in found.sets if found.moves[nodes] == moves]
        told = [in_one(settings, sets)] if in_one(settings, sets) else [listed([settings.name(node) for node in nodes]) for nodes in sets]
        if first is None:
            first = in_one(settings, sets) or machines(settings, sets[0])
            told, price = told[1:], ", with as few moves"
        else:
            price = ", with %s" % counted(moves, "move")
        left, told = len(told[room:]), told[:room]
        room = max(room - len(told), 1)
        if told:
            rest.append((price, "; ".join(told + ["%d more" % left] * bool(left))))
    if found.others:
        rest.append(("", "%s%d more" % ("" if found.complete else "at least ", len(found.others))))
    return [first] + rest


def in_one(settings, sets):
    """All the sets in one where they are so many of a few machines; else nothing."""
    sets = [frozenset(nodes) for nodes in sets]
    common = frozenset.intersection(*sets)
    spread, free = frozenset.union(*sets) - common, len(sets[0]) - len(common)
    if len(sets) == 1 or len(sets) != math.comb(len(spread), free):
        return ""
    some = "any %d of %s" % (free, machines(settings, spread)) if free > 1 else machines(settings, spread, "or")
    return "%s and %s" % (machines(settings, common), some) if common else some


def choices(settings, found):
    """The sets in words: the first and the others, or all in one where they are so many of a few machines."""
    sets = found.sets + found.others
    if found.complete and in_one(settings, sets):
        return in_one(settings, sets), ""
    most = max(MOST_TOLD // len(sets[0]), 3)
    told = [listed([settings.name(node) for node in nodes]) for nodes in found.sets[1:most]]
    left = len(sets) - 1 - len(told)
    if left or not found.complete and len(sets) > 1:
        told.append("%s%d more" % ("" if found.complete else "at least ", left))
    return machines(settings, found.sets[0]), "; ".join(told)


def assumed(gathered, nodes):
    """What is supposed of the machines' reports."""
    kept, settings = gathered.kept, gathered.settings
    inside, outside = [node for node in nodes if node in kept.members], [node for node in nodes if node not in kept.members]
    parts = []
    if inside:
        ending = ", and no other termination" if gathered.termination else " and no termination; its log may end anywhere"
        parts.append("a machine that comes back reports view %d%s" % (kept.number, ending))
    if outside:
        several = len(outside) > 1
        theirs = "older views" if several else "an older view"
        parts.append("%s, no member%s of view %d, %s" % (machines(settings, outside), "s" * several, kept.number, theirs))
    for shard, members in enumerate(kept.shards):
        helpers, wanted = [node for node in inside if node in members], wanted_update(gathered, shard)
        if helpers and wanted:
            parts.append("the log of shard %d on %s has %s" % (shard, machines(settings, helpers), update(wanted)))
    return "; ".join(parts) + "."


def reason(answer):
    """A wait in a few words."""
    if isinstance(answer, Number):
        return printed(answer)
    words = REASONS[answer.reason]
    return words if answer.value is None else words % answer.value


def lone_view(gathered, advice):
    """The kept view stands on one report, and what the others would give without it."""
    kept, settings, answer = gathered.kept, gathered.settings, advice.lone.answer
    below = max(report.view.number for report in gathered.reports.values() if report.view.number < kept.number)
    result = printed(answer) if not isinstance(answer, Wait) else "%s, %s" % (printed(answer), reason(answer))
    result += then(settings, advice.lone)
    lines = ["Only machine %s reports view %d, the next lower is %d; without its report: %s."
             % (settings.name(gathered.kept_from), kept.number, below, result)]
    lines += kept_lines(gathered) or [undecided_line(gathered)]
    return lines + ["Leave the report out only if that view is damaged or was never served: what was stored in it is lost with it. The"
                    " planner keeps a view until a fresh state (duty 10)."]


def then(settings, without):
    """Which machines would help once some reports are left out."""
    if not without.found or not without.found.sets:
        return ""
    told, rest = choices(settings, without.found)
    return "; then %s%s would have to report view %d" % (told, ", or instead %s," % rest if rest else "", without.view)


def helpless(gathered, advice):
    """Nothing helps, and what is left to the service."""
    found, gone = advice.found, advice.supposed.gone
    told = reason(found.all_back) if found.all_back else "by this tool's own count"
    who = "every absent machine back" if not gone else "every absent machine back but %s" % machines(gathered.settings, gone)
    lines = ["No machine to switch on helps: with %s there is still no plan (%s)." % (who, told),
             "What is left is the service's own, by its duties (%s, restart(3)); the planner will go on waiting:" % document("ASSUMPTIONS.md")]
    if found.all_back and found.all_back.reason == 5:
        return lines + ["  the settings ask for more than these machines can give; to change them, or to bring machines into other"
                        " failure sets, is the service's decision"]
    return lines + duties(gathered)


def duties(gathered):
    lines = ["  duty 6: a machine reports exactly what it has. Look for the log on its disk, on disks taken out, and in copies",
             "  duty 7: a machine that has no room for its runs cannot report and counts as absent. Of each shard that it carries"
             " the run of its view is enough"]
    if gathered.termination:
        lines.append("  duty 5: targets of an abandoned plan are no termination. See where %s has its own from"
                     % machine(gathered.settings, gathered.termination_from))
    return lines + ["  duty 10: a damaged high view is left only by starting anew, with a fresh state and the other reports",
                    "  duty 16: if no disk has view %d as known to be committed and one of its members lacks it, it was never served,"
                    " and the machines forget it before they report; if it was served, an older view loses what was stored"
                    % gathered.kept.number]


def refusal_advice(given, gathered, advice, name):
    """What two stories most likely mean, and what the others would give; `name` tells a block."""
    lines = story_lines(gathered.settings, advice.stories) if advice.stories else []
    for place, one in enumerate(advice.without):
        instead = " instead" if place else ""
        answer = printed(one.answer) + (", " + reason(one.answer) if isinstance(one.answer, Wait) else "")
        blocks = listed([name(number, given) for number in one.blocks])
        lines.append("Without %s%s: %s%s." % (blocks, instead, answer, then(gathered.settings, one)))
    return lines
