"""Readiness in sentences and tables."""
from itertools import combinations
from math import comb

from .answers import Wait
from .explaining import explain
from .sentences import counted, listed, machines, table
from .sheets import MOST_NODES, NUMBERS
from .telling import reason

MOST_SETS = 12  # least sets that are told one by one
FEW_EXCEPTIONS, MOST_EXCEPTIONS = 2, 8  # sets that are told where all others of their size restart: rather than otherwise, or at all
MOST_RANKS = 3  # groups of machines that are told in the order in which to keep them on


def percent(share):
    return "%d %%" % (100 * share.part) if share.plans in (0, share.total) else "%.1f %%" % (100 * share.part)


def why(wait):
    """A wait in a few words, (reason, shard or subgroup)."""
    return "wait %d, %s" % (wait[0], reason(Wait(*wait)))


def lines(ready):
    """All that is to be said of a layout."""
    told = first_lines(ready) + [""]
    for head, rows in tables(ready):
        told += [head + ":", *("  " + line for line in table(rows)), ""]
    return told[:-1]


def first_lines(ready):
    """The sentences."""
    told = [headline(ready)] + ["Assumed: %s" % ready.assumed] * bool(ready.assumed) + [sizes(ready)]
    told += needed_lines(ready) + failure_set_lines(ready) + least_lines(ready) + keep_lines(ready) + way_lines(ready)
    return told


def headline(ready):
    share = ready.share()
    return "%d of the %d sets of machines that may be up restart, %s." % (share.plans, share.total, percent(share))


def sizes(ready):
    """In how many cases a restart exists by how many machines are up."""
    shares, most = ready.by_up(), len(ready.nodes)
    if not shares[most].plans:
        return "With all machines up there is no restart either: %s." % why(ready.waits[ready.all])
    always = min(count for count, share in enumerate(shares) if share.plans == share.total)
    some = [count for count, share in enumerate(shares) if 0 < share.plans < share.total]
    never = max(count for count, share in enumerate(shares) if not share.plans)
    told = ["With %s up a restart exists." % (all_machines(most) if always == most else "any %d or more of %d machines" % (always, most))]
    told += ["With any %d of %d machines up a restart exists in %d of %d cases." % (count, most, shares[count].plans, shares[count].total)
             for count in reversed(some)]
    return " ".join(told + ["With %d or fewer there is none." % never] * (never > 0))


def all_machines(count):
    return "all %d machines" % count if count > 1 else "the one machine"


def needed_lines(ready):
    return ["Without %s there is no restart, whoever else is up: %s." % (machines(ready.settings, [node]), why(wait))
            for node, wait in ready.needed()] if len(ready.nodes) > 1 else []


def failure_set_lines(ready):
    """Which failure sets may be lost whole, all others up."""
    if not ready.has_plan(ready.all):
        return []
    told, good = [], []
    for number, nodes in ready.failure_sets():
        wait = ready.without(nodes)[1]
        if wait[0]:
            told.append("Failure set %d (%s) lost and all others up: no restart, %s." % (number, machines(ready.settings, nodes), why(wait)))
        else:
            good.append("%d (%s)" % (number, machines(ready.settings, nodes)))
    if not told:
        return ["Any failure set may be lost whole: with all others up a restart exists."]
    if not good:
        return ["No failure set may be lost whole."] + told
    several = len(good) > 1
    one = "Failure set%s %s may be lost whole: with all others up a restart exists." % ("s" * several, listed(good, "or"))
    return [one] + told


def least_lines(ready):
    sets = ready.least_sets()
    if not sets:
        return []
    told = []
    for size in sorted({len(nodes) for nodes in sets}):
        told += choices(ready, [nodes for nodes in sets if len(nodes) == size])
    but = but_for(ready, sets, FEW_EXCEPTIONS if len(told) == 1 else MOST_EXCEPTIONS)
    more = ["%d more" % (len(told) - MOST_SETS)] if len(told) > MOST_SETS else []
    return ["Least sets that restart: %s." % (but or "; ".join(told[:MOST_SETS] + more))]


def but_for(ready, sets, most):
    """The least sets as any of their size but for at most so many, where that says it."""
    size, count = len(sets[0]), len(ready.nodes)
    if len(sets[-1]) > size or not 0 < count - size < size:
        return ""
    every = (frozenset(nodes) for nodes in combinations(ready.nodes, size))
    missing = [frozenset(ready.nodes) - nodes for nodes in every if nodes not in sets]
    if len(missing) > most or len(missing) >= len(sets):
        return ""
    exceptions = ["without %s" % machines(ready.settings, nodes) for nodes in missing]
    return "any %d of %d machines" % (size, count) + (", but not %s" % listed(exceptions, "or") if missing else "")


def choices(ready, sets):
    """Sets of one size in words: one by one, or all at once where they are every choice of so many from a few."""
    common = frozenset.intersection(*sets)
    spread, free = frozenset.union(*sets) - common, len(sets[0]) - len(common)
    if len(sets) > 2 and len(sets) == comb(len(spread), free):
        some = "any %d of %s" % (free, machines(ready.settings, spread)) if free > 1 else "one of %s" % machines(ready.settings, spread)
        return ["%s and %s" % (machines(ready.settings, common), some) if common else some]
    return [set_name(ready, nodes) for nodes in sets]


def set_name(ready, nodes):
    missing = frozenset(ready.nodes) - nodes
    if not missing:
        return all_machines(len(nodes))
    return "all but %s" % machines(ready.settings, missing) if 2 * len(missing) < len(nodes) else machines(ready.settings, nodes)


def keep_lines(ready):
    """Which machines to keep on, the first by how few sets restart without them."""
    rows, settings = ready.by_machine(), ready.settings
    if not ready.share().plans or len(rows) < 2:
        return []
    told = []
    for plans in sorted({down.plans for _, down, _ in rows}):
        nodes = [node for node, down, _ in rows if down.plans == plans]
        told.append((nodes, "%s of %d sets" % (plans or "none", rows[0][1].total)))
    if len(told) == 1:
        return ["No machine counts for more than another: with any one of them down %s restart." % told[0][1]]
    parts = ["%s (with %s down %s restart)" % (machines(settings, nodes), "it" if len(nodes) == 1 else "any one of them", sets)
             for nodes, sets in told[:MOST_RANKS]]
    rest = "; then the others" * (len(told) > MOST_RANKS)
    return ["Keep on first: %s; then %s%s." % (parts[0], "; then ".join(parts[1:]), rest)]


def way_lines(ready):
    found = ready.in_the_way()
    if not found:
        return []
    told = ["%s (%d)" % (why((number, value)), count) for number, value, count in found]
    return ["What stands in the way of the other %d: %s." % (sum(count for *_, count in found), "; ".join(told))]


# ---- Tables


def tables(ready):
    """The numbers: (what they are, rows of text with their head first)."""
    up = [["up", "sets", *KINDS, "share"]]
    up += [[str(count), str(share.total), *map(str, share.counts), percent(share)] for count, share in enumerate(ready.by_up())]
    whole = ready.share()
    up.append(["any", str(whole.total), *map(str, whole.counts), percent(whole)])
    lost = [["lost", "machines", "sets", *KINDS, "share", "all others up"]]
    for number, nodes in ready.failure_sets():
        share, wait = ready.without(nodes)
        lost.append(["set %d" % number, ready.settings.those(nodes), str(share.total), *map(str, share.counts), percent(share), brief(wait)])
    kept = [["machine", "set", "of %s with it down" % counted(whole.total // 2, "set"), "of %d with it up" % (whole.total // 2)]]
    for node, down, held in ready.by_machine():
        kept.append([ready.settings.name(node), str(ready.settings.set_of[node]), "%d (%s)" % (down.plans, percent(down)),
                     "%d (%s)" % (held.plans, percent(held))])
    return [("By how many machines are up", up), ("By failure set lost, the other machines up or down", lost),
            ("By machine, the one to keep on first", kept)]


KINDS = ["restart" if number == 0 else "wait %d" % number for number in NUMBERS]


def brief(wait):
    """An answer in two or three words."""
    return "restart" if not wait[0] else "wait %d%s" % (wait[0], "" if wait[1] is None else " %d" % wait[1])


# ---- Two layouts


def comparison(one, other):
    """How often two layouts restart, side by side: by how many machines are down, for they may have more machines or fewer."""
    both = (one, other)
    told = ["A: %s. B: %s." % (one.name, other.name)]
    shares = [list(reversed(ready.by_up())) for ready in both]
    rows = [["machines down", "A", "B"]]
    for down in range(max(map(len, shares))):
        rows.append([str(down), *[cases(share, down) for share in shares]])
    differ = [down for down in range(1, min(map(len, shares))) if shares[0][down].part != shares[1][down].part]
    if differ:
        told.append("With %s down a restart exists in %s cases (A), in %s (B)." % (counted(differ[0], "machine"), *[
            "%d of %d" % (share[differ[0]].plans, share[differ[0]].total) for share in shares]))
    else:
        told.append("With as many machines down both restart in as many cases.")
    told.append("Failure sets that may be lost whole: %s." % "; ".join(
        "%s %s" % (name, losable(ready)) for name, ready in zip("AB", both)))
    return told, rows


def cases(share, down):
    return "%d of %d (%s)" % (share[down].plans, share[down].total, percent(share[down])) if down < len(share) else "-"


def losable(ready):
    """The failure sets without which all others restart, out of how many."""
    sets = ready.failure_sets()
    found = [str(number) for number, nodes in sets if not ready.without(nodes)[1][0]]
    return "all %d" % len(sets) if len(found) == len(sets) else "%s of %d" % (listed(found) if found else "none", len(sets))


def comparison_lines(one, other):
    told, rows = comparison(one, other)
    return told + ["", "In how many cases a restart exists, by how many machines are down:", *("  " + line for line in table(rows))]


# ---- No sheet


NO_SHEET = {22: "a sheet of more than %d machines" % MOST_NODES, 23: "a sheet without a report, or without a valid one of every machine"}


def unready_lines(unready):
    """Why there is no sheet, and its cure."""
    number, gathered = unready.answer.number, unready.gathered
    if number not in (22, 23):
        return explain(unready.given, unready.answer).lines
    head = "Refused with number %d, given when: %s." % (number, NO_SHEET[number])
    if number == 22:
        return [head, "These settings have %d machines." % len(gathered.settings.set_of),
                "To do: a sheet has a line for every set of machines, and is for at most %d machines. Make that of a smaller layout. Which"
                " machines to switch on explain says of any layout." % MOST_NODES]
    if not gathered.kept:
        return [head, "No machine has reported.",
                "To do: add the reports of all machines, in any order; with one of them --suppose supposes the others."]
    several, view = len(unready.missing) > 1, gathered.kept.number
    last = "--suppose supposes that %s reports view %d." % ("each" if several else "it", view)
    if unready.helpless:
        who, ending, whom = ("They are", "s", "them") if several else ("It is", "", "it")
        last = "%s no member%s of view %d, so that nothing can be supposed of %s." % (who, ending, view, whom)
    return [head, "%s %s not reported." % (capital(machines(gathered.settings, unready.missing)), "have" if several else "has"),
            "To do: add %s. A sheet needs what every machine has on its disk, whether the machine will be up or not. %s"
            % ("their reports" if several else "its report", last)]


def capital(text):
    return text[0].upper() + text[1:]
