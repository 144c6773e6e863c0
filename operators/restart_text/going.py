"""What is asked first of a plan: is anything stored lost, how much is fetched, and what would make it cheaper."""
from .documents import document
from .planning import log_of
from .saving import fetched
from .sentences import counted, listed, machine, machines

# What a plan rests on, as docs/PROMISES.md names it, without a kept termination and with one; and the duties of docs/ASSUMPTIONS.md.
CLAIMS = {False: ("history_laws/Definitions.Claims", "history_course_laws/Ever.logged_lasts"),
          True: ("history_course_laws/Lasting.settled_held", "history_course_laws/Ever.logged_lasts")}
DUTIES = (1, 2, 3, 4, 6, 7, 11, 12, 14, 15, 16, 17)
MOST_TOLD = 4  # offers of one size that are told one by one


def claims(gathered):
    return CLAIMS[gathered.termination is not None]


def stored_line(gathered):
    """Whether anything stored is lost, by which claim, and what that rests on."""
    ending = ", which the termination gives" if gathered.termination else ""
    return ("Nothing stored is lost if you go now: what all members of a shard have logged is in the log that is taken, not past its target%s."
            " Proved of every plan (restart-model(7), SAFETY; %s: %s) of a service that keeps duties %s (%s)."
            % (ending, document("PROMISES.md"), ", ".join(claims(gathered)), listed(stretches(DUTIES)), document("ASSUMPTIONS.md")))


def stretches(numbers):
    """Ascending numbers, three and more in a row as in 1-4."""
    rows = []
    for number in numbers:
        if rows and rows[-1][-1] == number - 1:
            rows[-1].append(number)
        else:
            rows.append([number])
    return [text for row in rows for text in (["%d-%d" % (row[0], row[-1])] if len(row) > 2 else map(str, row))]


def fetch_lines(gathered, plan):
    """How much is fetched in all, by whom the most, and what is thrown away."""
    found, settings = fetched(gathered, plan), gathered.settings
    if not found:
        lines = ["To fetch: nothing%s." % untold(gathered, plan)]
    else:
        most = max(found, key=lambda node: (found[node], -node))
        whom = "by" if len(found) == 1 else "%d of them by" % found[most]
        lines = ["To fetch: %s in all, %s %s%s." % (counted(sum(found.values()), "update"), whom, machine(settings, most), untold(gathered, plan))]
    count = sum(log_of(gathered, node, shard, placed).discards for shard, placed in enumerate(plan.shards) for node in placed.members)
    return lines + ["Thrown away: %s after a cut, never stored or fetched again." % counted(count, "update")] * bool(count)


def untold(gathered, plan):
    """Where every report tells of its own view alone, the logs of machines that carried no copy may be longer than they look."""
    told = any(view < report.view.number for report in gathered.reports.values() for runs in report.runs for view, _ in runs)
    fresh = any(placed.members - {report.node for report in gathered.candidates(shard)} for shard, placed in enumerate(plan.shards))
    return "; besides, what the reports leave out of earlier views (duty 7)" if fresh and not told and gathered.kept.number > 1 else ""


def saving_line(gathered, plan, advice):
    """What machines more would save, with the price of each set; empty where nothing was asked or nothing is to be saved."""
    found, settings = advice.cheaper, gathered.settings
    if not found or not plan.moves:
        return ""
    if not found.compared:
        return "What machines more would save was not asked: the time was over; --search SECONDS gives more."
    if found.fewest is None or found.fewest == plan.moves:
        return "No machine more would save a move." if advice.supposed.pool and found.fewest is not None else ""
    told = [sentence for step in found.steps for sentence in step_sentences(settings, step)]
    told += ["%s more with as few." % counted(found.more, "set")] * bool(found.more)
    told += ["Fewer moves there are not, whoever comes back."] * bool(found.fewest)
    told += ["Whether fewer machines would do was not looked at to the end; --search SECONDS gives more time."] * found.cut_short
    return " ".join(told)


def step_sentences(settings, step):
    """The offers of one size, those that cost the same together."""
    costs = sorted({(offer.moves, offer.fetches) for offer in step})
    told = []
    for moves, fetches in costs[:MOST_TOLD]:
        sets = [offer.nodes for offer in step if (offer.moves, offer.fetches) == (moves, fetches)]
        price = "%s, %s to fetch" % (counted(moves, "move"), "up to " + counted(fetches, "update") if fetches else "nothing")
        told.append("With %s as well: %s." % (either(settings, sets), price))
    left = [offer for offer in step if (offer.moves, offer.fetches) in costs[MOST_TOLD:]]
    return told + ["%s more with as few moves." % counted(len(left), "set")] * bool(left)


def either(settings, sets):
    """One of these sets."""
    if len(sets[0]) == 1:
        return machines(settings, [nodes[0] for nodes in sets], "or")
    told = [machines(settings, sets[0])] + [listed([settings.name(node) for node in sorted(nodes)]) for nodes in sets[1:MOST_TOLD]]
    left = len(sets) - len(told)
    return "; or ".join(told) + (" (or %s more)" % counted(left, "set") if left else "")


def offered(found):
    """The machines of the sets that are told."""
    return sorted({node for step in found.steps for offer in step for node in offer.nodes}) if found else []
