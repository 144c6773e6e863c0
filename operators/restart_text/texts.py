"""From a text to values: settings, reports and orders. What the planner would refuse in one block (numbers 2 and 5 to
11) is refused here, with the line."""
from .lines import ORDER, REPORT, SETTINGS, BadText, by_key, each, only, within
from .model import GREATEST, MOST_CAP, MOST_NODES, MOST_RECORDS, MOST_SETS, MOST_SHARDS, START, SUBGROUPS
from .model import Order, Report, Settings, Shard, View


def settings_of(section):
    count_sets, least, node_form, _, shard_form, _ = SETTINGS
    sets = within(only(section, count_sets), "failure sets", only(section, count_sets).values[0], 1, MOST_SETS)
    nodes = each(section, node_form, numbered(section, node_form, MOST_NODES))
    shards = each(section, shard_form, numbered(section, shard_form, MOST_SHARDS))
    size = within(only(section, least), "a least group size", only(section, least).values[0], 1, len(nodes))
    set_of = tuple(within(item, "a failure set", item.values[1], 0, sets - 1) for item in nodes)
    return Settings(sets, size, set_of, tuple(shard_of(item, sets) for item in shards), names_of(nodes))


def names_of(nodes):
    """Each node's name or None; nothing where no node has one."""
    lines = {}
    for item in nodes:
        for name in item.values[2:]:
            if name in lines:
                raise BadText(item.line, "expected each name once, found '%s' in line %d already" % (name, lines[name]))
            lines[name] = item.line
    return tuple(item.values[2] if len(item.values) > 2 else None for item in nodes) if lines else ()


def numbered(section, form, most):
    """How many lines of this form there should be: as many as the greatest number says."""
    found = by_key(section, form)
    for number, item in found.items():
        within(item, "a %s" % form.split()[0], number, 0, most - 1)
    return max(found, default=0) + 1


def shard_of(item, sets):
    _, subgroup, needs, *caps = item.values
    within(item, "a subgroup", subgroup, 0, SUBGROUPS - 1)
    within(item, "needed members (there %s)" % ("is 1 failure set" if sets == 1 else "are %d failure sets" % sets), needs, 1, sets)
    return Shard(subgroup, needs, *(within(item, "a cap (the shard needs %d)" % needs, cap, needs, MOST_CAP) for cap in caps))


def report_of(section, settings):
    members, shard_members, termination, run = REPORT
    view = view_of(section, settings, 1, GREATEST - 1)
    positions = None
    if by_key(section, termination):
        entries = each(section, termination, len(settings.shards))
        positions = tuple(position(item, item.values[1:], view.number) for item in entries)
    runs = [[] for _ in settings.shards]
    for (shard, number), item in sorted(by_key(section, run, 2).items()):
        within(item, "a shard", shard, 0, len(settings.shards) - 1)
        within(item, "a view (the report's is %d)" % view.number, number, 1, view.number)
        runs[shard].append((number, within(item, "a count", item.values[2], 1, GREATEST)))
    records = 1 + len(view.shards) + len(positions or ()) + sum(map(len, runs))
    if records > MOST_RECORDS:
        raise BadText(section.line, "expected a report of at most %d records, found %d: a head and one for each line after it"
                      " but the members" % (MOST_RECORDS, records))
    return Report(section.head.values[0], view, positions, tuple(map(tuple, runs)))


def view_of(section, settings, low, high):
    """The view that the head line and the members lines of a report or order tell of."""
    node, number = section.head.values
    within(section, "a node", node, 0, len(settings.nodes) - 1)
    within(section, "a view", number, low, high)
    item = only(section, REPORT[0])
    if item.values[0] - settings.nodes:
        within(item, "nodes", max(item.values[0]), 0, len(settings.nodes) - 1)
    if node not in item.values[0]:
        raise BadText(item.line, "expected node %d among the members, for the section is that node's" % node)
    entries = each(section, REPORT[1], len(settings.shards))
    for place in entries:
        shard_members(place, item.values[0])
    disjoint(entries, settings)
    return View(number, item.values[0], tuple(place.values[1] for place in entries))


def shard_members(item, members):
    shard, nodes = item.values
    if not nodes:
        raise BadText(item.line, "expected at least one member of shard %d, found none" % shard)
    if nodes - members:
        raise BadText(item.line, "expected only members of the view, found node %d" % min(nodes - members))


def disjoint(entries, settings):
    """No node stands in two shards of a subgroup."""
    taken = {}
    for item in sorted(entries, key=lambda item: item.line):
        shard, nodes = item.values
        for node in sorted(nodes):
            other = taken.setdefault((settings.shards[shard].subgroup, node), item)
            if other is not item:
                raise BadText(item.line, "expected no node of another shard of the subgroup, found node %d,"
                              " which is in shard %d (line %d)" % (node, other.values[0], other.line))


def position(item, values, greatest):
    """A position whose view is at most this one; view 0 update 0 is before the first update."""
    at = tuple(values)
    if at != START and 0 in at:
        raise BadText(item.line, "expected view and update from 1, or both 0, found view %d update %d" % at)
    within(item, "a view", at[0], 0, greatest)
    return at


def order_of(section, settings=None):
    """An order. Without settings, what only they can tell is not checked."""
    _, _, target, holder, cut = ORDER
    shards = numbered(section, REPORT[1], MOST_SHARDS)
    settings = settings or Settings(MOST_SETS, 1, (0,) * MOST_NODES, tuple(Shard(number, 1) for number in range(shards)))
    view = view_of(section, settings, 2, GREATEST)
    carried = {shard for shard, nodes in enumerate(view.shards) if section.head.values[0] in nodes}
    targets = tuple(position(item, item.values[1:], view.number - 1) for item in each(section, target, len(view.shards)))
    holders, cuts = exactly(section, holder, carried), exactly(section, cut, carried)
    for item in holders.values():
        if item.values[1] not in view.members:
            raise BadText(item.line, "expected a holder among the members, found node %d" % item.values[1])
    cut_at = {shard: position(item, item.values[1:], view.number - 1) for shard, item in cuts.items()}
    return Order(section.head.values[0], view, targets, {shard: item.values[1] for shard, item in holders.items()}, cut_at)


def exactly(section, form, shards):
    """The entries of this form, which there must be for exactly these shards."""
    found = by_key(section, form)
    for shard, item in found.items():
        if shard not in shards:
            raise BadText(item.line, "expected no such line for shard %d, which node %d does not carry"
                          % (shard, section.head.values[0]))
    for shard in sorted(shards - set(found)):
        raise BadText(section.line, "expected a line '%s' for shard %d in the section that begins here, found none" % (form, shard))
    return found
