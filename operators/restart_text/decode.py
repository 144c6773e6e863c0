"""From words to values: settings, reports and orders, or the first number of restart(7) that applies (2, 5 to 11, with 16 and 17 after 9)
and what is wrong. Each row is checked over the whole message before the next."""
from collections import namedtuple

from .encode import CUT, HOLDER, MEMBERS, RUN, TERMINATION
from .model import GREATEST, MOST_CAP, MOST_NODES, MOST_RECORDS, MOST_SETS, MOST_SHARDS, START, SUBGROUPS
from .model import Order, Refused, Report, Settings, Shard, View
from .sentences import counted, listed
from .words import nodes_of

Record = namedtuple("Record", "index kind shard first second")
KIND_NAMES = {MEMBERS: "members", TERMINATION: "termination", RUN: "run", HOLDER: "holder", CUT: "cut"}
WHAT = {MEMBERS: "the members", TERMINATION: "the termination", RUN: "a run", HOLDER: "the holder", CUT: "the cut"}
MOST_SETTINGS = 4 + MOST_NODES + MOST_SHARDS  # words
REPORT_KINDS, ORDER_KINDS = (MEMBERS, TERMINATION, RUN), (MEMBERS, TERMINATION, HOLDER, CUT)


def settings_from(words):
    """Row 2."""

    def within(what, value, low, high):
        if not low <= value <= high:
            raise Refused(2, "%s is %d, allowed are %d to %d" % (what, value, low, high))

    if len(words) < 4:
        raise Refused(2, "the settings have %s, at least 4 are needed" % counted(len(words), "word"))
    nodes, sets, least, shards = words[:4]
    within("the number of nodes", nodes, 1, MOST_NODES)
    within("the number of failure sets", sets, 1, MOST_SETS)
    within("the least group size", least, 1, nodes)
    within("the number of shards", shards, 1, MOST_SHARDS)
    if len(words) != 4 + nodes + shards:
        raise Refused(2, "the settings have %d words, %s and %s need %d"
                      % (len(words), counted(nodes, "node"), counted(shards, "shard"), 4 + nodes + shards))
    for node, failure_set in enumerate(words[4 : 4 + nodes]):
        within("the failure set of node %d" % node, failure_set, 0, sets - 1)
    for shard, word in enumerate(words[4 + nodes :]):
        place = shard_from(word)
        within("the subgroup of shard %d" % shard, place.subgroup, 0, SUBGROUPS - 1)
        within("the number of members that shard %d needs" % shard, place.needs, 1, sets)
        if place.given_cap and not place.needs <= place.given_cap <= MOST_CAP:
            raise Refused(2, "the cap of shard %d is %d, allowed are 0 and %d to %d: it needs %d, and 0 stands for that"
                          % (shard, place.given_cap, place.needs, MOST_CAP, place.needs))
    return Settings(sets, least, tuple(words[4 : 4 + nodes]), tuple(map(shard_from, words[4 + nodes :])))


def shard_from(word):
    """A shard's word: cap x 65536 + subgroup x 256 + needs."""
    return Shard(word // 256 % 256, word % 256, word // 65536)


def report_from(words, settings):
    return message_from(words, settings, False)


def order_from(words, settings=None):
    """An order. Without settings, what only they can tell is not checked."""
    return message_from(words, settings or widest_for(words), True)


def widest_for(words):
    """Settings under which this message is read if it can be one."""
    length(words)
    return widest_settings(chain(words))


def widest_settings(records):
    """Settings under which every message is read that could be one: 32 nodes, as many shards as there are members records, each
    shard a subgroup of its own."""
    shards = sum(record.kind == MEMBERS for record in records)
    places = tuple(Shard(number, 1) for number in range(min(max(shards, 1), MOST_SHARDS)))
    return Settings(MOST_SETS, 1, (0,) * MOST_NODES, places)


def message_from(words, settings, is_order):
    length(words)
    head(words, settings, is_order)
    records = chain(words)
    records_pass(records, words, settings, is_order)
    shards_members(records, words, settings)
    positions(records, words, is_order)
    return value_of(records, words, settings, is_order)


def length(words):
    """Row 5."""
    if len(words) % 4 or not 4 <= len(words) <= 4 * MOST_RECORDS:
        raise Refused(5, "the message has %s, allowed are 4 to 512 in steps of 4" % counted(len(words), "word"))


def head(words, settings, is_order):
    """Rows 6 and 7."""
    node, view, members = words[0], words[1], nodes_of(words[2])
    low, high = (2, GREATEST) if is_order else (1, GREATEST - 1)
    if node not in settings.nodes:
        raise Refused(6, "the message names node %d, the settings have nodes 0 to %d" % (node, len(settings.nodes) - 1))
    if not low <= view <= high:
        raise Refused(7, "the view number is %d, allowed are %d to %d" % (view, low, high))
    if members - settings.nodes:
        raise Refused(7, "node %d is among the members, the settings have nodes 0 to %d"
                      % (max(members), len(settings.nodes) - 1))
    if node not in members:
        raise Refused(7, "node %s is not among the members that its own message names" % settings.name(node))


def chain(words):
    """Row 8: the records on the chain after the head."""
    records, index = [], 0
    while words[4 * index + 3]:
        following = words[4 * index + 3]
        if not index < following < len(words) // 4:
            raise Refused(8, broken(words, index, following), index)
        index = following
        kind, shard = divmod(words[4 * index], 256)
        records.append(Record(index, kind, shard, words[4 * index + 1], words[4 * index + 2]))
    return records


def shown(words, index):
    """A record as an operator finds it."""
    return "record %d (words %s)" % (index, " ".join(map(str, words[4 * index : 4 * index + 4])))


def broken(words, index, following):
    last = len(words) // 4 - 1
    if following > last:
        why = "the message ends after record %d: it was cut off, or this word is wrong" % last
    else:
        why = "a later one was expected"
    return "%s names %d as the next record, and %s" % (shown(words, index), following, why)


def records_pass(records, words, settings, is_order):
    """Rows 9, 16 and 17: of each the first bad record on the chain."""
    kinds(records, words, is_order)
    shards(records, words, settings)
    sequence(records, words, settings)
    complete(records, words, settings, is_order)


def kinds(records, words, is_order):
    """Row 9."""
    message, allowed = ("an order", ORDER_KINDS) if is_order else ("a report", REPORT_KINDS)
    for record in records:
        if record.kind not in allowed:
            name = " (%s)" % KIND_NAMES[record.kind] if record.kind in KIND_NAMES else ""
            raise Refused(9, "%s has kind %d%s, %s has kinds %s"
                          % (shown(words, record.index), record.kind, name, message, " ".join(map(str, allowed))), record.index)
        if record.kind in (MEMBERS, HOLDER) and record.second:
            raise Refused(9, "%s: word 2 is %d, and 0 was expected there" % (shown(words, record.index), record.second), record.index)


def shards(records, words, settings):
    """Row 16."""
    count = len(settings.shards)
    for record in records:
        if record.shard >= count:
            there = "is 1 shard" if count == 1 else "are %d shards" % count
            raise Refused(16, "%s names shard %d, there %s" % (shown(words, record.index), record.shard, there), record.index)


def sequence(records, words, settings):
    """Row 17 but for what is missing: a record that does not follow the one before it, or is surplus."""
    before, carried = None, set()
    for record in records:
        if before and key(before) >= key(record):
            raise Refused(17, "%s: %s" % (shown(words, record.index), unordered(before, record)), record.index)
        if record.kind in (HOLDER, CUT) and record.shard not in carried:
            raise Refused(17, "%s: %s, but no record before it gives machine %s that shard"
                          % (shown(words, record.index), what(record), settings.name(words[0])), record.index)
        if record.kind == MEMBERS and words[0] in nodes_of(record.first):
            carried.add(record.shard)
        before = record


def key(record):
    """What rises along the chain."""
    return record.kind, record.shard, record.first if record.kind == RUN else 0


def what(record):
    text = "%s of shard %d" % (WHAT[record.kind], record.shard)
    return "%s in view %d" % (text, record.first) if record.kind == RUN else text


def unordered(before, record):
    """How a record does not follow the one before it."""
    if (before.kind, before.shard) == (record.kind, record.shard):
        if record.kind == RUN:
            return "%s after one in view %d (record %d), but views must rise" % (what(record), before.first, before.index)
        return "%s once more, after record %d" % (what(record), before.index)
    rising = "shards" if before.kind == record.kind else "kinds"
    return "%s after %s (record %d), but %s must rise" % (what(record), what(before), before.index, rising)


def complete(records, words, settings, is_order):
    """The rest of row 17: no record is missing. The last one on the chain is told."""
    every = set(range(len(settings.shards)))
    carried = {record.shard for record in records if record.kind == MEMBERS and words[0] in nodes_of(record.first)}
    there = {kind: {record.shard for record in records if record.kind == kind} for kind in KIND_NAMES}
    needed = {MEMBERS: every, TERMINATION: every if is_order or there[TERMINATION] else set()}
    if is_order:
        needed.update({HOLDER: carried, CUT: carried})
    last = records[-1].index if records else 0
    for kind, wanted in needed.items():
        missing = sorted(wanted - there[kind])
        if missing:
            several = len(missing) > 1
            raise Refused(17, "%s (kind %d) of shard%s %s %s missing; %s is the last on the chain" % (
                WHAT[kind], kind, "s" * several, listed(missing), "are" if several or kind == MEMBERS else "is", shown(words, last)), last)


def shards_members(records, words, settings):
    """Row 10."""
    members, taken = nodes_of(words[2]), {}
    for record in records:
        if record.kind != MEMBERS:
            continue
        nodes = nodes_of(record.first)
        if not nodes:
            raise Refused(10, "shard %d has no members" % record.shard)
        if nodes - members:
            raise Refused(10, "node %s of shard %d is not among the view's members"
                          % (settings.name(min(nodes - members)), record.shard))
        subgroup = settings.shards[record.shard].subgroup
        for node in sorted(nodes):
            other = taken.setdefault((subgroup, node), record.shard)
            if other != record.shard:
                raise Refused(10, "node %s is in shards %d and %d of one subgroup" % (settings.name(node), other, record.shard))


def positions(records, words, is_order):
    """Row 11. The number tells no record; this tool does."""
    limit = words[1] - 1 if is_order else words[1]
    for record in records:
        at = (record.first, record.second)
        name = "%s, the %s of shard %d," % (shown(words, record.index), KIND_NAMES[record.kind], record.shard)
        if record.kind in (TERMINATION, RUN, CUT):
            if 0 in at and (record.kind == RUN or at != START):
                raise Refused(11, "%s is (%d, %d), both should be from 1" % (name, *at), record=record.index)
            if record.first > limit:
                raise Refused(11, "%s is of view %d, at most %d is allowed" % (name, record.first, limit), record=record.index)
        if record.kind == HOLDER and (record.first > 31 or record.first not in nodes_of(words[2])):
            raise Refused(11, "%s names node %d, which is not among the members" % (name, record.first), record=record.index)


def value_of(records, words, settings, is_order):
    """The value of a message in which every row holds."""

    def of(kind):
        return {record.shard: (record.first, record.second) for record in records if record.kind == kind}

    shards = tuple(nodes_of(mask) for mask, _ in of(MEMBERS).values())
    view = View(words[1], nodes_of(words[2]), shards)
    termination = tuple(of(TERMINATION).values()) or None
    if is_order:
        return Order(words[0], view, termination, {shard: node for shard, (node, _) in of(HOLDER).items()}, of(CUT))
    runs = tuple(tuple((record.first, record.second) for record in records if (record.kind, record.shard) == (RUN, shard))
                 for shard in range(len(settings.shards)))
    return Report(words[0], view, termination, runs)
