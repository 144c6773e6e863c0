"""From values to words: settings, reports and orders as restart(7) lays them out."""
from .words import mask_of

MEMBERS, TERMINATION, RUN, HOLDER, CUT = 1, 2, 3, 4, 5


def settings_words(settings):
    counts = [len(settings.set_of), settings.failure_sets, settings.least, len(settings.shards)]
    return counts + list(settings.set_of) + [shard_word(shard) for shard in settings.shards]


def shard_word(shard):
    return shard.given_cap * 65536 + shard.subgroup * 256 + shard.needs


def records_words(records):
    """The words of a message from its records' first three words: each names the next one, the last names 0."""
    words = []
    for index, record in enumerate(records):
        words += [*record, index + 1 if index + 1 < len(records) else 0]
    return words


def head_and_members(message):
    view = message.view
    records = [(message.node, view.number, mask_of(view.members))]
    return records + [(MEMBERS * 256 + shard, mask_of(nodes), 0) for shard, nodes in enumerate(view.shards)]


def report_words(report):
    records = head_and_members(report)
    for shard, position in enumerate(report.termination or ()):
        records.append((TERMINATION * 256 + shard, *position))
    for shard, runs in enumerate(report.runs):
        records += [(RUN * 256 + shard, *run) for run in runs]
    return records_words(records)


def order_words(order):
    records = head_and_members(order)
    records += [(TERMINATION * 256 + shard, *position) for shard, position in enumerate(order.targets)]
    records += [(HOLDER * 256 + shard, holder, 0) for shard, holder in sorted(order.holders.items())]
    records += [(CUT * 256 + shard, *position) for shard, position in sorted(order.cuts.items())]
    return records_words(records)
