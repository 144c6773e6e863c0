"""What bytes are: an input, settings, a report, a desk, an order, a state or a leader's file. Each is read strictly; what does not fit is
refused."""
from . import decode, encode, inputs, leading, printing, state, words
from .flat import LOOKS_FLAT, looks_flat
from .model import MOST_NODES, MOST_RECORDS, Refused, Unfit

SLOT = 4 * MOST_RECORDS
NAMES = {"input": "an input", "settings": "settings", "report": "a report", "desk": "a desk", "order": "an order",
         "state": "a state", "leader": "a leader's file"}
WHAT_THEN = {"settings": "give its reports after it, or the folder that has them", "report": "give the settings before it",
             "leader": "restart-text status says how far its restart is"}


def text_of(kind, data, settings=None):
    """The lines of what these bytes are said to be, or Unfit with the reason and with what they look like instead."""
    try:
        return READERS[kind](data, settings)
    except Refused as refused:
        other = [name for name in READERS if name != kind and fits(name, data)]
        hint = "; it looks like %s: --as %s" % (NAMES[other[0]], other[0]) if other else flat_hint(data)
        raise Unfit("this is not %s: %s%s" % (NAMES[kind], refused.why, hint)) from None


def looks_like(data):
    """What these bytes look like if they are no input, and what to do with them; nothing where they are like nothing known."""
    found = next((name for name in READERS if name != "input" and fits(name, data)), None)
    if found:
        return "looks like %s: %s" % (NAMES[found], WHAT_THEN.get(found, "restart-text text --as %s shows it" % found))
    return LOOKS_FLAT if len(data) % 4 == 0 and looks_flat(words.from_bytes(data)) else ""


def flat_hint(data):
    return "; it " + LOOKS_FLAT if len(data) % 4 == 0 and looks_flat(words.from_bytes(data)) else ""


def fits(kind, data):
    try:
        READERS[kind](data, None)
        return True
    except Refused:
        return False


def whole_words(data):
    if len(data) % 4:
        raise Refused(5, words.no_words(data))
    return words.from_bytes(data)


def input_text(data, _):
    """Every block is as long as its count says, and none is refused by itself."""
    blocks = words.split(data)
    if words.joined(blocks) != data:
        raise Refused(5, "the counts of the blocks do not fit the file's %d bytes" % len(data))
    settings = decode.settings_from(blocks[0] if blocks else [])
    for number, block in enumerate(blocks[1:], 1):
        try:
            decode.report_from(block, settings)
        except Refused as refused:
            raise Refused(refused.number, "report %d of %d is refused with %s; --damaged prints it word by word"
                          % (number, len(blocks) - 1, refused)) from None
    return inputs.to_text(inputs.Input(blocks, [])).splitlines()


def settings_text(data, _):
    return printing.settings_text(decode.settings_from(whole_words(data)))


def report_text(data, settings):
    """A report: the words of a message, with zeros after it or not."""
    report = report_in(whole_words(data), settings)
    return printing.report_text(report)


def report_in(found, settings):
    return decode.report_from(found, settings or decode.widest_for(found))


def desk_text(data, settings):
    """512 words for each of 32 nodes: that node's report and zeros, or only zeros."""
    found = whole_words(data)
    if len(found) != SLOT * MOST_NODES:
        raise Refused(1, "it has %d words, a desk has %d" % (len(found), SLOT * MOST_NODES))
    parts = []
    for node in range(MOST_NODES):
        slot = found[SLOT * node : SLOT * (node + 1)]
        if any(slot):
            parts.append(slot_text(node, slot, settings))
    return "\n\n".join("\n".join(part) for part in parts).splitlines() or ["# an empty desk"]


def slot_text(node, slot, settings):
    try:
        report = report_in(slot, settings)
    except Refused as refused:
        raise Refused(3, "the slot of node %d has no report: %s" % (node, refused.why)) from None
    if report.node != node:
        raise Refused(3, "the slot of node %d has a report of node %d" % (node, report.node))
    if any(slot[len(encode.report_words(report)) :]):
        return ["# slot %d has further words off the chain, which carry nothing" % node] + printing.report_text(report)
    return printing.report_text(report)


def order_text(data, settings):
    return printing.order_text(decode.order_from(whole_words(data), settings))


def state_text(data, _):
    found = state.from_words(whole_words(data))
    return state.remarks(found) + printing.state_text(found)


def leader_text(data, _):
    return leading.text_lines(data, desk_text)


READERS = {
    "input": input_text,
    "settings": settings_text,
    "report": report_text,
    "desk": desk_text,
    "order": order_text,
    "state": state_text,
    "leader": leader_text,
}
