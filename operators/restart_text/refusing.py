"""A refusal in words: when its number is given, what is wrong in the block at fault, and what to do."""
from .answers import Number
from .evidence import SETTLE, same_members
from .flat import LOOKS_FLAT, looks_flat

# In the order in which they are checked.
TABLE = {
    1: "desk not 16,384 words, buffer to be written not 512",
    2: "settings",
    15: "operation or page not allowed to the role, or a subgroup above 3",
    3: "state unsound",
    4: "event not in its phase",
    22: "game or sheet of more than 10 nodes, game of more than 3 rounds or with a held node from N up",
    23: "game or sheet with no kept view, or with a slot that would not be sound if its node were held",
    19: "flat report whose counts do not explain its length, or with a termination word above 1",
    20: "flat report with a triple of count 0",
    21: "flat report of over 128 records",
    5: "words 0, over 512, not a multiple of 4",
    6: "node not below N",
    7: "view outside its limits, mask with a bit from N up or without the head's node",
    8: "next index",
    9: "a kind that the message cannot have, or a word 2 that should be zero",
    16: "a shard that the settings do not have",
    17: "wrong sequence, a repeat, a missing or a surplus record",
    10: "shard empty, outside members, or sharing a node within its subgroup",
    11: "position or run; holder outside the members",
    18: "a smaller view than the node has reported before",
    12: "kept number, other masks",
    13: "kept view's termination differs",
    14: "node not held; in fetched or prepared, marked already",
}
BETWEEN_REPORTS = (18, 12, 13)  # given for a report that is one by itself
OTHER_GROUP = "Check that this report belongs to this group and that the settings are those the group ran with."
DAMAGED = "The report is damaged or cut. Have the machine write it again, or copy it again from its disk."
CUT_OFF = ("The report's end is missing, as of a file that was cut off. Copy it again from the machine's disk, whole; if it is the same"
           " there, have the machine write it again.")
TYPED = ("A word was mistyped or damaged; a file that was only cut off does not have this. Compare the record with what the machine has on"
         " its disk, or have the machine write the report again.")
TWO_STORIES = ("Two machines tell different stories of one view. Find out which report comes from another group or from a damaged"
               " disk, and leave only that one out. Do not guess: a wrong choice can lose stored updates.")
GIVEN_UP = ("Plan nothing yet: %s. A view that was never served is forgotten with its logs, on disk, before the machine reports, and then the view"
            " before it is reported. If no restart was given up, a report comes from another group or from a damaged disk: find out which, and leave"
            " only that one out. Do not guess: a wrong choice can lose stored updates." % SETTLE)
STEP_BACK = ("The machine's disk went back: another disk is in it, or an older image of its own. Put the newer disk back and have the machine"
             " report again. Only if that disk is lost, or the earlier report was damaged and names a view that never was, leave the earlier"
             " report out; a service starts from a fresh state then, and every machine reports again. Do not go on with the earlier report"
             " alone: its log may be expected from a disk that is gone.")
ADVICE = {
    2: "Correct the settings. No report was looked at.",
    5: DAMAGED,
    6: OTHER_GROUP,
    7: OTHER_GROUP,
    8: TYPED,  # or CUT_OFF: see to_do
    9: TYPED,
    16: TYPED + " " + OTHER_GROUP,
    17: TYPED + " " + OTHER_GROUP,
    10: DAMAGED + " " + OTHER_GROUP,
    11: DAMAGED,
    18: STEP_BACK,
    12: TWO_STORIES,  # or GIVEN_UP: see to_do
    13: TWO_STORIES,
}


def refusal_lines(answer, fault, given, gathered):
    """What number the planner gave, for which block (by its place in the input) and record, and why."""
    number, refused = answer.number, gathered.refused
    if number not in ADVICE:
        table = "is given when: %s" % TABLE[number] if number in TABLE else "is not among those of restart(7)"
        return ["Number %d %s. The program restart never gives it." % (number, table)]
    same = refused and (Number(refused.number, refused.index), gathered.fault) == (answer, fault)
    index = refused.record if same else answer.index
    record = " at record %d" % index if index is not None else ""
    lines = ["Refused with number %d%s, given when: %s." % (number, record, TABLE[number])]
    if fault is not None:
        lines.append("At fault: %s." % block_name(fault, given))
    if same:
        lines.append("What is wrong: %s." % refused.why)
    return lines


def to_do(answer, fault, given, stories=()):
    """What to do about a refusal. A flat report is told as such; two stories of a view are a restart that was given up, or damage."""
    block = given.blocks[fault] if fault else []
    if stories and not same_members(stories):
        return GIVEN_UP
    if looks_flat(block) and answer.number not in BETWEEN_REPORTS:
        return "This %s." % LOOKS_FLAT
    return message_to_do(answer, block)


def message_to_do(answer, block):
    """A next index past the message's end is that of a cut file."""
    if answer.number == 8 and block[4 * answer.index + 3 : 4 * answer.index + 4] >= [len(block) // 4]:
        return CUT_OFF
    return ADVICE[answer.number]


def block_name(fault, given):
    """Which block it is, as an operator would find it."""
    if fault == 0:
        name = "the settings" if given.blocks else "the settings, which are missing"
    else:
        block = given.blocks[fault]
        name = "report %d of %d" % (fault, len(given.blocks) - 1)
        if block:
            named = block[0] < len(given.names) and given.names[block[0]]
            name += ", which names machine %s" % (named or block[0])
    place = "line %d" % given.lines[fault] if fault < len(given.lines) else given.files[fault] if fault < len(given.files) else ""
    return name + (" (%s)" % place if place else "")
