"""Nodes, shards, views and positions by their types. From the settings to the events no public function, struct or enum has one of them
as a plain number: they are Node, Shard, View and Position of base_ids, so that the compiler refuses one in another's place.

What a plain number is shows in its name only. So a parameter or field that is one has a name of OTHERS, a function that gives one stands
in GIVEN, and what neither covers is an exception, with its reason. Checked, one test each:
- every plain number is covered;
- no name of OTHERS is one that a node, shard, view or position would have;
- whatever OTHERS, GIVEN and EXCEPTIONS list is there.
Prints a last line `N passed, M failed`."""
import glob
import re
import sys

from sources import room_of

LAYERS = ("settings", "message", "place", "report", "history", "plan", "state")

# What else a plain number is, by the name of its parameter or field.
OTHERS = {
    "words of the settings, a message, its records or the desk; functions give the types out of them": "settings words message body desk buffer",
    "a word of a record: its place and its kind say what it means": "word0 word1 word2",
    "a kind of record": "kind k",
    "a mask, of nodes or of shards, or one for each shard": "members held fetched prepared marks mask masks old known have lack passed all lost",
    "a subgroup": "g group",
    "the placement sheet, bytes by shard and failure set": "sheet",
    "how many rounds a game has": "rounds",
    "how many words, records, shards or moves": "len hlen length total moves count",
    "improving rounds, and how many moves a placement may have above the least": "rounds gap",
    "a slot's words, one by one or two by two": "w b",
    "a flat report's lent bytes": "flat",
    "where each shard's last run stands": "last",
    "the index of a record": "at i j next",
    "the number of a row of refusals": "row",
    "a number and its limits": "low high x",
    "the number of a wait, or 0, for each mask": "rows",
}

# The functions that give a plain number.
GIVEN = {
    "how many": "settings_values::nodes settings_values::sets settings_values::least settings_values::shards settings_values::need settings_values::cap message_flat::to_flat::write message_writer::fill place_groups::check::group_moves",
    "a failure set or a subgroup": "settings_values::set_of settings_values::subgroup",
    "a word, or words": "settings_values::shard_word message_rows::fields::tag message_rows::fields::word1 message_rows::fields::word2 report_desk::slot_words",
    "a kind of record": "message_rows::fields::kind",
    "the number of a wait, or 0, and those of all masks": "plan_masks::number plan_masks::rows::rows_of",
    "two words as one number": "report_walk::pairs",
    "positions as numbers or words": "report_desk::ends::ends_of report_walk::end_at report_walk::goal_at",
    "a mask, or one for each shard": "place_groups::sets_of message_contents::records::carried_more message_contents::records::masks_of state_rows::mark place_layout::masks_with plan_losses::losses",
    "bytes for the search, by node, shard or failure set": "place_groups::sheet::sheet place_tables::sets place_tables::needs place_tables::caps place_tables::costs",
}

# What OTHERS and GIVEN do not cover, by its place, and why it is right.
EXCEPTIONS = {
    "plan_page::Page.shards": "a mask of the subgroup's shards",
    "place_layout::masks_with.owners": "the shard of each node, as the search has it",
    "report_cuts::cut.holder": "the words of the holder's report, not its number",
    "report_walk::told.positions": "the pairs of records, not positions",
    "report_walk::end_at.s": "an index into the list of last runs",
    "report_walk::goal_at.positions": "the pairs of records, not positions",
    "report_walk::goal_at.s": "an index into them",
    "report_walk::has_update.n": "the index of the last record",
    "report_walk::has_update.s": "the last digit of a record's tag",
    "report_walk::has_update.goal": "a position as one number",
    "report_walk::Tables.positions": "the pairs of records, not positions",
    "report_views::Reason.NoPlacement": "a subgroup",
}

# Names, or words of names, that a node, shard, view or position has.
IDENTIFIERS = "n node nodes s shard shards v view views number p position positions holder holders target targets end ends cut cuts".split()

# the length of an array is a number or a constant's name
PLAIN = re.compile(r"(?:&(?:'\w+ )?(?:mut )?)?[\[\s]*(?:[iu](?:8|16|32|64)|[iu]size)[\];\s0-9A-Z_]*")
FUNCTION = re.compile(r"\bpub (?:extern \"C\" )?fn (\w+)(?:<[^>]*>)?\(([^)]*)\)(?:\s*->\s*([^\n{]+))?")
TYPE = re.compile(r"(?ms)^pub (struct|enum) (\w+)(?:<[^>]*>)?(?: \{(.*?)^\}|\((.*?)\);)")
ALIAS = re.compile(r"(?m)^\s*(?:pub )?type (\w+) = ([^;]+);")


def parts_of(text):
    """The parts between commas that are in no brackets."""
    return [part.strip() for part in re.split(r",(?![^\[({]*[\])}])", text) if part.strip()]


def declared(crate, text):
    """(place, name, type) of every parameter, field and result; of what has no name, its variant's, or its number in the struct."""
    for function, parameters, result in FUNCTION.findall(text):
        for parameter in parts_of(parameters):
            if ":" in parameter:
                name, kind = parameter.split(":", 1)
                yield "%s::%s.%s" % (crate, function, name.strip()), name.strip(), kind.strip()
        if result:
            yield "%s::%s" % (crate, function), None, result.strip()
    for form, owner, fields, numbered in TYPE.findall(text):
        for at, part in enumerate(parts_of(fields or numbered)):
            held = re.fullmatch(r"(\w+)\s*[({](.*)[)}]", part, re.S) if form == "enum" else None
            if held:
                for kind in parts_of(held.group(2)):
                    yield "%s::%s.%s" % (crate, owner, held.group(1)), held.group(1), kind.split(":")[-1].strip()
            elif ":" in part:
                name, kind = part.removeprefix("pub ").split(":", 1)
                yield "%s::%s.%s" % (crate, owner, name.strip()), name.strip(), kind.strip()
            elif form == "struct":
                yield "%s::%s.%d" % (crate, owner, at), str(at), part.removeprefix("pub ").strip()
    for name, kind in ALIAS.findall(text):
        yield "%s::%s" % (crate, name), name, kind.strip()


def sources():
    """(crate and module, text without comments) of every file of the layers."""
    for layer in LAYERS:
        for path in sorted(glob.glob("crates/%s_*/src/**/*.rt" % layer, recursive=True)):
            with open(path, encoding="utf-8") as file:
                yield room_of(path), re.sub(r"//.*", "", file.read())


def names(table):
    return {name for listed in table.values() for name in listed.split()}


def uncovered(found):
    """Plain numbers that nothing covers; and what was not read, which would be covered by nothing."""
    others, given = names(OTHERS), names(GIVEN)
    for place, name, kind in found:
        if place not in EXCEPTIONS and (place not in given if name is None else name not in others):
            yield "%s is %s: a node, shard, view or position by its type, or say in checks/types.py what else it is" % (place, kind)
    for crate, text in sources():
        for word, form in ((r"\bpub\b[^:;{(]*\bfn\b", FUNCTION), (r"\bpub\b[^:;{(]*\b(?:struct|enum)\b", TYPE)):
            if len(re.findall(word, text)) != len(form.findall(text)):
                yield "%s has a public function or type in a form that is not read" % crate


def misleading(_):
    for name in sorted(names(OTHERS)):
        if set(name.split("_")) & set(IDENTIFIERS):
            yield "%s is a name for a node, shard, view or position" % name


def gone(found):
    places = {place for place, _, _ in found}
    for name in sorted(names(OTHERS) - {name for _, name, _ in found}):
        yield "no plain number has the name %s" % name
    for place in sorted((names(GIVEN) | set(EXCEPTIONS)) - places):
        yield "%s is no plain number, or is not there" % place


def main():
    everything = [entry for crate, text in sources() for entry in declared(crate, text)]
    found = [entry for entry in everything if PLAIN.fullmatch(entry[2])]
    passed = failed = 0
    for test in (uncovered, misleading, gone):
        faults = list(test(found))
        for fault in faults:
            print(fault)
        passed, failed = passed + (not faults), failed + bool(faults)
    typed = sum(1 for _, _, kind in everything if re.fullmatch(r"\[?(Node|Shard|View|Position)(; \w+\])?", kind))
    print("%d nodes, shards, views and positions by their types, %d other plain numbers" % (typed, len(found)))
    print("%d passed, %d failed" % (passed, failed))
    sys.exit(1 if failed else 0)


main()
