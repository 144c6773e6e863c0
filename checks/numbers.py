"""The limits of the model by name. The code has them in crates/base_ids/src/limits.rt and the contracts in specs/Definitions.antt and
specs/Limits.antt beside it; the search has its own in search_laws, the hints theirs in hint_memory. Checked, one test each:
- in code, contracts and files of definitions none of these numbers stands plain, but for what PLAIN lists;
- whatever PLAIN lists is there;
- code, contracts and include/restart.h give a limit the same value under its names.
Prints a last line `N passed, M failed`."""
import glob
import re
import sys

NUMBERS = re.compile(r"(?<![\w.])(512|381|127|65536|16384|4294967296)(?!\w)")

# The numbers that mean something else and stand beside others of their kind, by crate.
PLAIN = {
    "base_bytes": ("65536 4294967296", "what a byte weighs in a word, and a word in two"),
    "settings_values": ("65536", "what the cap weighs in a shard's word"),
    "message_flat": ("512", "kind 2 in a record's tag, as 768 is kind 3"),
    "plan_order": ("512", "kind 2 in a record's tag, as 768 is kind 3"),
    "search_judge": ("65536", "a mask of 16 sets is below it"),
    "search_bounds": ("65536", "a number of 16 bits is below it"),
    "place_tables": ("512", "the costs that it fills, 16 times 32"),
    "place_layout": ("512", "the costs that it hands on"),
}

# Where contracts have a limit under another name than the code's in their writing.
RENAMED = {"stateSize": "STATE_WORDS", "pairCount": "PAIRS", "numberRange": "RANGE"}
LIMITS = "base_ids/src/limits"
CODE = (LIMITS, "search_laws/src/lib", "hint_memory/src/lib")
SPECS = ("base_ids/specs/Definitions", "base_ids/specs/Limits", "search_laws/specs/Limits", "hint_memory/specs/Places")


def text_of(path):
    with open(path, encoding="utf-8") as file:
        return file.read()


def found():
    """(crate, number, place) of each plain number: comments and the values of constants, in code or as a definition by itself, are none."""
    for path in sorted(glob.glob("crates/*/src/**/*.rt", recursive=True) + glob.glob("crates/*/specs/Definitions.antt")):
        for at, line in enumerate(text_of(path).split("\n"), 1):
            bare = re.sub(r"(^|\s)(//|--\s).*", "", line)
            if not re.match(r"\s*(pub )?const |\w+ = \d+$", bare):
                for number in NUMBERS.findall(bare):
                    yield path.split("/")[1], number, "%s:%d" % (path, at)


def unnamed():
    for crate, number, place in found():
        if number not in PLAIN.get(crate, ("", ""))[0].split():
            yield "%s has %s without a name" % (place, number)


def gone():
    there = {(crate, number) for crate, number, _ in found()}
    for crate, (numbers, _) in PLAIN.items():
        for number in numbers.split():
            if (crate, number) not in there:
                yield "%s has no plain %s" % (crate, number)


def constants(path):
    return dict(re.findall(r"(?m)^pub const (\w+): \w+ = (\d+);", text_of("crates/%s.rt" % path)))


def unlike():
    code = {name: value for path in CODE for name, value in constants(path).items()}
    specs = {name: value for path in SPECS for name, value in re.findall(r"(?m)^(\w+) = (\d+)$", text_of("crates/%s.antt" % path))}
    header = dict(re.findall(r"(?m)^#define RESTART_(\w+) (\d+)\b", text_of("include/restart.h")))
    specs = {RENAMED.get(name) or re.sub(r"(?=[A-Z])", "_", name).upper(): value for name, value in specs.items()}
    pairs = [(name, code, specs) for name in code if name in specs] + [(name, code, header) for name in constants(LIMITS) if name in header]
    pairs += [(name, specs, header) for name in specs if name in header]
    for name, one, other in pairs:
        if one[name] != other[name]:
            yield "%s is %s and %s" % (name, one[name], other[name])
    for name in sorted(set(specs) - set(code) - set(header)):
        yield "%s is a limit of contracts alone" % name


def main():
    passed = failed = 0
    for test in (unnamed, gone, unlike):
        faults = list(test())
        for fault in faults:
            print(fault)
        passed, failed = passed + (not faults), failed + bool(faults)
    print("%d passed, %d failed" % (passed, failed))
    sys.exit(1 if failed else 0)


main()
