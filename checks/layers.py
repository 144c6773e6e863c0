"""The crates by layer. In crates.txt a line `# LAYER: ..` starts each layer, and of the crates below it every name starts with the
layer's (a program, which gives its binary its name, may have any). Checked, one test each:
- no crate uses a crate of a later layer, nor a later one of its own layer;
- no two names differ by a short ending only;
- a crate without code ends in `_laws`, one of worked rows in `_cases`, and no other does;
- crates/README.md has the same layers with the same words and crates, each once and in the same order, and says something of each crate;
- no two definitions of the specs, and no two types of the code, have one name, whatever their capitals.
Prints a last line `N passed, M failed`."""
import glob
import os
import re
import sys


def layers_of(path):
    """The layers of crates.txt in order: (name, what it has, [(crate, [the crates that it uses])])."""
    layers = []
    with open(path, encoding="utf-8") as lines:
        for line in lines:
            started = re.match(r"# ([a-z]+): (.*)", line)
            listed = re.match(r"([a-z0-9_]+)(?: staticlib)?:(.*)", line)
            if started:
                layers.append((started.group(1), started.group(2), []))
            elif listed:
                layers[-1][2].append((listed.group(1), listed.group(2).split()))
    return layers


def misnamed(layers):
    for layer, _, crates in layers:
        for crate, _ in crates:
            if not crate.startswith(layer + "_") and not os.path.exists("crates/%s/src/main.rt" % crate):
                yield "%s stands in layer %s" % (crate, layer)


def backward(layers):
    """Uses of a crate that is listed later; the kit's libraries are not listed."""
    order = [crate for _, _, crates in layers for crate, _ in crates]
    place = {crate: at for at, crate in enumerate(order)}
    for _, _, crates in layers:
        for crate, uses in crates:
            for used in uses:
                if place.get(used, -1) >= place[crate]:
                    yield "%s uses %s, which comes later" % (crate, used)


def confusable(layers):
    """Names that are another one with up to three letters more."""
    names = sorted(crate for _, _, crates in layers for crate, _ in crates)
    for name in names:
        for other in names:
            if re.fullmatch(re.escape(name) + "[a-z]{1,3}", other):
                yield "%s and %s differ by an ending" % (name, other)


def unlike_contents(layers):
    for _, _, crates in layers:
        for crate, _ in crates:
            code = "".join(open(path, encoding="utf-8").read() for path in glob.glob("crates/%s/src/*.rt" % crate))
            bare = not re.search(r'(?m)^\s*(?:pub )?(?:extern "C" )?(?:fn|struct|enum)\b', code)
            if bare != crate.endswith(("_laws", "_cases")):
                yield "%s has %s code" % (crate, "no" if bare else "some")


def mapped(path):
    """The layers of crates/README.md, in order: (name, what it has, [crate]). A crate of which nothing is said is left out."""
    layers = []
    with open(path, encoding="utf-8") as page:
        for line in page:
            started = re.match(r"## ([a-z]+): (.*)", line)
            listed = re.match(r"\| ([a-z0-9_]+) \| \S.* \|$", line)
            if started:
                layers.append((started.group(1), started.group(2), []))
            elif listed:
                layers[-1][2].append(listed.group(1))
    return layers


def unlike_map(layers):
    listed = [(layer, what, [crate for crate, _ in crates]) for layer, what, crates in layers]
    found = mapped("crates/README.md")
    for at in range(max(len(listed), len(found))):
        if listed[at : at + 1] != found[at : at + 1]:
            yield "crates/README.md has %s where crates.txt has %s" % (found[at : at + 1], listed[at : at + 1])


DEFINITION = re.compile(r"^\s*(?:(?:abbrev|unfoldable)\s+(?:pub\s+)?(?!mutual)|(?:pub\s+)?(?:record|data)\s+)([^\s{}:]+)")
CONSTRUCTOR = re.compile(r"^  ([A-Z][^\s:]*)\s*:")
TYPE = re.compile(r"^\s*(?:pub )?(?:struct|enum|type) (\w+)")


def definitions():
    """(name, file) of each definition, constructor and type."""
    for path in sorted(glob.glob("crates/*/specs/*.antt") + glob.glob("crates/*/proofs/*.antt")):
        in_data = False
        with open(path, encoding="utf-8") as lines:
            for line in lines:
                defined = DEFINITION.match(line)
                built = CONSTRUCTOR.match(line) if in_data else None
                if defined:
                    in_data = " data " in " " + line
                    yield defined.group(1), path
                elif built:
                    yield built.group(1), path
                elif not line.startswith(" "):
                    in_data = False
    for path in sorted(glob.glob("crates/*/src/*.rt")):
        with open(path, encoding="utf-8") as lines:
            for line in lines:
                named = TYPE.match(line)
                if named:
                    yield named.group(1), path


# Of one name with another, and why they may be.
ALIKE = {("not_after", "crates/history_cases/specs/Caps.antt"): "a test of three shards' nodes, for the rows there and their laws alone"}
VALUES = "the same in both: laws over Results and laws over values are stated with it"
for crate, name in (
    ("message_contents", "head_part"),
    ("message_contents", "rest_of"),
    ("message_contents", "masks_pass"),
    ("message_contents", "positions_pass"),
    ("c_messages", "ToldRead"),
    ("c_messages", "ToldWrite"),
    ("c_events", "ToldOrder"),
):
    ALIKE[name, "crates/%s/proofs/Values.antt" % crate] = VALUES


def homonyms(_):
    seen = {}
    for name, path in definitions():
        if (name, path) in ALIKE:
            continue
        if name.lower() in seen:
            yield "%s is defined in %s, and %s in %s" % (name, path, *seen[name.lower()])
        seen.setdefault(name.lower(), (name, path))


def main():
    layers = layers_of("crates.txt")
    passed = failed = 0
    for test in (misnamed, backward, confusable, unlike_contents, unlike_map, homonyms):
        faults = list(test(layers))
        for fault in faults:
            print(fault)
        passed, failed = passed + (not faults), failed + bool(faults)
    print("%d crates in %d layers, %d definitions and types" % (sum(len(c) for _, _, c in layers), len(layers), len(list(definitions()))))
    print("%d passed, %d failed" % (passed, failed))
    sys.exit(1 if failed else 0)


main()
