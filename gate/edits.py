"""Wrong programs: that each is refused because a fact fails, and that every public function has enough of them: two, or one if it
asks something of its caller (`requires`). No crate has more than two files code_N, four where its code has modules.

    edits.py            that every wrong program fits the text, and the counts; and of SAMPLE, a few files, that each wrong program of them is refused
                        for a fact of its own. wrong.py asks that of all

A file crates/NAME/must-fail/LABEL.edit holds a wrong program; code_1.edit .. (function bodies, and statements beside them)
and laws_1.edit .. (definitions, theorems, contracts) hold several, each under a line `# NAME: what is right`, or `# NAME` alone. `rt ci` tries each
file as one. Alone in its file, a wrong body has an error at its function, and of anything else the first error of the log is its own. Beside others,
each must have an error at
a part of the crate that is checked from what it changes and from nothing that another one of its file changes. A function is proved
from its own body, its proof files and the contracts of what it calls; a declaration of specs/, or of a file of lemmas, is checked from its own text;
and both from the declarations named there, from those that these name, and so on: by the words of the text, so rather from more than is true.
An error that says only that a proof file no longer fits the code, or that something else was refused, shows nothing.

Prints a last line `N passed, M failed`: one for each wrong program, and one for each public function."""
import functools
import glob
import os
import re
import sys

sys.path.append(os.path.join(os.path.dirname(os.path.abspath(__file__)), "..", "checks"))

import tries
from sources import declarations_of, module_of, parts_of, programs_of, read, room_of

# errors that say only that the proof file no longer fits the code, or that something else was refused
UNFIT = re.compile(
    r"has no `|has no field|Parse|is not in scope|is no name|no such|cannot be named|operand is missing|expected the end|cannot continue"
    r"|could not be applied|was not admitted"
)
# an error in a proof file of a function, what is said of a function of which a fact is neither written nor found, and an error in specs/ or in a
# file of lemmas
IN_PROOF = re.compile(r"^(?:\S*/)?proofs/(\S+)/(?:Answers|Invariants|Proof)\.antt:\d+:\d+: error")
UNPROVED = re.compile(r"^fn \w+::(\S+): no proof: .*`search` did not prove ")
IN_SPECS = re.compile(r"^(?:\S*/)?((?:specs|proofs)/\S+\.antt):(\d+):\d+: error")
CALLED = re.compile(r"\b([a-z_]\w*)\s*(?:::<[^>]*>)?\(")
CYCLE = re.compile(r"#\[cycle\((\w+)\)\]\s*(?:#\[.*\]\s*)*(?:pub )?fn (\w+)")
WORD = re.compile(r"[^\s(){}\[\],;.:|`\"]+")

# Public functions that ask nothing and have one wrong program only: an edit names a text that its file has once, and the other lines of
# their bodies stand there more often.
FEWER = {"report_rows::row12"}
FEWER.update("%s::%s" % (crate, name) for crate in ("program_arguments", "program_input") for name in ("new", "error"))
# A function that promises nothing, and whose body no edit makes unsafe.
NONE = {"program_arguments::is_given"}
FEWER.update("state_rows::is_%s" % phase for phase in ("gathering", "ordered", "preparing", "committed"))


class Crate:
    """The parts of a crate, as (file, what the lines belong to), and what each is checked from."""

    def __init__(self, crate):
        self.folder = "crates/%s/" % crate
        self.lines = {}  # file -> the part that each of its lines belongs to
        self.words = {}  # part -> the words of its text, with the file in which they are to be read
        self.called = {}  # a function's body -> the functions that its text calls, by their names
        self.heads = {}  # part -> the parts that it is checked from whatever its words
        self.names = {}  # file -> word -> the parts that it names
        self.functions = {}  # name -> the heads of functions
        self.cycles = {}  # name -> the functions that it joins, which are proved together
        self.used = re.compile(r"\buse Rattle\.%s\.((?:specs|proofs)(?:\.\w+)+)(?:\.\{([^}]*)\})?" % crate)
        specs, code, proofs = (
            {path[len(self.folder) :]: read(path) for path in sorted(glob.glob(self.folder + pattern, recursive=True))}
            for pattern in ("specs/**/*.antt", "src/*.rt", "proofs/**/*.antt")
        )
        # files of lemmas stand beside the folders of functions
        specs.update((file, proofs.pop(file)) for file in list(proofs) if file.count("/") == 1)
        for file, text in specs.items():
            self.add_specs(file, text)
        for file, text in code.items():
            self.add_code(file, text)
        for file, text in (specs | code | proofs).items():
            self.add_names(file, text)
        for file, text in proofs.items():
            for part in self.bodies(file.split("/")[1:-1]):
                self.words[part].update((file, word) for word in WORD.findall(text))
        # what has no proof file is proved by search, perhaps from anything that its file names
        written = {part for file in proofs for part in self.bodies(file.split("/")[1:-1])}
        for part in [part for part in self.words if is_body(part) and part not in written]:
            self.words[part].update((part[0], word) for word in self.names[part[0]])

    def add_specs(self, file, text):
        names = self.names.setdefault(file, {})
        for owner, line, heads in declarations_of(text):
            part = (file, owner)
            self.lines.setdefault(file, []).append(part)
            if owner:
                self.words.setdefault(part, set()).update((file, word) for word in WORD.findall(line.split("--")[0]))
                self.heads.setdefault(part, set()).update((file, head) for head in heads)
                for name in [owner, *owner.split("◌")]:
                    names.setdefault(name, set()).add(part)

    def add_code(self, file, text):
        for cycle, name in CYCLE.findall(text):
            self.cycles.setdefault(cycle, []).append(name)
        for owner, line in parts_of(text):
            part = (file, owner)
            self.lines.setdefault(file, []).append(part)
            if owner:
                self.words.setdefault(part, set()).update((file, word) for word in WORD.findall(line.split("//")[0]))
                if owner[2]:
                    self.called.setdefault(part, set()).update(CALLED.findall(line.split("//")[0]))
                head = (file, (*owner[:2], False))
                self.heads.setdefault(part, set()).add(head)
                self.functions.setdefault(owner[0], set()).add(head)

    def add_names(self, file, text):
        """What the file names of the crate's specs by its lines `use`: those of a list, or all of a module. A name that its module does not
        declare is any of that name."""
        names = self.names.setdefault(file, {})
        for module, listed in self.used.findall(text):
            own = self.names.get(module.replace(".", "/") + ".antt", {})
            pairs = [item.split(" as ") for item in listed.split(",")] if listed else [[name] for name in own]
            for pair in pairs:
                named = own.get(pair[0].strip()) or set().union(*(other.get(pair[0].strip(), ()) for other in self.names.values()))
                for name in [pair[-1].strip(), *pair[-1].strip().split("◌")]:
                    names.setdefault(name, set()).update(named)

    def bodies(self, path):
        """The bodies of the functions that a path of the proofs names: the module, if any, the type, if any, and the function, or `+` and a cycle."""
        name, module = path[-1].lstrip("+"), "/".join(word for word in path[:-1] if not word[0].isupper())
        names = self.cycles.get(name, [name])
        heads = [head for name in names for head in self.functions.get(name, ()) if module_of(head[0]) == module]
        return {(file, (*owner[:2], True)) for file, owner in heads} & self.words.keys()

    @functools.lru_cache(maxsize=None)
    def checked_from(self, part):
        """The part and all that its check goes by."""
        found, todo = set(), [part]
        while todo:
            part = todo.pop()
            if part not in found:
                found.add(part)
                todo += self.heads.get(part, ())
                for file, word in self.words.get(part, ()):
                    todo += self.names[file].get(word, ())
                for word in self.called.get(part, ()):
                    todo += self.functions.get(word, ())
        return found


def is_body(part):
    file, owner = part
    return bool(file.startswith("src/") and owner and owner[2])


def errors_of(crate, lines):
    """The errors that a check printed, each with the parts of the crate where it is."""
    errors, unproved = [], []
    for line in lines:
        proof, specs, search = IN_PROOF.match(line), IN_SPECS.match(line), UNPROVED.match(line)
        if proof:
            errors.append((line, crate.bodies(proof.group(1).split("/"))))
        elif specs:
            at = int(specs.group(2))
            errors.append((line, set(crate.lines.get(specs.group(1), [])[at - 1 : at])))
        elif ": error" in line:
            errors.append((line, set()))
        elif search:
            unproved.append((line, crate.bodies(search.group(1).split("::"))))
    return errors + unproved


def fault(crate, changed, others, errors):
    """Why a program that changes these parts, beside others that change those, shows nothing; or None."""
    if others is None and not all(map(is_body, changed)):
        found = errors[:1]
    elif others is None:
        found = [error for error in errors if error[1] & changed]
    elif any(not owner for _, owner in changed):
        return "changes more than functions and declarations, and others stand in its file"
    else:
        found = []
        for line, places in errors:
            goes_by = set().union(*(crate.checked_from(place) for place in places))
            if goes_by & changed and not goes_by & others:
                found.append((line, places))
    if not found:
        return "has no error of its own in the log"
    return "shows nothing: %s" % found[0][0][:200] if all(UNFIT.search(line) for line, _ in found) else None


def judged(name, path, lines):
    """The programs of a file of crate `name`, by what the check of the crate with all of them printed: (name, the parts that it changes, why it
    shows nothing or None)."""
    crate = crate_of(name)
    programs, errors = programs_of(path), errors_of(crate, [line.strip() for line in lines])
    changed = [program.changes(crate) for program in programs]
    for place, program in enumerate(programs):
        others = set().union(*changed[:place], *changed[place + 1 :]) if len(programs) > 1 else None
        yield program.name, changed[place], fault(crate, changed[place], others, errors)


def over_two(paths):
    """The crates with more than two of these files that hold wrong bodies, or four where the code has modules: a wrong function leaves the
    proofs of its callers open, so the wrong bodies of modules that call one another need checks of their own."""
    crates = [path.split("/")[-3] for path in paths if os.path.basename(path).startswith("code_")]
    return sorted({crate for crate in crates if crates.count(crate) > (4 if len(glob.glob("crates/%s/src/*.rt" % crate)) > 1 else 2)})


crate_of = functools.lru_cache(maxsize=None)(Crate)


# Files that the gate tries once more, one for each kind: bodies of several functions and of several modules, laws, definitions, and programs alone.
SAMPLE = [
    "base_masks/must-fail/code_1",
    "base_masks/must-fail/code_2",
    "base_masks/must-fail/half_is_enough",
    "base_laws/must-fail/laws_1",
    "settings_check/must-fail/code_1",
]


def unfit(path):
    """The programs of a file that do not fit the text as it stands: an old text is in its file once, after those before it were replaced."""
    folder, texts = "/".join(path.split("/")[:2]) + "/", {}
    for program in programs_of(path):
        for file, old, new in program.pairs:
            text = texts[file] if file in texts else read(folder + file) if os.path.exists(folder + file) else ""
            if text.count(old) != 1:
                yield program.name, "an old text is in %s %d times, and not once" % (file, text.count(old))
            texts[file] = text.replace(old, new)


def counts(paths):
    """The names of the wrong programs of each function of the code, (crate, file, name)."""
    wrong = {}
    for path in paths:
        crate = path.split("/")[1]
        for program in programs_of(path):
            for file, owner in program.changes(crate_of(crate)):
                if owner and file.startswith("src/"):
                    wrong.setdefault((crate, file, owner[0]), set()).add(program.name)
    return wrong


def lacking(wrong):
    """For each public function: None, or what is said of it where it has too few wrong programs."""
    for path in sorted(glob.glob("crates/*/src/*.rt")):
        _, crate, file = path.split("/", 2)
        parts = [part for part in parts_of(read(path)) if part[0] and part[0][1]]
        asking = {owner[0] for owner, line in parts if not owner[2] and line.strip().startswith("requires ")}
        for name in sorted({owner[0] for owner, _ in parts}):
            count = len(wrong.get((crate, file, name), ()))
            place = "%s::%s" % (room_of(path), name)
            enough = place in NONE or count >= (1 if name in asking or place in FEWER else 2)
            yield None if enough else "%s::%s has %d wrong programs of its own" % (room_of(path), name, count)


def main():
    paths = sorted(glob.glob("crates/*/must-fail/*.edit"))
    aside = sorted(glob.glob("crates/*/wrong/*.edit"))
    passed = failed = 0
    for path in paths + aside:
        faults = list(unfit(path))
        passed, failed = passed + len(programs_of(path)) - len({name for name, _ in faults}), failed + len({name for name, _ in faults})
        for name, why in faults:
            print("%s: %s: %s" % (path, name, why))
    tried = passed + failed
    faults = list(lacking(counts(paths)))
    for fault in filter(None, faults):
        print(fault)
    passed, failed = passed + faults.count(None), failed + len(faults) - faults.count(None)
    for crate in over_two(paths):
        failed += 1
        print("%s has too many checks of wrong bodies: some belong in crates/%s/wrong/" % (crate, crate))
    print("%d wrong programs in %d files" % (tried, len(paths + aside)))
    more = tries.judge(["crates/%s.edit" % name for name in SAMPLE], judged) if "--text" not in sys.argv else (0, 0)
    passed, failed = passed + more[0], failed + more[1]
    print("%d passed, %d failed" % (passed, failed))
    sys.exit(1 if failed else 0)


if __name__ == "__main__":
    main()
