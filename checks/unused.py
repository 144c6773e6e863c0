"""What serves nothing. Checked, one test each:
- every name in a line `use` of code, specs and proofs is used in its file, or by a wrong program that changes it;
- every crate in a line of crates.txt is named by that crate's code, specs or proofs, or its code touches a type from there;
- every public function is called by another crate's code, is a call for C, or stands in a program; and every struct and enum is named;
- every declaration of specs is reached: from a contract, from a function's proof, or from a name in docs/PROMISES.md or docs/ASSUMPTIONS.md,
  by way of the declarations that these name, those that these name, and so on;
- checks/allowed.txt, under "unused", names what may stand all the same, and nothing else.

Names are read off the words of the texts, so that rather too little is found than too much: a name that a text binds itself is taken for
a use of the one that its file has. A table of worked values, a declaration whose name ends in _clauses or _rows, serves by itself.

    python3 checks/unused.py [--mend [LAYER ..]]     --mend takes unused names out of the lines `use`, and crates out of crates.txt

The last line is `N passed, M failed`."""
import glob
import os
import re
import sys

from sources import declarations_of, module_of, parts_of, programs_of, read, room_of
from promises import promised

NAME = r'[^\s(){}.;,@"]+'
TOKEN = re.compile(r'"[^"]*"|%s(?:\.%s)*|\.%s|[(){}.;,@]' % (NAME, NAME, NAME))
USE = re.compile(r"^(?:ghost )?use (.*?)(?:\.\{(.*)\}| as (\S+?)|::(\w+)|::\{(.*)\})?;?$")
# a file of specs, or one of lemmas in proofs/; a third name is a type or function of the code
MODULE = re.compile(r"Rattle\.([a-z0-9_]+)\.(specs|proofs)\.(\w+)(?:\.(\w+))?")
# a lemma or definition that an attribute of the code names
NAMED = re.compile(r"\b(crate|[a-z0-9_]+)::(specs|proofs)::(\w+)::([\w'-]+)")
PUBLIC = re.compile(r'^( *)pub (extern "C" )?fn (\w+)')
TYPE = re.compile(r"(?m)^(?:pub )?(?:struct|enum) (\w+)")
BUILT = re.compile(r"(?ms)^(?:pub )?(?:struct|enum) (\w+)(?:<[^>]*>)?(?: \{(.*?)^\}|\((.*?)\);)")
ALLOWED = "checks/allowed.txt"


def words_of(text):
    """The names that a text of specs or a contract uses: no fields, and no labels of fields or arguments."""
    words, tokens = set(), TOKEN.findall(text)
    for at, token in enumerate(tokens):
        label = tokens[at + 1 : at + 2] == ["="] and at and tokens[at - 1] in ("{", ";", "let")
        if token[0] not in '(){}.;,@"' and not label:
            words.update((token, token.split(".")[0], token.strip("◌")))
    return words


def in_words(name, words):
    """Whether the words have a name, or part of it if it is an operator's."""
    return name in words or any(part in words for part in name.split("◌") if part)


def module_named(path):
    """The file of definitions or lemmas that a path of a line `use` names, (crate, file); None if it names none."""
    module = MODULE.fullmatch(path)
    if not module or module.group(4):
        return None
    crate, kind, name, _ = module.groups()
    return crate, name if kind == "specs" else "proofs/" + name


class Used:
    """A line `use`: its place in the file, the module, its names as (name, name here), and an alias of the module instead."""

    def __init__(self, at, line):
        self.at, self.line = at, line
        self.path, listed, self.alias, typed, several = USE.match(line.strip()).groups()
        items = [item.strip().partition(" as ") for item in (listed or typed or several or "").split(",") if item.strip()]
        self.names = [(name, renamed or name) for name, _, renamed in items]
        self.plain = listed is None and bool(items)

    def without(self, unused):
        """The line without some names; None if none is left."""
        kept = ["%s as %s" % pair if pair[0] != pair[1] else pair[0] for pair in self.names if pair[1] not in unused]
        if not kept or self.plain or self.alias:
            return None
        return self.line[: self.line.index(".{") + 2] + ", ".join(kept) + self.line[self.line.index("}") :]


# Traits of std whose methods are called by name, with nothing that names the trait.
METHODS = {"Read": ".read(", "Write": ".write("}


class File:
    """A file of code, specs or proofs: its lines, its lines `use`, and the words of the rest."""

    def __init__(self, path, programs=()):
        self.path, self.lines = path, read(path).split("\n")
        _, self.crate, self.kind, self.inside = path.split("/", 3)
        mark = r"//.*" if path.endswith(".rt") else r"(^|\s)--(\s.*)?$"
        self.texts = [re.sub(mark, "", line) for line in self.lines]
        self.uses = [Used(at, line) for at, line in enumerate(self.texts) if USE.match(line.strip())]
        lines = {use.at for use in self.uses}
        self.texts = ["" if at in lines else text for at, text in enumerate(self.texts)]
        self.wrong = " ".join(new for program in programs for file, _, new in program.pairs if path.endswith("%s/%s" % (self.crate, file)))
        self.contracts = "\n".join(self.contract_lines()) if path.endswith(".rt") else ""
        # the name under which it declares what others can name: a file of specs, or one of lemmas beside the folders of functions
        self.module = None
        if self.kind == "specs" or self.kind == "proofs" and "/" not in self.inside:
            self.module = ("proofs/" if self.kind == "proofs" else "") + self.inside[: -len(".antt")]

    def contract_lines(self):
        clause, open_ghost = None, False
        for owner, line in parts_of("\n".join(self.texts)):
            if owner is None and (open_ghost or line.strip().startswith("ghost ")):
                # what an impl promises, as an iterator what it gives
                open_ghost = line.count("{") > line.count("}") or open_ghost and not line.rstrip().endswith("};")
                yield line
            if owner is None or owner[2]:
                clause = None
            elif line.strip().startswith(("requires", "ensures")) or clause == owner:
                clause = owner
                yield line

    def unused(self):
        """(line use, the names there that nothing uses)."""
        text = "\n".join(self.texts)
        of_code = set(re.findall(r"\w+", text + self.wrong))
        # a trait of std serves by its method
        of_code.update(name for name, call in METHODS.items() if call in text)
        words = words_of((self.contracts if self.kind == "src" else text) + "\n" + self.wrong)
        for use in self.uses:
            names = [use.alias] if use.alias else [name for _, name in use.names]
            found = [name for name in names if not (name in of_code if use.plain else in_words(name, words))]
            if found:
                yield use, found

    def mend(self):
        """Takes the unused names out; how many they were."""
        lines, count = list(self.lines), 0
        for use, names in self.unused():
            lines[use.at], count = use.without(names), count + len(names)
        if count:
            with open(self.path, "w", encoding="utf-8") as file:
                file.write("\n".join(line for line in lines if line is not None))
        return count


class Tree:
    """All crates: their lines in crates.txt, files, functions and declarations."""

    def __init__(self):
        self.edges = {}
        for line in read("crates.txt").split("\n"):
            listed = re.match(r"([a-z0-9_]+)(?: staticlib)?:(.*)", line)
            if listed:
                self.edges[listed.group(1)] = listed.group(2).split()
        self.files = []
        for crate in self.edges:
            edits = sorted(glob.glob("crates/%s/must-fail/*.edit" % crate) + glob.glob("crates/%s/wrong/*.edit" % crate))
            programs = [program for path in edits for program in programs_of(path)]
            for pattern in ("src/**/*.rt", "specs/**/*.antt", "proofs/**/*.antt"):
                for path in sorted(glob.glob("crates/%s/%s" % (crate, pattern), recursive=True)):
                    self.files.append(File(path, programs))
        # what the types of the code hold, and the types that the heads of its functions have
        self.types, self.signatures = {}, {}
        for file in self.of("src"):
            text = "\n".join(file.texts)
            for name, fields, numbered in BUILT.findall(text):
                self.types[name] = file.crate, re.findall(r"\b[A-Z]\w*", fields or numbered)
            for name, head in re.findall(r"\bfn (\w+)(?:<[^>]*>)?(\(.*?)(?=\n\s*(?:requires|ensures)\b|\s*\{)", text, re.S):
                self.signatures.setdefault((file.crate, name), []).extend(re.findall(r"\b[A-Z]\w*", head))
        self.words, self.items = {}, {}
        for file in self.files:
            if file.module:
                self.declare(file)
        self.pass_on()

    def of(self, kind, crate=None):
        return [file for file in self.files if file.kind == kind and crate in (None, file.crate)]

    # ---- names in lines use, and crates

    def unused_names(self):
        for file in self.files:
            for use, names in file.unused():
                yield "%s:%d: %s not used" % (file.path, use.at + 1, ", ".join(names))

    def touched(self, crate):
        """The crates of the types that a crate's code touches: those that it names, those of the functions that it calls, and of fields."""
        code = "\n".join("\n".join(file.texts + [use.line for use in file.uses]) for file in self.of("src", crate))
        todo = re.findall(r"\b[A-Z]\w*", code)
        for other, name in set(re.findall(r"\b([a-z0-9_]+)::(?:[a-z0-9_]+::)?(\w+)", code)):
            todo += self.signatures.get((other, name), [])
        for name in set(re.findall(r"(?:\.|\b[A-Z]\w*::)(\w+)\(", code)):
            for other in self.edges[crate]:
                todo += self.signatures.get((other, name), [])
        found = set()
        while todo:
            name = todo.pop()
            if name in self.types and name not in found:
                found.add(name)
                todo += self.types[name][1]
        return {self.types[name][0] for name in found}

    def unnamed_crates(self):
        """(crate, a crate of its line that it does not name, nor any type of it touch)."""
        for crate, used in self.edges.items():
            text = "\n".join("\n".join(file.texts + [use.line for use in file.uses]) for file in self.files if file.crate == crate)
            touched = self.touched(crate)
            for other in used:
                if not re.search(r"\bRattle\.%s\b|\b%s::" % (other, other), text) and other not in touched:
                    yield crate, other

    def unused_crates(self):
        for crate, other in self.unnamed_crates():
            yield "crates.txt: %s does not name %s" % (crate, other)

    # ---- functions and types

    def uncalled(self):
        code = {file: "\n".join(file.texts + [use.line for use in file.uses]) for file in self.of("src")}
        for file, text in code.items():
            if os.path.exists("crates/%s/src/main.rt" % file.crate):
                continue
            beside = [other for other in code if other is not file and (other.crate == file.crate or file.crate in self.edges[other.crate])]
            others = [code[other] for other in beside]
            # the path of a function from another crate, and from another module of its own
            module = module_of(file.path)
            paths = ["%s::%s" % (start, module + "::" if module else "") for start in (r"(?<!::)\b" + file.crate, r"\bcrate")]
            for line in file.texts:
                public = PUBLIC.match(line)
                if public and not public.group(2):
                    method, _, name = public.groups()
                    ways = [r"(?:\.|\b[A-Z]\w*::)%s\(" % name] if method else [path + name + r"\b" for path in paths]
                    called = [re.compile(ways[-1 if other.crate == file.crate else 0]) for other in beside]
                    if not any(way.search(text) for way, text in zip(called, others)):
                        yield "%s::%s" % (room_of(file.path), name), "no other file's code calls it"
            for name in TYPE.findall(text):
                naming = re.compile(r"\b%s\b" % name)
                if len(naming.findall(text)) == 1 and not any(map(naming.search, others)):
                    yield "%s::%s" % (room_of(file.path), name), "no code names it"

    # ---- declarations of specs

    def declare(self, file):
        """The declarations of a file, (crate, file, name) each, and their words; the head of a module is one too."""
        name = file.module
        names = self.items.setdefault((file.crate, name), {})
        data = item = None
        for owner, line, heads in declarations_of("\n".join(file.texts)):
            if owner is None or not line.strip():
                continue
            # a line that only closes brackets goes on with what it stands below
            item = item if owner[0] in ")}" else (file.crate, name, owner)
            owner = item[2]
            first = item not in self.words
            words = self.words.setdefault(item, [file, ""])
            words[1] += line + "\n"
            for head in heads:
                words[1] += head.replace(" ", "·") + "\n"
            for known in [owner.replace(" ", "·"), *owner.split("◌")]:
                if known:
                    names.setdefault(known, item)
            if first:
                data = owner if re.match(r"\s*(pub )?data ", line) else None
            elif data == owner:
                built = re.match(r"\s+(?:pub )?(\S+)\s*:", line)
                if built:
                    names.setdefault(built.group(1), item)

    def pass_on(self):
        """The names that a file hands on (`pub use`) stand for what they stand for in the file that they come from."""
        for file in [file for file in self.files if file.module]:
            for use in (Used(0, text.split("pub ", 1)[1]) for text in file.texts if re.match("(unfoldable )?pub use ", text)):
                module = module_named(use.path)
                if module:
                    own = self.items.get(module, {})
                    handed = self.items.setdefault((file.crate, file.module), {})
                    handed.update((here, own[name]) for name, here in use.names if name in own)

    def scope(self, file):
        """What the names of a file stand for, and what its aliases of modules do."""
        names, aliases = {}, {}
        for use in file.uses:
            module = module_named(use.path)
            if module:
                own = self.items.get(module, {})
                if use.alias:
                    aliases[use.alias] = own
                for name, here in use.names:
                    if name in own:
                        for known in [here, *here.split("◌")]:
                            names[known] = own[name]
        if file.module:
            names.update(self.items[file.crate, file.module])
        names.pop("", None)
        return names, aliases

    def named(self, file, text):
        """The declarations that a text of the file names."""
        names, aliases = self.scope(file)
        for word in words_of(text):
            if word in names:
                yield names[word]
            head, _, rest = word.partition(".")
            if head in aliases and rest.split(".")[0] in aliases[head]:
                yield aliases[head][rest.split(".")[0]]

    def unreached(self):
        todo, reached = [], set()
        for file in self.of("src"):
            todo += self.named(file, file.contracts)
            for crate, kind, name, item in NAMED.findall("\n".join(file.texts)):
                todo += [self.items.get((file.crate if crate == "crate" else crate, name if kind == "specs" else "proofs/" + name), {}).get(item)]
        for file in self.of("proofs"):
            todo += self.named(file, "\n".join(file.texts)) if not file.module else []
        for crate, name, item in promised():
            todo += [self.items.get((crate, name), {}).get(item)]
        todo += [item for item in self.words if item[2].endswith(("_clauses", "_rows"))]
        while todo:
            item = todo.pop()
            if item and item not in reached:
                reached.add(item)
                todo += self.named(*self.words[item])
        for crate, name, owner in self.words:
            if (crate, name, owner) not in reached and name.split("/")[-1] != "Lib" and not owner.startswith("module "):
                yield "%s/%s.%s" % (crate, name, owner), "nothing reaches it"


def allowed(section):
    """The names that checks/allowed.txt gives under `[SECTION]`: lines of names, and below them, indented, the reason. Names without one do
    not count."""
    parts = [part for part in re.split(r"(?m)^(?=\[)", read(ALLOWED)) if part.startswith("[%s]\n" % section)]
    entries = re.findall(r"(?m)^((?:[^\s\[#].*\n)+) +\S", "".join(parts))
    return {name for entry in entries for name in entry.split()}


def mend(tree, layers):
    """Takes what is unused out of the lines `use` and of crates.txt, in the crates whose names start so."""
    names = sum(file.mend() for file in tree.files if file.crate.startswith(layers))
    unnamed, lines = {edge for edge in tree.unnamed_crates() if edge[0].startswith(layers)}, []
    for line in read("crates.txt").split("\n"):
        crate, colon, used = line.partition(":")
        if crate in tree.edges:
            line = " ".join([crate + colon, *(other for other in used.split() if (crate, other) not in unnamed)])
        lines.append(line)
    with open("crates.txt", "w", encoding="utf-8") as file:
        file.write("\n".join(lines))
    return "%d names and %d crates taken out" % (names, len(unnamed))


def main():
    tree = Tree()
    if "--mend" in sys.argv:
        print(mend(tree, tuple(sys.argv[sys.argv.index("--mend") + 1 :]) or ("",)))
        tree = Tree()
    found, kept = [*tree.uncalled(), *tree.unreached()], allowed("unused")
    functions, rest = [[entry for entry in found if ("::" in entry[0]) is code and entry[0] not in kept] for code in (True, False)]
    tests = [
        list(tree.unused_names()),
        list(tree.unused_crates()),
        ["%s: %s" % entry for entry in functions],
        ["%s: %s" % entry for entry in rest],
        ["checks/allowed.txt keeps %s, which is used or is not there" % name for name in sorted(kept - {name for name, _ in found})],
    ]
    for fault in [fault for faults in tests for fault in faults]:
        print(fault)
    failed = sum(map(bool, tests))
    print("%d functions and types, %d declarations kept without use" % tuple(
        sum(1 for name in kept if ("::" in name) is code) for code in (True, False)
    ))
    print("%d passed, %d failed" % (len(tests) - failed, failed))
    sys.exit(1 if failed else 0)


if __name__ == "__main__":
    main()
