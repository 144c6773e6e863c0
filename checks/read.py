"""What has to be read to believe the delivered calls: the definitions that their contracts cite, those that these cite, and so on.
docs/READING.md, which this script writes, has them in reading order and says which each call needs. Checked, one test each:
- every word of what is cited is understood, so that nothing is missed;
- each of these definitions stands in specs/Definitions.antt of its crate or is a type of the code, and such a file has nothing else: no law,
  and no definition that no delivered contract cites;
- within such a file each definition stands after those that it builds on;
- the page is what would be written.

Delivered are the calls for C, the planner's calls, and the programs with restart's library (ROOTS). A definition is whatever the text of
a contract or of another definition names: a definition with its equations, a record or data type with its fields, a struct or enum of the
code. Its lines are counted without comments and empty lines. Laws, which no definition names, and what the kit defines do not count.

    python3 checks/read.py [--list [CALL]] [--write]
        --list prints the definitions by file, in an order to read them in, of all calls or of one; --write writes docs/READING.md

The last line is `N passed, M failed`."""
import functools
import glob
import os
import re
import sys

from sources import FUNCTION, parts_of as code_parts

# The delivered functions of a crate, by how their heads start: the calls for C, the planner's, the runs of restart and sheet, and every
# program's.
ROOTS = {"c_planner": 'pub extern "C" fn ', "state_planner": "pub fn ", "state_order": "pub fn ", "state_page": "pub fn ", "state_readiness": "pub fn ", "program_run": "pub fn ", "program_sheet": "pub fn ", "program_reading": "fn ", "program_arguments": "fn "}
ROOTS.update({path.split("/")[1]: "fn " for path in sorted(glob.glob("crates/*/src/main.rt"))})
# Not delivered: public for the page call alone, which has a promise of its own.
INNER = {"state_planner::enter"}
DECIDE = {"state_planner": "pub fn decide("}

NAME = r'[^\s(){}.;,@"]+'
TOKEN = re.compile(r'"[^"]*"|%s(?:\.%s)*|\.%s|[(){}.;,@]' % (NAME, NAME, NAME))
MARKS = ("pub", "abbrev", "unfoldable", "axiom")
# Words of the language and of contracts, and names that every file has without a `use`.
WORDS = ("record", "let", "in", "λ", "Type", "where", "→", "×", "=", ":", "_", "result", "self")
PRIM = ("⊥", "absurd", "¬", "Unit", "tt", "Dec", "yes", "no")
# and types of std that code has without one
PRIM += ("Option", "Result", "Vec", "String", "Box", "Self")
KIT = "the kit's"


def tokens_of(text):
    return [token for token in TOKEN.findall(text) if token not in MARKS]


def plain(token):
    return token[0] not in '(){}.;,@"' and token not in WORDS


def closing(tokens, at):
    """The place of the bracket that closes the one at a place."""
    depth = 0
    while True:
        depth += (tokens[at] in ("(", "{")) - (tokens[at] in (")", "}"))
        if depth == 0:
            return at
        at += 1


# ---- Lines of specs: (indent, text) each, without comments.


def lines_of(path):
    with open(path, encoding="utf-8") as file:
        lines = [re.sub(r"(^|\s)--(\s.*)?$", "", line.rstrip()) for line in file]
    return [(len(line) - len(line.lstrip()), line.strip()) for line in lines if line.strip()]


def parts_of(lines):
    """Cut before each line that is indented as the first is."""
    parts = []
    for line in lines:
        if line[0] == lines[0][0] and line[1][0] not in ")}":
            parts.append([])
        parts[-1].append(line)
    return parts


def split_where(lines):
    """The lines up to the first that ends with `where`, and those below it."""
    for at, (_, text) in enumerate(lines, 1):
        if text.split()[-1] == "where":
            return lines[:at], lines[at:]
    return lines, []


def joined(lines):
    return tokens_of(" ".join(text for _, text in lines))


# ---- Definitions, and what their names stand for.


class Definition:
    """Where it stands (a file of specs, or none for a type of the code), how many lines it has, and its texts, (kind, tokens, more) each:
    a head, which binds names for all that follows; an equation, with the lines below its `where`; a type, with names that it binds; and a
    field, with its name."""

    def __init__(self, crate, file, name, scope):
        self.crate, self.file, self.name, self.scope = crate, file, name, scope
        self.lines, self.texts, self.constructors = 0, [], []

    def place(self):
        return "%s/%s" % (self.crate, self.file) if self.file else "%s::%s" % (self.crate, self.name)

    @functools.cached_property
    def read(self):
        """What it cites, and the words that stand for nothing."""
        reader, bound = Reader(self.scope()), frozenset()
        for kind, tokens, more in self.texts:
            if kind == "equation":
                reader.equation(tokens, more, bound)
            elif kind == "head":
                bound = reader.cited(tokens, bound)
            else:
                reader.cited(tokens, bound | set(more))
                bound = bound | set(more) if kind == "field" else bound
        return reader.cites, reader.strange


class Scope:
    """What the names of a file of a crate stand for: a Definition, or KIT."""

    def __init__(self, crate):
        self.crate, self.names, self.aliases = crate, dict.fromkeys(PRIM, KIT), {}

    def use(self, text):
        """`use PATH.{a, b as c}`, `use PATH as X` or, in code, `use crate::Type` or `use crate::{One, Other}`."""
        path, _, rest = re.sub(r"^(pub |ghost )*use |;$", "", text).partition(" as " if ".{" not in text else ".{")
        if rest.endswith("}"):
            for item in rest[:-1].split(", "):
                name, _, renamed = item.partition(" as ")
                self.put(renamed or name, found_in(path, name))
        elif rest:
            self.aliases[rest] = path
        else:
            crate, *_, names = path.split("::")
            for name in names.strip("{}").split(", "):
                self.put(name, types_of(self.crate if crate == "crate" else crate).get(name, KIT))

    def put(self, name, found):
        """An operator is known by its parts too."""
        for part in [name, *name.split("◌")]:
            if part:
                self.names[part] = found

    def find(self, token):
        head, _, rest = token.partition(".")
        return found_in(self.aliases[head], rest.split(".")[0]) if head in self.aliases and rest else self.names.get(head)

    def constructs(self, token):
        found = self.find(token)
        return found is KIT or found is not None and token.split(".")[-1] in found.constructors


def found_in(path, name):
    """What a name of a module stands for."""
    module = re.fullmatch(r"Rattle\.([a-z0-9_]+)\.(?:specs\.(?:declared\.(?:[a-z0-9_]+\.)?(\w+)(?:\.TheVariants)?|(\w+))|proofs\.(.+))", path)
    if not module or not os.path.isdir("crates/" + module.group(1)):
        return KIT
    crate, declared, file, lemmas = module.groups()
    if lemmas:
        # a lemma, which no definition cites
        return Definition(crate, "proofs/" + lemmas, name, lambda: Scope(crate))
    names = types_of(crate) if declared else specs_of(crate, file).names
    return names.get(declared or name) or sys.exit("not read: %s of %s" % (name, path))


class Reader:
    """Collects what tokens cite, under the names that they bind. A name that brackets, λ or let bind holds to the end of the brackets
    around it, or to the next comma or semicolon there."""

    def __init__(self, scope):
        self.scope, self.cites, self.strange = scope, set(), set()

    def cite(self, token, bound):
        if not plain(token) or token[0].isdigit() or token.split(".")[0] in bound or token.split(".")[0] in WORDS:
            return
        found = self.scope.find(token)
        if found is None:
            self.strange.add(token)
        elif found is not KIT:
            self.cites.add(found)

    def patterns(self, tokens, bound):
        """Constructors are cited; every other name is bound."""
        names = {token for token in tokens if plain(token) and not self.scope.constructs(token)}
        for token in tokens:
            self.cite(token, bound | names)
        return bound | names

    def binders(self, tokens, bound):
        """The binders after λ or let."""
        at = 0
        while at < len(tokens):
            end = closing(tokens, at) if tokens[at] in ("(", "{") else at
            part = tokens[at : end + 1]
            if ":" in part:
                self.cited(part[part.index(":") + 1 : -1], bound)
                part = part[: part.index(":")]
            bound = self.patterns(part, bound)
            at = end + 1
        return bound

    def cited(self, tokens, bound):
        """Reads an expression or a row of binders; returns the names that are bound at its end."""
        outer, at = bound, 0
        while at < len(tokens):
            token, end = tokens[at], at
            if token in ("(", "{"):
                end = closing(tokens, at)
                bound = self.bracket(tokens[at + 1 : end], bound)
            elif token in (",", ";"):
                bound = outer
            elif token in ("λ", "let"):
                end = at + 1
                while tokens[end] not in ((".",) if token == "λ" else ("=", ":")):
                    end = closing(tokens, end) + 1
                bound = self.binders(tokens[at + 1 : end], bound)
            elif tokens[at + 1 : at + 2] != ["="] or (tokens[at - 1] if at else ";") != ";":
                # not the label of a field or an argument
                self.cite(token, bound)
            at = end + 1
        return bound

    def bracket(self, inner, bound):
        """What stands in brackets: `x y : T` binds names for what follows."""
        names = inner[: inner.index(":")] if ":" in inner else []
        if names and all(plain(name) for name in names):
            self.cited(inner[len(names) + 1 :], bound)
            return bound | set(names)
        self.cited(inner, bound)
        return bound

    def equation(self, tokens, below, bound):
        """`name patterns = expression`, and the equations below its `where`."""
        at = 1
        while tokens[at] != "=":
            at = closing(tokens, at) + 1
        bound = self.patterns(tokens[1:at], bound)
        locals_ = [split_where(part) for part in parts_of(below)]
        bound = bound | {joined(head)[0] for head, _ in locals_}
        self.cited(tokens[at + 1 :], bound)
        for head, deeper in locals_:
            words = joined(head)
            if words[1] == ":":
                self.cited(words[2:], bound)
            elif words[0] != "unfolding":
                self.equation(words, deeper, bound)


# ---- Files of specs.


class Specs:
    def __init__(self, crate, file):
        self.crate, self.file, self.scope = crate, file, Scope(crate)
        self.declare(lines_of("crates/%s/specs/%s.antt" % (crate, file)), [])

    def declare(self, lines, around):
        """The definitions of a block; around are the heads of the modules that it stands in."""
        for part in parts_of(lines):
            kind = next(word for word in part[0][1].split() if word not in MARKS)
            if kind == "use":
                self.scope.use(" ".join(text for _, text in part))
            elif kind == "module":
                head, body = split_where(part)
                self.declare(body, around + [("head", joined(head)[2:-1], [])])
            elif kind == "mutual":
                self.declare(part[1:], around)
            elif kind in ("record", "data"):
                self.built(kind, part, around)
            elif kind not in ("mod", "unfolding"):
                self.defined(part, around)

    def new(self, name, around):
        made = self.scope.names[name] = Definition(self.crate, self.file, name, lambda: self.scope)
        made.texts = list(around)
        return made

    def built(self, kind, part, around):
        head, body = split_where(part)
        tokens = joined(head)
        made = self.new(tokens[1], around)
        made.lines = len(part)
        made.texts.append(("head", tokens[2:-1], []))
        for field in map(joined, parts_of(body)):
            made.texts.append(("field", field[2:], field[:1]))
            if kind == "data":
                made.constructors.append(field[0])
                self.scope.names[field[0]] = made

    def defined(self, part, around):
        """A signature starts a definition; an equation belongs to the one that it names."""
        head, below = split_where(part)
        tokens = joined(head)
        end = closing(tokens, 1) + 1 if tokens[1] == "{" else 1
        if tokens[end] == ":":
            self.new(tokens[0], around).texts.append(("type", tokens[end + 1 :], tokens[2 : end - 1]))
        elif getattr(self.scope.names.get(tokens[0]), "file", None) != self.file:
            sys.exit("not read: %s/%s: %s" % (self.crate, self.file, part[0][1]))
        else:
            self.scope.names[tokens[0]].texts.append(("equation", tokens, below))
        self.scope.names[tokens[0]].lines += len(part)


@functools.lru_cache(None)
def specs_of(crate, file):
    return Specs(crate, file).scope


# ---- Code: types and contracts.

TYPE = re.compile(r"(?ms)^(?:pub )?(struct|enum) (\w+)(?:<([^>]*)>)?(?: \{(.*?)^\}|\((.*?)\);)")


@functools.lru_cache(None)
def source_of(crate):
    """The code of a crate, without comments and empty lines."""
    texts = []
    for folder, _, files in os.walk("crates/%s/src" % crate):
        for file in sorted(files):
            with open(os.path.join(folder, file), encoding="utf-8") as source:
                texts += [line for line in source if line.strip() and not line.lstrip().startswith("//")]
    return "".join(texts)


@functools.lru_cache(None)
def types_of(crate):
    """The structs and enums of a crate by name, each with the types that it holds."""
    made = {}
    for found in TYPE.finditer(source_of(crate)):
        kind, name, own, fields, numbered = found.groups()
        held = numbered or " ".join(re.findall(r"\((.*?)\)" if kind == "enum" else r":(.*)", fields))
        made[name] = Definition(crate, None, name, functools.partial(scope_of, crate))
        made[name].lines = len(found.group(0).splitlines())
        made[name].constructors = re.findall(r"(?m)^\s*([A-Z]\w*)", fields) if kind == "enum" else []
        made[name].texts = [("type", re.findall(r"\b[A-Z]\w*", held), re.findall(r"(?:^|, )(\w+)", own or ""))]
    return made


@functools.lru_cache(None)
def scope_of(crate):
    """What the names of a crate's code stand for."""
    scope = Scope(crate)
    for line in re.findall(r"(?m)^(?:pub |ghost )*use .*;$", source_of(crate)):
        scope.use(line)
    scope.names.update(types_of(crate))
    return scope


def heads_of(crate):
    """The heads of a crate's functions, up to the brace that opens the body."""
    head = []
    for owner, line in code_parts(source_of(crate)):
        begins = bool(FUNCTION.match(line))
        if head and (begins or not owner or owner[2]):
            yield "\n".join(head)
            head = []
        if owner and not owner[2] and (begins or head):
            head.append(line.strip() if begins else line)
    if head:
        yield "\n".join(head)


def delivered(roots):
    """For each function of the roots a Definition whose texts are the types of its parameters and result, and its contract. A program's function
    that promises nothing, as its main, needs nothing to be read."""
    for crate, start in roots.items():
        found = [re.sub(r"\{\s*\Z", "", head) for head in heads_of(crate) if head.startswith(start)]
        if not found:
            sys.exit("not read: no %sof %s" % (start, crate))
        for head in found:
            signature, *clauses = re.split(r"(?m)^ *(?:requires|ensures)\b[^{]*\{", head)
            if not clauses and start == "fn ":
                continue
            if signature.count("fn ") != 1 or not clauses:
                sys.exit("not read: a function of %s without a contract: %s" % (crate, signature))
            name, parameters = re.search(r"fn (\w+)(?:<[^>]*>)?\(([^)]*)\)", signature).groups()
            if "%s::%s" % (crate, name) in INNER:
                continue
            made = Definition(crate, "src", name, functools.partial(scope_of, crate))
            bound = re.findall(r"(\w+):", parameters)
            # its own types, as R of `fn read<R: Read>(..)`
            own = re.findall(r"(\w+)(?=:)", signature.split("(")[0])
            made.texts = [("type", re.findall(r"\b[A-Z]\w*", signature.split("(", 1)[1]), own)]
            made.texts += [("type", tokens_of(clause.rstrip().removesuffix("}")), bound) for clause in clauses]
            yield made


# ---- What is reached.


def label(made):
    return made.place() + ("." + made.name if made.file else "")


def reached(functions):
    """The definitions behind delivered functions, each after those that it cites, and the words that stand for nothing."""
    order, strange, met = [], [], set()

    def visit(made):
        if made not in met:
            met.add(made)
            cites, unknown = made.read
            strange.extend("%s: %s stands for nothing that is known" % (label(made), word) for word in sorted(unknown))
            for other in sorted(cites, key=label):
                visit(other)
            order.append(made)

    for function in functions:
        for cited in sorted(function.read[0], key=label):
            visit(cited)
        strange.extend("%s: %s stands for nothing that is known" % (label(function), word) for word in sorted(function.read[1]))
    return order, strange


def figures(order):
    """Definitions, lines and files; the types of a crate's code are one file."""
    return len(order), sum(made.lines for made in order), len({(made.crate, made.file) for made in order})


@functools.lru_cache(None)
def crates():
    with open("crates.txt", encoding="utf-8") as file:
        return re.findall(r"(?m)^([a-z0-9_]+)(?: staticlib)?:", file.read())


@functools.lru_cache(None)
def found_at(made):
    """The file of a definition and its line there."""
    paths = ["crates/%s/specs/%s.antt" % (made.crate, made.file)] if made.file else sorted(glob.glob("crates/%s/src/**/*.rt" % made.crate, recursive=True))
    head = r"^\s*(?:(?:%s) )*(?:(?:record|data|struct|enum) )?%s(?=[ :({<;]|$)" % ("|".join(MARKS), re.escape(made.name))
    for path in paths:
        with open(path, encoding="utf-8") as file:
            for number, line in enumerate(file, 1):
                if re.match(head, line) and (made.file or re.match(r"(?:pub )?(?:struct|enum) ", line)):
                    return path, number
    sys.exit("not found: %s" % label(made))


def by_file(order):
    """(the file's crate, whether it is of specs, [definitions]) in reading order: crates as crates.txt has them, types first, and each file
    from its top."""
    files = {}
    for made in order:
        files.setdefault((crates().index(made.crate), made.file is not None), []).append(made)
    return [(crates()[at], specs, sorted(files[at, specs], key=found_at)) for at, specs in sorted(files)]


# ---- Rooms: files of definitions and nothing else.

ROOM = "Definitions"


def elsewhere(order):
    for made in order:
        if made.file not in (None, ROOM):
            yield "%s is cited, and does not stand in %s" % (label(made), ROOM)
    for path in sorted(glob.glob("crates/*/specs/%s.antt" % ROOM)):
        crate = path.split("/")[1]
        for name, made in specs_of(crate, ROOM).names.items():
            if made is not KIT and (made.crate, made.file, made.name) == (crate, ROOM, name) and made not in order:
                yield "%s is cited by no delivered contract" % label(made)


def backward(order):
    for made in order:
        for other in made.read[0]:
            if (other.crate, other.file) == (made.crate, made.file) and made.file and found_at(other) > found_at(made):
                yield "%s stands above %s, which it builds on" % (label(made), other.name)


# ---- The page.

PAGE = "docs/READING.md"
SORTS = (
    ("The planner's calls", lambda crate: crate.startswith("state_")),
    ("The calls for C", lambda crate: crate.startswith("c_")),
    ("The programs", lambda crate: True),
)
ABOUT = """# What has to be read

The definitions and types that the contracts of the delivered calls cite, and what those cite in turn. A crate's name links its file of
definitions, which holds nothing else, each after those that it builds on; before them, up to a semicolon, stand types of its code, of
src/lib.rt where no file is named. A number after a name is its line. Whatever else stands in specs serves the proofs, and nothing there
has to be believed. Lines are counted without comments and empty lines, the types of a crate as one file. `python3 %s --write`
writes this page, and `--list CALL` prints the definitions of one call.
""" % os.path.relpath(os.path.abspath(__file__), os.getcwd())


def shown(made, by_line):
    """A definition, with its line if asked for; or a type with its line, and its file if that is not src/lib.rt."""
    path, line = found_at(made)
    if made.file:
        return "%s:%d" % (made.name, line) if by_line else made.name
    file = path.split("/", 2)[2]
    return "%s%s:%d" % ("" if file == "src/lib.rt" else file + " ", made.name, line)


def room_lines(order, numbers):
    """A line for each crate: its number, its types and its definitions. Where it is met first it links their file. The first lines, when no
    crate has a number yet, have the definitions' lines."""
    found, by_line = {}, not numbers
    for crate, _, mades in by_file(order):
        found.setdefault(crate, []).append(" ".join(shown(made, by_line) for made in mades))
    for crate, texts in found.items():
        title = crate if crate in numbers else "[%s](../crates/%s/specs/%s.antt)" % (crate, crate, ROOM)
        yield "- %d %s: %s" % (numbers.setdefault(crate, len(numbers) + 1), title, "; ".join(texts))


def stretches(places):
    """Ascending numbers, as in 1-4 7."""
    rows = []
    for place in sorted(places):
        if rows and rows[-1][-1] == place - 1:
            rows[-1].append(place)
        else:
            rows.append([place])
    return " ".join(str(row[0]) if len(row) == 1 else "%d-%d" % (row[0], row[-1]) for row in rows)


def call_rows(functions, numbers):
    """A row for calls of one crate that belong together: a call and the one that has checked the settings already, calls with the same
    definitions behind them, and all functions of a program, which no other calls."""
    rows = []
    for function in functions:
        for row in rows:
            first, private = row[0], ROOTS[function.crate] == "fn "
            same = private or first.name == function.name + "_under" or set(reached([first])[0]) == set(reached([function])[0])
            if first.crate == function.crate and same:
                row.append(function)
                break
        else:
            rows.append([function])
    crate = None
    for some in rows:
        needed, path = reached(some)[0], call_at(some[0])[0]
        names = " ".join("%s:%d" % (function.name, call_at(function)[1]) for function in some)
        counts = "|".join("{:,}".format(number) for number in figures(needed))
        title = "[%s](../%s) " % (some[0].crate, path) if some[0].crate != crate else ""
        crate = some[0].crate
        yield "|%s%s|%s|%s|" % (title, names, counts, stretches({numbers[made.crate] for made in needed}))


@functools.lru_cache(None)
def call_at(function):
    """The file of a delivered function and its line there."""
    for path in sorted(glob.glob("crates/%s/src/**/*.rt" % function.crate, recursive=True)):
        with open(path, encoding="utf-8") as file:
            for number, line in enumerate(file, 1):
                if re.match(r'\s*(?:pub )?(?:extern "C" )?fn %s[(<]' % function.name, line):
                    return path, number
    sys.exit("not found: %s" % label(function))


def page(functions):
    numbers = {}
    decide, order = reached(list(delivered(DECIDE)))[0], reached(functions)[0]
    yield from ABOUT.split("\n")
    yield "|To believe|Definitions|Lines|Files|"
    yield "|---|---:|---:|---:|"
    for what, some in totals(functions):
        yield "|%s|%s|" % (what, "|".join("{:,}".format(number) for number in figures(reached(some)[0])))
    yield ""
    yield "## `decide`, in reading order"
    yield ""
    yield from room_lines(decide, numbers)
    yield ""
    yield "## Beyond `decide`"
    yield ""
    yield from room_lines([made for made in order if made not in decide], numbers)
    yield ""
    yield "## Calls"
    yield ""
    yield "A row of several calls counts what they need together; crates are given by their numbers above."
    yield ""
    yield "|Call|Definitions|Lines|Files|Crates|"
    yield "|---|---:|---:|---:|---|"
    for sort, some in sorted_calls(functions):
        yield "|**%s**|||||" % sort
        yield from call_rows(some, numbers)


def sorted_calls(functions):
    left = list(functions)
    for sort, fits in SORTS:
        yield sort, [function for function in left if fits(function.crate)]
        left = [function for function in left if not fits(function.crate)]


def totals(functions):
    yield "`decide`", list(delivered(DECIDE))
    yield "all calls for C", [function for function in functions if function.crate.startswith("c_")]
    yield "everything delivered", functions


def other_page(functions):
    with open(PAGE, encoding="utf-8") as file:
        if file.read() != "\n".join(page(functions)) + "\n":
            yield "%s is not current: python3 checks/read.py --write" % PAGE


def print_list(order):
    for crate, specs, mades in by_file(order):
        print("%-32s %3d lines: %s" % (("" if specs else "types of ") + crate, sum(made.lines for made in mades), " ".join(made.name for made in mades)))


def main():
    functions = list(delivered(ROOTS))
    order, strange = reached(functions)
    if "--list" in sys.argv:
        wanted = sys.argv[sys.argv.index("--list") + 1 :]
        print_list(reached([function for function in functions if not wanted or function.name == wanted[0]])[0])
    if "--write" in sys.argv:
        with open(PAGE, "w", encoding="utf-8") as file:
            file.write("\n".join(page(functions)) + "\n")
    passed = failed = 0
    for faults in (strange, elsewhere(order), backward(order), other_page(functions)):
        faults = list(faults)
        for fault in faults:
            print(fault)
        passed, failed = passed + (not faults), failed + bool(faults)
    for what, some in totals(functions):
        print("to read for %s: %d definitions of %d lines in %d files" % (what, *figures(reached(some)[0])))
    print("%d passed, %d failed" % (passed, failed))
    sys.exit(1 if failed else 0)


main()
