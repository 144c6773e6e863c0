#!/usr/bin/env python3
"""Moves theorems from specs/ to proofs/ where a must-fail edit would be a BAD EDIT.

usage: python3 tools/move_theorems.py --list [CRATE ..]    what would be moved
       python3 tools/move_theorems.py [CRATE ..]           moves it, in these crates or in all

An edit of a definition or a theorem of specs/ refuses theorems, and what stands on a refused theorem is not checked. Where that stands in
specs/ too, rt reads the edit as one that can't be read. So what rests on a theorem that an edit may refuse goes to proofs/, into a file of the
same name, statements unchanged; whoever named it there names it here. What was moved is written to tools/moved.tsv."""
import collections
import glob
import os
import re
import sys

WORD = re.compile(r"[^\s(){}.;,@\"«»\[\]:]+")
KINDS = ("pub", "abbrev", "unfoldable", "ruleset", "data", "record", "type", "opaque")
USE = re.compile(r"^(pub )?use (\S+?)(?:\.\{([^}]*)\})?(?: as (\S+))?$")


def read(path):
    with open(path, encoding="utf-8", newline="") as f:
        return f.read()


def write(path, text):
    os.makedirs(os.path.dirname(path), exist_ok=True)
    with open(path, "w", encoding="utf-8", newline="") as f:
        f.write(text)


def plain(line):
    """A line without its comment."""
    return re.sub(r"(^|\s)--.*", "", line)


class Decl:
    """A declaration: its own lines with the comment above, the modules that it stands in, and the words that it names."""

    def __init__(self, file, name, kinds, lead, indent, above):
        self.file, self.name, self.kinds, self.lead, self.indent, self.above = file, name, kinds, lead, indent, above
        self.lines, self.first, self.last, self.moves = [], 0, 0, False

    is_definition = property(lambda self: any(k in self.kinds for k in KINDS[1:]))
    is_spec = property(lambda self: self.file.startswith("specs/"))

    def words(self):
        found = set()
        for line in self.lines + [line for module in self.above for line in module.head]:
            found.update(WORD.findall(plain(line)))
        return found

    def qualified(self):
        return {pair for line in self.lines for pair in re.findall(r"([\w']+)\.([^\s(){}.;,]+)", plain(line))}

    def inner(self):
        """The constructors of a type."""
        if "data" not in self.kinds:
            return set()
        return {m[1] for line in self.lines[1:] for m in [re.match(r" +([^\s(){}.;,@\"«»\[\]:]+) *:(?!:)", line)] if m}


class Module:
    def __init__(self, head, lead, indent, above):
        self.head, self.lead, self.indent, self.above, self.items = head, lead, indent, above, []


class File:
    def __init__(self, crate, name):
        self.crate, self.name = crate, name
        self.path = "crates/%s/%s" % (crate, name)
        lines = read(self.path).split("\n")
        self.top, self.uses, self.decls = [], [], []
        at = 0
        while at < len(lines) and (not lines[at].strip() or lines[at].startswith("--") or USE.match(lines[at])):
            # the comment at the head, and the imports
            if USE.match(lines[at]):
                self.uses.append(lines[at])
            elif not self.uses and lines[at].startswith("--"):
                self.top.append(lines[at])
            elif self.uses and lines[at].startswith("--"):
                break
            at += 1
        if not self.uses:
            at = len(self.top)
        self.items, self.at = [], at
        self.parse(lines, at, len(lines), 0, (), self.items)
        self.imports, self.aliases = {}, {}
        for line in self.uses:
            _, module, names, alias = USE.match(line).groups()
            if names is None:
                self.aliases[alias or module.split(".")[-1]] = module
            for it in names.split(",") if names else ():
                one, _, other = it.strip().partition(" as ")
                self.imports[other.strip() or one] = (module, one)

    def parse(self, lines, at, end, indent, above, items):
        lead, now = [], None
        while at < end:
            line = lines[at]
            text = line.strip()
            here = len(line) - len(line.lstrip())
            if not text:
                if now is None or not self.goes_on(lines, at, end, indent, now):
                    now = None
                    lead.append(line)
                else:
                    now.lines.append(line)
                at += 1
                continue
            if text.startswith("--") and here <= indent and not (now and self.goes_on(lines, at, end, indent, now)):
                now = None
                lead.append(line)
                at += 1
                continue
            if here > indent or text.startswith("--") or now is not None and self.is_of(line, now):
                now.lines.append(line)
                now.last = at
                at += 1
                continue
            if re.match(r"(pub )?module\b", text):
                head = []
                while True:
                    head.append(lines[at])
                    at += 1
                    if plain(head[-1]).rstrip().endswith("where"):
                        break
                module = Module(head, lead, indent, above)
                module.first = at - len(head)
                stop = at
                while stop < end and (not lines[stop].strip() or len(lines[stop]) - len(lines[stop].lstrip()) > indent):
                    stop += 1
                while stop > at and not lines[stop - 1].strip():
                    stop -= 1
                inner = next(len(it) - len(it.lstrip()) for it in lines[at:stop] if it.strip())
                items.append(module)
                self.parse(lines, at, stop, inner, above + (module,), module.items)
                lead, now, at = [], None, stop
                continue
            words = text.split()
            kinds = []
            while words and words[0] in KINDS:
                kinds.append(words.pop(0))
            name = WORD.match(words[0])
            if not name or here != indent:
                sys.exit("%s:%d: not read: %s" % (self.path, at + 1, line))
            now = Decl(self.name, name.group(0), kinds, lead, indent, above)
            now.lines, now.first, now.last, lead = [line], at, at, []
            items.append(now)
            self.decls.append(now)
            at += 1
        if lead:
            items.append(lead)

    def is_of(self, line, decl):
        """A line of this indent that goes on with the declaration: a clause, or what it unfolds."""
        text = line.strip()
        if re.match(r"(unfolding|where|decreasing|measure)\b|[)}\]]", text):
            return True
        first = WORD.match(text)
        if first and first.group(0) == decl.name:
            return True
        core = decl.name.strip("◌")
        return "◌" in decl.name and " %s " % core in text and " : " not in text

    def goes_on(self, lines, at, end, indent, decl):
        """Behind blank lines or comments the declaration goes on, with a deeper line or a clause."""
        while at < end and (not lines[at].strip() or lines[at].strip().startswith("--")):
            at += 1
        if at == end:
            return False
        here = len(lines[at]) - len(lines[at].lstrip())
        return here > indent or here == indent and self.is_of(lines[at], decl)


class Crate:
    def __init__(self, name):
        self.name, self.files = name, {}
        for path in sorted(glob.glob("crates/%s/specs/**/*.antt" % name, recursive=True) + glob.glob("crates/%s/proofs/**/*.antt" % name, recursive=True)):
            file = path.split("/", 2)[2]
            if not re.search(r"/(Lib|Answers|Invariants|Proof)\.antt$", file):
                self.files[file] = File(name, file)
        modules = {"Rattle.%s.%s" % (name, file[:-5].replace("/", ".")): it for file, it in self.files.items()}
        self.modules = modules
        own = {(file, d.name): d for file, it in self.files.items() for d in it.decls}
        self.own = own
        self.needs, self.needed = collections.defaultdict(set), collections.defaultdict(set)
        for file, it in self.files.items():
            inner = {c: d for d in it.decls for c in d.inner()}
            for d in it.decls:
                found = set()
                for word in d.words():
                    if (file, word) in own:
                        found.add(own[file, word])
                    elif word in inner:
                        found.add(inner[word])
                    elif word in it.imports and it.imports[word][0] in modules:
                        other = modules[it.imports[word][0]]
                        target = own.get((other.name, it.imports[word][1]))
                        if not target:
                            target = next((x for x in other.decls if it.imports[word][1] in x.inner()), None)
                        found.add(target)
                for alias, word in d.qualified():
                    if it.aliases.get(alias) in modules:
                        found.add(own.get((modules[it.aliases[alias]].name, word)))
                for target in found - {None, d}:
                    self.needs[d].add(target)
                    self.needed[target].add(d)

    def changed(self):
        """For each must-fail edit the declarations that it changes, and whether by their own text (or else by the head of a module)."""
        found = {}
        for edit in sorted(glob.glob("crates/%s/must-fail/*.edit" % self.name)):
            texts, file, old = {}, None, None
            for line in read(edit).split("\n"):
                if line.startswith("file: "):
                    file = line[6:].strip()
                elif line.startswith("old: "):
                    old = line[5:]
                elif line.startswith("new:") and file.endswith(".antt"):
                    text = texts.setdefault(file, read("crates/%s/%s" % (self.name, file)))
                    if text.count(old) != 1:
                        sys.exit("%s: %d times: %s" % (edit, text.count(old), old))
                    number = text.count("\n", 0, text.index(old))
                    for d in self.files[file].decls:
                        if d.first <= number <= d.last:
                            found.setdefault(edit, {})[d] = True
                        elif any(m.first <= number < m.first + len(m.head) for m in d.above):
                            found.setdefault(edit, {}).setdefault(d, False)
                    texts[file] = text.replace(old, line[4:].removeprefix(" "))
        return found

    def fallen(self, changed):
        """The theorems that an edit of these declarations may refuse by themselves."""
        may_fall = set()
        for d in changed:
            if not d.is_definition:
                may_fall.add(d)
                continue
            todo, seen = [d], {d}
            while todo:
                for user in self.needed[todo.pop()]:
                    if user in seen:
                        continue
                    seen.add(user)
                    if user.is_definition:
                        todo.append(user)
                    else:
                        may_fall.add(user)
        return may_fall

    def above(self, decls):
        """What rests on one of these."""
        todo, found = list(decls), set()
        while todo:
            for user in self.needed[todo.pop()]:
                if user not in found:
                    found.add(user)
                    todo.append(user)
        return found

    def choose(self):
        """What moves: the theorems of specs/ that rest on one that an edit may refuse. And what goes to a second file, since an edit changes the first."""
        edits = self.changed()
        rests = {edit: self.above(self.fallen(changed)) for edit, changed in edits.items()}
        moves = {d for found in rests.values() for d in found if d.is_spec}
        # helpers of these alone go with them
        more = True
        while more:
            more = [d for f in self.files.values() for d in f.decls if d.is_spec and d not in moves and "pub" not in d.kinds
                    and self.needed[d] and self.needed[d] <= moves and all(u.file == d.file for u in self.needed[d])
                    and not any(d in changed for changed in edits.values())]
            moves.update(more)
        second, clash = set(), []
        for edit, changed in edits.items():
            inside = set()
            for d, is_own in changed.items():
                if d in moves and (is_own or all(x in moves for x in self.files[d.file].decls if x.above and x.above[-1] is d.above[-1])):
                    inside.add(d.file)
            for d in rests[edit]:
                if d in moves and d.file in inside:
                    if changed.get(d):
                        clash.append((edit, d))
                    else:
                        second.add(d)
        # what rests on the second file is in it, or further on
        more = True
        while more:
            more = [d for d in moves - second if any(n in second and n.file == d.file for n in self.needs[d])]
            second.update(more)
        return edits, moves, second, clash


def importable(module, names):
    return "use %s.{%s}" % (module, ", ".join(names))


def pruned(uses, words, aliases_used):
    """The imports of these that the words need."""
    kept = []
    for line in uses:
        public, module, names, alias = USE.match(line).groups()
        if names is None:
            if public or (alias or module.split(".")[-1]) in aliases_used:
                kept.append(line)
            continue
        left = [it.strip() for it in names.split(",") if needed_by(it.strip().split(" as ")[-1].strip(), words)]
        if left:
            kept.append(importable(module, left))
    return kept


def needed_by(name, words):
    if "◌" in name:
        parts = [p for p in name.split("◌") if p]
        return any(p in words for p in parts) or not parts
    return name in words or name in ("[]",)


def render(items, keep, indent_words):
    """The lines of the items of which keep holds."""
    lines = []
    for it in items:
        if isinstance(it, list):
            if indent_words:
                lines += it
            continue
        if isinstance(it, Module):
            inner = render(it.items, keep, indent_words)
            if any(x.strip() and not x.strip().startswith("--") for x in inner):
                lines += it.lead + it.head + inner
            continue
        if keep(it):
            lines += it.lead + it.lines
        elif any(re.match(r" *-- ----", x) for x in it.lead):
            # the title of a part stays where the rest of the part is
            title = max(i for i, x in enumerate(it.lead) if re.match(r" *-- ----", x))
            stop = title + 1
            while stop < len(it.lead) and it.lead[stop].strip():
                stop += 1
            lines += it.lead[:stop] if indent_words else []
    return lines


def tidy(lines):
    text = "\n".join(lines)
    # titles of parts that have nothing left
    while True:
        new = re.sub(r"(?m)^(-- ----[^\n]*\n(?:--[^\n]*\n)*)\n*(?=-- ----|\Z)", "", text)
        if new == text:
            break
        text = new
    return re.sub(r"\n{3,}", "\n\n", text).strip("\n") + "\n"


def name_for(crate, file, is_second):
    """The name of the file of proofs/ for this file of specs/: rattle makes a module for each module and function of src/."""
    name = os.path.basename(file)[:-5] + ("After" if is_second else "")
    made = {os.path.basename(p)[:-3] for p in glob.glob("crates/%s/src/**/*.rt" % crate, recursive=True)}
    for path in glob.glob("crates/%s/src/**/*.rt" % crate, recursive=True):
        made.update(re.findall(r"\b(?:fn|struct|enum|trait|mod) (\w+)", read(path)))
    if name.lower() in {it.lower() for it in made} or os.path.exists("crates/%s/proofs/%s.antt" % (crate, name)):
        name += "Laws"
    return name


def move(crate, moves, second, table):
    name = crate.name
    where = {d: "Rattle.%s.proofs.%s" % (name, name_for(name, d.file, d in second)) for d in moves}
    spec_of = lambda file: "Rattle.%s.%s" % (name, file[:-5].replace("/", "."))
    for d in moves:
        table[spec_of(d.file), d.name] = where[d]
    made, writes = [], {}
    for file in sorted({d.file for d in moves}):
        it = crate.files[file]
        stays = [d for d in it.decls if d not in moves]
        for layer in (moves - second, moves & second):
            gone = {d for d in layer if d.file == file}
            if not gone:
                continue
            words = set().union(*[d.words() for d in gone])
            quals = {a for d in gone for a, _ in d.qualified()}
            uses = pruned(it.uses, words, quals)
            # what is named here and stands elsewhere in the file is imported, and so is public
            local = collections.defaultdict(list)
            for d in it.decls:
                if d in gone:
                    continue
                for n in [d.name, *sorted(d.inner())]:
                    if needed_by(n, words) and any(d in crate.needs[g] for g in gone):
                        local[where.get(d, spec_of(file))].append(n)
                        if n == d.name and "pub" not in d.kinds:
                            print("  %s: %s becomes pub" % (it.path, d.name))
                            d.kinds.append("pub")
                            d.lines[0] = re.sub(r"^( *)((?:(?:abbrev|unfoldable) )?)", r"\1\2pub ", d.lines[0])
                            if "record" in d.kinds:
                                d.lines[1:] = [re.sub(r"^( +)(?!pub )(?=[^\s(){}:.;,]+ :(?!:))", r"\1pub ", x) for x in d.lines[1:]]
            uses += [importable(module, names) for module, names in local.items()]
            target = where[next(iter(gone))].split(".")[-1]
            for d in gone:
                apply_sections((name, target), d, [s for s in crate.needs[d] if s.file == file and s not in gone])
            made.append(target)
            writes["crates/%s/proofs/%s.antt" % (name, target)] = (it, gone, uses)
        if stays:
            words = set().union(*[d.words() for d in stays])
            quals = {a for d in stays for a, _ in d.qualified()}
            writes[it.path] = (it, set(stays), pruned(it.uses, words, quals))
        else:
            writes[it.path] = None
    for path, what in writes.items():
        if what is None:
            os.remove(path)
            lib = "crates/%s/specs/Lib.antt" % name
            write(lib, read(lib).replace("pub mod %s\n" % path.split("/specs/")[1][:-5], ""))
            continue
        it, kept, uses = what
        body = tidy(render(it.items, lambda d: d in kept, path == it.path))
        write(path, "\n".join(it.top + uses) + "\n\n" + body)
    lib = "crates/%s/proofs/Lib.antt" % name
    text = read(lib) if os.path.exists(lib) else "-- Theorems that rest on what a wrong program may refuse.\n"
    write(lib, text.rstrip("\n") + "\n" + "".join("pub mod %s\n" % it for it in made))
    follow(name, {spec_of(f): sorted({w for d, w in where.items() if d.file == f}) for f in {d.file for d in moves}})


def explicit(module):
    """The names of the explicit parameters of a section."""
    head = " ".join(plain(line).strip() for line in module.head)
    head = re.sub(r"^(pub )?module _|where$", "", head.strip())
    names, depth, start = [], 0, None
    for i, c in enumerate(head):
        if c in "({":
            if depth == 0:
                start = i
            depth += 1
        elif c in ")}":
            depth -= 1
            if depth == 0 and head[start] == "(":
                names += head[start + 1 : i].split(" : ")[0].split()
    return names


# how names of siblings are written in what moved, by crate and file
WRITTEN = collections.defaultdict(dict)


def apply_sections(target, decl, siblings):
    """From another file a declaration takes the explicit parameters of its sections: those that both stand in are written."""
    for s in siblings:
        common = [a for a, b in zip(s.above, decl.above) if a is b]
        names = [n for m in common for n in explicit(m)]
        if not names:
            continue
        word = re.escape(s.name)
        if re.search(r"λ[^.]*(?<![^\s(])%s(?![^\s):.])|[({]%s(?: [^\s:]+)* : " % (word, word), "\n".join(plain(x) for x in decl.lines)):
            print("  by hand: %s: %s binds a name that is also a sibling's: %s" % (decl.file, decl.name, s.name))
        pattern, applied = r"(?<![^\s(,←{])%s(?![^\s),.;}])(?! [=:] )" % word, "(%s %s)" % (s.name, " ".join(names))
        WRITTEN[target][pattern] = applied
        for i, line in enumerate(decl.lines):
            if not line.strip().startswith(("unfolding", "--")):
                decl.lines[i] = re.sub(pattern, applied, line)


def follow(name, targets):
    """An edit of a text that moved names the file where it stands now."""
    for edit in sorted(glob.glob("crates/%s/must-fail/*.edit" % name) + glob.glob("crates/%s/wrong/*.edit" % name)):
        lines, texts, file, at = read(edit).split("\n"), {}, None, None

        def text_of(path):
            if path not in texts:
                texts[path] = read("crates/%s/%s" % (name, path)) if os.path.exists("crates/%s/%s" % (name, path)) else ""
            return texts[path]

        for i, line in enumerate(lines):
            if line.startswith("file: "):
                file, at = line[6:].strip(), i
            elif line.startswith("old: "):
                old = line[5:]
            elif line.startswith("new:") and file.endswith(".antt"):
                there = [file, *["proofs/%s.antt" % w.split(".")[-1] for w in targets.get("Rattle.%s.%s" % (name, file[:-5].replace("/", ".")), [])]]
                fits = [f for f in there if text_of(f).count(old) == 1]
                if not fits:
                    # what is named from another file has become pub
                    public = re.sub(r"^( *)(?!pub )(?=[^\s:]+ : )", r"\1pub ", old)
                    fits = [f for f in there if text_of(f).count(public) == 1]
                    if fits and public != old:
                        old, lines[i - 1], line = public, "old: " + public, "new: " + re.sub(r"^( *)", r"\1pub ", line[5:])
                        lines[i] = line
                if not fits:
                    for f in there[1:]:
                        both = [old, line[4:].removeprefix(" ")]
                        for pattern, applied in WRITTEN[name, f.split("/")[-1][:-5]].items():
                            both = [re.sub(pattern, applied, x) for x in both]
                        if text_of(f).count(both[0]) == 1:
                            fits = [f]
                            break
                    if fits:
                        old, lines[i - 1], line = both[0], "old: " + both[0], "new: " + both[1]
                        lines[i] = line
                if not fits:
                    print("  by hand: %s: %s" % (edit, old))
                    continue
                lines[at] = "file: " + fits[0]
                texts[fits[0]] = texts[fits[0]].replace(old, line[4:].removeprefix(" "))
        new = "\n".join(lines)
        if new != read(edit):
            print("  %s names proofs/ now" % edit)
            write(edit, new)


def redirect(table):
    """Whoever imports what was moved imports it from where it is."""
    modules = {m for m, _ in table}
    for path in sorted(glob.glob("crates/*/specs/**/*.antt", recursive=True) + glob.glob("crates/*/proofs/**/*.antt", recursive=True) + glob.glob("crates/*/src/**/*.rt", recursive=True)):
        text = read(path)
        if not any(m in text for m in modules):
            continue
        lines, renamed = [], []
        for line in text.split("\n"):
            code = re.match(r"^( *ghost )(use .*);$", line)
            m = USE.match(code[2] if code else line)
            if not m or m[2] not in modules:
                if re.search(r"Rattle\.\w+\.specs\.", line) and not m and any((mod, n) in table for mod, n in re.findall(r"(Rattle\.\w+\.specs\.[\w.]+)\.([^\s.(){};,]+)", line)):
                    print("%s: by hand: %s" % (path, line))
                lines.append(line)
                continue
            public, module, names, alias = m.groups()
            if names is None:
                if not path.endswith("Lib.antt"):
                    used = sorted({w for (mod, w) in table if mod == module and re.search(r"(?<![\w.])%s\.%s(?![\w'-])" % (re.escape(alias or module.split(".")[-1]), re.escape(w)), text)})
                    for w in used:
                        # by its whole path
                        renamed.append((r"(?<![\w.])%s\.%s(?![\w'-])" % (re.escape(alias or module.split(".")[-1]), re.escape(w)), table[module, w] + "." + w))
                lines.append(line)
                continue
            left, gone = [], collections.defaultdict(list)
            for it in names.split(","):
                one = it.strip().split(" as ")[0]
                if (module, one) in table:
                    gone[table[module, one]].append(it.strip())
                else:
                    left.append(it.strip())
            if gone and code:
                print("%s: by hand: a source names what was moved: %s" % (path, line))
                lines.append(line)
                continue
            if left or not gone:
                lines.append(line if not gone else (public or "") + importable(module, left))
            for other, its in gone.items():
                lines.append((public or "") + importable(other, its))
        new = "\n".join(lines)
        for pattern, full in renamed:
            new = re.sub(pattern, full, new)
        if new != text:
            write(path, new)


def main():
    listing = "--list" in sys.argv
    names = [it for it in sys.argv[1:] if it != "--list"] or sorted({p.split("/")[1] for p in glob.glob("crates/*/must-fail/*.edit")})
    table = {}
    for name in names:
        if not any("file: specs/" in read(p) for p in glob.glob("crates/%s/must-fail/*.edit" % name)):
            continue
        crate = Crate(name)
        edits, moves, second, clash = crate.choose()
        if not moves:
            continue
        count = collections.Counter(d.file for d in moves)
        print("%s: %s" % (name, ", ".join("%s %d of %d" % (f, n, len(crate.files[f].decls)) for f, n in sorted(count.items()))))
        if second:
            print("  in a second file: %s" % " ".join(sorted(d.name for d in second)))
        for d in moves:
            if d.is_definition and "pub" in d.kinds:
                print("  a definition rests on a theorem that may fall: %s %s" % (d.file, d.name))
        for edit, d in clash:
            print("  %s changes %s, which rests on another that it may refuse" % (edit, d.name))
        if not listing:
            move(crate, moves, second, table)
    if not listing:
        redirect(table)
        with open("tools/moved.tsv", "a", encoding="utf-8") as f:
            f.writelines("%s\t%s\t%s\n" % (m, n, to) for (m, n), to in sorted(table.items()))


main()
