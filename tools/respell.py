#!/usr/bin/env python3
"""Gives this repository's own definitions and lemmas the spelling of today's Rattle: words in snake case.

usage: python3 tools/respell.py [--list]          at the top of the repository, once, after port.py

A name that a file of specs/ or proofs/ declares and that has a capital inside (`afterBytes`) or a dash (`target-legal`) gets underscores
(`after_bytes`, `target_legal`). Names of types and modules stay, as do names that Rattle makes (goals, steps, `returns-2`), functions of
src/, and exported names. Where two names would fall together, the one with a dash keeps its dashes, which join two names, and its parts
are spelled anew. The table of old and new names is written to tools/respelled.tsv, which tools/respell_pages.py reads. --list prints what would be done."""
import collections
import glob
import re
import sys

NAME = r"[^\s(){}.;,@\"«»\[\]:]+"
DECLARED = re.compile(r"^( *)((?:(?:pub|abbrev|unfoldable|ruleset|data|record) +)*)(%s)((?: *\{[^{}\n]*\}| *\([^()\n]*\))*) *:(?!:)(.*)$" % NAME)
TOKEN = re.compile(r"--[^\n]*|\"(?:[^\"\\\n]|\\.)*\"|" + NAME)
QUOTED = re.compile(r"`[^`\n]*`")
# what Rattle itself names: goals, steps and the parts of a statement
MADE = re.compile(
    r"(returns|loop|if\d*|in|then|else|match|bounds|slice|offset|overflow|nonzero|cast|add|sub|mul|shl|shr|div|rem|index|invariant|decreases|Inv|Measure|ghost|prove)(-.*)?$"
    r"|.*-(requires|ensures|spec|holds|again|less|test|init|preserved|smaller)(-.*)?$|Need-.*|InvT.*|MeasureT.*|μ.*"
)


def snake(word):
    word = word.replace("getD", "get_or")
    word = re.sub(r"(?<=[a-z0-9])[A-Z]", lambda m: "_" + m.group(0).lower(), word)
    return word.replace("-", "_")


def parts_snake(word):
    return "-".join(snake(part) for part in word.split("-"))


def files(*kinds):
    found = []
    for kind in kinds:
        found += glob.glob("crates/*/" + kind, recursive=True)
    return sorted(p for p in found if "/out/" not in p)


def read(path):
    with open(path, encoding="utf-8", newline="") as f:
        return f.read()


def main():
    antt = files("specs/**/*.antt", "proofs/**/*.antt")
    code = files("src/**/*.rt")
    declared, fields = collections.defaultdict(set), set()
    for path in antt:
        walk = re.search(r"/proofs/.*/(Proof|Answers|Invariants)\.antt$", path)
        for line in read(path).split("\n"):
            m = DECLARED.match(line)
            if not m:
                continue
            name, kind = m.group(3), m.group(5).strip()
            if walk and (kind.startswith(("tie.", "goal.")) or name.endswith("-spec")):
                continue
            declared[name].add(path)
            if m.group(1):
                fields.add(name)
    everything = set(declared)
    used = collections.defaultdict(set)
    for path in antt + code:
        for token in set(TOKEN.findall(read(path))):
            used[token].add(path)
    table, kept = {}, []
    wanted = [n for n in declared if (n[0].islower() or n[0].isdigit()) and (re.search(r"[a-z0-9][A-Z]", n) or "-" in n) and not MADE.match(n) and re.match(r"[a-zA-Z0-9_'-]+$", n)]
    # definitions first: where a lemma would have a definition's name, the lemma gives way
    wanted.sort(key=lambda n: ("-" in n, n))
    taken = set(everything)
    for name in wanted:
        new = snake(name)
        if new in taken:
            other = parts_snake(name)
            kept.append((name, new, other))
            if "-" not in name:
                # what has the definition's name is a lemma that lost its dash: it gets it back
                back = new.replace("_", "-")
                if back in taken or new in wanted:
                    print("left: %s would be %s, which is there" % (name, new))
                    continue
                table[new] = back
                taken.add(back)
            elif other == name:
                continue
            else:
                new = other
                if new in taken:
                    print("left: %s would be %s, which is there" % (name, new))
                    continue
        clash = used.get(new, set()) & used.get(name, set())
        if clash:
            print("look: %s becomes %s, a word that already stands in %s" % (name, new, " ".join(sorted(clash)[:3])))
        taken.add(new)
        table[name] = new
    for name, new, other in kept:
        print("kept apart: %s (%s is there) is %s" % (name, new, other))
    print("%d names, %d kept apart" % (len(table), len(kept)))
    after_dot = collections.Counter()

    def respell(text, is_code):
        def one(m):
            t = m.group(0)
            if t.startswith("--"):
                return QUOTED.sub(lambda q: re.sub(NAME.replace(":", ":`"), lambda w: table.get(w.group(0), w.group(0)), q.group(0)), t)
            if t.startswith('"') or t not in table:
                return t
            before = text[m.start() - 1 : m.start()]
            if before == "." and ("-" in t and t not in fields or "_" in t):
                head = re.search(r"(%s)\.$" % NAME, text[: m.start()])
                if not head or not (head.group(1)[:1].isupper() or is_alias(text, head.group(1))):
                    after_dot[t] += 1
                    return t
            return table[t]

        if is_code:
            return "\n".join(one_line(line, one) for line in text.split("\n"))
        return TOKEN.sub(one, text)

    aliases = {}

    def is_alias(text, word):
        key = id(text)
        if key not in aliases:
            aliases.clear()
            aliases[key] = set(re.findall(r" as (%s)" % NAME, text)) | set(re.findall(r"(?m)^use \S+\.(%s)\s*$" % NAME, text))
        return word in aliases[key]

    def one_line(line, one):
        # in a source only names with a capital inside or a dash are meant: Rust has neither; comments have them in backticks
        def word(m):
            t = m.group(0)
            if t.startswith("//"):
                return QUOTED.sub(lambda q: re.sub(r"[\w'-]+", lambda w: table.get(w.group(0), w.group(0)), q.group(0)), t)
            if t.startswith('"'):
                return t
            return t if "_" in t else table.get(t, t)

        return re.sub(r"//.*|\"(?:[^\"\\]|\\.)*\"|[\w'-]+", word, line)

    changed = 0
    listing = "--list" in sys.argv
    for path in antt + code:
        text = read(path)
        new = respell(text, path.endswith(".rt"))
        if new != text:
            changed += 1
            if not listing:
                with open(path, "w", encoding="utf-8", newline="") as f:
                    f.write(new)
    if after_dot:
        print("left behind a dot: " + ", ".join("%s %d" % it for it in after_dot.most_common(40)))
    if not listing:
        with open("tools/respelled.tsv", "w", encoding="utf-8") as f:
            f.writelines("%s\t%s\n" % it for it in sorted(table.items()))
    print("%d files" % changed)


main()
