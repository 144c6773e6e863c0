#!/usr/bin/env python3
"""Gives the names of this repository's definitions and lemmas in its pages and in the tables of its scripts today's spelling, by
tools/respelled.tsv, which tools/respell.py wrote.

usage: python3 tools/respell_pages.py [--list] [FILE ..]     at the top of the repository; with no FILE, the pages and tables

A name stands in backquotes, as `crate/File.name`, `File.name` or `name`, or, in a table of names (checks/allowed.txt), bare as
crate/File.name. It is spelled anew where no file of specs/, proofs/ or src/ has the old one. --list prints what would be done, and what
stands for nothing either way."""
import glob
import os
import re
import sys

QUOTED = re.compile(r"`([^`\s]+)`")
BARE = re.compile(r"(?<![\w/.`-])([a-z0-9_]+/[A-Z]\w*\.[^\s,;:)`]+)")
HEAD = re.compile(r"^\s*(?:(?:abbrev|unfoldable|axiom|ruleset) )*(?:pub )?(?:(?:record|data|ruleset) )?([^\s:({]+)")
CODE = re.compile(r'^\s*(?:pub )?(?:const )?(?:extern "C" )?(?:fn|struct|enum|const|type) (\w+)')


def snake(word):
    return re.sub(r"(?<=[a-z0-9])[A-Z]", lambda found: "_" + found.group(0).lower(), word.replace("getD", "get_or")).replace("-", "_")


def parts_snake(word):
    return "-".join(map(snake, word.split("-")))


def defined():
    """Every name that a file of the crates declares."""
    found = set()
    for path in glob.glob("crates/*/s*/**/*.*", recursive=True) + glob.glob("crates/*/proofs/**/*.antt", recursive=True):
        head = CODE if path.endswith(".rt") else HEAD if path.endswith(".antt") else None
        if head and "/out/" not in path:
            with open(path, encoding="utf-8") as lines:
                found.update(named.group(1) for named in map(head.match, lines) if named)
    return found


def table():
    with open(os.path.join(os.path.dirname(os.path.abspath(__file__)), "respelled.tsv"), encoding="utf-8") as rows:
        return dict(row.rstrip("\n").split("\t") for row in rows)


def pages():
    # docs/CHANGES.md and docs/PORT.md speak of what was, and checks/read.py writes docs/READING.md
    docs = set(glob.glob("docs/*.md")) - {"docs/CHANGES.md", "docs/PORT.md", "docs/READING.md"}
    return ["README.md", "CONTRIBUTING.md", "crates/README.md", "checks/allowed.txt", *sorted(docs)]


def main():
    names, old = defined(), table()
    listing = "--list" in sys.argv
    missing = {}

    def respelled(name, path):
        head, mark, last = re.match(r"(.*?)((?:^|[./]|::)?)([^./:]+)$", name).groups() if re.match(r".*[^./:]$", name) else ("", "", "")
        if not last or last in names:
            return name
        for new in (old.get(last), snake(last), parts_snake(last)):
            if new and new != last and new in names:
                return head + mark + new
        if "-" in last or mark == ".":
            missing.setdefault(path, []).append(name)
        return name

    for path in [word for word in sys.argv[1:] if word != "--list"] or pages():
        with open(path, encoding="utf-8") as file:
            text = file.read()
        new = QUOTED.sub(lambda found: "`%s`" % respelled(found.group(1), path), text)
        if path.endswith(".txt"):
            new = BARE.sub(lambda found: respelled(found.group(1), path), new)
        if listing:
            for before, after in zip(text.split("\n"), new.split("\n")):
                if before != after:
                    print("%s: %s" % (path, after.strip()))
        elif new != text:
            with open(path, "w", encoding="utf-8") as file:
                file.write(new)
    if listing:
        for path, words in missing.items():
            print("%s: nothing has the name %s" % (path, ", ".join(words)))


if __name__ == "__main__":
    main()
