#!/usr/bin/env python3
"""Writes the long lists of docs/PORT.md: for each crate the names that were spelled anew, and whole the theorems that moved to proofs/.

usage: python3 tools/port_lists.py          writes them below the line `## Lists` of docs/PORT.md

Old and new names are those of tools/renamed.tsv (crate, name at LANDED, name now: port.py's and tools/respell.py's together), moved theorems those of
tools/moved.tsv, with their statements as they stand."""
import collections
import glob
import re

NAME = r"[^\s(){}.;,@\"«»\[\]:]+"
DECLARED = re.compile(r"^( *)((?:(?:pub|abbrev|unfoldable|data|record) +)*)(%s)((?: *\{[^{}\n]*\}| *\([^()\n]*\))*) *:(?!:)" % NAME)


def read(path):
    with open(path, encoding="utf-8") as f:
        return f.read()


def rows(path):
    return [line.rstrip("\n").split("\t") for line in open(path, encoding="utf-8")]


def statement(lines, at):
    """The statement of the declaration at a line: its signature, up to the clause that defines it."""
    first = lines[at]
    indent = len(first) - len(first.lstrip())
    out = [first.strip()]
    for line in lines[at + 1 :]:
        if not line.strip() or len(line) - len(line.lstrip()) <= indent:
            break
        out.append(line.strip())
    return " ".join(out)


def heads(lines, at):
    """The heads `module _ ..` that a line stands under."""
    indent, found = len(lines[at]) - len(lines[at].lstrip()), []
    for line in reversed(lines[:at]):
        here = len(line) - len(line.lstrip())
        if line.strip() and here < indent:
            indent = here
            if line.lstrip().startswith("module _"):
                found.append(re.sub(r" where$", "", line.strip()))
    return found[::-1]


def main():
    renamed = collections.defaultdict(dict)
    for crate, old, new in rows("tools/renamed.tsv"):
        renamed[crate][old] = new
    moved = collections.defaultdict(list)
    for source, name, target in rows("tools/moved.tsv"):
        moved[target.split(".")[1]].append((source, name, target))
    out = []
    for folder in sorted(glob.glob("crates/*/src")):
        crate = folder.split("/")[1]
        names = renamed[crate]
        out.append("### %s" % crate)
        out.append("")
        if names:
            out.append("Spelled anew: %s." % ", ".join("`%s` is `%s`" % it for it in sorted(names.items())))
        else:
            out.append("No name of its own is spelled anew.")
        out.append("")
        if moved[crate]:
            out.append("Moved, statements unchanged:")
            out.append("")
            by_file = collections.OrderedDict()
            for source, name, target in moved[crate]:
                by_file.setdefault((source, target), []).append(name)
            for (source, target), found in by_file.items():
                tail = target.split(".", 3)[3].replace(".", "/")
                path = "crates/%s/proofs/%s.antt" % (crate, tail)
                lines = read(path).split("\n")
                out.append("From specs/%s.antt to proofs/%s.antt:" % (source.split(".", 3)[3].replace(".", "/"), tail))
                out.append("")
                out.append("```text")
                for name in found:
                    for at, line in enumerate(lines):
                        m = DECLARED.match(line)
                        if m and m.group(3) == name:
                            for head in heads(lines, at):
                                out.append(head + " where")
                            out.append(statement(lines, at))
                            break
                    else:
                        out.append("%s: not found" % name)
                out.append("```")
                out.append("")
    page = read("docs/PORT.md")
    at = page.find("\n## Lists\n")
    page = (page if at < 0 else page[:at]).rstrip("\n") + "\n\n## Lists\n\n" + "\n".join(out).rstrip("\n") + "\n"
    with open("docs/PORT.md", "w", encoding="utf-8") as f:
        f.write(page)


main()
