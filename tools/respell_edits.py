#!/usr/bin/env python3
"""Brings the wrong programs (crates/NAME/must-fail/*.edit and crates/NAME/wrong/*.edit) to the spelling of today's sources.

usage: python3 tools/respell_edits.py           at the top of the repository, once, after port.py, respell.py and `rt fmt`
       python3 tools/respell_edits.py --check   each edit applies to the sources as they stand, and names what is there
       python3 tools/respell_edits.py --pairs   prints each pair whose text is no longer the one of LANDED, old beside new

Each pair of texts is taken as it was in LANDED (docs/PORT.md). The old text is kept where its file has it once and it holds no name of ours;
else its names are spelled by tools/respelled.tsv and its projections written tight; else the line of today's file that stands for the line of
LANDED is looked up, and the stretch of it that stands for the text is taken. The new text is spelled alike. A pair that none of these fit is
left as it was and named; it is then written by hand."""
import difflib
import glob
import os
import re
import subprocess
import sys

TOKEN = re.compile(r"\s+|\"(?:[^\"\\]|\\.)*\"|[^\s(){}.;,@\"«»\[\]:]+|.")
WORD = re.compile(r"[^\s(){}.;,@\"«»\[\]:]+")


def read(path):
    with open(path, encoding="utf-8", newline="") as f:
        return f.read()


def landed_commit():
    return re.match(r"LANDED: (\w+)", read("docs/PORT.md"))[1]


def at_landed(path, kept={}):
    if path not in kept:
        out = subprocess.run(["git", "show", "%s:%s" % (kept.setdefault("", landed_commit()), path)], capture_output=True)
        kept[path] = out.stdout.decode() if out.returncode == 0 else None
    return kept[path]


def pairs_of(text):
    """The lines of an edit, and of each pair (number of the line of its old text, of its new text, file)."""
    lines, found, file, old = text.split("\n"), [], None, None
    for i, line in enumerate(lines):
        if line.startswith("file: "):
            file = line[6:]
        elif line.startswith("old: "):
            old = i
        elif line.startswith("new:"):
            found.append((old, i, file))
    return lines, found


class Table:
    """Our old and new names: those of tools/respelled.tsv, and those that port.py had spelled in snake case before it."""

    def __init__(self):
        self.names = dict(line.split("\t") for line in read("tools/respelled.tsv").split("\n") if line)
        self.there = set()
        for path in glob.glob("crates/*/specs/**/*.antt", recursive=True) + glob.glob("crates/*/src/**/*.rt", recursive=True):
            self.there.update(WORD.findall(read(path)))

    def get(self, word, otherwise):
        if word in self.names:
            return self.names[word]
        new = re.sub(r"(?<=[a-z0-9])[A-Z]", lambda m: "_" + m.group(0).lower(), word.replace("getD", "get_or")).replace("-", "_")
        if word[:1].islower() and word not in self.there and new in self.there:
            return new
        return otherwise


ATOM = re.compile(r"[\w'\u2032]+(?:[-.][\w'\u2032]+)*$")


def atom_before(text):
    """Where the last atom of this text starts: a name with its projections, or a group in parentheses with its own; or None."""
    m = re.search(r"(?:\.[\w'\u2032-]+)*$", text)
    if text[: m.start()].endswith(")"):
        depth = 0
        for i in range(m.start() - 1, -1, -1):
            depth += (text[i] == ")") - (text[i] == "(")
            if depth == 0:
                return i
        return None
    m = ATOM.search(text)
    return m.start() if m and m.group(0) else None


def tight(text):
    """`x .f` is `x.f`, `g x .f` is `(g x).f`, and `(x .f)` as an argument is `x.f`."""
    while True:
        m = re.search(r"(?<=[^\s(]) \.(?=[\w])", text)
        if not m:
            break
        first = atom_before(text[: m.start()])
        if first is None:
            break
        start = first
        while start > 1 and text[start - 1] == " ":
            more = atom_before(text[: start - 1])
            if more is None or text[more : start - 1] in ("pub", "let", "in"):
                break
            start = more
        head = text[start : m.start()]
        text = text[:start] + (head if start == first else "(" + head + ")") + "." + text[m.end() :]
    text = re.sub(r"\(now (?:([\w']+)\.entry|\(([\w']+)\.entry\)|\(([\w'.]+)\))\)", lambda m: (m[1] or m[2] or m[3]) + ".now", text)
    at = 0
    while True:
        m = re.compile(r"\(").search(text, at)
        if not m:
            return text
        depth, end = 0, None
        for i in range(m.start(), len(text)):
            depth += (text[i] == "(") - (text[i] == ")")
            if depth == 0:
                end = i
                break
        at = m.end()
        if end is None or text[m.start() - 1 : m.start()] not in (" ", "(") or not re.search(r"\.[\w']+$", text[:end]):
            continue
        inside = text[m.start() + 1 : end]
        if atom_before(inside) == 0:
            text = text[: m.start()] + inside + text[end + 1 :]
            at = m.start()


def respell(text, names, code):
    text = re.sub(r"⌜ ?| ?⌝", "", text)

    def one(m):
        t = m.group(0)
        if t.startswith('"'):
            return t
        return t if code and "_" in t else names.get(t, t)

    if code:
        # a source has names of ours in its clauses alone: those with a capital inside or a dash
        text = re.sub(r"\"(?:[^\"\\]|\\.)*\"|[\w'-]+", one, text)
    else:
        text = TOKEN.sub(one, text)
    return tight(text)


def key(line):
    return re.sub(r"[\s().]", "", line)


def aligned(old_text, new_text, names, code, kept={}):
    """For each line of LANDED's file the line of today's that stands for it."""
    mark = (old_text, new_text)
    if mark in kept:
        return kept[mark]
    a = [key(respell(line, names, code)) for line in old_text.split("\n")]
    b = [key(line) for line in new_text.split("\n")]
    found = {}
    for tag, i1, i2, j1, j2 in difflib.SequenceMatcher(None, a, b, autojunk=False).get_opcodes():
        if tag == "equal":
            found.update(zip(range(i1, i2), range(j1, j2)))
        elif tag == "replace":
            j = j1
            for i in range(i1, i2):
                best = max(range(j, j2), key=lambda k: difflib.SequenceMatcher(None, a[i], b[k]).ratio(), default=None)
                if best is not None and difflib.SequenceMatcher(None, a[i], b[best]).ratio() > 0.6:
                    found[i] = best
                    j = best + 1
    kept[mark] = found
    return found


def stretch(old_line, at, old, new_line, names, code):
    """The part of new_line that stands for the text old at this place of old_line."""
    a = [(m.group(0), m.start()) for m in TOKEN.finditer(old_line) if not m.group(0).isspace()]
    b = [(m.group(0), m.start(), m.end()) for m in TOKEN.finditer(new_line) if not m.group(0).isspace()]
    x = [respell(t, names, code) for t, _ in a]
    y = [t for t, _, _ in b]
    inside = [i for i, (t, s) in enumerate(a) if at <= s and s + len(t) <= at + len(old)]
    pairs = {}
    for i, j, n in difflib.SequenceMatcher(None, x, y, autojunk=False).get_matching_blocks():
        pairs.update((i + k, j + k) for k in range(n))
    there = [pairs[i] for i in inside if i in pairs]
    if not there or len(there) < len(inside) / 2:
        return None
    return new_line[b[min(there)][1] : b[max(there)][2]]


def turned(path, texts, was, old, new, names):
    """The pair in today's spelling, or None."""
    code = path.endswith(".rt")
    text = texts[path]
    at = was[path].index(old)
    line = was[path][was[path].rfind("\n", 0, at) + 1 : was[path].index("\n", at)]
    bound = re.search(r"ensures \{ λ (\w+)\. ⌜", line)
    if bound:
        # what a function gives is called `result` now
        as_result = [re.sub(r"(?<![\w'.])%s(?![\w'])" % bound[1], "result", it) for it in (old, new)]
        ours = respell(as_result[0], names, code), respell(as_result[1], names, code)
        if text.count(ours[0]) == 1:
            return ours
    ours = respell(old, names, code), respell(new, names, code)
    if text.count(ours[0]) == 1:
        return ours
    if text.count(ours[0].strip()) == 1:
        return ours[0].strip(), ours[1].strip()
    if text.count(old) == 1 and ours == (old, new):
        return old, new
    at = was[path].index(old)
    start = was[path].rfind("\n", 0, at) + 1
    number = was[path].count("\n", 0, at)
    line = was[path].split("\n")[number]
    there = aligned(at_landed(path), texts[(path, "plain")], names, code).get(number)
    if there is None:
        return None
    new_line = texts[(path, "plain")].split("\n")[there]
    if text.count(ours[0]) > 1 and ours[0] in new_line and text.count(new_line.strip()) == 1:
        # it stands there twice: the whole of its line
        whole = new_line.strip()
        return whole, whole.replace(ours[0], ours[1])
    part = stretch(line, at - start, old, new_line, names, code)
    if part and text.count(part) == 1 and key(part) == key(ours[0]):
        return part, ours[1]
    return None


def files():
    return sorted(glob.glob("crates/*/must-fail/*.edit") + glob.glob("crates/*/wrong/*.edit"))


def respell_all():
    names = Table()
    kept = left = 0
    for edit in files():
        crate = "crates/%s/" % edit.split("/")[1]
        lines, pairs = pairs_of(at_landed(edit))
        texts, was = {}, {}
        for i, j, file in pairs:
            path = crate + file
            if path not in texts:
                texts[path] = texts[(path, "plain")] = read(path)
                was[path] = at_landed(path)
            old, new = lines[i][5:], lines[j][5:]
            if was[path].count(old) != 1:
                sys.exit("%s: a text did not stand once in LANDED: %s" % (edit, old))
            pair = turned(path, texts, was, old, new, names)
            if pair is None:
                left += 1
                print("%s: %s: left: %s" % (edit, file, old))
            else:
                kept += pair == (old, new)
                lines[i], lines[j] = "old: " + pair[0], "new: " + pair[1]
                texts[path] = texts[path].replace(pair[0], pair[1])
            was[path] = was[path].replace(old, new)
        with open(edit, "w", encoding="utf-8", newline="") as f:
            f.write("\n".join(lines))
    print("%d texts as they were, %d left" % (kept, left))


def check():
    """Each edit applies, and each word that it brings in stands somewhere in its file."""
    failed = programs = 0
    for edit in files():
        crate = "crates/%s/" % edit.split("/")[1]
        lines, pairs = pairs_of(read(edit))
        then = pairs_of(at_landed(edit) or "")
        if at_landed(edit) is not None:
            # what moved from specs/ to proofs/ (move_theorems.py) has its edit there
            files_of = lambda found: {re.sub(r"^(specs|proofs)/.*", "", f) for _, _, f in found}
            if files_of(pairs) != files_of(then[1]):
                failed += 1
                print("%s: its files are not those of LANDED" % edit)
            elif len(pairs) != len(then[1]):
                print("%s: %d programs, %d at LANDED" % (edit, len(pairs), len(then[1])))
            elif [l for l in lines if l.startswith("#")] != [l for l in then[0] if l.startswith("#")]:
                print("%s: its comments are not those of LANDED" % edit)
        texts = {}
        for i, j, file in pairs:
            programs += 1
            path = crate + file
            if path not in texts:
                texts[path] = read(path)
            old, new = lines[i][5:], lines[j][4:].removeprefix(" ")
            if texts[path].count(old) != 1:
                failed += 1
                print("%s: %s: %d times: %s" % (edit, file, texts[path].count(old), old))
                continue
            unknown = set(WORD.findall(new)) - set(WORD.findall(texts[path]))
            unknown = {w for w in unknown if not re.fullmatch(r"[\d_]+(u8|u32|u64|usize)?|.*[&|!?#].*", w)}
            if path.endswith(".antt"):
                # a name stands for itself where the file has it but for this text; an operator where it is imported
                rest, brought = texts[path].replace(old, ""), set(WORD.findall(new)) - set(WORD.findall(old))
                here = set(WORD.findall(re.sub(r"--.*", "", rest)))
                unknown = {w for w in brought if not w.isdigit() and w not in here and w not in ("→", "λ", "=", "⊥")}
                unknown |= {w for w in brought if re.fullmatch(r"[^\w\s]+", w) and w not in ("→", "λ", "=", "⊥") and "◌" not in w and "◌%s◌" % w not in here}
                unknown -= {x for it in re.findall(r"[A-Z]\w*(?:\.[^\s(){}.;,]+)+", new) for x in it.split(".")} | {x for it in re.findall(r"\.([\w']+)", new) for x in [it]}
            if unknown:
                print("%s: %s: words that the file does not have: %s: %s" % (edit, file, " ".join(sorted(unknown)), new))
            if old == new:
                failed += 1
                print("%s: changes nothing: %s" % (edit, old))
            texts[path] = texts[path].replace(old, new)
    print("%d files, %d programs, %d failed" % (len(files()), programs, failed))
    sys.exit(1 if failed else 0)


def show():
    for edit in files():
        lines, pairs = pairs_of(read(edit))
        then, before = pairs_of(at_landed(edit) or "")
        for (i, j, file), (k, l, _) in zip(pairs, before):
            if (lines[i], lines[j]) != (then[k], then[l]):
                print("%s %s\n  - %s\n  - %s\n  + %s\n  + %s" % (edit[7:], file, then[k], then[l], lines[i], lines[j]))


{"--check": check, "--pairs": show}.get((sys.argv + [""])[1], respell_all)()
