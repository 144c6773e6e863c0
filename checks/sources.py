"""The sources of the crates taken apart: functions, declarations of specs/, and wrong programs. What the checks and the judge of wrong programs share."""
import os
import re

FUNCTION = re.compile(r'^(\s*)(pub )?(?:extern "C" )?fn (\w+)')
USE = re.compile(r"(?:pub |ghost )*use ")
DECLARED = re.compile(r"(?:(?:pub|abbrev|unfoldable) )*(record |data |mutual\b|module\b|use |unfolding )?(\S*)")


def parts_of(text):
    """The text in parts, one for each line: (what it belongs to, the line). A line of a function belongs to its head or its body, as
    (name, whether it is public, whether it is the body); any other to None."""
    function, body, indent = None, False, ""
    for line in text.split("\n"):
        named = FUNCTION.match(line)
        if named:
            indent, function, body = named.group(1), (named.group(3), bool(named.group(2))), False
        yield (*function, body) if function else None, line
        if function and (line == indent + "{" or line.endswith("{") and line.startswith((indent + ")", indent + "fn", indent + "pub "))):
            body = True
        if line == indent + "}":
            function = None


def declarations_of(text):
    """The same for a file of specs/: (what the line belongs to, the line, the heads `module _ ..` that it stands under). A line belongs to
    a declaration, by its name, to the head of a module, by its place, or to None."""
    # a head's indent, its name, and the indent of what stands under it
    heads, open_head, owner = [], False, None
    for number, line in enumerate(text.split("\n"), 1):
        code = line.split("--")[0].rstrip()
        if not code:
            yield None, line, ()
            continue
        indent = len(code) - len(code.lstrip())
        if not open_head:
            while heads and indent <= heads[-1][0]:
                heads.pop()
            if heads and heads[-1][2] is None:
                heads[-1][2] = indent
            if indent == (heads[-1][2] if heads else 0):
                kind, name = DECLARED.match(code, indent).groups()
                if kind in ("module", "mutual"):
                    heads.append([indent, "module %d" % number, None])
                    open_head, owner = kind == "module", heads[-1][1]
                elif kind != "unfolding ":
                    owner = None if kind == "use " else name
        yield owner, line, tuple(head for _, head, _ in heads if head != owner)
        open_head = open_head and not code.endswith("where")


def read(path):
    with open(path, encoding="utf-8") as source:
        return source.read()


def module_of(file):
    """The module of a crate's code that a file under src/ holds; none where it is the root."""
    name = os.path.basename(file)[: -len(".rt")]
    return "" if name in ("lib", "main") else name


def room_of(path):
    """A crate's file of code as its functions' names have it: CRATE, or CRATE::MODULE."""
    return "::".join(filter(None, [path.split("/")[1], module_of(path)]))


def written(path, text):
    """Writes a file of a crate that is made up for a test."""
    os.makedirs(os.path.dirname(path) or ".", exist_ok=True)
    with open(path, "w", encoding="utf-8") as file:
        file.write(text)


class Program:
    """A wrong program: its name and its replacements (file, old text, new text), one after another."""

    def __init__(self, name):
        self.name, self.pairs = name, []

    def changes(self, crate):
        """The parts of the crate that it changes."""
        found = set()
        for file in {file for file, _, _ in self.pairs}:
            text = edited = read(crate.folder + file)
            for _, old, new in (pair for pair in self.pairs if pair[0] == file):
                edited = edited.replace(old, new, 1)
            lines = zip(crate.lines[file], text.split("\n"), edited.split("\n"))
            # an edit may bring a word in by a line `use`
            found.update(part for part, before, after in lines if before != after and not USE.match(before))
        return found


def programs_of(path):
    label = os.path.basename(path)[: -len(".edit")]
    several = label.startswith(("code_", "laws_"))
    programs, file, old = [], None, None
    for line in read(path).split("\n"):
        if line.startswith("# ") or (not programs and line.startswith("file: ")):
            programs.append(Program(line[2:].split(":")[0] if several else label))
        if line.startswith("file: "):
            file = line[len("file: ") :]
        elif line.startswith("old: "):
            old = line[len("old: ") :]
        elif line.startswith("new:"):
            programs[-1].pairs.append((file, old, line[len("new:") :].removeprefix(" ")))
    return programs
