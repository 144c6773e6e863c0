"""The checks of fast.py on planted faults: each linter finds one in a file made up here, and nothing where there is none; without its tool it fails;
and the scripts on layers, types, reading, proofs and pages find one in a tree that is this repository's but for the fault.

    linters.py [clippy]          clippy, which has to build, only where it is named

Prints a last line `N passed, M failed`."""
import os
import re
import subprocess
import sys
import tempfile

from sources import read, written

ROOT = os.path.dirname(os.path.dirname(os.path.abspath(__file__)))
FAST = os.path.join(ROOT, "checks", "fast.py")

# By check of fast.py: a file that is right, what is changed in it, and what is told then.
MANIFEST = '[package]\nname = "planted"\nversion = "0.1.0"\nedition = "2021"\n'
LINTERS = {
    "layout": ("crates/toy/src/lib.rt", "pub fn one() -> u32 {\n    1\n}\n", "    1", "  1", "lib.rt"),
    "python": ("one.py", "import os\n\nprint(os.name)\n", "print(os.name)", "print(1)", "'os' imported but unused"),
    "rust": ("one.rs", "fn main() {}\n", "{}", "{ }", "one.rs"),
    "c": ("one.c", "int one(int x)\n{\n    return x + 1;\n}\n", "x + 1", "x+1", "one.c"),
    "shell": ("one", "#!/bin/sh\nrm -f \"$1\"\n", '"$1"', "$1", "SC2086"),
    "clippy": ("src/lib.rs", "pub fn one(x: u32) -> u32 {\n    x + 1\n}\n", "x + 1", "return x + 1;", "unneeded `return`"),
}
# The tool of each.
TOOLS = {"layout": "rt", "python": "flake8", "rust": "rustfmt", "c": "clang-format", "shell": "shellcheck", "clippy": "cargo-clippy"}


def fast(name, root, **environment):
    words = [sys.executable, FAST, "--root", root, name]
    done = subprocess.run(words, env=dict(os.environ, **environment), stdout=subprocess.PIPE, stderr=subprocess.STDOUT, text=True)
    return done.returncode, done.stdout


def linted(name):
    """What goes wrong with a linter."""
    file, right, old, new, told = LINTERS[name]
    with tempfile.TemporaryDirectory() as root:
        written(os.path.join(root, "crates.txt"), "toy:\n")
        if name == "clippy":
            written(os.path.join(root, "Cargo.toml"), MANIFEST)
        written(os.path.join(root, file), right)
        status, said = fast(name, root)
        if status:
            yield "%s finds something where nothing is wrong: %s" % (name, said)
        written(os.path.join(root, file), right.replace(old, new))
        status, said = fast(name, root)
        if status != 1 or told not in said:
            yield "%s does not find what is planted: %s" % (name, said)
        status, said = fast(name, root, PATH=root)
        if status != 1 or "%s is not there" % TOOLS[name] not in said:
            yield "%s passes without its tool: %s" % (name, said)


# ---- The scripts: the repository with one file changed, and what is told then


LAST = re.findall(r"(?m)^(\w+)(?: staticlib)?:", read(os.path.join(ROOT, "crates.txt")))[-1]
NEW = r"\A"
# a script, a file, a pattern and what stands there instead (of a file that is new, its whole text), and what is told
SCRIPTS = [
    ("layers.py", ("crates.txt", r"(?m)^([a-z]\w*):", r"\1: %s" % LAST), "uses %s, which comes later" % LAST),
    ("layers.py", ("crates.txt", r"(?m)^# ([a-z]+): ", r"# \1: planted "), "where crates.txt has"),
    ("layers.py", ("crates/base_ids/specs/Planted.antt", NEW, "abbrev pub Planted : ℕ\nabbrev pub planted : ℕ\n"), "planted is defined in"),
    ("types.py", ("crates/state_rows/src/planted.rt", NEW, "pub fn planted(node: u32) {\n}\n"), "state_rows::planted::planted.node is u32"),
    ("read.py", ("docs/READING.md", r"\Z", "planted\n"), "docs/READING.md is not current"),
    ("proofs.py", ("crates/base_ids/proofs/planted/Proof.antt", NEW, "p = c%s\n" % (".before" * 31)), "31 `.before` in a row"),
    ("proofs.py", ("crates/base_ids/proofs/planted/Answers.antt", NEW, "-- %s\n" % ("x" * 1536)), "1539 characters in a line"),
    ("promises.py", ("docs/PROMISES.md", r"\Z", "\n`base_ids/Nowhere.nothing`\n"), "Nowhere.nothing"),
    ("promises.py", ("README.md", r"\Z", "\n[nowhere](docs/NOWHERE.md)\n"), "docs/NOWHERE.md"),
]


def tree(root, file):
    """The repository in a folder by links, with folders of its own only on the way to the file."""
    parts = file.split("/")
    for depth in range(len(parts)):
        folder = os.path.join(*parts[:depth]) if depth else ""
        os.makedirs(os.path.join(root, folder), exist_ok=True)
        there = os.path.join(ROOT, folder)
        for name in os.listdir(there) if os.path.isdir(there) else ():
            if name not in (parts[depth], ".git", "target", "out"):
                os.symlink(os.path.join(there, name), os.path.join(root, folder, name))


def found(script, change, told):
    file, pattern, text = change
    with tempfile.TemporaryDirectory() as root:
        tree(root, file)
        before = "" if pattern == NEW else read(os.path.join(ROOT, file))
        written(os.path.join(root, file), re.sub(pattern, lambda match: match.expand(text), before, count=1))
        words = [sys.executable, os.path.join(ROOT, "checks", script)]
        done = subprocess.run(words, cwd=root, stdout=subprocess.PIPE, stderr=subprocess.STDOUT, text=True)
        if done.returncode != 1 or told not in done.stdout:
            yield "%s does not find what is planted in %s: %s" % (script, file, done.stdout[-2000:])


def main():
    names = sys.argv[1:] or [name for name in LINTERS if name != "clippy"]
    tried = [list(linted(name)) for name in names]
    if not sys.argv[1:]:
        tried += [list(found(*case)) for case in SCRIPTS]
    for fault in sum(tried, []):
        print(fault)
    failed = sum(map(bool, tried))
    print("%d passed, %d failed" % (len(tried) - failed, failed))
    sys.exit(1 if failed else 0)


main()
