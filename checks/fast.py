"""The checks that need no proof, in about ten seconds: `make check-fast`, and the gate's first part.

    python3 checks/fast.py [--gate] [--root FOLDER] [NAME ..]     all of them, or those named
    python3 checks/fast.py --format                               `make format`: formats what can be formatted
    python3 checks/fast.py --list                                 their names

As many run at a time as there are processors. A tool that is not there is a failure, and told as such. --gate first installs what is lacking
(gate/needs.sh) and leaves clippy for later: it has to build, which takes more than ten seconds where nothing is built yet, so the gate runs it
beside the tests. --root looks at another folder, with this repository's scripts and settings.

Prints a last line `N passed, M failed`: the counts of a script that ends with such a line, and else one for each check."""
import os
import re
import shutil
import subprocess
import sys
import time
from concurrent.futures import ThreadPoolExecutor

ROOT = os.path.dirname(os.path.dirname(os.path.abspath(__file__)))
PROCESSORS = len(os.sched_getaffinity(0))
LEFT_OUT = {".git", "target", "out", "__pycache__"}
COUNTS = re.compile(r"^(\d+) passed, (\d+) failed$")
CARGO = re.compile(r"(\d+) passed; (\d+) failed")
# The packages of Debian that needs_linters installs; rustfmt and clippy belong to Rust. And how long fetching may take, in seconds.
PACKAGES = ("flake8", "clang-format", "shellcheck")
FETCHING = 300


def counted(status, lines):
    """How many passed and failed, by what was printed and the exit status: by the last line of a script, or cargo's lines, or else one."""
    last = COUNTS.match(lines[-1]) if lines else None
    found = [CARGO.search(line) for line in lines if line.startswith("test result:")]
    rows = [last] if last else [row for row in found if row]
    passed = sum(int(row.group(1)) for row in rows) if rows else 1
    failed = sum(int(row.group(2)) for row in rows)
    if status != 0 and failed == 0:
        return (passed, 1) if rows else (0, 1)
    return passed, failed


def files(root, ends, interpreter=None):
    """The files below a folder whose names end so, or whose first line names the interpreter."""
    found = []
    for folder, folders, names in os.walk(root):
        folders[:] = sorted(set(folders) - LEFT_OUT)
        for name in sorted(names):
            path = os.path.join(folder, name)
            if name.endswith(ends) or interpreter and "." not in name and begins(path, interpreter):
                found.append(os.path.relpath(path, root))
    return found


def begins(path, interpreter):
    with open(path, "rb") as file:
        first = file.readline(80)
    return first.startswith(b"#!") and first.split()[-1].split(b"/")[-1] == interpreter


def script(name):
    return lambda root: [["python3", os.path.join(ROOT, name)]]


def layout(root):
    """By the formatter that `rt fmt` runs in a crate's folder, which only lays out; it stands beside rt."""
    rattle = os.path.join(os.path.dirname(os.path.realpath(shutil.which("rt"))), "rattle")
    return [[rattle, "fmt", "--check", *files(root, (".rt", ".antt"))]]


def python(root):
    return [["flake8", "--config", os.path.join(ROOT, ".flake8"), *files(root, ".py", b"python3")]]


def rust(root):
    return [["rustfmt", "--edition", "2021", "--color", "never", "--check", *files(root, ".rs")]]


def clippy(root):
    """Of every crate; with its stand-in for the proved library, where it has one."""
    commands = []
    for path in files(root, "Cargo.toml"):
        with open(os.path.join(root, path), encoding="utf-8") as file:
            mock = ["--features", "mock"] if re.search("(?m)^mock = ", file.read()) else []
        commands.append(["cargo", "clippy", "--offline", "--quiet", "--all-targets", *mock, "--manifest-path", path, "--", "-D", "warnings"])
    return commands


def c(root):
    return [["clang-format", "--style=file:" + os.path.join(ROOT, ".clang-format"), "--dry-run", "-Werror", *files(root, (".c", ".h", ".cpp", ".hpp"))]]


def shell(root):
    return [["shellcheck", "-x", *files(root, ".sh", b"sh")]]


def planted(*names):
    return lambda root: [["python3", os.path.join(ROOT, "checks/linters.py"), *names]]


# By name: what it looks at, its commands for a folder, and the programs that it needs. The longest come first.
CHECKS = {
    "python": ("Python", python, ["flake8"]),
    "clippy": ("warnings of Rust", clippy, ["cargo", "cargo-clippy"]),
    "unused": ("nothing that serves nothing", script("checks/unused.py"), []),
    "linters": ("the checks on planted faults", planted(), []),
    "linters-clippy": ("clippy on a planted fault", planted("clippy"), []),
    "layout": ("layout of the crates", layout, ["rt"]),
    "contracts": ("contracts that leave nothing open", script("checks/contracts.py"), []),
    "c": ("layout of C and C++", c, ["clang-format"]),
    "shell": ("shell scripts", shell, ["shellcheck"]),
    "rust": ("layout of Rust", rust, ["rustfmt"]),
    "read": ("what has to be read", script("checks/read.py"), []),
    "promises": ("names and links in the pages", script("checks/promises.py"), []),
    "layers": ("crates by layer, definitions by name", script("checks/layers.py"), []),
    "planted": ("contracts and uses on planted faults", script("checks/planted.py"), []),
    "types": ("nodes, shards and views by their types", script("checks/types.py"), []),
    "proofs": ("proof text that does not grow", script("checks/proofs.py"), []),
    "judge": ("the judge of wrong programs", script("gate/judge.py"), []),
}
NEEDS_BUILD = {"clippy", "linters-clippy"}
ENVIRONMENT = dict(
    os.environ,
    CARGO_TARGET_DIR=os.path.join(ROOT, "target", "clippy"),
    CARGO_INCREMENTAL="0",
    CARGO_PROFILE_DEV_DEBUG="0",
)


def lacking(tools):
    for tool in tools:
        if not shutil.which(tool):
            yield "%s is not there%s" % (tool, ": apt-get install %s" % tool if tool in PACKAGES else "")


def run(name, root):
    """(name, seconds, passed, failed, what was printed)."""
    _, commands, tools = CHECKS[name]
    began, said, passed, failed = time.time(), list(lacking(tools)), 0, 0
    if said:
        return name, 0.0, 0, 1, "\n".join(said) + "\n"
    for command in commands(root):
        done = subprocess.run(command, cwd=root, env=ENVIRONMENT, stdout=subprocess.PIPE, stderr=subprocess.STDOUT, text=True, errors="replace")
        good, bad = counted(done.returncode, [line.strip() for line in done.stdout.splitlines()])
        passed, failed = passed + good, failed + bad
        said.append(done.stdout)
    return name, time.time() - began, passed, failed, "".join(said)


def install():
    subprocess.run(["sh", "-c", ". gate/needs.sh; needs_linters %d" % FETCHING], cwd=ROOT, check=False)


def formatted(root):
    """Formats, and says what could not be."""
    fails = [fault for name in ("layout", "rust", "c") for fault in lacking(CHECKS[name][2])]
    if fails:
        sys.exit("\n".join(fails))
    crates = ["--write" if word == "--check" else word for word in layout(root)[0]]
    for command in (crates, [word for word in rust(root)[0] if word != "--check"], ["-i" if word == "--dry-run" else word for word in c(root)[0]]):
        fails += [os.path.basename(command[0])] * bool(subprocess.run(command, cwd=root).returncode)
    sys.exit("failed: %s" % ", ".join(fails) if fails else 0)


def main():
    words, root = sys.argv[1:], ROOT
    if "--root" in words:
        at = words.index("--root")
        root = os.path.abspath(words[at + 1])
        del words[at : at + 2]
    if "--list" in words:
        for name, (about, _, _) in CHECKS.items():
            print("%-16s %s" % (name, about))
        return
    if "--format" in words:
        formatted(root)
    if "--gate" in words:
        install()
    names = [word for word in words if word != "--gate"] or [name for name in CHECKS if "--gate" not in words or name not in NEEDS_BUILD]
    unknown = [name for name in names if name not in CHECKS]
    if unknown:
        sys.exit("no check has the name %s: --list" % unknown[0])
    began = time.time()
    with ThreadPoolExecutor(PROCESSORS) as pool:
        results = list(pool.map(lambda name: run(name, root), names))
    for name, _, _, failed, said in results:
        if failed:
            print("== %s: %s\n%s" % (name, CHECKS[name][0], said), end="")
    for name, seconds, passed, failed, _ in results:
        print("%6.1f %5d %4d  %s" % (seconds, passed, failed, CHECKS[name][0]))
    print("%6.1f seconds in all" % (time.time() - began))
    passed, failed = (sum(result[at] for result in results) for at in (2, 3))
    print("%d passed, %d failed" % (passed, failed))
    sys.exit(1 if failed else 0)


if __name__ == "__main__":
    main()
