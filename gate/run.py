"""Run every check of the repository and close with one line `N passed, M failed`.

Each part is a command. Where what it prints has lines of that form (or cargo's `N passed; M failed`), their counts are added:
of rt and of our own scripts the last line, of cargo every one. Any other part counts as one. Of `rt ci` each wrong program
that its line `rt: ok` calls bad counts as failed too, since rt passes it. Exit status 0 only where nothing failed."""
import os
import re
import subprocess
import sys
import threading
import time

ROOT = os.path.dirname(os.path.dirname(os.path.abspath(__file__)))
sys.path.append(os.path.join(ROOT, "checks"))

from fast import counted

TARGET = os.path.join(ROOT, "target")

ENVIRONMENT = dict(
    os.environ,
    CARGO_TARGET_DIR=os.path.join(TARGET, "cargo"),
    RESTART_LIB_DIR=os.path.join(TARGET, "staticlib"),
)


def cargo(folder, *words):
    return ["cargo", words[0], "--offline", "--quiet", "--manifest-path", folder + "/Cargo.toml", *words[1:]]


def compared(name, *words):
    """A program of tests/compare."""
    return cargo("tests/compare", "run", "--release", "--bin", name, *(["--", *words] if words else []))


# What the operators' tool is tested with.
OPERATED = ["target/bin/restart", "target/bin/mondays", "target/librestart.so.1", "target/bin/sheet"]
# The first part, which has the machine to itself: it proves every crate, tries the wrong programs, and runs the programs and the crates' tests.
PROOFS = "proofs, wrong programs and runs"
# What it built is put where the tests look for it. A part that stands on this or on the library fails without being run where these failed.
BUILT, LIBRARY, FROM_C = "the programs and the archives for C", "the library for C", "the library from C"
MADE = ["restart", "mondays", "sheet", "c_planner", "c_placement"]
# The others run as many at a time as there are processors, each once the part that it names has ended, or else the first.
PARTS = [
    (PROOFS, ["rt", "ci"], None),
    (BUILT, ["python3", "gate/prove.py", "--after-ci", *MADE], PROOFS),
    (LIBRARY, ["make", "--no-print-directory", "lib"], BUILT),
    ("checks that need no proof", ["python3", "checks/fast.py", "--gate"], PROOFS),
    ("wrong programs are refused for a fact", ["python3", "gate/edits.py"], PROOFS),
    ("the reference's own tests", cargo("reference", "test", "--release"), PROOFS),
    ("tests of the comparison itself", cargo("tests/compare", "test", "--release", "--features", "mock"), PROOFS),
    ("texts and explanations for operators", ["python3", "operators/tests/run.py", *OPERATED], LIBRARY),
    ("the program restart against the reference", compared("runs", "target/bin/restart", "1", "20000"), LIBRARY),
    ("the program mondays against the reference", compared("mondays", "target/bin/mondays", "1"), LIBRARY),
    ("the program sheet against the reference", compared("sheets", "target/bin/sheet", "1"), LIBRARY),
    ("settings and messages against the reference", compared("messages"), LIBRARY),
    ("flat reports against the reference", compared("flat"), LIBRARY),
    ("events against the reference", compared("events"), LIBRARY),
    ("roles and pages against the reference", compared("pages"), LIBRARY),
    ("previews against the reference and the library's own events", compared("previews"), LIBRARY),
    ("games against the reference", compared("games"), LIBRARY),
    ("rounds against the reference and the library's own decide", compared("rounds"), LIBRARY),
    ("reports in any order, and commits by a log", compared("arrivals"), LIBRARY),
    ("plans against the reference", compared("plans"), LIBRARY),
    ("events against the peer in C, in both forms, and the reference", cargo("tests/peer", "run", "--release", "--", "20000", "1"), LIBRARY),
    ("placements against the reference", cargo("tests/placement", "run", "--release"), BUILT),
    ("cases and numbers of the programs restart and sheet", ["python3", "tests/programs/cases.py"], BUILT),
    ("arguments of the programs", ["python3", "tests/programs/arguments.py"], BUILT),
    ("ten thousand restarts of simulated stores", ["python3", "tests/simulate/run.py"], LIBRARY),
    (FROM_C, ["make", "--no-print-directory", "test-c"], LIBRARY),
    ("Debian packages", ["sh", "tests/packages/deb.sh"], FROM_C),
    ("a store of real processes, killed at every step", ["sh", "tests/cluster/run.sh"], LIBRARY),
    ("guided fuzzing of the C calls and the cluster's messages", ["make", "--no-print-directory", "fuzz-guided", "SECONDS=4"], LIBRARY),
    ("warnings of the Rust sources", ["python3", "checks/fast.py", "clippy", "linters-clippy"], PROOFS),
    ("the total search is never entered", ["make", "--no-print-directory", "-C", "tests/placement", "fallback"], BUILT),
]
PROCESSORS = len(os.sched_getaffinity(0))
# What rt ci says once all has passed, and of wrong programs that it could not try.
OK = re.compile(r"rt: ok; ")
BAD = re.compile(r"rt: ok; .*must-fail edits: \d+ refused[^;]*, (\d+) bad(;|$)")


def bad_edits(status, lines):
    """How many failures rt ci does not count: the wrong programs that could not be tried, and a run that ends well without saying so."""
    if status == 0 and not any(map(OK.match, lines)):
        return 1
    return sum(int(found.group(1)) for found in map(BAD.match, lines) if found)


class Part:
    """A part of the gate: its command, and once it has run what it printed, how many passed and failed, and how long it took."""

    def __init__(self, name, command, after):
        self.name, self.command, self.after = name, command, after
        self.passed = self.failed = self.seconds = 0
        self.skipped = False

    def head(self):
        return "== %s: %s" % (self.name, " ".join(self.command))

    def run(self, live):
        """Runs the command; what it prints is passed on as it comes, or else all of it at the end."""
        began, lines, status = time.time(), [], 1
        if live:
            say(self.head() + "\n")
        try:
            process = subprocess.Popen(
                self.command, cwd=ROOT, env=ENVIRONMENT, stdout=subprocess.PIPE, stderr=subprocess.STDOUT, text=True, errors="replace"
            )
            for line in process.stdout:
                if live:
                    say(line)
                lines.append(line)
            status = process.wait()
        except OSError as error:
            lines.append("%s\n" % error)
        self.passed, self.failed = counted(status, [line.strip() for line in lines])
        if self.name == PROOFS:
            self.failed += bad_edits(status, lines)
        self.seconds = time.time() - began
        if not live:
            say(self.head() + "\n" + "".join(lines))

    def skip(self):
        self.failed, self.skipped = 1, True
        say("%s\nnot run, since this failed: %s\n" % (self.head(), self.after))


PRINTING = threading.Lock()


def say(text):
    with PRINTING:
        print(text, end="", flush=True)


def side_by_side(parts, ended):
    """Runs the parts in their order, so many at a time, each once the one that it names has ended; ended has these by name."""
    waiting, changed = list(parts), threading.Condition()

    def work():
        while True:
            with changed:
                while waiting and not any(part.after in ended for part in waiting):
                    changed.wait()
                if not waiting:
                    return
                part = next(part for part in waiting if part.after in ended)
                waiting.remove(part)
            before = ended[part.after]
            if before.skipped or before.failed and before.name in (BUILT, LIBRARY):
                part.skip()
            else:
                part.run(live=False)
            with changed:
                ended[part.name] = part
                changed.notify_all()

    workers = [threading.Thread(target=work, daemon=True) for _ in range(PROCESSORS)]
    for worker in workers:
        worker.start()
    for worker in workers:
        worker.join()


def main():
    began = time.time()
    parts = [Part(*part) for part in PARTS]
    assert [part.name for part in parts if part.after not in {other.name for other in parts}] == [PROOFS]
    parts[0].run(live=True)
    side_by_side(parts[1:], {PROOFS: parts[0]})
    print("== seconds, passed, failed; after the first part %d run at a time" % PROCESSORS)
    for part in parts:
        print("%8.1f %6d %6d  %s" % (part.seconds, part.passed, part.failed, part.name))
    print("%8.1f seconds in all" % (time.time() - began))
    passed, failed = sum(part.passed for part in parts), sum(part.failed for part in parts)
    print("%d passed, %d failed" % (passed, failed), flush=True)
    sys.exit(1 if failed else 0)


if __name__ == "__main__":
    main()
