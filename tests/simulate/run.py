"""Ten thousand restarts of simulated stores; then all that the checks are there for: each duty left out and each wrong library must be found,
by the harm that docs/ASSUMPTIONS.md names, within so many courses; and a finding must be played again, made smaller, told and drawn. Closes with
`N passed, M failed`.

    run.py             all of it
    run.py --restarts  the restarts alone
    run.py --switches  the duties and wrong libraries alone
    run.py --table     these, as the rows of README.md"""
import os
import re
import subprocess
import sys
import time
import xml.dom.minidom

ROOT = os.path.dirname(os.path.dirname(os.path.dirname(os.path.abspath(__file__))))
FOLDER = os.path.join(ROOT, "target", "simulate")
PROGRAM = os.path.join(FOLDER, "simulate")
RESTARTS = 10000
FOUND = re.compile(r"^seed (\d+): ([a-z-]+): (.*)$", re.M)

LOSS = "lost,changed,back,two-views"
# What is left out, the courses within which it must be found, and what counts as found.
LEFT_OUT = [
    ("serve-late", 300, LOSS),
    ("two-leaders", 300, "stuck"),
    ("tags", 300, LOSS + ",lacking"),
    ("late-report", 300, "stuck"),
    ("fetched-sync", 300, "lost"),
    ("prepared-sync", 300, LOSS + ",stuck"),
    ("no-targets", 300, "stuck"),
    ("torn", 600, LOSS),
    ("old-image", 300, LOSS),
    ("begun-again", 300, LOSS),
    ("short", 300, "stuck"),
    ("base-target", 300, "lost"),
    ("base-cut", 300, LOSS),
    ("pack-sure", 300, LOSS),
    ("holder-serves", 300, "stuck"),
    ("drop", 300, "stuck"),
    ("high-view", 300, "stuck"),
    ("view-once", 300, "changed"),
    ("desk", 300, "stuck"),
    ("sound-change", 600, LOSS + ",stuck"),
    ("covers", 300, "lost"),
    ("beside", 300, LOSS + ",stuck"),
    ("not-carried", 300, LOSS + ",stuck"),
    ("copy-deleted", 600, LOSS + ",lacking"),
    ("settle", 300, LOSS + ",stuck"),
    ("lists", 300, LOSS + ",stuck"),
    ("undecided", 300, LOSS),
    ("all-stored", 300, "lost"),
    ("store-sync", 300, "lost"),
    ("other-shards", 300, "lost"),
    ("role", 300, "shown"),
]
# The same of a wrong library.
SPOILED = [
    ("cut", 300, LOSS),
    ("holder", 300, LOSS + ",stuck"),
    ("target", 300, "lost"),
    ("majority", 300, LOSS),
    ("kept", 300, LOSS),
    ("places", 300, "stuck"),
    ("open", 300, LOSS + ",stuck"),
]
# What no row above shows: that the other checks find something too.
CHECKS = [
    ("--leave-out", "base-cut", "back", 400),
    ("--spoil", "majority", "unruled", 100),
    ("--leave-out", "base-cut", "wrong-copy", 100),
    ("--spoil", "memory", "wrong-bytes", 40),
    ("--spoil", "plan", "two-plans", 40),
]
# Rare stories, to which few machines come soonest, by the power alone or by what comes late.
POWER = ["--without", "lose,double,delay,kill,still,image,corrupt,settings,slow,wiped"]
LATE = ["--without", "lose,still,image,corrupt,settings,wiped,slow"]
MORE = {"lists": ["--machines", "7", *POWER], "undecided": ["--machines", "4", *POWER], "copy-deleted": ["--machines", "4", *LATE]}


def run(*words):
    done = subprocess.run([PROGRAM, *words], stdout=subprocess.PIPE, stderr=subprocess.STDOUT, text=True)
    return done.returncode, done.stdout


class Tally:
    def __init__(self):
        self.passed = self.failed = 0

    def add(self, right):
        self.passed, self.failed = self.passed + bool(right), self.failed + (not right)


def restarts(tally):
    began = time.time()
    status, text = run("--restarts", str(RESTARTS), "--seed", "1")
    print("%s%.1f s" % (text, time.time() - began))
    tally.add(status == 0)
    missing = re.search(r"stops at (\d+) of (\d+) named steps", text)
    tally.add(missing and missing.group(1) == missing.group(2))


def replays(tally):
    """A seed gives the same course alone and among others."""
    among = dict(line.split() for line in run("--seed", "1", "--courses", "20", "--sums")[1].splitlines()[:20])
    for seed in ("3", "11", "20"):
        alone = run("--seed", seed, "--courses", "1", "--sums")[1].split()[1]
        tally.add(alone == among[seed])
        if alone != among[seed]:
            print("!! seed %s is another course alone" % seed)


def switches(tally, table):
    names = [line.split(" ", 2) for line in run("--names")[1].splitlines()]
    texts = {words[1]: words[2] for words in names if len(words) == 3}
    for option, rows in (("--leave-out", LEFT_OUT), ("--spoil", SPOILED)):
        for name, courses, kinds in rows:
            began = time.time()
            status, text = run(option, name, "--courses", str(courses), "--seed", "1", "--for", kinds, *MORE.get(name, []))
            found = FOUND.search(text)
            right = status == 1 and found is not None
            tally.add(right)
            if table:
                print("| `%s` | %s | %s | %s | %d |" % (name, texts[name], found.group(2), found.group(1), courses))
            elif right:
                print("   %-9s %-14s %5.2f s  seed %s: %s: %s" % (option[2:], name, time.time() - began, found.group(1), found.group(2), found.group(3)))
            else:
                print("!! %-9s %-14s nothing in %d courses\n%s" % (option[2:], name, courses, text))


def checks(tally):
    for option, name, kind, courses in CHECKS:
        found = FOUND.search(run(option, name, "--courses", str(courses), "--seed", "1", "--for", kind)[1])
        tally.add(found)
        print("%s %-11s by %s %s: %s" % ("  " if found else "!!", kind, option[2:], name, "seed %s" % found.group(1) if found else "nothing"))


def for_people(tally):
    """What is found is played again, made smaller, told and drawn."""
    words = ["python3", os.path.join(ROOT, "tests", "simulate", "people.py"), "60", "1", "--leave-out", "covers"]
    done = subprocess.run(words, stdout=subprocess.PIPE, text=True)
    drawing = re.search(r"^drawn in (.*)$", done.stdout, re.M)
    small = re.search(r"^made smaller: from (\d+) events to (\d+)", done.stdout, re.M)
    tally.add(done.returncode == 1 and "played again: the same end" in done.stdout)
    tally.add(small and int(small.group(2)) < int(small.group(1)))
    tally.add("FOUND: lost" in done.stdout)
    try:
        tally.add(xml.dom.minidom.parse(os.path.join(ROOT, drawing.group(1))).documentElement.tagName == "svg")
    except (AttributeError, OSError, xml.parsers.expat.ExpatError) as error:
        print("!! no drawing: %s" % error)
        tally.add(False)
    print("   for people: %s" % (small.group(0) if small else "!! not made smaller"))


def main():
    tally, asked = Tally(), sys.argv[1:]
    if subprocess.run(["make", "-s", "--no-print-directory", "target/simulate/simulate"], cwd=ROOT).returncode:
        sys.exit(2)
    if not asked or "--restarts" in asked:
        restarts(tally)
    if not asked:
        replays(tally)
    if not asked or "--switches" in asked or "--table" in asked:
        switches(tally, "--table" in asked)
    if not asked or "--switches" in asked:
        checks(tally)
    if not asked:
        for_people(tally)
    print("%d passed, %d failed" % (tally.passed, tally.failed))
    sys.exit(1 if tally.failed else 0)


main()
