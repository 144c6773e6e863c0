"""Run the comparisons with fresh seeds until the time is over: fuzz.py SECONDS [mock].

A round is one call of each program: messages, flat, events, pages, previews, games, rounds, arrivals, plans, runs, mondays and sheets. The first
that finds a difference has printed its input and how to make it again, and ends all. With `mock` the reference stands in for the library,
`restart`, `mondays` and `sheet`. The last line is `N passed, M failed`, counted by rounds of a program."""
import os
import secrets
import subprocess
import sys
import time

ROOT = os.path.dirname(os.path.dirname(os.path.dirname(os.path.abspath(__file__))))
TARGET = os.path.join(ROOT, "target")
CARGO = os.path.join(TARGET, "cargo")
PROGRAMS = ("restart", "mondays", "sheet")
ENVIRONMENT = dict(os.environ, CARGO_TARGET_DIR=CARGO, RESTART_LIB_DIR=os.path.join(TARGET, "staticlib"))


def cargo(folder, *words):
    return ["cargo", "build", "--release", "--offline", "--quiet", "--manifest-path", folder + "/Cargo.toml", *words]


def build(mock):
    """Makes the programs and gives what a round calls, the seed left out."""
    release = os.path.join(CARGO, "release")
    if mock:
        commands = [cargo("reference"), cargo("tests/compare", "--bins", "--features", "mock")]
        restart, mondays, sheet = [os.path.join(release, name + "-reference") for name in PROGRAMS]
    else:
        commands = [[sys.executable, "gate/prove.py", "c_planner", *PROGRAMS], cargo("tests/compare", "--bins")]
        restart, mondays, sheet = [os.path.join(TARGET, "bin", name) for name in PROGRAMS]
    for command in commands:
        done = subprocess.run(command, cwd=ROOT, env=ENVIRONMENT, stdout=subprocess.PIPE, stderr=subprocess.STDOUT, text=True, errors="replace")
        if done.returncode != 0:
            sys.exit(done.stdout + "not built: " + " ".join(command))
    return [
        ([os.path.join(release, "messages")], ["9000"]),
        ([os.path.join(release, "flat")], ["9000"]),
        ([os.path.join(release, "events")], ["200"]),
        ([os.path.join(release, "pages")], ["40"]),
        ([os.path.join(release, "previews")], ["40", "60"]),
        ([os.path.join(release, "games")], ["400"]),
        ([os.path.join(release, "rounds")], ["40", "60"]),
        ([os.path.join(release, "arrivals")], ["400", "300"]),
        ([os.path.join(release, "plans")], ["900", "100"]),
        ([os.path.join(release, "runs"), restart], ["300"]),
        ([os.path.join(release, "mondays"), mondays], ["200"]),
        ([os.path.join(release, "sheets"), sheet], ["200"]),
    ]


def main():
    seconds, mock = float(sys.argv[1]), "mock" in sys.argv[2:]
    programs = build(mock)
    end = time.time() + seconds
    passed = 0
    while time.time() < end:
        for program, counts in programs:
            seed = str(secrets.randbits(48))
            done = subprocess.run([*program, seed, *counts], cwd=ROOT, stdout=subprocess.PIPE, stderr=subprocess.STDOUT, text=True, errors="replace")
            if done.returncode != 0:
                print(done.stdout)
                print("found by: %s" % " ".join([*program, seed, *counts]))
                print("%d passed, 1 failed" % passed)
                sys.exit(1)
            passed += 1
    print("%d passed, 0 failed" % passed)


main()
