"""Tests of examples/cluster with real processes: run.py FOLDER, where run.sh has built them.

Three lanes at once, each mostly waiting: the stories; two courses of restarts, with at least RESTARTS and KILLS together; and machines that leave a
duty out, which stories and courses must find. The last line is `N passed, M failed`."""
import os
import re
import subprocess
import sys
import threading
import time

from restarts import HEADER

HERE = os.path.dirname(os.path.abspath(__file__))
RESTARTS, KILLS, COURSES = 60, 200, 2
# What is left out, and the story or course that must find it.
FAULTS = [
    ("LEAVE_STORE_SYNC", ["stories.py", "unsynced"]),
    ("LEAVE_SERVE_LATE", ["stories.py", "stray_kept"]),
    ("LEAVE_SETTLE", ["stories.py", "stray_kept"]),
    ("LEAVE_SETTLE", ["stories.py", "succeeded_needed"]),
    ("LEAVE_ALL_STORED", ["restarts.py"]),
    ("LEAVE_FETCHED_SYNC", ["restarts.py"]),
]
COUNTS = re.compile(r"^(\d+) passed, (\d+) failed$")
SAYING = threading.Lock()


class Count:
    passed = failed = restarts = kills = 0


def run(command, **environment):
    """Runs a command; gives its lines and its counts."""
    done = subprocess.run([sys.executable] + command, stdout=subprocess.PIPE, stderr=subprocess.STDOUT, text=True, errors="replace",
                          env=dict(os.environ, **environment))
    lines = done.stdout.strip().split("\n")
    counts = COUNTS.match(lines[-1])
    return lines, (int(counts.group(1)), int(counts.group(2))) if counts else (0, 1)


def tell(what, passed, failed, lines, began):
    with SAYING:
        print("%s  %s, %.1f s" % ("FAILED" if failed else "ok    ", what, time.monotonic() - began))
        for line in lines:
            print("        " + line)
        sys.stdout.flush()
        Count.passed += passed
        Count.failed += failed


def stories(folder):
    began = time.monotonic()
    lines, counts = run([HERE + "/stories.py", folder + "/restart-cluster", folder + "/power.so"])
    tell("stories", *counts, lines[:-1], began)


def course(folder, seed):
    began = time.monotonic()
    lines, counts = run([HERE + "/restarts.py", folder + "/restart-cluster", folder + "/power.so", str(-(-RESTARTS // COURSES)),
                         str(-(-KILLS // COURSES)), "0", str(seed), "0", str(seed - 1), str(COURSES)])
    found = re.search(r"(\d+) restarts, (\d+) kills", "\n".join(lines))
    with SAYING:
        Count.restarts += int(found.group(1)) if found else 0
        Count.kills += int(found.group(2)) if found else 0
    tell("restarts, course %d" % seed, *counts, lines[:-1], began)


def faults(folder):
    with open(HEADER) as file:
        leaves = re.findall(r"^ *X\((LEAVE_\w+)", file.read(), re.M)
    for name, (script, *story) in FAULTS:
        began = time.monotonic()
        command = [HERE + "/" + script, folder + "/restart-cluster-faulty", folder + "/power.so"]
        command += [] if story else ["30", "100", "0", "1"]
        lines, (_, failed) = run(command + [str(1 << leaves.index(name))] + story, CLUSTER_LIMIT="6")
        told = [line for line in lines if "FAILED" in line] if failed else lines
        tell("%s is found by %s" % (name, " ".join([script] + story)), int(failed > 0), int(failed == 0), [line[:200] for line in told], began)


def lane(work, *arguments):
    """A thread for this work; what stops it is a failure."""
    def whole():
        try:
            work(*arguments)
        except Exception as error:
            tell("%s: %r" % (work.__name__, error), 0, 1, [], time.monotonic())
    return threading.Thread(target=whole)


def main():
    folder = os.path.abspath(sys.argv[1])
    lanes = [lane(stories, folder), lane(faults, folder)] + [lane(course, folder, seed) for seed in range(1, COURSES + 1)]
    for thread in lanes:
        thread.start()
    for thread in lanes:
        thread.join()
    enough = Count.restarts >= RESTARTS and Count.kills >= KILLS
    print("%s  %d restarts, %d kills" % ("ok    " if enough else "FAILED", Count.restarts, Count.kills))
    passed, failed = Count.passed + enough, Count.failed + (not enough)
    print("%d passed, %d failed" % (passed, failed))
    sys.exit(1 if failed else 0)


main()
