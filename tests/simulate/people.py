"""Runs the simulation for people: `make simulate SECONDS=600 SEED=1`.

    people.py SECONDS SEED [options of target/simulate/simulate]

Shows progress. A finding is played again, made smaller (fewer machines, rounds, kinds of faults and single faults), told in words and
drawn: target/simulate/seed-N.log and seed-N.svg. Ends with 1 then, else with 0."""
import os
import re
import subprocess
import sys
import time

import story

ROOT = os.path.dirname(os.path.dirname(os.path.dirname(os.path.abspath(__file__))))
FOLDER = os.path.join(ROOT, "target", "simulate")
PROGRAM = os.path.join(FOLDER, "simulate")
FOUND = re.compile(r"^seed (\d+): ([a-z-]+): (.*)$", re.M)
END = re.compile(r"^round (\d+), faults (\d+), events (\d+), sum ([0-9a-f]+)$", re.M)
LONGEST = 60  # seconds that making it smaller may take
KINDS = ["lose", "double", "delay", "late", "kill", "power", "still", "image", "wiped", "away", "slow", "change", "corrupt"]


class Finding:
    """What one course has found, and how it is played again."""

    def __init__(self, seed, machines=None, rounds=None, skip=(), without=(), mute=()):
        self.seed, self.machines, self.rounds = seed, machines, rounds
        self.skip, self.without, self.mute = frozenset(skip), frozenset(without), frozenset(mute)
        self.kind = self.text = self.sum = None
        self.round = self.faults = self.events = 0

    def options(self):
        words = ["--seed", str(self.seed)]
        if self.machines:
            words += ["--machines", str(self.machines)]
        if self.rounds:
            words += ["--rounds", str(self.rounds)]
        for name, items in (("--skip", sorted(self.skip)), ("--without", sorted(self.without)), ("--mute", sorted(self.mute))):
            if items:
                words += [name, ",".join(str(item) for item in items)]
        return words

    def play(self, more, log=None):
        """Plays it and keeps what was found; gives the kind, None if there is none."""
        words = [PROGRAM, *self.options(), *more] + (["--log", log] if log else [])
        text = subprocess.run(words, stdout=subprocess.PIPE, text=True).stdout
        found, end = FOUND.search(text), END.search(text)
        self.kind = self.text = self.sum = None
        if found and end:
            self.kind, self.text = found.group(2), found.group(3)
            self.round, self.faults, self.events, self.sum = int(end.group(1)), int(end.group(2)), int(end.group(3)), end.group(4)
        return self.kind

    def but(self, **changes):
        all_of_it = dict(seed=self.seed, machines=self.machines, rounds=self.rounds, skip=self.skip, without=self.without, mute=self.mute)
        all_of_it.update(changes)
        return Finding(**all_of_it)


def smaller(finding, more, machines):
    """The same finding in a smaller course."""
    until, kind = time.time() + LONGEST, finding.kind

    def tried(**changes):
        nonlocal finding
        if time.time() > until:
            return False
        other = finding.but(**changes)
        if other.play(more) != kind:
            return False
        finding = other
        return True

    tried(rounds=finding.round + 1)
    for count in range(3, machines):
        # by this seed, or else by another one that finds the same among so few machines
        if tried(machines=count, rounds=None) or any(tried(machines=count, rounds=None, seed=seed) for seed in range(1, 40)):
            tried(rounds=finding.round + 1)
            break
    for number in range(finding.round):
        tried(skip=finding.skip | {number})
    for name in KINDS:
        tried(without=finding.without | {name})
    # single faults: halves, quarters and so on
    size = max(1, finding.faults // 2)
    while size >= 1 and time.time() < until:
        for first in range(0, finding.faults, size):
            some = set(range(first, min(first + size, finding.faults)))
            if some - finding.mute:
                tried(mute=finding.mute | some)
        size //= 2
    for number in range(finding.round):
        if number not in finding.skip:
            tried(skip=finding.skip | {number})
    return finding


def apart(more):
    """The options that are made smaller, and the others."""
    own, others, words = {}, [], iter(more)
    for word in words:
        if word in ("--machines", "--rounds"):
            own[word[2:]] = int(next(words))
        elif word == "--without":
            own["without"] = next(words).split(",")
        else:
            others.append(word)
    return own, others


def tell(seed, more):
    own, more = apart(more)
    finding = Finding(seed, **own)
    finding.play(more)
    first = finding.sum
    again = Finding(seed, **own)
    log = os.path.join(FOLDER, "seed-%d.log" % seed)
    again.play(more, log)
    print("played again: %s" % ("the same end" if again.sum == first and first else "ANOTHER END"))
    machines = int(next(line for line in story.read(log) if line.verb == "store").words[0])
    small = smaller(again, more, machines)
    small.play(more, log)
    lines = story.read(log)
    machines = next(line for line in lines if line.verb == "store").words[0]
    print("made smaller: from %d events to %d, %s machines, %d of %d rounds" % (
        again.events, small.events, machines, small.round + 1 - len(small.skip), small.round + 1))
    print("to play it: target/simulate/simulate %s --log FILE" % " ".join(small.options() + more))
    print()
    print("\n".join(story.words(lines)))
    drawing = os.path.join(FOLDER, "seed-%d.svg" % seed)
    with open(drawing, "w") as file:
        file.write(story.draw(lines))
    print("\ndrawn in %s" % os.path.relpath(drawing, ROOT))


def main():
    if len(sys.argv) < 3:
        sys.exit(__doc__)
    seconds, seed, more = sys.argv[1], sys.argv[2], sys.argv[3:]
    process = subprocess.Popen([PROGRAM, "--seconds", seconds, "--seed", seed, "--progress", *more], stdout=subprocess.PIPE, text=True)
    found = None
    for line in process.stdout:
        print(line, end="", flush=True)
        found = FOUND.match(line) or found
    if process.wait() == 0:
        return
    if found:
        tell(int(found.group(1)), more)
    sys.exit(1)


if __name__ == "__main__":
    main()
