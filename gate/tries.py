"""Checks a crate with wrong programs in it, over what is proved in this checkout, and gives what the check prints. The crates below it stand as
`rt ci`, `rt lib` or `rt check` built them; what the crate's own check keeps in out/ is read where it is there, and never written."""
import difflib
import os
import re
import shutil
import subprocess
import sys
import tempfile
import time
from concurrent.futures import ThreadPoolExecutor

import prove

sys.path.append(os.path.join(os.path.dirname(os.path.abspath(__file__)), "..", "checks"))

from sources import programs_of, read

# What a check takes of memory, at most: so many run at a time.
MEMORY = 3 << 30


def at_a_time():
    with open("/proc/meminfo", encoding="utf-8") as lines:
        spare = next(int(line.split()[1]) for line in lines if line.startswith("MemAvailable")) * 1024
    return max(1, min(len(os.sched_getaffinity(0)), spare // MEMORY))


# An error in a proof file that cites a name which rattle made of the code and makes no more, and the names that stand near it.
STALE = re.compile(r"^(?:\./)?(proofs/\S+\.antt):\d+:\d+: error: .*has no (?:field )?`([^`]+)`(.*)")
ASKED = re.compile(r"^help: `\w+` has no `([^`]+)`; rattle asks for (.*)")
NAME = re.compile(r"[\w'-]+")
# what rattle always calls so
FIXED = {"before", "args", "ranges", "requires", "well_formed", "lifetimes", "did", "you", "mean", "nearest", "names", "in", "it", "that", "begin", "alike"}


def swapped(path):
    """The words that the programs of a file put in the place of others: (word, word in its place)."""
    for program in programs_of(path):
        for _, old, new in program.pairs:
            before, after = set(re.findall(r"\w+", old)), set(re.findall(r"\w+", new))
            yield from ((word, other) for word in before - after for other in after - before)


def renamed(lines, cited, swaps):
    """The names of goals and steps that a wrong program gives other names, since they are made of the code: {proof file: {name: its name now}}. A name
    now is one of those that the check offers in its place and that the file does not cite, by cited(file): with a word of the new text in the place
    of one of the old, or the nearest."""
    asked = {name: NAME.findall(rest.split(";")[0]) for name, rest in (found.groups() for found in map(ASKED.match, lines) if found)}
    found = {}
    for at, line in enumerate(lines):
        stale = STALE.match(line)
        if stale:
            file, name, rest = stale.groups()
            near = asked.get(name, []) + NAME.findall(rest.partition("(")[2])
            if lines[at + 1 : at + 2] and "the fields that can be named here are" in lines[at + 1]:
                near += re.findall(r"`([^`]+)`", lines[at + 1])
            near = [other for other in near if other not in FIXED and other not in cited(file)]
            like = [name.replace(word, other) for word, other in swaps if name.replace(word, other) in near]
            # of its kind, as a test is `if-..`
            kind = sorted({other for other in near if other.split("-")[0] == name.split("-")[0]})
            for other in (like or (kind if len(kind) == 1 else difflib.get_close_matches(name, near, 1, 0.6)))[:1]:
                found.setdefault(file, {})[name] = other
    return found


def applied(path, room):
    """Makes the replacements of a file in a copy of its crate."""
    for program in programs_of(path):
        for file, old, new in program.pairs:
            text = read("%s/%s" % (room, file))
            with open("%s/%s" % (room, file), "w", encoding="utf-8") as changed:
                changed.write(text.replace(old, new, 1))


def linked(one, other):
    """Copies a file of what is proved by a link, where that can be: a check replaces such a file, and changes none."""
    if one.endswith(".oantt"):
        try:
            return os.link(one, other)
        except OSError:
            pass
    return shutil.copy2(one, other)


class Crate:
    """A crate, and a folder with what a check of it as it stands proved: the seed of its other checks."""

    def __init__(self, rtlib, name, folder):
        self.tool, self.parts = rtlib.RATTLE, rtlib.PARTS
        self.crate = rtlib.Crate(prove.folder_of(name), prove.ROOT, {})
        self.words = self.crate.words(["--jobs", "1"], keeps=False)
        self.seed = os.path.join(folder, name)

    def begun(self):
        """Makes the seed; whether the crate is proved."""
        kept = os.path.join(self.crate.folder, "out", "incremental")
        if os.path.isdir(kept):
            shutil.copytree(kept, self.seed, copy_function=linked)
        else:
            os.makedirs(self.seed)
        return self.checked(None, self.seed).returncode == 0

    def checked(self, path, kept, names=None):
        """Checks a copy of the crate with the programs of a file, over what is kept; names, by file, are changed in its proofs."""
        with tempfile.TemporaryDirectory(prefix="wrong-") as room:
            for part in self.parts:
                if os.path.isdir("%s/%s" % (self.crate.folder, part)):
                    shutil.copytree("%s/%s" % (self.crate.folder, part), "%s/%s" % (room, part))
            if path:
                applied(path, room)
            for file, pairs in (names or {}).items():
                text = read("%s/%s" % (room, file))
                with open("%s/%s" % (room, file), "w", encoding="utf-8") as changed:
                    changed.write(NAME.sub(lambda found: pairs.get(found.group(), found.group()), text))
            command = [self.tool, "check", *self.words, "--incremental", kept]
            return subprocess.run(command, cwd=room, stdin=subprocess.DEVNULL, stdout=subprocess.PIPE, stderr=subprocess.STDOUT, text=True, errors="replace")

    def cited(self, file):
        return set(NAME.findall(read("%s/%s" % (self.crate.folder, file))))

    def tried(self, path, satisfied):
        """What the check prints of the crate with the programs of a file, and its status. Where a program gives goals and steps other names, the proofs
        follow it, some times at most, and the check is made again, until what it prints is satisfying."""
        with tempfile.TemporaryDirectory(prefix="wrong-") as kept:
            shutil.copytree(self.seed, kept + "/seed", copy_function=linked)
            names, swaps = {}, list(swapped(path))
            for _ in range(5):
                done = self.checked(path, kept + "/seed", names)
                lines = done.stdout.split("\n")
                more = {} if satisfied(lines) else renamed(lines, self.cited, swaps)
                for file, pairs in more.items():
                    more[file] = {old: new for old, new in pairs.items() if old not in names.get(file, {})}
                if not any(more.values()):
                    break
                for file, pairs in more.items():
                    names.setdefault(file, {}).update(pairs)
            return lines, done.returncode


def judge(paths, judged, logs=None):
    """Tries files of wrong programs, and judges each by judged(crate, path, lines): how many passed and failed. Says what shows nothing. In the
    folder logs it leaves what each check printed."""
    passed = failed = 0
    rtlib = prove.tools()
    names = sorted({path.split("/")[-3] for path in paths})
    with tempfile.TemporaryDirectory(prefix="wrong-") as folder, ThreadPoolExecutor(at_a_time()) as pool:
        crates = {name: Crate(rtlib, name, folder) for name in names}
        begun = dict(zip(names, pool.map(lambda name: crates[name].begun(), names)))

        def work(path):
            name, began = path.split("/")[-3], time.time()

            def satisfied(lines):
                return not any(reason for _, _, reason in judged(name, path, lines))

            return (*(crates[name].tried(path, satisfied) if begun[name] else ([], None)), time.time() - began)

        for path, (lines, status, seconds) in zip(paths, pool.map(work, paths)):
            name, label = path.split("/")[-3], os.path.basename(path)[: -len(".edit")]
            if logs:
                os.makedirs("%s/%s" % (logs, name), exist_ok=True)
                with open("%s/%s/%s.log" % (logs, name, label), "w", encoding="utf-8") as log:
                    log.write("\n".join(lines))
            if status is None:
                failed += 1
                print("%s: its crate is not proved over the libraries that are there" % path)
                continue
            good = bad = 0
            for program, _, reason in judged(name, path, lines):
                good, bad = good + (reason is None), bad + (reason is not None)
                if reason:
                    print("%s/%s: %s %s" % (name, label, program, reason))
            passed, failed = passed + good, failed + bad
            print("%6.1f %5d %4d  %s/%s" % (seconds, good, bad, name, label), flush=True)
    return passed, failed
