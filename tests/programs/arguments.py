"""The arguments of the programs restart, sheet and mondays: the version is that of include/restart.h, the help names what the manual page
names, any other word is told on standard error, and whatever the argument, nothing is read. Without one they do their work.

    python3 tests/programs/arguments.py [FOLDER]          of the programs in that folder, or else in target/bin

Prints a last line `N passed, M failed`."""
import os
import re
import subprocess
import sys

ROOT = os.path.dirname(os.path.dirname(os.path.dirname(os.path.abspath(__file__))))
FOLDER = os.path.abspath(sys.argv[1]) if len(sys.argv) > 1 else os.path.join(ROOT, "target", "bin")
# By program an input and what is printed for it.
PROGRAMS = {
    "restart": ("crates/restart/stdin", "crates/restart/stdout"),
    "sheet": ("examples/seven.bin", "examples/seven.sheet"),
    "mondays": ("examples/moves.bin", "examples/moves.txt"),
}
FITS, LONG = "x" * 256, "x" * 257  # a word as long as can be told, and one that is longer
FULL = "/dev/full"


def read(name):
    with open(os.path.join(ROOT, name), encoding="utf-8") as file:
        return file.read()


def run(name, *arguments, output=subprocess.PIPE):
    """(status, standard output, standard error, how many bytes were read)."""
    with open(os.path.join(ROOT, PROGRAMS[name][0]), "rb") as given:
        done = subprocess.run([os.path.join(FOLDER, name), *arguments], stdin=given, stdout=output, stderr=subprocess.PIPE, text=True)
        return done.returncode, done.stdout, done.stderr, os.lseek(given.fileno(), 0, os.SEEK_CUR)


def options(text):
    return set(re.findall(r"--\w+", text))


def faults(name):
    """What is not as it should be, one test each: a text, or None."""
    version = re.search('#define RESTART_VERSION "(.*)"', read("include/restart.h")).group(1)
    strange = "%s: unknown argument, see --help: %s\n"
    status, text, told, taken = run(name)
    expected = read(PROGRAMS[name][1])
    yield None if (status, text, told) == (0, expected, "") and taken else "without an argument: %r" % ((status, told, taken),)
    for word in (["--version"], ["--version", "--help"]):
        found = run(name, *word)
        yield None if found == (0, "%s %s\n" % (name, version), "", 0) else "%s: %r" % (word, found)
    status, text, told, taken = run(name, "--help")
    usage = text.startswith("Usage: %s < " % name) and text.endswith("See %s(1).\n" % name) and max(map(len, text.split("\n"))) < 80
    yield None if usage and (status, told, taken) == (0, "", 0) else "--help: %r" % ((status, text, told, taken),)
    page = read("man/%s.1" % name).replace("\\-", "-").partition(".SH OPTIONS\n")[2].partition(".SH ")[0]
    yield None if options(page) == options(text) == {"--help", "--version"} else "the page has %s, the help %s" % (options(page), options(text))
    for word in ("-h", "--versio", "--versions", "--HELP", "", FITS):
        found = run(name, word)
        yield None if found == (0, "", strange % (name, word), 0) else "%r: %r" % (word, found)
    for words, shown in ([[LONG], ""], [["input.bin", "--version"], "input.bin"]):
        found = run(name, *words)
        yield None if found == (0, "", strange % (name, shown), 0) else "%r: %r" % (words, found)
    if os.path.exists(FULL):
        with open(FULL, "w") as full:
            status, _, told, taken = run(name, "--help", output=full)
        yield None if told.startswith("%s: standard output: " % name) and taken == 0 else "--help where nothing can be written: %r" % told


def main():
    found = [(name, fault) for name in PROGRAMS for fault in faults(name)]
    for name, fault in found:
        if fault:
            print("%s, %s" % (name, fault))
    failed = sum(fault is not None for _, fault in found)
    print("%d passed, %d failed" % (len(found) - failed, failed))
    sys.exit(1 if failed else 0)


main()
