"""Proof text that an edit of the code upsets most does not grow: the longest way back through the steps of a function (`c.before.before ..`, in the
proofs that walk the code by hand) and the longest line. Where one of them is passed, the fact at its end gets a name of its own.

`--list` prints the ten longest of each. Prints a last line `N passed, M failed`."""
import glob
import re
import sys

WAY = re.compile(r"\.before(?:\s*\.before)*(?![\w'-])")
# what they were when this was first asked
LONGEST_WAY, LONGEST_LINE = 30, 1535


def measured():
    """The ways and the lines of all proofs, each as (length, file, number of its line)."""
    ways, lines = [], []
    for file in sorted(glob.glob("crates/*/proofs/**/*.antt", recursive=True)):
        with open(file, encoding="utf-8") as source:
            text = source.read()
        ways += [(way.group().count(".before"), file, text.count("\n", 0, way.start()) + 1) for way in WAY.finditer(text)]
        lines += [(len(line), file, number) for number, line in enumerate(text.split("\n"), 1)]
    return ways, lines


def main():
    failed = 0
    for what, found, most in zip(("`.before` in a row", "characters in a line"), measured(), (LONGEST_WAY, LONGEST_LINE)):
        found.sort(reverse=True)
        over = [item for item in found if item[0] > most]
        failed += bool(over)
        for length, file, number in found[:10] if "--list" in sys.argv else over:
            print("%s:%d: %d %s, at most %d" % (file, number, length, what, most))
    print("%d passed, %d failed" % (2 - failed, failed))
    sys.exit(1 if failed else 0)


main()
