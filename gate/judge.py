"""The judge of wrong programs (edits.py) on a crate and logs made up here: which programs of a file it counts, and which it does not; which
crates have too many checks; and what the gate reads off the last lines of rt ci.
Prints a last line `N passed, M failed`."""
import os
import sys
import tempfile

import edits
import run
import tries
from sources import written

CRATE = {
    "specs/Low.antt": """-- two definitions, with a law each
unfoldable pub low : ℕ → ℕ
low n = n + 1

pub low_law : (n : ℕ) → low n ≡ suc n
low_law n = refl

unfoldable pub other : ℕ → ℕ
other n = n

pub other_law : (n : ℕ) → other n ≡ n
other_law n = refl
""",
    "specs/High.antt": """use Rattle.toy.specs.Low.{low, low_law as lows}

module _ (n : ℕ) (small : n < 16) where
  pub high : low n ≡ suc n
  high = lows n

pub apart : (n : ℕ) → n ≡ n
apart n = refl
""",
    "src/lib.rt": """ghost use Rattle.toy.specs.Low.{low};

pub fn inner(n: u32) -> u32
    ensures { result ≡ low n }
{
    n + 1
}

pub fn outer(n: u32) -> u32
    ensures { result ≡ n }
{
    inner(n) - 1
}

#[cycle(there_and_back)]
pub fn there(n: u32) -> u32
    ensures { result ≡ 2 }
{
    back(n) + 1
}

#[cycle(there_and_back)]
pub fn back(n: u32) -> u32
    ensures { result ≡ 1 }
{
    there(n) - 1
}

pub fn none(n: u32) -> u32
    ensures { result ≡ n }
{
    n + 0
}
""",
    "proofs/Lemmas.antt": """use Rattle.toy.specs.Low.{other}

pub lemma : (n : ℕ) → other (other n) ≡ n
lemma n = refl
""",
    "proofs/inner/Answers.antt": "returns c = refl\n",
    "proofs/outer/Answers.antt": "returns c = refl\n",
    "proofs/+there_and_back/Invariants.antt": "returns c = refl\n",
}
PROGRAMS = {
    "low": ("specs/Low.antt", "low n = n + 1", "low n = n + 2"),
    "other": ("specs/Low.antt", "other n = n", "other n = n + n"),
    "high": ("specs/High.antt", "pub high : low n ≡ suc n", "pub high : low n ≡ n"),
    "head": ("specs/High.antt", "(small : n < 16)", "(small : n < 17)"),
    "apart": ("specs/High.antt", "(n : ℕ) → n ≡ n", "(n : ℕ) → n ≡ 0"),
    "lemma": ("proofs/Lemmas.antt", "other (other n) ≡ n", "other (other n) ≡ 0"),
    "inner_body": ("src/lib.rt", "    n + 1", "    n + 2"),
    "inner_contract": ("src/lib.rt", "result ≡ low n", "result ≡ n"),
    "outer_body": ("src/lib.rt", "inner(n) - 1", "inner(n) - 2"),
    "there_body": ("src/lib.rt", "back(n) + 1", "back(n) + 2"),
    "none_body": ("src/lib.rt", "n + 0", "n + 1"),
}
LOW_LAW, OTHER_LAW = "specs/Low.antt:6:15: error: `low_law`: differ", "specs/Low.antt:12:17: error: `other_law`: differ"
HIGH, APART = "specs/High.antt:5:10: error: `high`: differ", "specs/High.antt:8:11: error: `apart`: differ"
LEMMA = "proofs/Lemmas.antt:4:11: error: `lemma`: differ"
INNER, OUTER = "proofs/inner/Answers.antt:1:1: error: `returns`: differ", "proofs/outer/Answers.antt:1:1: error: `returns`: differ"
THERE = "proofs/+there_and_back/Invariants.antt:1:1: error: `returns`: differ"
NONE = "fn toy::none: no proof: expected answers in ./proofs/none/Answers.antt; `search` did not prove `returns`"
LEFT_OVER = "proofs/inner/Answers.antt:1:1: error: `returns-if-n`: `goal` has no `returns-if-n`"
FOLLOWS = "specs/High.antt:5:10: error: `high`: `low_law` was not admitted, so this cannot be checked"

# the programs of a file, the errors of its log, and the programs that count
CASES = [
    (["low", "other"], [LOW_LAW, OTHER_LAW], ["low", "other"]),
    (["low", "other"], [LOW_LAW], ["low"]),
    (["low", "high"], [LOW_LAW, HIGH], ["low"]),  # the error at high may be the other's
    (["low", "high"], [LOW_LAW, FOLLOWS], ["low"]),
    (["low", "apart"], [LOW_LAW, FOLLOWS, APART], ["low", "apart"]),
    (["other", "apart"], [OTHER_LAW, HIGH], ["other"]),
    (["high", "head"], [HIGH], []),
    (["head", "apart"], [HIGH, APART], ["head", "apart"]),
    (["head", "other"], [FOLLOWS, OTHER_LAW], ["other"]),
    (["other", "apart"], [LEMMA, APART], ["other", "apart"]),
    (["lemma", "apart"], [LEMMA], ["lemma"]),
    (["inner_body", "outer_body"], [INNER, OUTER], ["inner_body", "outer_body"]),
    (["inner_body", "outer_body"], [LEFT_OVER, OUTER], ["outer_body"]),
    (["inner_contract", "outer_body"], [INNER, OUTER], ["inner_contract"]),
    (["low", "outer_body"], [LOW_LAW, INNER, OUTER], ["low"]),
    (["other", "outer_body"], [OTHER_LAW, OUTER], ["other", "outer_body"]),
    (["there_body", "outer_body"], [THERE, OUTER], ["there_body", "outer_body"]),
    (["none_body", "outer_body"], [NONE, OUTER], ["none_body", "outer_body"]),
    (["high"], [HIGH], ["high"]),
    (["high"], [FOLLOWS], []),
    (["outer_body"], [INNER], []),
    (["apart"], [], []),
]
# what rt ci ends with, its status, and how many failures it does not count
SAID = [
    (["rt: ok; handles allowed: none; must-fail edits: 12 refused; done in this run: 3 of 9"], 0, 0),
    (["rt: ok; handles allowed: none; must-fail edits: 12 refused, 2 bad; done in this run: 3 of 9"], 0, 2),
    (["rt: ok; handles allowed: none; must-fail edits: 12 refused, 1 of them only by a limit, 3 bad; every proof"], 0, 3),
    (["12 passed, 0 failed"], 0, 1),
    (["rt: FAILED: toy", "12 passed, 1 failed"], 1, 0),
]


ANSWERS = "proofs/run/Answers.antt"
# what a check says of a proof whose names no longer fit, the words that a program swaps, and the names that the proof follows
FOLLOWED = [
    (["./%s:1:1: error: `returns`: record `R.Lts.Else` has no field `if-k-eq4` (nearest: .if-k-eq2, .if-k-eq1)" % ANSWERS], [("4", "1")],
     {ANSWERS: {"if-k-eq4": "if-k-eq1"}}),
    (["./%s:1:1: error: `returns`: record `R.Lts.In` has no field `disjoint`" % ANSWERS, "the fields that can be named here are `before`, `subset`, `args`"],
     [("disjoint", "subset")], {ANSWERS: {"disjoint": "subset"}}),
    (["./%s:1:1: error: `then-n-lt1`: `goal.then-n-lt1`: module `M.Goals` has no `then-n-lt1` that can be named from here" % ANSWERS,
      "help: `Goals` has no `then-n-lt1`; rattle asks for `returns`, `then-n-lt0`; a `use` line of it can name these places: `Start`"], [],
     {ANSWERS: {"then-n-lt1": "then-n-lt0"}}),
    (["./%s:1:1: error: `returns`: differ" % ANSWERS], [("4", "1")], {}),
]


def main():
    failed = 0
    with tempfile.TemporaryDirectory() as folder:
        os.chdir(folder)
        for file, text in CRATE.items():
            written("crates/toy/" + file, text)
        for names, errors, counting in CASES:
            edit = "".join("# %s: right\nfile: %s\nold: %s\nnew: %s\n" % (name, *PROGRAMS[name]) for name in names)
            written("crates/toy/must-fail/laws_1.edit", edit)
            lines = [error if error.startswith("fn ") else "./" + error for error in errors]
            found = [name for name, _, reason in edits.judged("toy", "crates/toy/must-fail/laws_1.edit", lines) if reason is None]
            if found != counting:
                failed += 1
                print("%s by %s: %s count" % (names, errors, found))
        os.chdir("/")
    names = ("toy/must-fail/code_1", "toy/must-fail/code_2", "toy/must-fail/laws_1", "much/must-fail/code_1", "much/must-fail/code_2", "much/must-fail/code_3")
    if edits.over_two(["crates/%s.edit" % name for name in names]) != ["much"]:
        failed += 1
        print("of a crate with two and one with three checks of wrong bodies the latter has too many")
    for lines, status, bad in SAID:
        if run.bad_edits(status, lines) != bad:
            failed += 1
            print("%s: not %d" % (lines, bad))
    for lines, swaps, names in FOLLOWED:
        if tries.renamed(lines, lambda file: {"returns", "if-k-eq2"}, swaps) != names:
            failed += 1
            print("%s: %s is followed" % (lines, tries.renamed(lines, lambda file: {"returns", "if-k-eq2"}, swaps)))
    print("%d passed, %d failed" % (len(CASES) + 1 + len(SAID) + len(FOLLOWED) - failed, failed))
    sys.exit(1 if failed else 0)


if __name__ == "__main__":
    main()
