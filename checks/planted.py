"""The tests of contracts (contracts.py), of what serves nothing (unused.py) and of names and links in pages (promises.py) on crates and pages
made up here: which faults they find, and that they find no others. Prints a last line `N passed, M failed`."""
import os
import sys
import tempfile

import contracts
import promises
import unused
from sources import written

# ---- contracts.py: a contract, and what is found of a function `f(x: u32, out: &mut [u32], seen: Seen) -> Pair`

POST = """-- what the contracts below cite
use Rattle.toy.specs.declared.Pair.{Pair}

unfoldable pub seen_of : List ℕ → ℕ
seen_of d = 0

pub record Exact (x : ℕ) (o : List ℕ) (r : Pair) : Type 0 where
  pub left : r.left ≡ x
  pub right : r.right ≡ x
  pub words : o ≡ []

pub record Cased (x : ℕ) (o : List ℕ) (r : Pair) : Type 0 where
  pub small : x ≡ 0 → (r ≡ record { left = 0; right = 0 }) × (o ≡ [])
  pub large : (x ≡ 0 → ⊥) → (r ≡ record { left = 1; right = 1 }) × (o ≡ [])

pub record Half (x : ℕ) (o : List ℕ) (r : Pair) : Type 0 where
  pub small : x ≡ 0 → (r ≡ record { left = 0; right = 0 }) × (o ≡ [])

pub record Tied (x seen : ℕ) (o : List ℕ) (r : Pair) : Type 0 where
  pub given : (d : List ℕ) → seen ≡ seen_of d → r ≡ record { left = 0; right = 0 }
  pub words : o ≡ []

abbrev pub Other : ℕ → List ℕ → Pair → Type 0
Other = Exact

module _ (x : ℕ) where
  pub record Inside (o : List ℕ) (r : Pair) : Type 0 where
    pub both : (o ≡ []) × (r ≡ record { left = x; right = x })
"""
OPEN = """ghost use Rattle.toy.specs.Post.{Exact, Cased, Half, Tied, Other, Inside, seen_of};

pub struct Pair {
    pub left: u32,
    pub right: u32,
}

pub fn f(x: u32, out: &mut [u32], seen: u32) -> Pair
%s{
    g(x)
}
"""
LEFT, RIGHT, OUT = "result.left ≡ x", "result.right ≡ x", "out.new ≡ []"
# the formulas of a contract, how many hypotheses tie an argument, and what has no equation
CONTRACTS = [
    (["result ≡ pair x", OUT], 0, []),
    (["(result ≡ pair x) × (out.new ≡ [])"], 0, []),
    (["pair x ≡ result", OUT], 0, []),
    ([LEFT, RIGHT, OUT], 0, []),
    ([LEFT, OUT], 0, ["the result"]),
    ([], 0, ["the result", "out"]),
    (["result ≡ pair x", "length out.new ≡ length out.old"], 0, ["out"]),
    (["result ≡ pair x", "out.old ≡ []"], 0, ["out"]),
    (["result.left ≤ x", "result.right ≤ x", OUT], 0, ["the result"]),
    (["result.left ≡ 0 → result ≡ pair x", OUT], 0, ["the result"]),
    (["(result.left ≡ 0 → out.new ≡ []) × (result ≡ pair x)"], 0, ["out"]),
    (["x ≡ 0 → result ≡ pair x", OUT], 0, ["the result"]),
    (["x ≡ 0 → result ≡ pair x", "(x ≡ 0 → ⊥) → result ≡ pair 0", OUT], 0, []),
    (["(result ≡ pair x) ⊎ (result ≡ pair 0)", OUT], 0, ["the result"]),
    (["((d : List ℕ) → seen ≡ seen_of d → result ≡ pair x)", OUT], 1, ["the result"]),
    (["((d : List ℕ) → length d ≡ 4 → seen ≡ seen_of d → result ≡ pair x)", "result ≡ pair x", OUT], 1, []),
    (["((n : ℕ) → n < x → getD out n ≡ 0)", "result ≡ pair x", OUT], 0, []),
    (["((k : Kind) → kindOf x ≡ Some k → result ≡ pair x)", "(kindOf x ≡ None → result ≡ pair 0)", OUT], 0, []),
    (["result ≡ pair x }\n    ensures out.new ≡ [] {", OUT], 0, ["a clause in a form that is not read"]),
    (["Exact x out.new result"], 0, []),
    (["Other x out.new result"], 0, []),
    (["Inside x out.new result"], 0, []),
    (["Cased x out.new result"], 0, []),
    (["Half x out.new result"], 0, ["the result", "out"]),
    (["Exact x [] result"], 0, ["out"]),
    (["Tied x seen out.new result"], 1, ["the result"]),
    (["Tied x 0 out.new result"], 0, ["the result"]),
]

# ---- unused.py: a tree of two crates, and for each change of a file what is found

TREE = {
    "crates.txt": "# toy: examples\ntoy:\nuser: toy\nlast: toy user\n",
    "docs/PROMISES.md": "# Laws\n\n- a law: [`law`](../crates/toy/specs/Low.antt#L11), `low`\n",
    "docs/ASSUMPTIONS.md": "",
    "checks/allowed.txt": "# what may stand\n\n[unused]\n",
    "crates/toy/specs/Lib.antt": "pub mod Low\n",
    "crates/toy/specs/Low.antt": """-- a definition, a record, and laws
use Rattle.std.specs.Prelude.{◌≡◌, refl}
use Rattle.std.proofs.Common.{ℕ, suc, ◌+◌}

unfoldable pub low : ℕ → ℕ
low n = n + 1

pub record Both (n : ℕ) : Type 0 where
  pub same : low n ≡ suc n

pub law : (n : ℕ) → low n ≡ suc n
law n = inner n

module _ (n : ℕ)
  where
    pub inner : low n ≡ suc n
    inner = helper
      where
        helper : low n ≡ suc n
        helper = refl
""",
    "crates/toy/src/lib.rt": """ghost use Rattle.std.specs.Prelude.{◌≡◌};
ghost use Rattle.toy.specs.Low.{low, Both};

// a pair
pub struct Pair {
    pub left: u32,
}

pub fn get(n: u32) -> u32
    ensures { (result ≡ low n) × Both n }
{
    n + 1
}

impl Pair {
    pub fn first(self) -> u32
        ensures { result ≡ self.left }
    {
        self.left
    }
}
""",
    "crates/toy/must-fail/code_1.edit": "# wrong\nfile: src/lib.rt\nold: result ≡ low n\nnew: result ≡ n × leb result n\n",
    "crates/user/src/lib.rt": """ghost use Rattle.std.specs.Prelude.{◌≡◌};
use toy::Pair;

pub fn use_it(p: Pair) -> u32
    ensures { result ≡ result }
{
    toy::get(p.first())
}
""",
    "crates/user/proofs/use_it/Answers.antt": """use Rattle.user.proofs.use_it.Goals as goal

pub returns : goal.returns
returns c = search rules
""",
    "crates/last/src/main.rt": """// it gets at the type toy::Pair only by a call
fn main() {
    user::use_it(made());
}
""",
}
LOW, TOY, USER, LAST = "crates/toy/specs/Low.antt", "crates/toy/src/lib.rt", "crates/user/src/lib.rt", "crates/last/src/main.rt"
# a change (file, old text, new text), and the names or crates that are found then; the wrong program above uses the name leb
CHANGES = [
    ((LOW, "", ""), []),
    ((LOW, "{◌≡◌, refl}", "{◌≡◌, refl, sym}"), ["sym"]),
    ((LOW, "{ℕ, suc, ◌+◌}", "{ℕ, suc, ◌+◌, ◌*◌}"), ["◌*◌"]),
    ((LOW, "use Rattle.std.proofs", "use Rattle.std.lists.ListN as lists\nuse Rattle.std.proofs"), ["lists"]),
    ((LOW, "{◌≡◌, refl}", "{◌≡◌, refl, same as alike}"), ["alike"]),
    ((LOW, "-- a definition", "-- sym and a definition"), []),
    ((LOW, "  pub same :", "  pub other :"), []),
    ((TOY, "{low, Both}", "{low, Both, law, get}"), ["law", "get"]),
    ((TOY, "ghost use Rattle.toy", "ghost use lib.Dec.{ltb};\nghost use Rattle.toy"), ["ltb"]),
    ((TOY, "ghost use Rattle.toy", "ghost use lib.Dec.{leb};\nghost use Rattle.toy"), []),
    ((USER, "use toy::Pair;", "use toy::Pair;\nuse toy::Other;"), ["Other"]),
    ((USER, "ghost use", "ghost use Rattle.toy.specs.Low.{low};\nghost use"), ["low"]),
    (("crates.txt", "last: toy user", "last: toy user base"), ["base"]),
    (("crates.txt", "toy:\n", "toy: user\n"), ["user"]),
    ((LAST, "user::use_it(made())", "user::made()"), ["toy", "user::use_it"]),
    ((USER, "toy::get(p.first())", "toy::get(1)"), ["toy::first"]),
    ((USER, "toy::get(p.first())", "p.first()"), ["toy::get"]),
    ((USER, "toy::get(p.first())", "get(p.first())"), ["toy::get"]),
    ((TOY, "pub fn get", 'pub extern "C" fn get'), []),
    ((TOY, "pub fn get", "struct Lone(u32);\n\npub fn get"), ["toy::Lone"]),
    ((TOY, "× Both n", "× (n ≡ n)"), ["Both", "toy/Low.Both"]),
    ((LOW, "law n = inner n", "law n = refl"), ["toy/Low.inner"]),
    ((LOW, "unfoldable pub low", "pub more : (n : ℕ) → n ≡ n\nmore n = refl\n\nunfoldable pub low"), ["toy/Low.more"]),
    ((LOW, "unfoldable pub low", "pub more_rows : (n : ℕ) → n ≡ n\nmore_rows n = refl\n\nunfoldable pub low"), []),
    (("docs/PROMISES.md", "law`", "lost`"), ["toy/Low.inner", "toy/Low.law"]),
    (("crates/user/proofs/use_it/Answers.antt", "use Rattle", "use Rattle.toy.specs.Low.{law}\nuse Rattle"), ["law"]),
    (("checks/allowed.txt", "[unused]\n", "[unused]\ntoy::get\n    law is why\n"), ["toy::get"]),
    (("checks/allowed.txt", "[unused]\n", "[unused]\ntoy::get\nlaw\n    for both\n\ntoy::first\n    more\n"), ["toy::get", "law", "toy::first"]),
    (("checks/allowed.txt", "[unused]\n", "[unused]\ntoy::get\n"), []),
    (("checks/allowed.txt", "[unused]\n", "[unused]\ntoy::get\n\n    apart\n"), []),
    (("checks/allowed.txt", "[unused]\n", "[contracts]\ntoy::get\n    of another test\n"), []),
]

# ---- promises.py: for each change of a file of the same tree what is told

PAGE = (
    "Read [laws](docs/PROMISES.md#laws), [`law`](crates/toy/specs/Low.antt#L11), [`get`](crates/toy/src/lib.rt#L9), `toy/Low.Both`, "
    "`crates/toy/src/lib.rt`.\n"
)
LINKS = [
    (("README.md", "", ""), []),
    (("README.md", "antt#L11", "antt#L12"), ["in line 11"]),
    (("README.md", "`law`", "`lost`"), ["no lost is defined"]),
    (("README.md", "[`law`]", "[a law]"), ["without a name"]),
    (("README.md", "PROMISES.md", "OTHER.md"), ["which is not there"]),
    (("README.md", "#laws", "#others"), ["no heading"]),
    (("README.md", "lib.rt`", "none.rt`"), ["crates/toy/src/none.rt, which is not there"]),
    (("README.md", "Low.Both", "Low.Neither"), ["toy/Low.Neither, which is not there"]),
    (("README.md", "Read ", "Read `toy::get`, `toy::get.n`, `toy::get.other`, `toy::Pair.left`, `toy::None`, "), ["toy::None, which", "toy::get.other, which"]),
    (("README.md", "Read ", "Read" + " it" * 40000), ["more than"]),
    (("crates/README.md", "", "See [laws](../docs/PROMISES.md), `crates/none`, and [none](none.md).\n"), ["to none.md, which is not there"]),
    (("docs/PROMISES.md", "`Both`", "`Neither`"), ["`Neither` stands for nothing"]),
    (("docs/PROMISES.md", "`Both`", "`Pair`"), ["`Pair` stands for nothing"]),
    (("docs/PROMISES.md", ": [`law`](../crates/toy/specs/Low.antt#L11)", ""), ["no link to a name"]),
    (("docs/PROMISES.md", ", `low`", "; [`use_it`](../crates/user/src/lib.rt#L4), `low`"), []),
    (("crates/user/specs/Low.antt", "", "pub low : ℕ\n"), []),
    (
        ("docs/PROMISES.md", "[`law`](../crates/toy/specs/Low.antt#L11)", "[`made`](../crates/last/specs/Made.antt#L1)"),
        ["`low` stands for crates/toy/specs/Low.antt and crates/user/specs/Low.antt"],
    ),
    ((LOW, "-- a definition", "-- a line\n-- a definition"), ["in line 12", "in line 12"]),
]


def pages():
    """Those of promises.py."""
    written("README.md", PAGE)
    written("docs/PROMISES.md", TREE["docs/PROMISES.md"].replace("`low`", "`Both`, `low`"))
    written("crates/last/specs/Made.antt", "pub made : ℕ\n")
    for (file, old, new), expected in LINKS:
        before = unused.read(file) if os.path.exists(file) else ""
        written(file, before.replace(old, new, 1) if old else before + new)
        found = [fault for fault in promises.tests() if fault]
        if len(found) != len(expected) or any(part not in fault for part, fault in zip(expected, found)):
            yield "%s for %s in %s: %s is told" % (new, old, file, found)
        if file == LOW:
            for page in promises.pages():
                promises.write(page)
            found = [fault for fault in promises.tests() if fault]
            if found or unused.read("README.md") != PAGE.replace("L11", "L12"):
                yield "after --write: %s, %s" % (unused.read("README.md"), found)
        elif file != "crates/user/specs/Low.antt":
            written(file, before)


def clauses():
    """The cases of contracts.py that go wrong."""
    for formulas, ties, without in CONTRACTS:
        clauses = "".join("    ensures { %s }\n" % formula for formula in formulas)
        written("crates/toy/src/lib.rt", OPEN % clauses)
        tree = unused.Tree()
        ((_, _, parameters, result, text),) = contracts.functions()
        tied, missing = contracts.faults(contracts.Reader(tree), tree.of("src")[0], parameters, result, text, contracts.structs())
        if (len(tied), missing) != (ties, without):
            yield "%s: ties %s, and no equation for %s" % (formulas, tied, missing)


def changes():
    """Those of unused.py."""
    for (file, old, new), expected in CHANGES:
        text = TREE[file].replace(old, new, 1) if old else TREE[file]
        if (text == TREE[file]) is not (old == new):
            yield "%s has no %s" % (file, old)
        written(file, text)
        found = sorted(set(findings(unused.Tree())))
        if found != sorted(expected):
            yield "%s for %s in %s: %s is found" % (new, old, file, found)
        written(file, TREE[file])


def findings(tree):
    for file in tree.files:
        for _, names in file.unused():
            yield from names
    for _, other in tree.unnamed_crates():
        yield other
    names = {name for name, _ in [*tree.uncalled(), *tree.unreached()]}
    yield from names ^ unused.allowed("unused")


def mended():
    """What --mend leaves of a file with unused names."""
    written(LOW, TREE[LOW].replace("{◌≡◌, refl}", "{◌≡◌, sym, refl}").replace("use Rattle.std.proofs", "use lib.Dec.{ltb}\nuse Rattle.std.proofs"))
    unused.mend(unused.Tree(), ("",))
    if unused.read(LOW) != TREE[LOW] or unused.read("crates.txt") != TREE["crates.txt"]:
        yield "mended: %s" % unused.read(LOW)


def main():
    faults = []
    with tempfile.TemporaryDirectory() as folder:
        os.chdir(folder)
        written("crates.txt", "toy:\n")
        written("crates/toy/specs/Post.antt", POST)
        faults += clauses()
        os.remove("crates/toy/specs/Post.antt")
        for file, text in TREE.items():
            written(file, text)
        faults += [*changes(), *mended(), *pages()]
        os.chdir("/")
    for fault in faults:
        print(fault)
    print("%d passed, %d failed" % (len(CONTRACTS) + len(CHANGES) + 1 + len(LINKS) - len(faults), len(faults)))
    sys.exit(1 if faults else 0)


if __name__ == "__main__":
    main()
