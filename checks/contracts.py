"""Contracts that leave something open. A public function gives its result and leaves each of its `&mut` arguments behind; its contract
says of each what it is, by an equation, and supposes nothing that no caller can see to (what a caller has to see to is a `requires`, which
the checker asks of it). Checked of every public function that is no program's, one test each:
- no `ensures` has a hypothesis that ties an argument to something that is no argument, as `(d : List ℕ) → seen ≡ seen_of d → ..` does:
  whoever has an argument of another making is promised nothing;
- an `ensures` has an equation about the result, whole or field by field, and one about each `&mut` argument as it is left. By cases, where
  the hypotheses are about arguments, there are two equations or more; one whose hypothesis is about the result itself does not count;
- checks/allowed.txt, under "contracts", names what may stand all the same, and nothing else.
Records and other definitions that a contract cites of the result or an exit are looked into.

    python3 checks/contracts.py [--list]          --list prints what is open, named in checks/allowed.txt or not

The last line is `N passed, M failed`."""
import glob
import os
import re
import sys

import unused
from sources import parts_of, read, room_of

FUNCTION = re.compile(r'pub (extern "C" )?fn (\w+)(?:<[^>]*>)?\((.*?)\)(?:\s*->\s*(.*?))?\s*$', re.S)
ENSURES = re.compile(r"\bensures\b\s*(?:\w+\s*)?\*?\{")
STRUCT = re.compile(r"(?ms)^(?:pub )?struct (\w+)(?:<[^>]*>)?(?: \{(.*?)^\}|\((.*?)\);)")
TOKEN = re.compile(r'[(){},;]|[^\s(){},;]+')
OPENS, CLOSES = ("(", "{"), (")", "}")


def split_at(tokens, mark):
    """The parts between the marks that stand in no brackets."""
    parts, depth = [[]], 0
    for token in tokens:
        depth += (token in OPENS) - (token in CLOSES)
        if token == mark and depth == 0:
            parts.append([])
        else:
            parts[-1].append(token)
    return parts


def bare(tokens):
    """Without brackets around the whole."""
    while tokens and tokens[0] == "(":
        depth = 0
        for at, token in enumerate(tokens):
            depth += (token in OPENS) - (token in CLOSES)
            if depth == 0:
                break
        if at != len(tokens) - 1:
            return tokens
        tokens = tokens[1:-1]
    return tokens


def words_in(tokens):
    return [token for token in tokens if token not in OPENS + CLOSES]


def groups(tokens):
    """The arguments or binders of a row; those in braces are left out."""
    at, depth, row = 0, 0, []
    for end, token in enumerate(tokens):
        depth += (token in OPENS) - (token in CLOSES)
        if depth == 0:
            # a field belongs to what stands before it
            if token.startswith(".") and row and at == end:
                row[-1] = ["(", *row[-1], ")", token]
            elif tokens[at] != "{":
                row.append(tokens[at : end + 1])
            at = end + 1
    return row


class Reader:
    """Reads contracts, and the definitions that they cite (by unused.Tree)."""

    def __init__(self, tree):
        self.tree, self.scopes, self.made = tree, {}, {}

    def find(self, file, word):
        if file.path not in self.scopes:
            self.scopes[file.path] = self.tree.scope(file)
        names, aliases = self.scopes[file.path]
        head, _, rest = word.partition(".")
        return aliases[head].get(rest) if head in aliases and rest else names.get(word)

    def definition(self, item):
        """(its explicit parameters, what it states, its file), or None if it states nothing."""
        if item not in self.made:
            self.made[item] = self.read_definition(item)
        return self.made[item]

    def read_definition(self, item):
        file, text = self.tree.words[item]
        lines = [line for line in text.split("\n") if line.strip()]
        heads = dict.fromkeys(line.replace("·", " ") for line in lines if line.startswith("module·"))
        lines = [line for line in lines if not line.startswith("module·")]
        around = [name for head in heads for name in self.parameters(self.tree.words[item[0], item[1], head][1])]
        if re.match(r"\s*(?:pub )?record ", lines[0]):
            head, _, body = "\n".join(lines).partition("where\n")
            indent = re.match(r"\s*", body).group()
            fields = re.split(r"(?m)^%s(?=\S)" % indent, body)
            stated = [TOKEN.findall(field.partition(" : ")[2]) for field in fields if " : " in field]
            return around + self.parameters(head.rsplit(" : ", 1)[0]), stated, file
        equations = [line for line in re.split(r"(?m)^%s(?=\S)" % re.match(r"\s*", lines[0]).group(), "\n".join(lines)) if " = " in line]
        equations = [line for line in equations if line.split()[0] == item[2]]
        if len(equations) != 1 or "Type" not in text:
            return None
        left, _, right = equations[0].partition(" = ")
        return around + left.split()[1:], [TOKEN.findall(right)], file

    def parameters(self, text):
        """The names that explicit binders bind."""
        return [name for row in groups(TOKEN.findall(text)) if ":" in row for name in row[1 : row.index(":")]]

    def told(self, tokens, outputs):
        """The output that a term is: an output, a field of one, or the words that lie in one."""
        words = words_in(tokens)
        if words[:1] == ["words_in"]:
            words = words[1:]
        if not words or not all(word.startswith(".") for word in words[1:]):
            return None
        parts = [part for word in words for part in word.split(".") if part]
        for length in (2, 1):
            label = outputs.get(".".join(parts[:length]))
            if label:
                return " .".join([label, *parts[length : length + 1]]) if label == "result" else label
        return None

    def read(self, tokens, file, outputs, inputs, ties=frozenset(), cases=False, depth=0):
        """What a formula states of outputs, as (output, whether only in a case), and its hypotheses that tie an input to a name in ties."""
        tokens = bare(tokens)
        *supposed, concluded = split_at(tokens, "→")
        tied = []
        for part in supposed:
            binders = [row[1:-1] for row in groups(part)] if part[:1] in (["("], ["{"]) else [part]
            binders = binders if all(":" in row for row in binders) else [part]
            for row in binders:
                bound, said = (row[: row.index(":")], row[row.index(":") + 1 :]) if ":" in split_words(row) else ([], row)
                words = set(words_in(said))
                if bound and not words & {"≡", "<", "≤"} and said[:1] != ["ℕ"]:
                    ties = ties | set(bound)
                elif words & ties and words & inputs and not unfolds(said, ties):
                    tied.append(" ".join(said))
                if any(self.told([word], outputs) for word in words_in(said)):
                    return [], tied
                cases = cases or not bound
        parts = split_at(concluded, "⊎")
        if len(parts) > 1:
            read = [self.read(part, file, outputs, inputs, ties, True, depth) for part in parts]
            common = set.intersection(*({label for label, _ in found} for found, _ in read))
            return [(label, True) for label in common], tied + [tie for _, more in read for tie in more]
        parts = split_at(concluded, "×")
        if len(parts) > 1 or bare(concluded) != concluded or supposed and "→" in concluded:
            read = [self.read(part, file, outputs, inputs, ties, cases, depth) for part in parts]
            return [entry for found, _ in read for entry in found], tied + [tie for _, more in read for tie in more]
        sides = split_at(concluded, "≡")
        if len(sides) == 2:
            return [(label, cases) for label in (self.told(side, outputs) for side in sides) if label], tied
        found, more = self.cited(concluded, file, outputs, inputs, cases, depth)
        return found, tied + more

    def cited(self, tokens, file, outputs, inputs, cases, depth):
        """The same of a definition that is applied to outputs."""
        head, *row = groups(tokens) or [[]]
        made = self.find(file, head[0]) if len(head) == 1 and depth < 8 else None
        made = made and self.definition(made)
        if not made or not any(self.told(argument, outputs) for argument in row):
            return [], []
        parameters, stated, home = made
        inside, given, found, tied = {}, set(), [], []
        for name, argument in zip(parameters, row):
            label = self.told(argument, outputs)
            if label:
                inside[name] = label
            elif set(words_in(argument)) & inputs:
                given.add(name)
        # a definition that is another one, applied to further arguments
        rest = row[len(parameters) :]
        for formula in stated:
            formula = formula + [token for argument in rest for token in argument]
            inside.update(outputs if rest else {})
            more, also = self.read(formula, home, inside, given | (inputs if rest else set()), frozenset(), cases, depth + 1)
            found, tied = found + more, tied + also
        return found, tied


def split_words(tokens):
    """The words that stand in no brackets."""
    depth, words = 0, []
    for token in tokens:
        depth += (token in OPENS) - (token in CLOSES)
        if depth == 0:
            words.append(token)
    return words


def unfolds(tokens, ties):
    """Whether an equation only names the parts of what arguments give, as `quorum_of .. ≡ Short reason` does: a constructor of such names."""
    sides = [words_in(side) for side in split_at(tokens, "≡")]
    named = [words for words in sides if words and words[0].split(".")[-1][0].isupper() and set(words[1:]) <= ties]
    return len(sides) == 2 and len(named) == 1 and not any(set(words) & ties for words in sides if words not in named)


def formulas(contract):
    """What each `ensures` says, up to the brace that closes it."""
    for clause in ENSURES.finditer(contract):
        depth, at = 1, clause.end()
        while depth and at < len(contract):
            depth += (contract[at] == "{") - (contract[at] == "}")
            at += 1
        if not depth:
            yield contract[clause.end() : at - 1]


def structs():
    """The fields of every struct of the code."""
    fields = {}
    for path in glob.glob("crates/*/src/**/*.rt", recursive=True):
        for name, named, numbered in STRUCT.findall(re.sub(r"//.*", "", read(path))):
            fields[name] = re.findall(r"(\w+)\s*:", named) if named else [str(at) for at in range(len(numbered.split(",")))]
    return fields


def functions():
    """(file, name, parameters, result, contract) of every public function that is no program's."""
    for path in sorted(glob.glob("crates/*/src/**/*.rt", recursive=True)):
        crate = path.split("/")[1]
        if os.path.exists("crates/%s/src/main.rt" % crate):
            continue
        heads, at = {}, 0
        for owner, line in parts_of(re.sub(r"//.*", "", read(path))):
            at += bool(re.match(r'\s*(?:pub )?(?:extern "C" )?fn ', line))
            if owner and owner[1] and not owner[2]:
                heads.setdefault((at, owner), []).append(line)
        for lines in heads.values():
            text = "\n".join(lines).strip()
            start = re.search(r"(?m)^\s*(?:requires|ensures)\b", text)
            signature = text[: start.start()] if start else text.rstrip("{ \n")
            _, name, parameters, result = FUNCTION.match(signature).groups()
            yield path, "%s::%s" % (room_of(path), name), parameters, result, text[start.start() :] if start else ""


def faults(reader, file, parameters, given, contract, fields):
    """(the hypotheses that tie an argument to what is none, the outputs without an equation)."""
    arguments = {part.split(":")[0].strip().removeprefix("mut ") for part in re.split(r",(?![^\[({<]*[\])}>])", parameters) if part.strip()}
    exits = re.findall(r"(\w+)\s*:\s*&(?:'\w+ )?mut\b", parameters)
    found, tied, clauses = [], [], list(formulas(contract))
    if len(clauses) != len(re.findall(r"\bensures\b", contract)):
        return [], ["a clause in a form that is not read"]
    for formula in clauses:
        outputs = {"result": "result", **{"%s.new" % name: name for name in exits}}
        more, also = reader.read(TOKEN.findall(formula), file, outputs, arguments)
        found, tied = found + more, tied + also
    labels = [label for label, _ in found]
    equations = {label for label, case in found if not case or labels.count(label) > 1}
    missing = [name for name in exits if name not in equations]
    kind = re.sub(r"<.*", "", given or "").strip()
    whole = ["result .%s" % field for field in fields.get(kind, ())]
    if given and "result" not in equations and not (whole and all(field in equations for field in whole)):
        missing.insert(0, "the result")
    return tied, missing


def main():
    tree = unused.Tree()
    reader, files = Reader(tree), {file.path: file for file in tree.of("src")}
    fields, named, count = structs(), unused.allowed("contracts"), 0
    supposing, missing, found = [], [], set()
    for path, name, parameters, result, contract in functions():
        count += 1
        about, without = faults(reader, files[path], parameters, result, contract, fields)
        if about or without:
            found.add(name)
        if name not in named or "--list" in sys.argv:
            supposing += ["%s supposes %s" % (name, hypothesis) for hypothesis in about]
            missing += ["%s: no equation for %s" % (name, ", ".join(without))] if without else []
    tests = [supposing, missing, ["checks/allowed.txt names %s, which leaves nothing open or is not there" % name for name in sorted(named - found)]]
    for fault in [fault for test in tests for fault in test]:
        print(fault)
    failed = sum(map(bool, tests))
    print("%d public functions, %d named in checks/allowed.txt" % (count, len(named)))
    print("%d passed, %d failed" % (len(tests) - failed, failed))
    sys.exit(1 if failed else 0)


if __name__ == "__main__":
    main()
