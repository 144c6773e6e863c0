#!/usr/bin/env python3
"""Counts, in the code of the crates, the places of each point of the design pass (docs/DESIGN-PASS.md), each by a stated pattern.

usage: python3 tools/design_places.py [TREE] [--at COMMIT]                   the counts, of this tree, of another one, or of a commit of it
       python3 tools/design_places.py [TREE] [--at COMMIT] --list KIND       each place, as file:line and what; KIND is 3, or 3.while

A place is found by its form alone, so it is a place to look at, and need not be one to change. KINDS says what each kind finds. One
function or type may be a place of several kinds; `all` counts each line of a point once. Comments are not read but for 1.comment."""
import collections
import glob
import io
import os
import re
import subprocess
import sys
import tarfile

ROOT = os.path.dirname(os.path.dirname(os.path.abspath(__file__)))
TOKEN = re.compile(
    r"""//[^\n]*|b?"(?:\\.|[^"\\])*"|b'(?:\\.|[^'\\])'|\w[\w']*|'\w+|::|->|=>|==|!=|<=|>=|&&|\|\||\.\.|[-+*/|&%^]=|\S""", re.S
)
NUMBERS = ("u8", "u16", "u32", "u64", "usize")
LITERAL = re.compile(r"(\d[\w]*|b?\".*|b'.*)$", re.S)
CONSTANT = re.compile(r"(?:\w+::)*[A-Z][A-Z_0-9]+$")
WORDS = {"if", "else", "for", "in", "while", "loop", "match", "return", "let", "mut", "as", "true", "false", "self", "break", "continue"}
CLAUSES = ("requires", "ensures", "decreases")
OPENS, CLOSES = ("(", "[", "{"), (")", "]", "}")


# ---- The code taken apart


class Function:
    """A function: its owner (of `impl`), parameters (name, type), type of result, facts that it requires, body, and the comment above."""

    def __init__(self, file, line, owner, name):
        self.file, self.line, self.owner, self.name = file, line, owner, name
        self.params, self.result, self.requires, self.body, self.comment, self.external = [], "", [], [], "", False

    def __str__(self):
        return "%s%s" % (self.owner + "::" if self.owner else "", self.name)

    def words(self):
        return [text for text, _ in self.body]


class Kind:
    """A struct (its fields: name and type) or an enum (its cases: name and types)."""

    def __init__(self, file, line, name, fields, cases, comment):
        self.file, self.line, self.name, self.fields, self.cases, self.comment = file, line, name, fields, cases, comment

    def __str__(self):
        return self.name


def tokens_of(text):
    return [(found.group(), text.count("\n", 0, found.start()) + 1) for found in TOKEN.finditer(text) if not found.group().startswith("//")]


def closing(tokens, at):
    """The place of the bracket that closes the one at a place."""
    pairs, depth = dict(zip(OPENS + ("<",), CLOSES + (">",))), 0
    first = tokens[at][0]
    while True:
        depth += (tokens[at][0] == first) - (tokens[at][0] == pairs[first])
        if depth == 0:
            return at
        at += 1


def split(tokens, mark):
    """The parts between the marks that stand in no brackets."""
    parts, depth = [[]], 0
    for token in tokens:
        depth += (token[0] in OPENS + ("<",)) - (token[0] in CLOSES + (">",))
        if token[0] == mark and depth == 0:
            parts.append([])
        else:
            parts[-1].append(token)
    return [part for part in parts if part]


def plain(tokens):
    return re.sub(r"(?<=\w) (?=\W)|(?<=\W) (?=\w)|(?<=[^\w]) (?=\W)", "", " ".join(text for text, _ in tokens))


def typed(part):
    """(name, type) of a parameter or field."""
    names = [text for text, _ in part]
    if ":" not in names:
        return "self", "Self"
    at = names.index(":")
    return names[at - 1], plain(part[at + 1 :])


class Code:
    """All files of code of a tree, by their text."""

    def __init__(self, texts):
        self.functions, self.types, self.constants, self.texts = [], [], [], texts
        for file, text in sorted(texts.items()):
            lines = text.split("\n")
            self.scan(file, lines, tokens_of(text), None)

    def scan(self, file, lines, tokens, owner):
        at = 0
        while at < len(tokens):
            word, line = tokens[at]
            if word == "use":
                while tokens[at][0] != ";":
                    at += 1
            elif word == "fn":
                at = self.function(file, lines, tokens, at, owner)
            elif word in ("struct", "enum"):
                at = self.kind(file, lines, tokens, at)
            elif word == "const":
                self.constants.append((file, line, tokens[at + 1][0]))
            elif word in ("impl", "trait"):
                of = None
                while tokens[at][0] != "{" and "where" not in (word, tokens[at][0]):
                    at = closing(tokens, at) if tokens[at][0] == "<" else at
                    of, at = tokens[at][0] if tokens[at][0].isidentifier() else of, at + 1
                while tokens[at][0] != "{":
                    at += 1
                end = closing(tokens, at)
                self.scan(file, lines, tokens[at + 1 : end], of)
                at = end
            at += 1

    def above(self, lines, line):
        """The comment above an item."""
        found, at = [], line - 2
        while at >= 0 and lines[at].strip().startswith(("//", "#[")):
            if lines[at].strip().startswith("//"):
                found.insert(0, lines[at].strip()[2:].strip())
            at -= 1
        return " ".join(found)

    def kind(self, file, lines, tokens, at):
        what, line = tokens[at]
        name = tokens[at + 1][0]
        at += 2
        if tokens[at][0] == "<":
            at = closing(tokens, at) + 1
        end = closing(tokens, at)
        parts, fields, cases = split(tokens[at + 1 : end], ","), [], []
        if what == "enum":
            cases = [(part[0][0], [plain(inner) for inner in split(part[2:-1], ",")]) for part in parts]
        elif tokens[at][0] == "(":
            fields = [(str(number), plain(part).removeprefix("pub ")) for number, part in enumerate(parts)]
        else:
            fields = [typed(part) for part in parts]
        self.types.append(Kind(file, line, name, fields, cases, self.above(lines, line)))
        return end

    def function(self, file, lines, tokens, at, owner):
        made = Function(file, tokens[at][1], owner, tokens[at + 1][0])
        made.comment = self.above(lines, made.line)
        made.external = '"C"' in [text for text, _ in tokens[max(0, at - 2) : at]]
        at += 2
        if tokens[at][0] == "<":
            at = closing(tokens, at) + 1
        end = closing(tokens, at)
        made.params = [typed(part) for part in split(tokens[at + 1 : end], ",")]
        at = end + 1
        start = at + 1
        while tokens[at][0] not in (*CLAUSES, "{", "where", ";"):
            at = closing(tokens, at) + 1 if tokens[at][0] in ("(", "[") else at + 1
        made.result = plain(tokens[start:at])
        while tokens[at][0] not in ("{", ";"):
            clause = tokens[at][0]
            while clause in CLAUSES and tokens[at][0] != "{":
                at += 1
            if clause in CLAUSES:
                end = closing(tokens, at)
                made.requires += [tokens[at + 1 : end]] if clause == "requires" else []
                at = end
            at += 1
        end = closing(tokens, at) if tokens[at][0] == "{" else at
        made.body = tokens[at + 1 : end]
        self.functions.append(made)
        return end


# ---- Bodies


def statements(body):
    """The statements of a block, one after another: those of inner blocks are no part of the list."""
    found, now, at = [], [], 0
    while at < len(body):
        word = body[at][0]
        if word in OPENS:
            end = closing(body, at)
            now += body[at : end + 1]
            at = end
            follows = body[at + 1][0] if at + 1 < len(body) else ""
            if word == "{" and now[0][0] in ("if", "for", "while", "loop", "match") and follows not in ("else", ".", "?", ""):
                found, now = found + [now], []
        elif word == ";":
            found, now = found + [now], []
        else:
            now = now + [body[at]]
        at += 1
    return found + [now] if now else found


def size(body):
    """How many statements a body has, those of inner blocks counted."""
    words, depth, count = [text for text, _ in body], 0, 0
    for word in words:
        depth += (word in ("(", "[")) - (word in (")", "]"))
        count += word in ("if", "for", "while", "loop", "match") or word == ";" and depth == 0
    return count + bool(words and words[-1] not in (";", "}"))


def exits(body):
    """The values of the ways out of a body, of which each is text: of every `return`, and of the last expression, by its branches."""
    found, at = [], 0
    while at < len(body):
        if body[at][0] == "return":
            end = at
            while end < len(body) and body[end][0] not in (";", ",", "}"):
                end = closing(body, end) + 1 if body[end][0] in OPENS else end + 1
            found.append(plain(body[at + 1 : end]))
            at = end
        at += 1
    return found + last(body)


def last(body):
    """The values of a block's last expression."""
    parts = statements(body)
    if not parts or body[-1][0] == ";":
        return []
    end = parts[-1]
    if end[0][0] == "if":
        return [value for block in blocks(end) for value in last(block)]
    if end[0][0] == "match":
        return [value for arm in arms(end) for value in (last(arm[1:-1]) if arm[0][0] == "{" else [plain(arm)])]
    return [] if end[0][0] in ("for", "while", "loop") else [plain(end)]


def blocks(tokens):
    """The blocks of an `if`, the condition aside."""
    at, found = 0, []
    while at < len(tokens):
        if tokens[at][0] == "{":
            end = closing(tokens, at)
            found.append(tokens[at + 1 : end])
            at = end
        elif tokens[at][0] in OPENS:
            at = closing(tokens, at)
        at += 1
    return found


def arms(tokens):
    """What stands in the arms of a `match`."""
    start = next(place for place, (text, _) in enumerate(tokens) if text == "{")
    inner, found, now, at = tokens[start + 1 : closing(tokens, start)], [], None, 0
    while at < len(inner):
        word, end = inner[at][0], closing(inner, at) if inner[at][0] in OPENS else at
        follows = inner[end + 1][0] if end + 1 < len(inner) else ""
        if now is None:
            now = [] if word == "=>" else None
        elif word == ",":
            found, now = found + [now], None
        elif word == "{" and not now and follows not in (",", ".", "?"):
            found, now = found + [inner[at : end + 1]], None
        else:
            now += inner[at : end + 1]
        at = end + 1
    return found + ([now] if now else [])


class Loop:
    """A loop: its function, line, word, condition (or range) and body; and where it counts an index, its variable."""

    def __init__(self, function, body, at):
        self.function, self.word, self.line = function, body[at][0], body[at][1]
        start = at
        while body[at][0] != "{":
            at += 1
        self.head = [text for text, _ in body[start + 1 : at]]
        self.body = body[at + 1 : closing(body, at)]
        self.variable, self.form = None, "other"
        steps, words = [plain(step) for step in statements(self.body)], self.head
        if self.word == "for" and ".." in words:
            self.variable, self.form = words[0], "range"
        elif self.word == "for":
            self.form = "each"
        elif self.word == "while" and re.match(r"\w+ (\+ \d+ )?< ", " ".join(words)) and steps[-1:] == ["%s+=1" % words[0]]:
            self.variable, self.form = words[0], "hand"
        elif self.word == "while" and {step.split("-=")[0].split("/=")[0] for step in steps if re.match(r"\w+[-/]=", step)} & set(words):
            self.form = "down"

    def inside(self):
        """What the loop does in a turn, without the step of the variable."""
        found = statements(self.body)
        return found[:-1] if self.form == "hand" else found


def loops_of(function):
    body = function.body
    return [Loop(function, body, at) for at, (text, _) in enumerate(body) if text in ("for", "while", "loop")]


# ---- Point 1


def flags(code):
    for kind in code.types:
        named = [name for name, type_ in kind.fields if type_ == "bool"]
        if named and len(kind.fields) > len(named):
            yield kind, "%s: %s beside %s" % (kind, " ".join(named), " ".join(name for name, type_ in kind.fields if type_ != "bool"))


def refusals_beside(code):
    for kind in code.types:
        if len(kind.fields) > 1 and "Refusal" in dict(kind.fields).values():
            yield kind, "%s: %s" % (kind, " ".join(name for name, type_ in kind.fields if type_ != "Refusal"))


def shaped(code):
    for kind in code.types:
        full = [types for _, types in kind.cases if types]
        if len(kind.cases) == 2 and full and all(len(types) == 1 for types in full) or ["Refusal"] in full:
            yield kind, "%s: %s" % (kind, ", ".join(name + ("(%s)" % ", ".join(types) if types else "") for name, types in kind.cases))


def answers_beside(code):
    enums = {kind.name for kind, _ in shaped(code)}
    for kind in code.types:
        found = [name for name, type_ in kind.fields if type_ in enums]
        if found and len(kind.fields) > len(found):
            yield kind, "%s: %s beside %s" % (kind, " ".join(found), " ".join(name for name, _ in kind.fields if name not in found))


def blanks(code):
    own = {kind.name for kind in code.types}
    for function in code.functions:
        types = [type_ for _, type_ in function.params]
        if function.result in own - {"Refusal"} and set(types) <= {"Refusal"}:
            yield function, "%s gives %s" % (function, function.result)


def codes(code):
    for function in code.functions:
        if function.result == "Refusal":
            yield function, "%s gives a refusal" % function
        elif function.result in NUMBERS and any(value.endswith(".code") for value in exits(function.body)):
            yield function, "%s gives a refusal's number" % function


def special(code):
    for function in code.functions:
        values = exits(function.body)
        given = [value for value in values if re.match(r"(Node|Shard|View)\(\d+\)$", value)]
        if function.result in ("Node", "Shard", "View") and given and len(set(values)) > 1:
            yield function, "%s gives %s" % (function, " ".join(sorted(set(given))))
        if function.result not in NUMBERS:
            continue
        odd = {value for value in values if CONSTANT.match(value) or LITERAL.match(value) and not re.match(r"[01](?![0-9])", value)}
        bounds = {loop.head[-1] for loop in loops_of(function)}
        found = {value for loop in loops_of(function) for value in exits(loop.body) if value == loop.variable or value == loop.head[0]}
        rest = {value for value in values if value not in found and (value in bounds or LITERAL.match(value) or CONSTANT.match(value))}
        if odd and set(values) - odd and not is_conversion(function):
            yield function, "%s gives %s" % (function, " ".join(sorted(odd)))
        elif found and rest:
            yield function, "%s gives %s where no turn finds it" % (function, " ".join(sorted(rest)))


def tests(code):
    for function in code.functions:
        text = function.words()
        for at, word in enumerate(text):
            if word in ("==", "!=") and text[at - 2 : at] in ([".", "0"], [".", "code"]) and text[at + 1].isdigit():
                yield (function.file, function.body[at][1]), "%s: %s" % (function, " ".join(text[at - 3 : at + 2]))


def flag_params(code):
    names = {name for kind in code.types for name, type_ in kind.fields if type_ == "bool" and len(kind.fields) > 1}
    for function in code.functions:
        found = [name for name, type_ in function.params if type_ == "bool" and name in names]
        if found:
            yield function, "%s: %s" % (function, " ".join(found))


def named_none(code):
    for file, line, name in code.constants:
        if re.match(r"NO_|NOWHERE$|NONE", name):
            yield (file, line), name


def kinds(code):
    for function in code.functions:
        values = set(exits(function.body))
        if function.result in NUMBERS and len(values) > 1 and all(CONSTANT.match(value) for value in values):
            yield function, "%s gives %s" % (function, " ".join(sorted(values)))
    for function in code.functions:
        if function.result in NUMBERS and function.comment and re.search(r"\b0: .*\b1: |\b1: .*\b2: |\b2: .*\b3: ", function.comment):
            yield function, "%s: %s" % (function, function.comment)


MEANS_NONE = re.compile(
    r"(?:^|[,;.(:] |\()(?:and |or |else )?\d+(?:: | is | for | stands for | where | of | beside | past | from | if | there )[^.;:]*"
    r"\b(?:none|no|not|nothing|refusal|past|end|beyond|more)\b"
    r"|\b(?:none|nobody|no \w+|nowhere|never)\b[^.;,:]{0,30}[:(] ?\d+|, or (?:len|count|0|16|32|65535|10000)\b|\bor the number of records where none"
    r"|\bzeros? (?:where|beside|of)\b"
)


def comments(code):
    items = [(item.file, item.line, str(item), item.comment) for item in code.functions + code.types]
    for file, line, name, comment in items:
        found = MEANS_NONE.search(comment)
        if found:
            yield (file, line), "%s: %s" % (name, found.group())


# ---- Point 2


def shape(function):
    """The body with names by their first use and literals alike."""
    seen, made = {}, []
    for text, _ in function.body:
        if LITERAL.match(text):
            made.append("#")
        elif re.match(r"\w", text) and text not in WORDS and text not in NUMBERS:
            made.append("n%d" % seen.setdefault(text, len(seen)))
        else:
            made.append("type" if text in NUMBERS else text)
    return " ".join(made)


def twins(code):
    groups = collections.defaultdict(list)
    for function in code.functions:
        if size(function.body) >= 3:
            groups[shape(function)].append(function)
    for group in groups.values():
        if len(group) > 1:
            for function in group:
                others = [other for other in group if other is not function]
                where = " ".join("%s:%s" % (other.file.split("/")[1], other) for other in others[:4])
                yield function, "%s as %s%s" % (function, where, " .." if len(others) > 4 else ""), group[0]


def small_twins(code):
    groups = collections.defaultdict(list)
    for function in code.functions:
        own = {name for name, _ in function.params} | {function.body[at + 1][0] for at, (word, _) in enumerate(function.body) if word == "let"}
        words = ["own" if text in own else "type" if text in NUMBERS else "#" if LITERAL.match(text) else text for text in function.words()]
        order = [text for text in function.words() if text in own]
        turns = " ".join(str(order.index(name)) for name in order)
        if 0 < size(function.body) < 3 and set(words) & {"<", ">", "==", "!=", "+", "*", "-", "|", "&", "%", "/", "as", "<="}:
            groups[" ".join(words) + turns].append(function)
    for group in groups.values():
        if len(group) > 1:
            for function in group:
                others = ["%s:%s" % (other.file.split("/")[1], other) for other in group if other is not function]
                yield function, "%s as %s" % (function, " ".join(others)), group[0]


def shrunk(type_):
    return re.sub(r"\b(u8|u16|u32|u64|usize)\b", "n", re.sub(r";\w+\]", ";N]", type_))


def type_twins(code):
    groups = collections.defaultdict(list)
    for kind in code.types:
        if len(kind.fields) > 1:
            groups[tuple(shrunk(type_) for _, type_ in kind.fields)].append(kind)
            continue
        if len(kind.cases) > 1 and any(types for _, types in kind.cases):
            groups[tuple(tuple(map(shrunk, types)) for _, types in kind.cases)].append(kind)
    for group in groups.values():
        for kind in group if len(group) > 1 else ():
            yield kind, "%s as %s" % (kind, " ".join(str(other) for other in group if other is not kind)), group[0]


# ---- Point 3


def all_loops(code):
    return [loop for function in code.functions for loop in loops_of(function)]


def of_form(form):
    def found(code):
        for loop in all_loops(code):
            if loop.form == form and loop.word != "for":
                yield (loop.function.file, loop.line), "%s: %s %s" % (loop.function, loop.word, " ".join(loop.head))

    return found


def index_only(code):
    """Loops whose variable stands in their body only as the index of one slice, or as that and nothing else."""
    for loop in all_loops(code):
        if loop.form not in ("hand", "range"):
            continue
        inside = [token for step in loop.inside() for token in step + [(";", 0)]]
        text = plain(inside)
        uses = re.findall(r"(?<![\w.])%s(?!\w)" % loop.variable, text)
        indexed = re.findall(r"([\w.]+)\[%s\]" % loop.variable, text)
        if uses and len(uses) == len(indexed) and len(set(indexed)) == 1 and not re.search(r"%s\[%s\]=[^=]" % (re.escape(indexed[0]), loop.variable), text):
            yield (loop.function.file, loop.line), "%s: %s[%s]" % (loop.function, indexed[0], loop.variable)


def copying(code):
    """Loops that do nothing but store, at the variable's place or so far from it, a literal or a place of another slice."""
    for loop in all_loops(code):
        if loop.form in ("hand", "range") and len(loop.inside()) == 1:
            text = plain(loop.inside()[0])
            place = r"[\w.]+\[[\w+* ]*\b%s\b[\w+* ]*\]" % loop.variable
            if re.fullmatch(r"%s=(%s|\d\w*)" % (place, place), text):
                yield (loop.function.file, loop.line), "%s: %s" % (loop.function, text)


def searching(code):
    """Loops that do nothing but leave their function at a turn: `all`, `any`, `position`."""
    for loop in all_loops(code):
        steps = loop.inside() if loop.form in ("hand", "range") else []
        if len(steps) == 1 and steps[0][0][0] == "if" and len(blocks(steps[0])) == 1 and plain(blocks(steps[0])[0]).startswith("return"):
            yield (loop.function.file, loop.line), "%s: %s" % (loop.function, plain(steps[0])[:100])


# ---- Point 4


def parts_compared(code):
    for function in code.functions:
        text = function.words()
        for at, word in enumerate(text):
            if word in ("==", "!=", "<", "<=", ">", ">=") and at > 2 and text[at - 2] == "." and text[at + 2 : at + 3] == ["."]:
                if text[at - 1] == text[at + 3] and text[at + 4 : at + 5] not in (["("], ["["]):
                    yield (function.file, function.body[at][1]), "%s: %s" % (function, " ".join(text[at - 3 : at + 4]))


def compares(function, known):
    """Whether all that a function to `bool` asks is whether things are equal, at least two times or in a loop."""
    text = plain(function.body)
    asked = [plain(part[1 : next(at for at, (word, _) in enumerate(part) if word == "{")]) for part in ifs(function.body)] + exits(function.body)
    asked = [term for term in asked if term not in ("true", "false")]
    same = [bool(re.fullmatch(r"[^&|<>]*[!=]=[^&|<>]*|!?[\w.]+", term) or re.match(r"!?(?:\w+::)*(\w+)\(", term) and re.match(r"!?(?:\w+::)*(\w+)\(", term).group(1) in known)
            for term in asked]
    reads = function.result == "bool" and "else" not in text and not any(type_.startswith("&mut") for _, type_ in function.params) and "match" not in text
    return reads and all(same) and (len(asked) > 1 or bool(asked) and bool(loops_of(function)))


def ifs(body):
    return [body[at:] for at, (word, _) in enumerate(body) if word == "if"]


def equals(code):
    found, known = [], set()
    while True:
        more = [function for function in code.functions if function not in found and compares(function, known)]
        if not more:
            break
        found, known = found + more, known | {function.name for function in more}
    for function in found:
        yield function, "%s: %s" % (function, plain(function.body)[:90])


def orders(code):
    for function in code.functions:
        text = plain(function.body)
        if re.fullmatch(r"if (\w+)(?:\.0)?<(\w+)(?:\.0)?\{(?:return )?(?:\1|\2);?\}(?:else\{)?(?:\1|\2)\}?", text):
            yield function, "%s: %s" % (function, text)


def less_or_none(code):
    for function in code.functions:
        text = plain(function.body)
        if re.fullmatch(r"if (\w+)<(\w+)\{(?:return )?(?:\1-\2|\2-\1|0);?\}(?:else\{)?(?:\1-\2|\2-\1|0)\}?|if (\w+)>(\w+)\{\3-\4\}else\{0\}", text):
            yield function, "%s: %s" % (function, text)


def casts(code):
    for function in code.functions:
        text = function.words()
        for at, word in enumerate(text):
            if word == "as" and text[at + 1] in NUMBERS:
                yield (function.file, function.body[at][1]), "%s: %s" % (function, " ".join(text[max(0, at - 4) : at + 2]))


def is_conversion(function):
    text = plain(function.body)
    return len(function.params) == 1 and re.fullmatch(r"\(?\w+(?:[%%/]\d+\))? as (?:%s)|\(\w+[%%/]\d+\)as (?:%s)" % ("|".join(NUMBERS), "|".join(NUMBERS)), text)


def conversions(code):
    for function in code.functions:
        if is_conversion(function):
            yield function, "%s: %s" % (function, plain(function.body))


def matched(function):
    """The values of the arms, where a body is one `match`, by `let` of what it goes by at most."""
    parts = statements(function.body)
    if parts and parts[-1][0][0] == "match" and all(part[0][0] == "let" for part in parts[:-1]):
        return last(function.body)
    return []


def packed(code):
    for function in code.functions:
        text = plain(function.body)
        joins = re.search(r"\b(256|65536|16777216|4294967296)[*]|[*/](256|65536|16777216|4294967296)\b|%(256|4294967296)\b", text)
        if joins and "mem" not in dict(function.params):
            yield function, "%s: %s" % (function, text[:90])


def to_numbers(code):
    for function in code.functions:
        values, text = matched(function), plain(function.body)
        literal = [value for value in values if LITERAL.match(value)]
        if function.result in NUMBERS and (len(literal) > 1 or re.fullmatch(r"if[^{]+\{(?:return )?1;?\}(?:else\{)?0\}?", text)):
            yield function, "%s: %s" % (function, " ".join(values) or text)
        elif function.result in NUMBERS and len(literal) == 0 and len(values) > 1 and re.search(r"_word|_number", function.name):
            yield function, "%s: %s" % (function, " ".join(values))


def from_numbers(code):
    enums = {kind.name for kind in code.types if kind.cases}
    for function in code.functions:
        values = [value for value in exits(function.body) if value.startswith(function.result + "::")]
        given = [type_ for _, type_ in function.params]
        if function.result in enums and len(set(values)) > 1 and given and all(type_ in NUMBERS for type_ in given):
            yield function, "%s: %s" % (function, " ".join(values))


def is_case(code):
    for function in code.functions:
        values = matched(function)
        if function.result == "bool" and values and set(values) <= {"true", "false"}:
            yield function, "%s: %s" % (function, " ".join(values))


def printing(code):
    for function in code.functions:
        if function.result == "usize" and ("out", "&mut[u8]") in function.params:
            yield function, "%s puts text" % function


# ---- Point 5


def travelling(code):
    """The largest groups of three or more parameters that three or more functions have."""
    rows = [(function, frozenset((name, type_.replace("&mut", "&")) for name, type_ in function.params if name != "self")) for function in code.functions]
    rows = [(function, params) for function, params in rows if not function.external]
    rows = [(function, params) for function, params in rows if len(params) > 2]
    closed, fresh = set(), {params for _, params in rows}
    while fresh:
        closed |= fresh
        fresh = {one & params for one in fresh for _, params in rows if len(one & params) > 2} - closed
    users = {group: [function for function, params in rows if group <= params] for group in closed}
    groups = {group for group in closed if len(users[group]) > 2}
    for group in sorted(groups, key=lambda group: (-len(group), sorted(group))):
        if not any(group < other for other in groups):
            yield users[group][0], "%s: in %d functions" % (", ".join("%s: %s" % param for param in sorted(group)), len(users[group])), tuple(sorted(group))


def formula(tokens):
    """The facts of a clause, each as text in which old and new values are not told apart."""
    text = re.sub(r"\.(now|old|new)\b", "", " ".join(word for word, _ in tokens).replace(" . ", "."))
    parts, depth, now = [], 0, ""
    for word in text.split(" "):
        depth += (word in OPENS) - (word in CLOSES)
        if word == "×" and depth == 0:
            parts, now = parts + [now], ""
        else:
            now += " " + word
    parts = [part.strip() for part in parts + [now]]
    if len(parts) == 1:
        return parts
    return [fact for part in parts for fact in formula([(word, 0) for word in (part[2:-2] if part[0] == "(" else part).split(" ")])]


def facts(code):
    rows = collections.defaultdict(list)
    for function in code.functions:
        for clause in function.requires:
            for fact in set(formula(clause)):
                rows[fact].append(function)
    for fact, functions in sorted(rows.items(), key=lambda row: -len(row[1])):
        if len(functions) > 2:
            crates = sorted({function.file.split("/")[1] for function in functions})
            yield functions[0], "%s: in %d contracts of %s" % (fact, len(functions), " ".join(crates)), fact


# ---- Point 6


ARRAY = re.compile(r"(?:&mut|&)?\[(.*);(\w+)\]$")
COUNTS = ("len", "hlen", "count", "words", "end")


def with_length(code):
    for kind in code.types:
        counts = [name for name, type_ in kind.fields if type_ in ("usize", "u32") and name in COUNTS]
        arrays = [name for name, type_ in kind.fields if ARRAY.match(type_)]
        if counts and arrays:
            yield kind, "%s: %s beside %s" % (kind, " ".join(counts), " ".join(arrays))


def params_with_length(code):
    for function in code.functions:
        arrays = [name for name, type_ in function.params if ARRAY.match(type_)]
        counts = [name for name, type_ in function.params if type_ in ("usize", "u32") and name in COUNTS]
        if arrays and counts:
            yield function, "%s: %s beside %s" % (function, " ".join(counts), " ".join(arrays))


def parallel(code):
    for kind in code.types:
        rows = collections.Counter(ARRAY.match(type_).group(2) for _, type_ in kind.fields if ARRAY.match(type_))
        for length, count in rows.items():
            if count > 1:
                names = [name for name, type_ in kind.fields if ARRAY.match(type_) and ARRAY.match(type_).group(2) == length]
                yield kind, "%s: %s" % (kind, " ".join(names))


def parallel_params(code):
    for function in code.functions:
        rows = collections.defaultdict(list)
        for name, type_ in function.params:
            found = ARRAY.match(type_)
            if found:
                rows[found.group(2)].append(name)
        named = [" ".join(names) for names in rows.values() if len(names) > 1]
        if named:
            yield function, "%s: %s" % (function, "; ".join(named))


def arenas(code):
    for function in code.functions:
        if any(name == "mem" for name, _ in function.params):
            yield function, "%s: mem" % function
        elif ("at", "usize") in function.params and any(re.match(r"&(mut)?\[", type_) for _, type_ in function.params):
            yield function, "%s: at" % function


# ---- Point 7


def switches(code):
    for function in code.functions:
        for at, (text, line) in enumerate(function.body):
            if text == "match":
                end = next(place for place in range(at, len(function.body)) if function.body[place][0] == "{")
                found = arms(function.body[at : closing(function.body, end) + 1])
                calls = [plain(arm) for arm in found if re.search(r"[a-z_]\w*\(", plain(arm))]
                if len(calls) > 1:
                    yield (function.file, line), "%s: match %s, %d of %d arms call" % (function, plain(function.body[at + 1 : end]), len(calls), len(found))


def chains(code):
    for function in code.functions:
        heads = re.findall(r"(?<!else )if (\w+)(?:<|==)\w[\w+.]*\{(?:[^{}]*)return", plain(function.body))
        most = collections.Counter(heads).most_common(1)
        if most and most[0][1] > 1 and function.result in NUMBERS:
            yield function, "%s: %d tests of %s" % (function, most[0][1], most[0][0])


def function_tables(code):
    for function in code.functions:
        for name, type_ in function.params:
            if re.search(r"\bfn\(|\bFn\w*\(", type_):
                yield function, "%s: %s" % (function, name)
    for kind in code.types:
        for name, type_ in kind.fields:
            if re.search(r"\bfn\(", type_):
                yield kind, "%s: %s" % (kind, name)


KINDS = {
    "1.flag": ("structs with a `bool` beside a value", flags),
    "1.refusal": ("structs with a `Refusal` beside a value", refusals_beside),
    "1.enum": ("own enums of two cases with a value in one or in both, or with a case that holds a `Refusal`", shaped),
    "1.answer": ("structs with an enum of 1.enum beside a value", answers_beside),
    "1.blank": ("functions that give a value of an own type from nothing, or from a refusal", blanks),
    "1.code": ("functions that give a `Refusal`, or its number", codes),
    "1.special": ("functions of a number or identifier that give on one way a constant or a literal from 2 up (of an identifier: any), or that where a loop finds nothing", special),
    "1.test": ("tests of a refusal's number or of an identifier's against a number, as `r.code != 0`, `n.0 == 32`", tests),
    "1.param": ("functions with a parameter that is a flag by the name of 1.flag", flag_params),
    "1.none": ("constants whose name says none", named_none),
    "1.kind": ("functions of a number that give nothing but constants by name, or whose comment lists what 0, 1, 2 mean", kinds),
    "1.comment": ("functions and types whose comment says that a number, or a length, means none", comments),
    "2.function": ("functions, from three statements on, whose body is another's but for names and literals", twins),
    "2.small": ("functions of less than three statements whose body is another's but for names of its own, literals and kinds of number", small_twins),
    "2.type": ("types of more than one field that are another but for names, sizes and kinds of number", type_twins),
    "3.while": ("loops `while v < e` or `while v + n < e` that end with `v += 1`", of_form("hand")),
    "3.down": ("loops `while` whose variable is decreased or divided", of_form("down")),
    "3.other": ("other loops `while` and `loop`", of_form("other")),
    "3.index": ("loops, of any spelling, whose variable is only the index of one slice that is read", index_only),
    "3.copy": ("loops, of any spelling, that only copy or clear places of a slice", copying),
    "3.search": ("loops, of any spelling, that only return at a turn (`all`, `any`, `position`)", searching),
    "4.part": ("comparisons of the same part of two values, as `a.0 < b.0`", parts_compared),
    "4.equal": ("functions that only ask, two times or in a loop, whether parts are equal", equals),
    "4.order": ("functions that give the lesser or the greater of two values", orders),
    "4.less": ("functions that give a - b, or 0", less_or_none),
    "4.cast": ("casts `x as u32` and the like", casts),
    "4.convert": ("functions that are one cast", conversions),
    "4.pack": ("functions that join numbers, or take one apart, by 256, 2^16, 2^24 or 2^32", packed),
    "4.number": ("functions from the cases of an enum, or from a `bool`, to numbers", to_numbers),
    "4.from": ("functions from numbers to the cases of an enum", from_numbers),
    "4.case": ("functions from the cases of an enum to `true` and `false`", is_case),
    "4.print": ("functions that put text into `out` and answer the place after it", printing),
    "5.params": ("largest groups of three or more parameters, by name and type (`&` and `&mut` alike), that three or more functions have", travelling),
    "5.facts": ("facts that three or more contracts require", facts),
    "6.length": ("structs of an array with a length beside it", with_length),
    "6.param": ("functions with an array and a length beside it", params_with_length),
    "6.parallel": ("structs with two arrays of one length", parallel),
    "6.tables": ("functions with two arrays of one length", parallel_params),
    "6.arena": ("functions that are given a place in an array, or the memory `mem` of places", arenas),
    "7.match": ("`match` of which two arms or more call a function", switches),
    "7.chain": ("functions that test one number two times or more for what they give", chains),
    "7.table": ("parameters and fields that are functions", function_tables),
}


# ---- Point 8


def proofs(texts):
    """Of the files in proofs/: (what, how many)."""
    answers = {file: text for file, text in texts.items() if file.endswith("/Answers.antt")}
    invariants = {file: text for file, text in texts.items() if file.endswith("/Invariants.antt")}
    yield "files Answers.antt", len(answers)
    yield "answers in them", sum(len(re.findall(r"(?m)^(?:\w+ )*pub \S+ : goal\.", text)) for text in answers.values())
    yield "files Invariants.antt", len(invariants)
    yield "invariants and measures in them", sum(len(re.findall(r"(?m)^(?:\w+ )*pub \S+ : goal\.", text)) for text in invariants.values())
    yield "lines of all files in proofs/", sum(text.count("\n") for text in texts.values())


# ---- A tree


def of_folder(root):
    """(texts of code, texts of proofs), by file."""
    texts = {}
    for pattern in ("crates/*/src/**/*.rt", "crates/*/proofs/**/*.antt"):
        for path in glob.glob(os.path.join(root, pattern), recursive=True):
            with open(path, encoding="utf-8") as file:
                texts[os.path.relpath(path, root)] = file.read()
    return parted(texts)


def of_commit(root, commit):
    done = subprocess.run(["git", "archive", "--format=tar", commit, "crates"], cwd=root, stdout=subprocess.PIPE, check=True)
    with tarfile.open(fileobj=io.BytesIO(done.stdout)) as archive:
        files = [member for member in archive.getmembers() if member.isfile() and re.search(r"/src/.*\.rt$|/proofs/.*\.antt$", member.name)]
        return parted({member.name: archive.extractfile(member).read().decode("utf-8") for member in files})


def parted(texts):
    return tuple({file: text for file, text in texts.items() if re.match(r"crates/\w+/%s/" % part, file)} for part in ("src", "proofs"))


def places(code, kind):
    """The places of a kind: (file, line, what, what makes it one place with others), each line once for one thing."""
    found, seen = [], set()
    for place in KINDS[kind][1](code):
        at, what, *group = place
        file, line = (at.file, at.line) if hasattr(at, "file") else at
        row = (file, line, what, (group[0].file, group[0].line) if group and hasattr(group[0], "file") else group[0] if group else None)
        if (file, line) not in seen or kind in ("4.cast", "4.part", "1.test") or group and kind.startswith("5"):
            found.append(row)
        seen.add((file, line))
    return found


def main():
    words, commit, listed = sys.argv[1:], None, None
    for option in ("--at", "--list"):
        if option in words:
            at = words.index(option)
            value = words[at + 1]
            commit, listed = (value, listed) if option == "--at" else (commit, value)
            del words[at : at + 2]
    root = words[0] if words else ROOT
    texts, proved = of_commit(root, commit) if commit else of_folder(root)
    code = Code(texts)
    if listed:
        for kind in KINDS:
            if listed in (kind, kind.split(".")[0]):
                for file, line, what, _ in places(code, kind):
                    print("%s:%d: %s: %s" % (file, line, kind, what))
        return
    loops = all_loops(code)
    by_for = sum(loop.word == "for" for loop in loops)
    print("%d files, %d functions, %d types, %d loops, %d of them `for`" % (len(texts), len(code.functions), len(code.types), len(loops), by_for))
    point, lines = "", set()
    for kind, (about, _) in [*KINDS.items(), ("8", ("", None))]:
        if kind.split(".")[0] != point:
            if point:
                print("%-12s %5d  places of point %s, each line once" % (point + " all", len(lines), point))
            point, lines = kind.split(".")[0], set()
        if kind == "8":
            break
        found = places(code, kind)
        groups = {group for *_, group in found}
        more = ", in %d groups" % len(groups) if kind.startswith("2") else ""
        lines.update((file, line) for file, line, _, _ in found)
        print("%-12s %5d  %s%s" % (kind, len(found), about, more))
    for what, count in proofs(proved):
        print("%-12s %5d  %s" % ("8", count, what))


if __name__ == "__main__":
    main()
