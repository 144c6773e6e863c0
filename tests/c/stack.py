"""Bound the stack of every call from the library's machine code, for any input: stack.py ARCHIVE HEADER

Along every path of a function the pushes and the subtractions from %rsp are added up; a call adds the frames of what it calls. The only
functions that may call themselves are in TURNS, with how often at most. The greatest bound has to be below RESTART_STACK_BYTES of the header.
The last line is `N passed, M failed`, one for each call."""
import re
import subprocess
import sys

# The total search calls itself where it ends one of 16 lists or takes one of 32 nodes; the last turn only looks at what was found. Every
# other way on is a jump: each call of itself passes a flag of 0, the last of its arguments, and `untried` looks for it. The rows of all
# masks are stored by a function that calls itself with one undecided node less, from ten down to none. The crew's turn in a game, with the
# outage's in it, calls itself with two half-rounds less, from five down to one.
SEEK = "search_total::seek"
TURNS = {SEEK: 49, "plan_masks::rows::fill": 11, "game_turns::crew": 3}
# What comes from outside, with what the loader does at a first call.
OUTSIDE = {"memcpy": 8192, "memset": 8192, "memmove": 8192, "memcmp": 8192}
FUNCTION = re.compile(r"^[0-9a-f]+ <(.*)>:$")
INSTRUCTION = re.compile(r"^ *([0-9a-f]+):\t(\S+) *(.*)$")
RELOCATION = re.compile(r"^\t+([0-9a-f]+): R_X86_64_PLT32\t(?:\.text\.)?(\S+?)-0x4$")
PUSHED = 8


class Instruction:
    def __init__(self, at, name, operands):
        self.at, self.name, self.operands, self.callee = at, name, operands, None

    @property
    def to(self):
        """The function at whose beginning a jump or call goes on, or None."""
        found = re.match(r"[0-9a-f]+ <([^+>]*)>$", self.operands)
        return found.group(1) if found and self.name in ("call", "jmp") else None

    @property
    def target(self):
        """Where a jump or call inside the function goes, or None."""
        found = re.match(r"([0-9a-f]+) <", self.operands)
        return int(found.group(1), 16) if found else None


def functions(archive):
    """The instructions of each function, with the names of what they call."""
    text = subprocess.run(["objdump", "-dr", "--no-show-raw-insn", archive], stdout=subprocess.PIPE, text=True, check=True).stdout
    found, name = {}, None
    for line in text.splitlines():
        head, item, moved = FUNCTION.match(line), INSTRUCTION.match(line), RELOCATION.match(line)
        if head:
            name = head.group(1)
            found[name] = []
        elif moved:
            found[name][-1].callee = moved.group(2)
        elif item:
            found[name].append(Instruction(int(item.group(1), 16), item.group(2), item.group(3)))
    for name, code in found.items():
        for item in code:
            if item.callee is None and item.to in found and item.to != name:  # a function of the same object
                item.callee = item.to
            if item.name == "call" and item.callee is None:
                item.callee = name if item.target == 0 else sys.exit("a call that is not known in " + name)
    return found


def change(item, probe):
    """By how much an instruction lowers %rsp. Inside a loop that touches page after page, `probe`, all is counted at its beginning."""
    number = re.match(r"\$(0x[0-9a-f]+),%(rsp|r11)$", item.operands)
    if item.name == "push":
        return PUSHED
    if item.name == "pop":
        return -PUSHED
    if number and item.name == "sub":
        return 0 if number.group(2) == "rsp" and probe else int(number.group(1), 16)
    if number and item.name == "add" and number.group(2) == "rsp":
        return -int(number.group(1), 16)
    if re.search(r",%rsp$", item.operands) and item.name not in ("cmp", "test"):
        sys.exit("%rsp is set in a way that is not known: " + item.name + " " + item.operands)
    return 0


def depths(code):
    """The greatest depth along the function, without what it calls."""
    places = {item.at: index for index, item in enumerate(code)}
    probes = [(index, next(later for later in range(index, len(code)) if code[later].operands == "%r11,%rsp"))
              for index, item in enumerate(code) if (item.name, item.operands) == ("mov", "%rsp,%r11")]
    seen, work, deepest, tables = {}, [(0, 0)], 0, 0
    while work or len(seen) < len(code):
        if not work:  # reached by a jump through a table, or not at all
            work.append((next(index for index in range(len(code)) if index not in seen), tables))
        index, depth = work.pop()
        if index >= len(code) or seen.get(index, -1) >= depth:
            continue
        item = code[index]
        probe = any(first + 1 < index <= last for first, last in probes)
        after = depth + change(item, probe)
        if item.operands.startswith("*"):
            tables = max(tables, depth)
        seen[index], deepest = depth, max(deepest, depth, after)
        if deepest > 1 << 20:
            sys.exit("a loop that lowers %rsp")
        if item.name.startswith("j") and item.target in places and item.callee is None:
            work.append((places[item.target], after))
        if item.name not in ("jmp", "ret", "ud2"):
            work.append((index + 1, after))
    return deepest


def untried(name, code):
    """Every call of itself passes 0 as its last argument, the third on the stack: pushed first, or stored there after the last call or jump."""
    for index, item in enumerate(code):
        if item.callee != name:
            continue
        first = max((at + 1 for at in range(index) if code[at].name == "call" or code[at].name.startswith("j")), default=0)
        before = code[first:index]
        pushed = [one.operands for one in before[-8:] if one.name == "push"]
        stored = [one.operands.split(",")[0] for one in before if one.operands.endswith(",0x10(%rsp)")]
        if (pushed[0] if pushed else stored[-1] if stored else "") != "$0x0":
            sys.exit("a call of itself with a flag that is not known to be 0 in " + name)


def bounds(found):
    """The stack of each function with all that it calls."""
    known, entered = {}, set()

    def bound(name):
        if name in OUTSIDE:
            return OUTSIDE[name]
        if name not in known:
            if name in entered:
                sys.exit("functions that call each other: " + name)
            entered.add(name)
            own = depths(found[name]) + PUSHED
            below = [bound(callee) for callee in {item.callee for item in found[name] if item.callee} if callee != name]
            itself = any(item.callee == name for item in found[name])
            if name == SEEK:
                untried(name, found[name])
            known[name] = own * (TURNS[name] if itself else 1) + max(below, default=0)
        return known[name]

    return {name: bound(name) for name in found}


def main():
    archive, header = sys.argv[1:]
    with open(header) as file:
        limit = int(re.search(r"^#define RESTART_STACK_BYTES (\d+)", file.read(), re.M).group(1))
    found = bounds(functions(archive))
    calls = sorted(name for name in found if name.startswith("restart_"))
    over = [name for name in calls if found[name] > limit]
    for name in calls:
        print("%-24s %6d%s" % (name, found[name], " FAILED: more than RESTART_STACK_BYTES, %d" % limit if name in over else ""))
    print("%d passed, %d failed" % (len(calls) - len(over), len(over)))
    sys.exit(1 if over or not calls else 0)


main()
