"""The calls that a function of the library leads to, as a tree: calls.py [CRATE::FUNCTION ..], by default c_planner::restart_report.

Each function is shown once with what it calls; where it is called again a line names it alone. At the end: how many functions are reached,
how many calls lead to them, and how many of those go from one layer to another (the layer is the first half of a crate's name); how many
functions another crate calls, and how many of those another layer does; how many pairs of crates and of layers that makes; then the same
without the functions of the layers base and settings, which every layer calls. Calls of the kit's libraries are left out."""
import glob
import os
import re
import sys

from sources import room_of

ROOT = os.path.dirname(os.path.dirname(os.path.abspath(__file__)))
FUNCTION = re.compile(r"^( *)(?:pub )?(?:extern \"C\" )?fn (\w+)\(", re.M)
CALL = re.compile(r"(?<![\w.:])((?:\w+::)*)(\w+)\(|\.(\w+)\(")


def crates():
    with open(os.path.join(ROOT, "crates.txt")) as lines:
        return [line.split(":")[0].split()[0] for line in lines if ":" in line and not line.startswith("#")]


def functions(crate):
    """By CRATE or CRATE::MODULE each function there, with the text of its body."""
    rooms = {}
    for path in sorted(glob.glob(os.path.join(ROOT, "crates", crate, "src", "*.rt"))):
        with open(path) as text:
            source = re.sub(r"//.*", "", text.read())
        found = rooms.setdefault(room_of(os.path.relpath(path, ROOT)), {})
        for match in FUNCTION.finditer(source):
            end = source.index("\n%s}\n" % match.group(1), match.end())
            begin = source.find("\n%s{\n" % match.group(1), match.end(), end)
            found[match.group(2)] = source[begin if 0 <= begin else match.end() : end]
    return rooms


def called(room, body, known):
    """The functions that a body calls, each once, in their order."""
    seen = []
    for path, name, method in CALL.findall(body):
        name = name or method
        words = path.split("::")[:-1]
        home = "::".join([room.split("::")[0], *words[1:]] if words[:1] == ["crate"] else words)
        homes = [home] if home in known else [room] if words in ([], ["State"], ["self"]) and name in known[room] else []
        if method and not homes:
            homes = ["state_planner"]
        for home in homes:
            if name in known[home] and (home, name) not in seen:
                seen.append((home, name))
    return seen


def crate_of(function):
    return function[0].split("::")[0]


def layer(room):
    return room.split("_")[0]


def main(starts):
    known = {room: found for crate in crates() for room, found in functions(crate).items()}
    for start in starts:
        shown, calls = set(), []

        def show(at, depth):
            again = at in shown
            shown.add(at)
            print("%s%s::%s%s" % ("  " * depth, at[0], at[1], " .." if again else ""))
            if again:
                return
            for to in called(at[0], known[at[0]][at[1]], known):
                calls.append((at, to))
                show(to, depth + 1)

        show(tuple(start.rsplit("::", 1)), 0)
        for left_out in ((), ("base", "settings")):
            reached = [at for at in shown if layer(at[0]) not in left_out]
            counted = [(at, to) for at, to in calls if layer(at[0]) not in left_out and layer(to[0]) not in left_out]
            crossing = [(at, to) for at, to in counted if crate_of(at) != crate_of(to)]
            others = [(at, to) for at, to in counted if layer(at[0]) != layer(to[0])]
            without = "without %s: " % " and ".join(left_out) if left_out else ""
            print("%s%s: %d functions, %d calls, %d of them to another layer" % (without, start, len(reached), len(counted), len(others)))
            entered, above = ({to for _, to in row} for row in (crossing, others))
            pairs, bordering = ({(crate_of(at), crate_of(to)) for at, to in row} for row in (crossing, others))
            print("%sfunctions that another crate calls: %d, %d of them from another layer" % (without, len(entered), len(above)))
            print("%spairs of crates, one calling the other: %d, %d of them of two layers" % (without, len(pairs), len(bordering)))


if __name__ == "__main__":
    main(sys.argv[1:] or ["c_planner::restart_report"])
