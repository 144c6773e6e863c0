"""Measure the library and write docs/PERFORMANCE.md: performance.py [mock].

One run: first all times, with nothing else running here, then instructions by callgrind, several counts at a time. Events beside a peer in C and
beside the reference, previews and decisions by rounds beside decide, the placement beside LEMON's network simplex, the program mondays beside a
plain C program, the program sheet beside as many decisions, the stack by painting. The page has the ratios first; what the programs of bench/
print goes whole to target/performance/. With `mock` the reference stands in for the library and the programs, the placement is left out, and
the page goes to target/performance/ too. It needs valgrind and, for the placement, LEMON (Debian: liblemon-dev)."""
import concurrent.futures
import os
import re
import struct
import subprocess
import sys
import time

ROOT = os.path.dirname(os.path.dirname(os.path.abspath(__file__)))
TARGET = os.path.join(ROOT, "target")
CARGO = os.path.join(TARGET, "cargo")
WHOLE = os.path.join(TARGET, "performance")
BENCH = os.path.join(CARGO, "release", "events-bench")
ENVIRONMENT = dict(os.environ, CARGO_TARGET_DIR=CARGO, RESTART_LIB_DIR=os.path.join(TARGET, "staticlib"))
SLOWEST = re.compile(r'^greatest ratio ([\d.]+): ([\d.]+) to ([\d.]+), seed (\d+), instance (\d+) of "(.+)"$', re.M)
RESTART = re.compile(r"^A whole restart .*: ([\d.]+) ms, the reference ([\d.]+) ms\.$", re.M)
COUNTED = re.compile(r"Collected : (\d+)")
PLACED = re.compile(r"^(.+?)\s+(\d+)%\s+([\d.]+) \|\s+([\d.]+)\s+([\d.]+) \|\s+([\d.]+)\s+([\d.]+) \|\s+([\d.]+)\s+([\d.]+) \| (\d+)$")
SIZES = ("full", "small", "short")
RUNS = 15
# Instances of a kind of placement whose instructions are counted.
SOLVED = 20


def said(*command):
    """What a command prints; it must succeed. A copy goes to target/performance/."""
    done = subprocess.run(command, cwd=ROOT, env=ENVIRONMENT, stdout=subprocess.PIPE, text=True, check=True)
    name = re.sub(r"[^a-z0-9]+", "-", " ".join([os.path.basename(command[0]), *command[1:]]).lower()).strip("-")[-60:]
    with open(os.path.join(WHOLE, name + ".txt"), "w") as out:
        out.write(done.stdout)
    return done.stdout


def build(mock):
    os.makedirs(WHOLE, exist_ok=True)
    if not mock:
        for name in ("c_planner", "c_placement"):
            subprocess.run([sys.executable, "gate/prove.py", name], cwd=ROOT, env=ENVIRONMENT, check=True, stdout=subprocess.DEVNULL)
        said("make", "--no-print-directory", "target/bin/restart", "target/bin/sheet", "target/bin/mondays")
    features = ["--features", "mock"] if mock else []
    for folder, more in (("bench/events", features), ("reference", [])):
        said("cargo", "build", "--release", "--offline", "--quiet", "--manifest-path", folder + "/Cargo.toml", *more)


def rows_of(text):
    """The rows of the tables in a text, without heads and rules, table by table."""
    tables, rows = [], None
    for line in text.splitlines():
        if not line.startswith("|"):
            rows = None
        elif rows is None:
            rows = []
            tables.append(rows)
        elif not line.startswith("|---"):
            rows.append([cell.strip() for cell in line.strip("|").split("|")])
    return tables


def table(head, rows):
    lines = ["|%s|" % "|".join(head), "|---" + "|--:" * (len(head) - 1) + "|"]
    return "\n".join(lines + ["|%s|" % "|".join(row) for row in rows])


def middle(numbers):
    return sorted(numbers)[len(numbers) // 2]


def thousands(number):
    """Instructions in thousands."""
    return "%.1f" % (number / 1000) if number < 100_000 else "%d" % round(number / 1000)


def counted(*command):
    """The instructions inside `measured` of a run."""
    callgrind = ["valgrind", "--tool=callgrind", "--toggle-collect=measured", "--callgrind-out-file=/dev/null", *command]
    done = subprocess.run(callgrind, stdout=subprocess.PIPE, stderr=subprocess.STDOUT, text=True, check=True)
    return int(COUNTED.search(done.stdout).group(1))


def counts(commands):
    """Those of many runs, as many at a time as there are processors."""
    with concurrent.futures.ThreadPoolExecutor(os.cpu_count()) as pool:
        return list(pool.map(lambda command: counted(*command), commands))


def events(tables, inputs):
    """The table of ratios to the peer: of times, the median and the greatest, and of instructions, for each size."""
    forms = [("decide" if name.startswith("decide") else name, "chooses" if "first" in name else "peer", name) for name, *_ in tables[0]]
    asked = [(form, call, size) for size in SIZES for call, peer, _ in forms for form in ("library", peer)]
    numbers = iter(counts([(BENCH, "beside", form, call, str(index), size) for form, call, size in asked for index in range(inputs)]))
    own = {}
    rows = {name: [name] for *_, name in forms}
    for size, timed in zip(SIZES, tables):
        for (call, _, name), (_, _, _, ratio, greatest) in zip(forms, timed):
            library, peer = ([next(numbers) for _ in range(inputs)] for _ in range(2))
            own[size, call] = middle(library)
            rows[name] += ["%s, %s" % (ratio, greatest), "%.1f" % middle([a / b for a, b in zip(library, peer)])]
    head = ["library : peer"] + [word for size in SIZES for word in (size + ": time, greatest", "instructions")]
    return table(head, rows.values()), own


def calls(tables, stack, inputs):
    """The table of all calls at full size, beside the reference."""
    deep = {name: size for name, size in rows_of(stack)[0]}
    timed = [row for rows in tables for row in rows]
    numbers = iter(counts([(BENCH, "once", name, str(index)) for name, *_ in timed for index in range(inputs)]))
    rows = []
    for name, median, worst, reference, _, _ in timed:
        taken = [next(numbers) for _ in range(inputs)]
        rows.append((name, median, worst, reference, thousands(middle(taken)), "{:,}".format(int(deep[name]))))
    return table(("call", "median", "worst", "reference", "instructions", "stack"), rows)


def layouts():
    """For each kind of layout: instructions of decide, and to those of decide those of a preview, of the mask, of 0 and of 128 rounds."""
    kinds = [(kind, name) for kind, name in enumerate(said(BENCH, "kinds").splitlines()) if name.endswith("; empty logs")]
    asked = (("decide",), ("decide", "without"), ("preview",), ("preview_all",), ("decide_within", "0"), ("decide_within", "128"), ("check_gathered",))
    numbers = iter(counts([(BENCH, "once", call, "0", str(kind), *more) for kind, _ in kinds for call, *more in asked]))
    rows = []
    for _, name in kinds:
        decide, without, one, every, none, most, opened = (next(numbers) for _ in asked)
        ratios = (one / without, every / decide, (none - opened) / (decide - opened), most / decide)
        rows.append((name.removesuffix("; empty logs"), thousands(decide), *("%.2f" % ratio for ratio in ratios)))
    return table(("layout", "decide", "preview", "preview_all", "0 rounds", "128 rounds"), rows)


def placement():
    """The table of placements beside LEMON's, and a sentence about the instance with the greatest ratio."""
    printed = said("make", "--no-print-directory", "-C", "bench", "bench")
    bench = os.path.join(TARGET, "bench", "bench")
    found = [row.groups() for row in map(PLACED.match, printed.splitlines()) if row]
    numbers = iter(counts([(bench, solver, str(kind), str(SOLVED), "1") for kind in range(len(found)) for solver in ("ours", "lemon")]))
    rows = []
    for name, _, _, median, _, _, _, ratio, greatest, _ in found:
        own, other = next(numbers), next(numbers)
        rows.append((name, median, ratio, greatest, "%.2f" % (own / other)))
    ratio, own, lemon, seed, index, kind = SLOWEST.search(printed).groups()
    where = "The greatest ratio is %s (%s to %s microseconds, instance %s of \"%s\", seed %s)" % (ratio, own, lemon, index, kind, seed)
    return table(("kind", "median", "ratio", "greatest", "instructions"), rows), where + "; %d answers differ." % sum(int(row[-1]) for row in found)


def run_time(program, blocks):
    """The least time of some runs of a program on an input, in seconds."""
    least = float("inf")
    for _ in range(RUNS):
        began = time.perf_counter()
        subprocess.run([program], input=blocks, stdout=subprocess.DEVNULL, check=True)
        least = min(least, time.perf_counter() - began)
    return least


def program(mock, more):
    """What a report costs the program restart when all nodes are held, in microseconds."""
    name = os.path.join(CARGO, "release", "restart-reference") if mock else os.path.join(TARGET, "bin", "restart")
    costs = []
    for index in range(2 if mock else 6):
        short, long = (subprocess.run([BENCH, "blocks", str(count), str(index)], stdout=subprocess.PIPE, check=True).stdout for count in (0, more))
        costs.append((run_time(name, long) - run_time(name, short)) / more * 1e6)
    return middle(costs)


def mondays(mock):
    """The ratios of bench/mondays/times.py, by the processor's time: least and greatest."""
    standing_in = ["MONDAYS=" + os.path.join(CARGO, "release", "mondays-reference"), "LINES=100000"]
    ratios = [row[-1] for row in rows_of(said("make", "--no-print-directory", "-C", "bench", "mondays", *(standing_in if mock else [])))[0]]
    return min(ratios, key=float), max(ratios, key=float)


def sheet(mock):
    """The ratios of the program sheet to as many decisions: of times, least and greatest, and of the first input's instructions."""
    name = os.path.join(CARGO, "release", "sheet-reference") if mock else os.path.join(TARGET, "bin", "sheet")
    times = [float(row[-1]) for row in rows_of(said(BENCH, "sheet", "times", name, *(("1", "1") if mock else ("6",))))[0]]
    return min(times), max(times), sheet_instructions(name)


def sheet_instructions(name):
    """Those by which the program takes more than on the same input with a bad last block, to those of the decisions."""
    whole = subprocess.run([BENCH, "sheet", "blocks", "0", "0"], stdout=subprocess.PIPE, check=True).stdout
    refused = whole + struct.pack("<7I", 6, *[0] * 6)
    decides = inside([BENCH, "sheet", "once", "0", "0"], b"", "--toggle-collect=measured_decides")
    return (inside([name], whole) - inside([name], refused)) / decides


def inside(command, data, *more):
    """The instructions of a program on an input."""
    counting = ["valgrind", "--tool=callgrind", *more, "--callgrind-out-file=/dev/null", *command]
    done = subprocess.run(counting, input=data, stdout=subprocess.DEVNULL, stderr=subprocess.PIPE, check=True)
    return int(COUNTED.search(done.stderr.decode()).group(1))


def outside():
    """What the archive takes from outside, which has to be no allocator."""
    names = {line.split()[-1] for line in said("nm", "-u", "target/staticlib/libc_planner.a").splitlines() if line.strip().startswith("U ")}
    return " and ".join(sorted(names))


def version():
    with open(os.path.join(ROOT, "include", "restart.h")) as header:
        return re.search(r'#define RESTART_VERSION "(.*)"', header.read()).group(1)


def machine():
    """The machine and the compilers, without the machine's name."""
    with open("/proc/cpuinfo") as text:
        cpus = [line.split(":", 1)[1].strip() for line in text if line.startswith("model name")]
    with open("/proc/meminfo") as text:
        memory = int(re.search(r"MemTotal:\s+(\d+)", text.read()).group(1)) // (1 << 20)
    versions = [said(*command).splitlines()[0] for command in (["rustc", "--version"], ["cc", "--version"], ["valgrind", "--version"])]
    system = "%s %s, %s" % (os.uname().sysname, os.uname().release.split("-")[0], os.uname().machine)
    return "%d processors (%s), %d GiB, %s; %s" % (len(cpus), cpus[0], memory, system, ", ".join(versions))


PAGE = """# Performance

One run of `make performance`, version {version}, on {machine}.

## Ratios

Library to a peer in C (tests/peer, -O3) that does the same events from the same bytes, is written for speed alone and proved in nothing. Its
decide has two forms: one gives any placement of least moves and most stays, the other the first, as the library does. Both are called in turn;
a time is the least of 15 measurements, ratios are taken input by input, over {count} inputs, instructions by callgrind over {counted}. Full: 32
nodes, 16 shards, 128 records in every report. Small: 7 nodes, 3 shards, 111 runs in a report. Short: 4 runs.

{events}

A whole restart of 32 nodes takes {own} ms, the reference {reference} ms. A report costs the program restart {program:.1f} microseconds at full size.
{more}
## Calls at full size

Microseconds, the reference's median; instructions in thousands (a byte that a repeated instruction copies counts); the deepest stack in bytes.
From outside the library takes {outside}, so no call allocates memory.

{calls}

## Growth

Medians in microseconds.

{growth}
"""

MORE = """The program mondays takes {mondays[0]} to {mondays[1]} of the processor's time of a plain C program. The program sheet takes {sheet[0]:.2f} to
{sheet[1]:.2f} of the time of 1,024 decisions, {sheet[2]:.2f} of their instructions.

## Layouts

Instructions of decide in thousands for kinds of layouts of 32 nodes with empty logs (tests/peer/src/kinds.rs), and to them those of previews
(one to the decide without its node) and of decisions by rounds (0 rounds: what check_state takes is taken off both).

{layouts}

## Placement

One subgroup's placement, in microseconds, and to LEMON's network simplex, which finds the least weight alone; kinds in tests/placement/README.md.
{slowest}

{placement}
"""


def main():
    mock = "mock" in sys.argv[1:]
    count, stacks, inputs = (4, 2, 1) if mock else (40, 20, 3)
    build(mock)
    times = said(BENCH, "times", str(count))
    stack = said(BENCH, "stack", str(stacks))
    first, *tables = rows_of(times)
    peer, others, grown = tables[:3], [first, *tables[4:-3]], tables[-3:]
    heads = [line.strip("|").split("|") for line in times.splitlines() if re.match(r"\| (nodes|shards|runs) ?[(i]", line)]
    fields = {"program": program(mock, 50 if mock else 2000)}
    if not mock:
        fields["mondays"], fields["sheet"] = mondays(mock), sheet(mock)
        fields["placement"], fields["slowest"] = placement()
        fields["layouts"] = layouts()
    own, reference = RESTART.search(times).groups()
    ratios, _ = events(peer, inputs)
    page = PAGE.format(
        version=version(), machine=machine(), count=count, counted=inputs, events=ratios, own=own, reference=reference, program=fields["program"],
        more="" if mock else MORE.format(**fields), outside="nothing" if mock else outside(), calls=calls(others, stack, inputs),
        growth="\n\n".join(table([cell.strip() for cell in head], (rows[0], rows[len(rows) // 2], rows[-1])) for head, rows in zip(heads, grown)),
    )
    path = os.path.join(WHOLE, "PERFORMANCE.md") if mock else os.path.join(ROOT, "docs", "PERFORMANCE.md")
    with open(path, "w") as out:
        out.write(page)
    print("written: %s" % os.path.relpath(path, ROOT))


main()
