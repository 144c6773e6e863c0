"""Time the program mondays beside the plain C program on the same files: times.py PROGRAM OTHER MOVES [LINES [RUNS]].

MOVES is the program that writes a moves file of a kind. On each kind of file the two programs run in turn, from the file to nowhere;
the table has the medians in seconds. Before that their answers are compared. Ends with 1 if they differ."""
import os
import resource
import statistics
import subprocess
import sys
import tempfile
import time

KINDS = (
    ("few", "few, now and then many"),
    ("random", "0 to 128, any"),
    ("falling", "falling from 128 to 0, again and again"),
    ("rising", "rising from 0 to 128, again and again"),
)


def processor_seconds():
    """What the programs that have ended took of the processors."""
    used = resource.getrusage(resource.RUSAGE_CHILDREN)
    return used.ru_utime + used.ru_stime


def timed(program, path):
    """The seconds that a run takes, and those of the processor."""
    with open(path, "rb") as file, open(os.devnull, "wb") as nowhere:
        used, began = processor_seconds(), time.perf_counter()
        subprocess.run([program], stdin=file, stdout=nowhere, check=True)
        return time.perf_counter() - began, processor_seconds() - used


def same_answers(programs, path, folder):
    """Whether the programs print the same, and something, for a file."""
    answers = [os.path.join(folder, "answer-%d" % number) for number in range(len(programs))]
    for program, answer in zip(programs, answers):
        with open(path, "rb") as file, open(answer, "wb") as out:
            subprocess.run([program], stdin=file, stdout=out, check=True)
    return os.path.getsize(answers[0]) > 0 and subprocess.run(["cmp", *answers], check=False).returncode == 0


def row(name, programs, path, runs):
    """A line of the table."""
    times = [[timed(program, path) for program in programs] for _ in range(runs)]
    seconds = [statistics.median(run[number][0] for run in times) for number in (0, 1)]
    processor = [statistics.median(run[number][1] for run in times) for number in (0, 1)]
    ratios = [own / max(other, 0.001) for own, other in (seconds, processor)]
    return "| %s | %.3f | %.3f | %.2f | %.2f |" % (name, *seconds, *ratios)


def main(program, other, moves, lines="10000000", runs="9"):
    programs = [os.path.abspath(program), os.path.abspath(other)]
    differ = 0
    print("| moves | median | C program, median | ratio of medians | of processor times |\n|---|---|---|---|---|")
    with tempfile.TemporaryDirectory(dir=os.path.dirname(os.path.abspath(moves))) as folder:
        path = os.path.join(folder, "moves.bin")
        for kind, name in KINDS:
            with open(path, "wb") as out:
                subprocess.run([os.path.abspath(moves), kind, lines], stdout=out, check=True)
            differ += not same_answers(programs, path, folder)
            print(row(name, programs, path, int(runs)), flush=True)
    print("\n{:,} lines in each file, {} runs of each program in turn; {} answers differ.".format(int(lines), runs, differ))
    return 1 if differ else 0


sys.exit(main(*sys.argv[1:]))
