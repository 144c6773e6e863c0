"""Prove and build crates: `prove.py NAME ..`.

A program comes to lie at target/bin/NAME, a static library at target/staticlib/libNAME.a; any other crate is proved (`rt check`). It says how far it
is; what rt printed is shown where it fails.

`prove.py --after-ci NAME ..` takes what `rt ci` has just proved in this checkout: a program as it stands, and a static library compiled over the
libraries that rt ci built, which `rt lib` would prove once more, since rt ci keeps of them what the crates above need and no more."""
import importlib.machinery
import importlib.util
import os
import re
import shutil
import subprocess
import sys
import threading
import time

ROOT = os.path.dirname(os.path.dirname(os.path.abspath(__file__)))
# A line of crates.txt: the name, what a static library has after it, and the crates that it uses.
LINE = re.compile(r"(?m)^([a-z0-9_]+)( staticlib)?:(.*)$")


def listed():
    """Of each crate of crates.txt whether it is a static library, and the crates that it uses."""
    with open(os.path.join(ROOT, "crates.txt"), encoding="utf-8") as lines:
        return {name: (bool(static), uses.split()) for name, static, uses in LINE.findall(lines.read())}


def reached(names):
    """The crates that are proved for these: they and all that they use."""
    crates, found, todo = listed(), set(), list(names)
    while todo:
        crate = todo.pop()
        if crate in crates and crate not in found:
            found.add(crate)
            todo += crates[crate][1]
    return found


def folder_of(name):
    return os.path.join(ROOT, "crates", name)


def is_program(name):
    return os.path.exists(os.path.join(folder_of(name), "src", "main.rt"))


def kept(name):
    """Where a crate's program or archive is made, and where it comes to lie."""
    made, lies = ("out/" + name, "bin/" + name) if is_program(name) else ("out/lib%s.a" % name, "staticlib/lib%s.a" % name)
    return os.path.join(folder_of(name), made), os.path.join(ROOT, "target", lies)


def put(name):
    made, lies = kept(name)
    os.makedirs(os.path.dirname(lies), exist_ok=True)
    shutil.copyfile(made, lies + ".new")
    os.chmod(lies + ".new", 0o755 if is_program(name) else 0o644)
    os.replace(lies + ".new", lies)
    print("written: %s" % os.path.relpath(lies, ROOT))


class Progress:
    """A line that says how many crates are proved. On a terminal it is written over every second; elsewhere it is printed anew
    whenever more are."""

    def __init__(self, total):
        self.total, self.done, self.said = total, 0, None
        self.began = time.time()
        self.live = sys.stderr.isatty()
        self.over = threading.Event()

    def say(self):
        seconds = int(time.time() - self.began)
        line = "%d of %d crates proved, %d min %02d s" % (self.done, self.total, seconds // 60, seconds % 60)
        if self.live:
            sys.stderr.write("\r%s " % line)
        elif self.said != self.done:
            sys.stderr.write(line + "\n")
        self.said = self.done
        sys.stderr.flush()

    def tick(self):
        while not self.over.wait(1):
            self.say()

    def end(self):
        self.over.set()
        self.say()
        if self.live:
            sys.stderr.write("\n")


def run(verb, name, progress):
    """Runs rt in the crate's folder; gives its status, and what it printed."""
    process = subprocess.Popen(
        ["rt", verb], cwd=folder_of(name), stdin=subprocess.DEVNULL, stdout=subprocess.PIPE, stderr=subprocess.STDOUT, text=True, errors="replace"
    )
    printed = []
    for line in process.stdout:
        printed.append(line)
        progress.done += line.startswith("logic=proved ")
    return process.wait(), printed


def proved(name, progress):
    """Proves a crate and builds what it makes; whether that succeeded, and what rt printed."""
    if is_program(name):
        # its status is the program's own once it runs
        _, printed = run("run", name, progress)
        return "rt: running out/%s;" % name in "".join(printed), printed
    status, printed = run("lib" if listed()[name][0] else "check", name, progress)
    return status == 0, printed


def main(names):
    total = reached(names)
    progress = Progress(len(total))
    threading.Thread(target=progress.tick, daemon=True).start()
    for name in names:
        well, printed = proved(name, progress)
        if not well:
            progress.end()
            sys.stdout.writelines(printed)
            return 1
    # what is kept from an earlier run has no line
    progress.done = len(total)
    progress.end()
    for name in names:
        if is_program(name) or listed()[name][0]:
            put(name)
    return 0


# ---- After rt ci


def tools():
    """rt's own module, which has a crate's libraries and the words of its commands."""
    file = os.path.join(os.path.dirname(os.path.realpath(shutil.which("rt"))), "rtlib.py")
    loader = importlib.machinery.SourceFileLoader("rtlib", file)
    made = importlib.util.module_from_spec(importlib.util.spec_from_loader("rtlib", loader))
    sys.modules["rtlib"], sys.dont_write_bytecode = made, True
    loader.exec_module(made)
    return made


def mixed(crate):
    """Whether a library below the crate was built by another command of rt than rt ci, which writes a stamp beside it."""
    return any(os.path.exists(os.path.join(os.path.dirname(below.rlib), "stamp")) for below in crate.below())


def lacking(crate):
    return [below.name for below in crate.below() if not os.path.isdir(below.rlib)]


def compiled(name):
    """The static library over what rt ci built; where the checkout had libraries before, by `rt lib`."""
    rtlib = tools()
    crate = rtlib.Crate(folder_of(name), ROOT, {})
    if mixed(crate):
        return main([name])
    if lacking(crate):
        print("%s: rt ci did not build %s" % (name, " ".join(lacking(crate))))
        return 1
    made, _ = kept(name)
    os.makedirs(os.path.dirname(made), exist_ok=True)
    words = crate.words(["--jobs", "1"], keeps=False)
    sys.stdout.flush()
    status = crate.call(rtlib.RATTLE, "build", *words, "--toolchain", rtlib.KIT + "/toolchain", "--backend", "llvm", "-o", made)
    if status == 0:
        put(name)
    return status


def after_ci(names):
    for name in names:
        if not is_program(name):
            status = compiled(name)
            if status:
                return status
        elif os.path.exists(kept(name)[0]):
            put(name)
        else:
            print("%s: rt ci did not build it" % name)
            return 1
    return 0


if __name__ == "__main__":
    words = sys.argv[1:]
    sys.exit(after_ci(words[1:]) if words[:1] == ["--after-ci"] else main(words))
