"""Try wrong programs and judge each as edits.py does: whether it is refused for a fact of its own.

    wrong.py [NAME ..]             of all crates, or of these: those that `rt ci` tries too, crates/NAME/must-fail/*.edit, and the others,
                                   crates/NAME/wrong/*.edit
    wrong.py --gate [NAME ..]      the first alone
    wrong.py --aside [NAME ..]     the others alone

It first proves the crates (`rt check`), then checks each with its wrong programs, in copies outside the checkout. What a check printed lies at
target/wrong/NAME/LABEL.log. Prints a last line `N passed, M failed`: one for each wrong program."""
import glob
import os
import shutil
import subprocess
import sys

import edits
import tries
from prove import ROOT, folder_of

LOGS = os.path.join(ROOT, "target", "wrong")


def main():
    words = sys.argv[1:]
    folders = [folder for folder, other in (("must-fail", "--aside"), ("wrong", "--gate")) if other not in words]
    os.chdir(ROOT)
    paths = sorted(path for folder in folders for path in glob.glob("crates/*/%s/*.edit" % folder))
    names = [word for word in words if not word.startswith("--")]
    for name in names:
        if not any(path.split("/")[1] == name for path in paths):
            sys.exit("crates/%s has no folder %s" % (name, " or ".join(folders)))
    paths = [path for path in paths if not names or path.split("/")[1] in names]
    failed = 0
    for name in sorted({path.split("/")[1] for path in paths}):
        shutil.rmtree(os.path.join(LOGS, name), ignore_errors=True)
        done = subprocess.run(["rt", "check"], cwd=folder_of(name), stdout=subprocess.PIPE, stderr=subprocess.STDOUT, text=True, errors="replace")
        if done.returncode:
            print(done.stdout + "%s is not proved, so its wrong programs are not tried" % name)
            failed += 1
            paths = [path for path in paths if path.split("/")[1] != name]
    passed, more = tries.judge(paths, edits.judged, LOGS)
    print("%d passed, %d failed" % (passed, failed + more))
    sys.exit(1 if failed + more else 0)


if __name__ == "__main__":
    main()
