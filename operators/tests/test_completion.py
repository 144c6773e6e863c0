"""Completion for bash: what it offers, asked of bash itself."""
import argparse
import os
import pty
import re
import select
import shutil
import subprocess
import tempfile
import time
import unittest

import support  # noqa: F401, it makes the package known
from restart_text.command import parser
from restart_text.completing import commands_of, script

BASH = shutil.which("bash")


@unittest.skipUnless(BASH, "no bash")
class Completion(unittest.TestCase):
    @classmethod
    def setUpClass(cls):
        folder = tempfile.TemporaryDirectory()
        cls.addClassCleanup(folder.cleanup)
        cls.path = os.path.join(folder.name, "restart-text")
        with open(cls.path, "w", encoding="ascii") as file:
            file.write(script())

    def offered(self, *lines):
        """What is offered for the last word of each line; all in one run."""
        program = '. "$1"; shift; for line in "$@"; do eval "COMP_WORDS=($line)"; COMP_CWORD=$((${#COMP_WORDS[@]} - 1)); COMPREPLY=(unset);'
        program += ' _restart_text; echo "${COMPREPLY[@]}"; done'
        done = subprocess.run([BASH, "--norc", "-c", program, "bash", self.path, *lines], capture_output=True, text=True, check=False)
        self.assertEqual((done.returncode, done.stderr), (0, ""))
        return [line.split() for line in done.stdout.splitlines()]

    def test_every_command_and_option(self):
        top = parser()
        commands = commands_of(top)
        found = self.offered("restart-text ''", *("restart-text %s -" % name for name in commands))
        self.assertEqual(set(found[0]), set(commands) | {"-h", "--help", "--version"})
        for (name, made), options in zip(commands.items(), found[1:]):
            self.assertEqual(set(options), {option for action in made._actions for option in action.option_strings}, name)

    def test_words_that_have_begun(self):
        found = self.offered("restart-text expl", "restart-text explain --js", "restart-text text --as re", "restart-text watch --until ''",
                             "restart-text no ''")
        self.assertEqual(found, [["explain"], ["--json"], ["report"], ["plan", "committed"], []])

    def test_values(self):
        """Every choice is offered; of a file nothing, so that bash names files; of a number nothing."""
        lines, wanted = [], []
        for name, made in commands_of(parser()).items():
            for action in made._actions:
                if action.option_strings and action.nargs != 0 and not isinstance(action, argparse._SubParsersAction):
                    lines.append("restart-text %s %s ''" % (name, action.option_strings[-1]))
                    wanted.append(list(map(str, action.choices or ())))
        self.assertGreater(len(lines), 30)
        self.assertEqual(self.offered(*lines), wanted)

    def test_in_an_interactive_bash(self):
        """A tab completes the command, the option, and the name of a file."""
        with tempfile.TemporaryDirectory() as folder:
            with open(os.path.join(folder, "night of the outage.txt"), "w", encoding="ascii"):
                pass
            process, leader = pty.fork()
            if process == 0:
                os.chdir(folder)
                os.execve(BASH, ["bash", "--norc", "--noprofile", "-i"], {"PATH": os.environ["PATH"], "TERM": "dumb", "PS1": "> ", "INPUTRC": "/dev/null"})
            try:
                os.write(leader, (". %s; restart-text() { printf 'ran:'; printf '<%%s>' \"$@\"; }\n" % self.path).encode())
                self.read_until(leader, "> ")
                os.write(leader, b"restart-text expl\t--js\tnig\t\n")
                self.assertIn("ran:<explain><--json><night of the outage.txt>", self.read_until(leader, "outage.txt>"))
            finally:
                os.close(leader)
                os.waitpid(process, 0)

    def read_until(self, leader, piece):
        text, end = "", time.monotonic() + 30
        while piece not in re.sub(r".*restart-text expl", "", text):
            self.assertLess(time.monotonic(), end, text)
            if select.select([leader], [], [], 1)[0]:
                text += os.read(leader, 65536).decode(errors="replace")
        return text
