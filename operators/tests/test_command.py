"""The command itself, and what its README shows."""
import argparse
import os
import re
import shutil
import subprocess
import sys
import tempfile
import unittest

import support
from restart_text import words
from restart_text.command import COMMANDS
from support import command


def process(*arguments, data=b"", **more):
    """The command as a process of its own."""
    done = subprocess.run([support.COMMAND, *arguments], input=data, capture_output=True, check=False, cwd=support.ROOT, **more)
    return done.returncode, done.stdout, done.stderr.decode()


class Command(unittest.TestCase):
    def test_words(self):
        self.assertEqual(command("words", "examples/case-a.txt"), (0, support.bytes_a(), ""))
        status, printed, _ = command("words", "examples/case-a.txt", "--decimal")
        blocks = [[int(word) for word in line.split()] for line in printed.decode().splitlines()]
        self.assertEqual((status, blocks), (0, [[len(block)] + block for block in support.CASE_A]))

    def test_words_of_orders_and_states(self):
        order = words.to_bytes(support.ORDER_A + [0] * (512 - len(support.ORDER_A)))
        self.assertEqual(command("words", "-", data=support.ORDER_TEXT.encode()), (0, order, ""))
        self.assertEqual(command("words", "-", data=support.STATE_TEXT.encode()), (0, words.to_bytes(support.state_a()), ""))

    def test_text(self):
        status, text, _ = command("text", "-", data=support.bytes_a())
        self.assertEqual(status, 0)
        self.assertEqual(command("words", "-", data=text), (0, support.bytes_a(), ""))
        order = words.to_bytes(support.ORDER_A)
        for more in ([], ["--settings", "examples/case-a.txt"]):
            self.assertEqual(command("text", "--as", "order", *more, "-", data=order), (0, support.ORDER_TEXT.encode(), ""))
        kept = words.to_bytes(support.state_a())
        self.assertEqual(command("text", "--as", "state", "-", data=kept), (0, support.STATE_TEXT.encode(), ""))

    def test_troubles(self):
        bad = support.example("a").replace("node 3 set 1", "node 3 set 9")
        for arguments, data, status, message in (
            (["words", "-"], bad.encode(), 2, "standard input, line 9: expected a failure set from 0 to 2, found 9"),
            (["explain", "-"], bad.encode(), 2, "standard input, line 9: expected a failure set from 0 to 2, found 9"),
            (["words", "-"], support.bytes_a(), 2, "this is no text; for words use the command text"),
            (["words", "no-such-file"], b"", 3, "cannot read no-such-file: No such file or directory"),
            (["words", "examples/case-a.txt", "-o", "no-such-folder/file"], b"", 3,
             "cannot write no-such-folder/file: No such file or directory"),
            (["text", "-"], bad.encode(), 2, "this is a text already"),
            (["explain", "-", "--program", "no-such-program"], support.bytes_a(), 3,
             "no-such-program does not run: No such file or directory"),
            (["explain", "-", "--program", "/bin/false"], support.bytes_a(), 3, "/bin/false ended with status 1"),
            (["explain", "-", "--program", "/bin/echo"], support.bytes_a(), 3,
             "expected a plan, 'wait REASON' or 'number NUMBER' (with a record after 8, 9, 16, 17), found ''"),
            (["explain", "-", "--gone", "3-40", "--program", support.program()], support.bytes_a(), 3,
             "--gone: there is no machine 3-40; known are machines 0 to 6"),
            (["draw", "-", "--program", support.program()], support.bytes_a()[:-4], 2,
             "the input is refused with number 5, so that there is nothing to draw; explain says why"),
        ):
            with self.subTest(" ".join(arguments)):
                self.assertEqual(command(*arguments, data=data), (status, b"", "restart-text: %s\n" % message))

    def test_an_answer_from_a_file(self):
        with tempfile.TemporaryDirectory() as folder:
            path = os.path.join(folder, "answer")
            for answer, status in ((support.ANSWER_A, 0), ("wait 2\n", 3)):
                with open(path, "w", encoding="ascii") as file:
                    file.write(answer)
                done = command("explain", "-", "--answer", path, data=support.bytes_a())
                self.assertEqual((done[0], done[2], b"WARNING" in done[1]), (status, "", status == 3))
            self.assertEqual(command("draw", "examples/case-a.txt", "--answer", path)[0], 3)


class Readme(unittest.TestCase):
    def test_each_command_prints_what_the_readme_shows(self):
        with open(os.path.join(support.ROOT, "operators", "README.md"), encoding="utf-8") as file:
            shown = re.findall(r"^    \$ (.*)\n((?:    (?!\$).*\n|\n(?=    (?!\$)))*)", file.read(), re.M)
        self.assertGreaterEqual(len(shown), 5)
        with tempfile.TemporaryDirectory() as folder:
            for name in ("operators", "examples"):
                os.symlink(os.path.join(support.ROOT, name), os.path.join(folder, name))
            paths = dict(os.environ, RESTART=support.program(), MONDAYS=support.program("mondays"), LIBRARY=support.library(),
                         SHEET=support.program("sheet"))
            for line, printed in shown:
                done = subprocess.run(["bash", "-c", line], cwd=folder, env=paths, capture_output=True, text=True, check=False)
                self.assertEqual((done.returncode, done.stderr), (0, ""), line)
                self.assertEqual(done.stdout, re.sub("^    ", "", printed, flags=re.M), line)


class Programs(unittest.TestCase):
    """Which program is asked where none is named."""

    def setUp(self):
        folder = tempfile.TemporaryDirectory()
        self.addCleanup(folder.cleanup)
        self.folder = folder.name

    def installed(self):
        """The tool as it is installed."""
        plain = {name: value for name, value in os.environ.items() if not name.startswith(("MAKE", "MFLAGS"))}
        done = subprocess.run(["make", "-s", "install-tool", "DESTDIR=", "PREFIX=" + self.folder], cwd=support.ROOT, check=False,
                              capture_output=True, text=True, env=plain)
        self.assertEqual((done.returncode, done.stderr), (0, ""))
        return os.path.join(self.folder, "bin", "restart-text")

    def put(self, *names):
        """A program that always answers `wait 1`."""
        path = os.path.join(self.folder, *names)
        os.makedirs(os.path.dirname(path), exist_ok=True)
        with open(path, "w", encoding="ascii") as file:
            file.write("#!/bin/sh\necho wait 1\n")
        os.chmod(path, 0o755)

    def explained(self, tool, path="/no-such-folder"):
        """The exit status and last line for settings without reports."""
        settings = words.joined(support.CASE_A[:1])
        done = subprocess.run([sys.executable, tool, "explain", "-"], input=settings, capture_output=True, check=False, cwd="/",
                              env={"PATH": path})
        return done.returncode, (done.stdout or done.stderr).decode().splitlines()[-1]

    def test_installed(self):
        tool = self.installed()
        self.assertEqual(self.explained(tool), (3, "restart-text: there is no program restart on the path; give --program PATH, or"
                                                " --answer FILE with what it printed"))
        self.put("else", "restart")
        answer = (1, "To do: bring machines back and give their reports.")
        self.assertEqual(self.explained(tool, os.path.join(self.folder, "else")), answer)
        self.put("bin", "restart")
        self.assertEqual(self.explained(tool), answer)

    def test_version(self):
        """The header's, installed and in a checkout."""
        with open(os.path.join(support.ROOT, "include", "restart.h"), encoding="ascii") as header:
            version = header.read().split('#define RESTART_VERSION "')[1].split('"')[0]
        for tool in (self.installed(), os.path.join(support.ROOT, "operators", "restart-text")):
            done = subprocess.run([sys.executable, tool, "--version"], capture_output=True, text=True, check=False, cwd="/")
            self.assertEqual((done.returncode, done.stdout, done.stderr), (0, "restart-text %s\n" % version, ""))

    def test_in_a_checkout(self):
        for name in ("operators/restart-text", "operators/restart_text", "crates.txt"):
            os.makedirs(os.path.join(self.folder, os.path.dirname(name)), exist_ok=True)
            copy = shutil.copytree if os.path.isdir(os.path.join(support.ROOT, name)) else shutil.copy
            copy(os.path.join(support.ROOT, name), os.path.join(self.folder, name))
        tool = os.path.join(self.folder, "operators", "restart-text")
        self.assertEqual(self.explained(tool)[0], 3)
        self.put("target", "bin", "restart")
        self.assertEqual(self.explained(tool)[0], 1)


class Arguments(unittest.TestCase):
    def test_wrong_ones_end_with_3(self):
        for arguments in ([], ["no-such-command"], ["explain"], ["explain", "-", "--program", "x", "--answer", "y"],
                          ["text", "--as", "letter", "-"], ["explain", "-", "--search", "-1"], ["watch", ".", "--seconds", "soon"]):
            status, printed, message = command(*arguments)
            self.assertEqual((status, printed), (3, b""), arguments)
            self.assertIn("usage: restart-text", message)

    def test_help_has_every_command_and_the_statuses(self):
        status, printed, _ = command("--help")
        self.assertEqual(status, 0)
        for name, _, help_text in COMMANDS:
            self.assertRegex(printed.decode(), "(?m)^    %s( |$)" % name)
        self.assertIn("0 a plan", printed.decode())

    def test_statuses(self):
        for name, status in (("a", 0), ("b", 1), ("f", 1)):
            for work in ("explain", "draw", "page"):
                self.assertEqual(command(work, "examples/case-%s.txt" % name, "--program", support.program())[0], status)
        cut = support.bytes_a()[:-4]
        for work in ("explain", "draw", "page"):
            self.assertEqual(command(work, "-", "--program", support.program(), data=cut)[0], 2)

    def test_as_a_process(self):
        self.assertEqual(process("words", "-", data=support.example("a").encode()), (0, support.bytes_a(), ""))
        self.assertEqual(process("words", "-", data=b"hello\n")[0], 2)

    def test_the_manual_page_has_every_command_and_option(self):
        with open(os.path.join(support.ROOT, "man", "restart-text.1"), encoding="utf-8") as file:
            page = file.read().replace("\\-", "-")
        for name, module, _ in COMMANDS:
            self.assertIn(".B restart-text %s\n" % name, page)
            self.assertIn(".TP\n.B %s\n" % name, page)
            made = argparse.ArgumentParser()
            module.arguments(made)
            options = {option for action in made._actions for option in action.option_strings if option.startswith("--")}
            for option in options - {"--help", "--output"}:
                self.assertIn(option, page)
