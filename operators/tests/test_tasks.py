"""The whole tool: one order of tasks in --help, the manual page and the README, and files by their names."""
import json
import os
import re
import unittest

import support
from restart_text.command import COMMANDS, TASKS
from support import command
from test_files import Folder

NAMES = [name for name, *_ in COMMANDS]


def page(*path):
    with open(os.path.join(support.ROOT, *path), encoding="utf-8") as file:
        return file.read()


class Order(unittest.TestCase):
    def test_help(self):
        printed = command("--help")[1].decode()
        self.assertEqual(re.findall(r"(?m)^    (\w+) ", printed), NAMES)
        self.assertEqual(re.findall(r"(?m)^(\w.*):$", printed), [task for task, _ in TASKS])
        self.assertLessEqual(max(map(len, printed.splitlines())), 80)

    def test_the_manual_page(self):
        text = page("man", "restart-text.1")
        self.assertEqual(re.findall(r"(?m)^\.B restart-text (\w+)$", text.partition(".SH DESCRIPTION")[0]), NAMES)
        described = text.partition(".SH DESCRIPTION")[2].partition("\n.SH ")[0]
        self.assertEqual(re.findall(r"(?m)^\.SS (.*)$", described), [task for task, _ in TASKS])
        self.assertEqual(re.findall(r"(?m)^\.TP\n\.B (\w+)$", described), NAMES)

    def test_the_readme(self):
        text = page("operators", "README.md")
        rows = [row for row in text.splitlines() if row.startswith("| ") and "`" in row]
        shown = [word for row in rows for word in re.findall(r"`(\w+)", row.split("|")[2])]
        self.assertEqual(shown, NAMES)
        self.assertEqual(re.findall(r"(?m)^## (.*)$", text), [task for task, _ in TASKS] + ["Tests"])
        self.assertLess(len(text.splitlines()), 160)


class Commands(Folder):
    def test_a_command_that_there_is_not(self):
        for wrong, said in (("explian", "there is no command 'explian'; is it explain?"), ("zzz", "there is no command 'zzz'")):
            status, printed, told = command(wrong, "x")
            self.assertEqual((status, printed), (3, b""))
            self.assertTrue(told.endswith("restart-text: %s; restart-text --help lists the commands\n" % said), told)

    def test_explain_by_the_file_s_name(self):
        for end, name in ((".svg", "draw"), (".html", "page")):
            path = self.path("night" + end)
            status, printed, told = command("explain", "examples/night.txt", "--program", support.program(), "-o", path)
            self.assertEqual((status, printed, told), (1, b"", ""))
            with open(path, "rb") as file:
                self.assertEqual(file.read(), command(name, "examples/night.txt", "--program", support.program())[1])
            self.assertEqual(command("explain", "examples/night.txt", "--json", "-o", path)[0], 2)
        path = self.path("night.json")
        self.assertEqual(command("explain", "examples/night.txt", "--program", support.program(), "-o", path)[0], 1)
        with open(path, encoding="utf-8") as file:
            self.assertEqual(json.load(file)["answer"]["kind"], "wait")
        bad = self.put("bad.bin", support.with_block(3, [2, 0, 127, 0]).data)
        self.assertEqual(command("explain", bad, "--program", support.program(), "-o", self.path("bad.svg"))[0], 2)
        self.assertFalse(os.path.exists(self.path("bad.svg")))

    def test_losses_and_rounds_are_the_same(self):
        one, other = (command("shift", "examples/shift.txt", option, "1", "--library", support.library()) for option in ("--losses", "--rounds"))
        self.assertEqual(one, other)
        self.assertEqual(one[0], 1)

    def test_folders(self):
        """check takes the settings of a folder; status says who takes folders."""
        self.split()
        one, other = (command("check", path, "--program", support.program()) for path in ("examples/case-a.txt", self.folder))
        self.assertEqual(one, other)
        status, _, told = command("status", self.folder)
        self.assertEqual(status, 2)
        self.assertIn("is a folder, and status is for a leader's file; of settings and reports restart-text explain tells, or watch", told)
