"""Date and release on pages, pictures and JSON."""
import json
import os
import re
import subprocess
import sys
import tempfile
import unittest
from unittest import mock

import support
from restart_text import stamping
from restart_text.documents import document
from restart_text.model import Trouble
from support import command

A = "examples/case-a.txt"
LINE = "Made 2026-03-01 04:05 UTC by restart-text %s" % stamping.version()


class Stamps(unittest.TestCase):
    def asked(self, name, *more):
        status, printed, told = command(name, *more)
        self.assertEqual((status, told), (0, ""))
        return printed.decode()

    def test_the_release_is_the_header_s(self):
        with open(os.path.join(support.ROOT, "include", "restart.h"), encoding="utf-8") as file:
            self.assertEqual(stamping.version(), re.search(r'RESTART_VERSION "([0-9.]+)"', file.read())[1])
        self.assertEqual(command("--version")[:2], (0, ("restart-text %s\n" % stamping.version()).encode()))

    def test_pictures_and_pages(self):
        """Each has the line once."""
        program, sheet = ["--program", support.program()], ["--program", support.program("sheet")]
        with tempfile.TemporaryDirectory() as folder:
            rounds, readiness, readiness_page, publisher, check = (
                os.path.join(folder, name) for name in ("rounds.svg", "readiness.svg", "readiness.html", "publisher.html", "check.svg"))
            self.asked("rounds", A, "--library", support.library(), "-o", rounds)
            self.asked("readiness", "examples/seven.txt", *sheet, "-o", readiness)
            self.asked("readiness", "examples/seven.txt", *sheet, "-o", readiness_page)
            self.asked("publisher", "0", A, "--library", support.library(), "-o", publisher)
            command("check", A, *program, "-o", check)
            files = []
            for path in (rounds, readiness, readiness_page, publisher, check):
                with open(path, encoding="utf-8") as file:
                    files.append(file.read())
        files += [self.asked("draw", A, *program), self.asked("draw", A, "--narrow", *program), self.asked("page", A, *program),
                  self.asked("windows", "examples/moves.bin", "--program", support.program("mondays"))]
        for data in files:
            self.assertEqual(data.count(LINE), 1, data[:200])

    def test_every_json(self):
        library, program = ["--library", support.library()], ["--program", support.program()]
        with tempfile.TemporaryDirectory() as folder:
            for name, *more in (("explain", A, *program), ("diff", A, A, *program), ("shift", "examples/seven.txt", *library), ("rounds", A, *library),
                                ("publisher", "0", A, *library), ("readiness", "examples/seven.txt", "--program", support.program("sheet")),
                                ("convert", "examples/flat", "-o", folder, *library), ("check", A, *program)):
                value = json.loads(command(name, *more, "--json")[1])
                self.assertEqual((list(value)[:3], value["made"], value["version"]),
                                 (["schema", "made", "version"], "2026-03-01T04:05:06Z", stamping.version()), name)

    def test_the_clock(self):
        with mock.patch.dict(os.environ):
            del os.environ["SOURCE_DATE_EPOCH"]
            self.assertRegex(stamping.made_line(), r"^Made 20\d\d-\d\d-\d\d \d\d:\d\d UTC by restart-text [0-9.]+$")
            for wrong in ("soon", "1e9", "9" * 30):
                os.environ["SOURCE_DATE_EPOCH"] = wrong
                with self.assertRaises(Trouble):
                    stamping.made_line()
                self.assertEqual(command("draw", A, "--program", support.program()),
                                 (3, b"", "restart-text: SOURCE_DATE_EPOCH: expected seconds since 1970, found '%s'\n" % wrong))

    def test_the_same_bytes(self):
        one, other = (self.asked("page", A, "--program", support.program()) for _ in range(2))
        self.assertEqual(one, other)


class Installed(unittest.TestCase):
    def test_release_documents_cases_and_completion(self):
        with tempfile.TemporaryDirectory() as folder:
            plain = {name: value for name, value in os.environ.items() if not name.startswith(("MAKE", "MFLAGS"))}
            done = subprocess.run(["make", "-s", "install-tool", "DESTDIR=", "PREFIX=" + folder], cwd=support.ROOT, check=False, capture_output=True,
                                  text=True, env=plain)
            self.assertEqual((done.returncode, done.stderr), (0, ""))
            share = os.path.join(folder, "share")
            for name in ("doc/restart/ASSUMPTIONS.md", "doc/restart/PROMISES.md", "restart/example/night.txt", "restart/example/case-a.txt",
                         "restart/diff.schema.json", "bash-completion/completions/restart-text"):
                self.assertTrue(os.path.exists(os.path.join(share, name)), name)

            def run(*arguments):
                return subprocess.run([sys.executable, os.path.join(folder, "bin", "restart-text"), *arguments], capture_output=True, text=True,
                                      check=False, cwd="/").stdout

            self.assertEqual(run("--version"), "restart-text %s\n" % stamping.version())
            told = run("explain", os.path.join(share, "restart", "example", "night.txt"), "--gone", "rack1-c", "--program", support.program())
            self.assertIn("(%s/doc/restart/ASSUMPTIONS.md, restart(3))" % os.path.realpath(share), told)
            done = subprocess.run(["make", "-s", "uninstall-tool", "DESTDIR=", "PREFIX=" + folder], cwd=support.ROOT, check=False, env=plain)
            self.assertEqual((done.returncode, [files for _, _, files in os.walk(folder) if files]), (0, []))

    def test_in_a_checkout(self):
        self.assertEqual(document("ASSUMPTIONS.md"), "docs/ASSUMPTIONS.md")
