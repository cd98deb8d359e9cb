"""The runner of all tests: which ones it runs, what it says of those that fail beside others, and how it calls commands."""

from __future__ import annotations

import os
import re
import shutil
import subprocess
import tempfile
from unittest import mock

import forked
from testing import PATIENCE, TOP, FolderTest, command, need_modules, need_program, run, running_with, wait_until

HEAD = "import os, unittest\nfrom pathlib import Path\nfrom testing import IS_LONG, PROGRAM, TESTS\n"
# The first of all calls with a name is told from the later ones by a file.
FIRST = """def is_first(name):
    path = Path({folder!r}, name)
    return not path.exists() and path.write_text("") == 0
"""
PASSES = "class Passes(unittest.TestCase):\n    def test_it(self):\n        pass\n"
ONCE = """class Once(unittest.TestCase):
    def test_it(self):
        self.assertFalse(is_first("once"), "the first time")
    def test_each(self):
        for name in ("one", "other"):
            with self.subTest(name):
                self.assertFalse(is_first(name), f"the first time of {name}")
    def test_other(self):
        pass
"""
CLASS = """class Class(unittest.TestCase):
    @classmethod
    def setUpClass(cls):
        assert not is_first("class"), "the first time"
    def test_it(self):
        pass
    def test_other(self):
        pass
"""
ALWAYS = "class Always(unittest.TestCase):\n    def test_it(self):\n        self.fail('each time')\n"
CUT_OFF = """class CutOff(unittest.TestCase):
    def test_it(self):
        if is_first("cut off"):
            print("the first time", flush=True)
            os._exit(7)
"""


class Runner(FolderTest):
    def write(self, name: str, *parts: str) -> None:
        path = self.folder / name
        path.parent.mkdir(exist_ok=True)
        path.write_text(HEAD + FIRST.format(folder=str(self.folder)) + "".join(parts))

    def told(self, *words: object, status: int = 0) -> list[str]:
        """What the runner prints, in lines."""
        told: bytes = run(TOP / "dev/test", self.folder / "program", *words, status=status).stdout
        return told.decode().splitlines()

    def test_the_tests_of_some_folders(self) -> None:
        """With the program that is given, and the long ones if they are asked for."""
        for name in ("a", "b"):
            self.write(f"{name}/test_{name}.py", "class One(unittest.TestCase):\n    def test_one(self):\n"
                       f"        self.assertEqual((PROGRAM, IS_LONG), ({str(self.folder / 'program')!r}, True))\n")
        for words, passed in (((self.folder / "a",), 1), ((self.folder / "a/test_a.py", self.folder / "b"), 2)):
            self.assertEqual(self.told("--long", *words), [f"tools: {passed} passed, 0 failed, 0 skipped, 0 only alone"])
        self.assertIn("1 failed", self.told(self.folder / "b", status=1)[-1])
        self.assertIn(b"no option --other", run(TOP / "dev/test", "--other", status=2).stderr)

    def test_what_passes_only_alone_is_told_and_is_no_failure(self) -> None:
        """A test, a subtest, a whole class and a file that is cut off; the others of the file are counted once."""
        self.write("test_a.py", PASSES, ONCE)
        self.write("test_b.py", PASSES, CLASS)
        self.write("test_c.py", CUT_OFF)
        lines = self.told(self.folder)
        self.assertEqual(lines[-1], "tools: 8 passed, 0 failed, 0 skipped, 4 only alone")
        told = [line.partition(": failed beside others and passed alone: ")[2] for line in lines]
        self.assertEqual(sorted(filter(None, told)), ["test_a.Once.test_each", "test_a.Once.test_it", "test_b.Class", "test_c"])
        for text in ("the first time of one", "the first time of other", "it ended with 7", "the first time"):
            self.assertTrue(any(line.endswith(text) for line in lines), text)

    def test_what_fails_alone_too_is_a_failure(self) -> None:
        self.write("test_a.py", PASSES, ALWAYS)
        self.write("test_b.py", ONCE)
        lines = self.told(self.folder, status=1)
        self.assertEqual(lines[-1], "tools: 4 passed, 1 failed, 0 skipped, 2 only alone")
        failed = [line.partition(": failed: ")[2] for line in lines]
        self.assertEqual(list(filter(None, failed)), ["test_a.Always.test_it"])

    def test_what_is_skipped_alone_is_a_failure(self) -> None:
        self.write("test_a.py", PASSES)
        self.write("test_b.py", "class One(unittest.TestCase):\n    def test_it(self):\n"
                   "        self.assertFalse(is_first('one'), 'the first time')\n        self.skipTest('later')\n")
        lines = self.told(self.folder, status=1)
        self.assertEqual(lines[-1], "tools: 1 passed, 1 failed, 0 skipped, 0 only alone")
        self.assertTrue(any(line.endswith("the first time") for line in lines))

    def test_one_file_is_alone_already(self) -> None:
        self.write("test_a.py", ONCE)
        self.assertEqual(self.told(self.folder, status=1)[-1], "tools: 1 passed, 2 failed, 0 skipped, 0 only alone")
        self.assertEqual(self.told(self.folder)[-1], "tools: 3 passed, 0 failed, 0 skipped, 0 only alone")

    def test_a_file_that_cannot_be_loaded(self) -> None:
        self.write("test_a.py", PASSES)
        for text in ("import absent\n", "1 / 0\n", "one two\n"):
            self.write("test_b.py", text)
            lines = self.told(self.folder, status=1)
            self.assertEqual(lines[-1], "tools: 1 passed, 1 failed, 0 skipped, 0 only alone")
            self.assertTrue(any(line.endswith(": failed: test_b") for line in lines))

    def test_files_of_one_name_and_what_is_skipped(self) -> None:
        for name in ("a/test_x.py", "b/test_x.py"):
            self.write(name, PASSES)
        self.write("b/test_y.py", "raise unittest.SkipTest('no reason')\n")
        lines = self.told(self.folder / "a", self.folder / "b")
        self.assertEqual(lines[-1], "tools: 2 passed, 0 failed, 1 skipped, 0 only alone")
        self.assertTrue(any(line.endswith("b/test_y.py: skipped 1: no reason") for line in lines))

    def test_the_slowest_are_listed(self) -> None:
        self.write("test_a.py", PASSES, "import time\nclass Slow(unittest.TestCase):\n    def test_it(self):\n        time.sleep(0.4)\n")
        lines = self.told("--times", self.folder)
        place = next(k for k, line in enumerate(lines) if line.startswith("the slowest tests"))
        found = re.fullmatch(r"    .*test_a\.py: test_a\.Slow\.test_it: ([\d.]+) s, and ([\d.]+) s of processors", lines[place + 1])
        self.assertTrue(found and float(found[1]) >= 0.4 > float(found[2]), lines)
        self.assertRegex(lines[0], r"test_a\.py: [\d.]+ s, and [\d.]+ s of processors")


class Forks(FolderTest):
    """A command that is forked does what it does as a process of its own."""

    def ended(self, name: str, *words: object, stdin: bytes = b"", **settings: str) -> tuple[int, bytes, bytes]:
        done = run(command(name), *words, status=None, stdin=stdin, **settings)
        return done.returncode, done.stdout, done.stderr

    def test_status_and_outputs(self) -> None:
        need_program()
        need_modules("gemmi", "numpy", "scipy")
        asked: tuple[tuple[str, tuple[object, ...], bytes, dict[str, str]], ...] = (
            ("convert", ("--help",), b"", {"COLUMNS": "60"}), ("convert", (TOP / "examples/quartz.cif",), b"", {}), ("convert", ("--no-such",), b"", {}),
            ("archive list", ("/absent",), b"", {}), ("convert --as nets", (), b"# a comment\n" * 20_000 + (TOP / "examples/embedded.cgd").read_bytes(), {}),
            ("names", ("-",), b"\xff\n", {}), ("archive make", ("x", "nets.cgd"), b"", {"XDG_DATA_HOME": "data"}),
            ("names", ("nets.cgd",), b"", {"NET_TOOL": "/absent"}))
        answers: list[list[tuple[int, bytes, bytes]]] = []
        before = os.getcwd()
        self.addCleanup(os.chdir, before)
        with forked.serving() as own:
            for setting in (own, {forked.SOCKET: ""}):
                os.chdir(tempfile.mkdtemp(dir=self.folder))
                shutil.copy(TOP / "examples/sql.cgd", "nets.cgd")
                with mock.patch.dict(os.environ, setting):
                    self.assertEqual(forked.can_call({}), setting is own)
                    answers.append([self.ended(name, *words, stdin=stdin, **settings) for name, words, stdin, settings in asked])
        self.assertEqual(*answers)
        self.assertEqual([status for status, _, _ in answers[0]], [0, 0, 2, 1, 0, 1, 0, 1])

    def test_one_that_takes_too_long_is_killed(self) -> None:
        program = self.folder / "program"
        program.write_text(f"#!/bin/sh\nexec sleep {2 * PATIENCE}\n")
        program.chmod(0o755)
        with forked.serving() as own, mock.patch.dict(os.environ, own):
            with self.assertRaises(subprocess.TimeoutExpired):
                run(command("names"), TOP / "examples/sql.cgd", seconds=2, NET_TOOL=str(program))
            wait_until(lambda: not running_with(f"NET_TOOL={program}"), "the program runs on")


if __name__ == "__main__":
    import unittest

    unittest.main()
