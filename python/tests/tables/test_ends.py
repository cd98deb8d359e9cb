"""How commands end: by signals, where memory is refused, and where an output is full. Nothing that they began runs on, no
trace of Python is shown, and no status says something of nets that were not looked at."""

import importlib
import os
import shutil
import signal
import subprocess
import sys
from pathlib import Path
from unittest import mock

from testing import (PATIENCE, PROGRAM, TOP, FolderTest, command, ends_soon, need_commands, need_modules,
                     need_program, run, wait_until)

from crystal_nets import identify_each, read  # noqa: E402

SQUARE = b"PERIODIC_GRAPH\nNAME square\nEDGES\n1 1 1 0\n1 1 0 1\nEND\n"
WAITING = f"""#!/bin/sh
[ "$1" != duplicates ] || exec {PROGRAM} "$@"
echo $$ >>"$PIDS"
exec sleep {2 * PATIENCE}
"""
WAIT_FOR_INPUT = {"topology": ("/dev/stdin",), "names": ("-",), "convert --as nets": (), "draw": ("--page", "x")}
SIGNALS = (signal.SIGINT, signal.SIGTERM, signal.SIGHUP, signal.SIGKILL)


class Signals(FolderTest):
    def setUp(self):
        super().setUp()
        need_commands("setpriv")
        self.nets = self.folder / "nets.cgd"
        self.nets.write_bytes(SQUARE)
        self.pids, self.temporary = self.folder / "pids", self.folder / "temporary"
        self.temporary.mkdir()
        self.program = self.folder / "program"
        self.program.write_text(WAITING)
        self.program.chmod(0o755)

    def begun(self, *words: object) -> subprocess.Popen:
        return subprocess.Popen([str(word) for word in words], cwd=self.folder, stdin=subprocess.PIPE, stdout=subprocess.DEVNULL,
                                stderr=subprocess.PIPE, start_new_session=True, env={
            **os.environ, "NET_TOOL": str(self.program), "PIDS": str(self.pids), "TMPDIR": str(self.temporary)})

    def ended(self, process: subprocess.Popen, number: int) -> bytes:
        """What a command tells that gets a signal."""
        process.send_signal(number)
        told = process.communicate(timeout=PATIENCE)[1]
        self.assertIn(process.returncode, (-number, 128 + number), process.args)
        return told

    def test_the_program_ends_with_the_command(self):
        need_program()
        table = (command("table"), self.nets, "table", "--no-names", "--jobs")
        for words in ((*table, 1), (command("names"), self.nets), (command("archive index"), "wide", self.nets),
                      (command("archive make"), "mine", self.nets)):
            for number in SIGNALS:
                self.pids.write_text("")
                shutil.rmtree(self.folder / "table", ignore_errors=True)
                for old in self.temporary.iterdir():  # of name_nets that was killed
                    shutil.rmtree(old)
                process = self.begun(*words)
                wait_until(lambda: self.pids.read_text().endswith("\n"), f"{words[0]} begins no program")
                self.assertNotIn(b"Traceback", self.ended(process, number))
                for line in self.pids.read_text().splitlines():
                    self.assertTrue(ends_soon(int(line)), f"{words[0]} left its program running after {number!r}")
                if number != signal.SIGKILL:
                    self.assertEqual(os.listdir(self.temporary), [], words[0])

    def test_an_interrupt_has_no_trace(self):
        for name, words in WAIT_FOR_INPUT.items():
            process = self.begun(command(name), *words)
            wait_until(lambda: self.waits(process.pid), f"{name} does not read standard input")  # noqa: B023
            self.assertEqual(self.ended(process, signal.SIGINT), b"", name)

    def waits(self, number: int) -> bool:
        """Whether a process reads standard input, which is a pipe."""
        return Path(f"/proc/{number}/wchan").read_text() in ("pipe_read", "anon_pipe_read", "pipe_wait")


class Statuses(FolderTest):
    def test_memory_that_is_refused_is_no_answer(self):
        """Of any amount of memory the table is whole, or it is reported that there is not enough."""
        need_program()
        need_modules("gemmi", "numpy", "scipy", "spglib")
        quartz, nets, whole = TOP / "examples/quartz.cif", TOP / "examples/embedded.cgd", self.folder / "whole"
        source = self.folder / "source"
        source.mkdir()
        for file in (quartz, nets):
            shutil.copy(file, source)
        make = (command("table"), source)
        run(*make, whole, "--no-names", "--jobs", 1)
        wanted, seen = (whole / "table.tsv").read_bytes(), []
        for kilobytes in (26_000, 60_000, 1_000_000):  # with some 150,000 OpenBLAS waits for memory and never ends
            table = self.folder / str(kilobytes)
            done = run("sh", "-c", f"ulimit -v {kilobytes}; exec \"$@\"", "sh", *make, table, "--no-names", "--jobs", 1, status=None)
            told = done.stderr.decode()
            self.assertNotIn("Traceback", told)
            seen.append(done.returncode)
            self.assertEqual((table / "table.tsv").exists(), done.returncode == 0)
            run(*make, table, "--no-names", "--jobs", 1)
            self.assertEqual((table / "table.tsv").read_bytes(), wanted, f"after {kilobytes} kB")
        self.assertEqual(seen, [3, 3, 0])

    def test_memory_that_is_refused_is_no_reason_against_a_structure(self):
        need_modules("gemmi", "numpy", "scipy")
        from crystal_nets.structures.conversion import Source, convert
        from crystal_nets.structures.nets.choice import Options
        quartz = TOP / "examples/quartz.cif"
        with mock.patch("crystal_nets.structures.conversion.nets_of_crystal", side_effect=MemoryError):
            with self.assertRaises(MemoryError):
                read(quartz)
            done = convert(Source("quartz.cif", "quartz.cif", "quartz"), quartz.read_bytes(), Options())
            self.assertEqual(done.told(is_quiet=True), ["quartz.cif: refused: there is not enough memory"])
        with mock.patch("crystal_nets.blocks.converter.net_of_block", side_effect=MemoryError):
            self.assertRaises(MemoryError, read, TOP / "examples/embedded.cgd")

    def test_a_package_that_is_missing_is_no_answer(self):
        """A POSCAR is read by ase: where that is missing its row says so, and the same command reads it once it is there."""
        need_program()
        need_modules("gemmi", "numpy", "scipy", "ase")
        source, table, parts = self.folder / "source", self.folder / "table", self.folder / "parts"
        source.mkdir()
        (source / "POSCAR").write_text("Si\n5.43\n0 0.5 0.5\n0.5 0 0.5\n0.5 0.5 0\nSi\n2\nDirect\n0 0 0\n0.25 0.25 0.25\n")
        (source / "a.cgd").write_bytes(SQUARE)
        code = (f"import sys; sys.path.insert(0, {str(TOP / 'python')!r}); sys.modules['ase.io'] = None\n"
                "sys.argv.insert(1, 'table')\nfrom crystal_nets.commands import main; main()")
        without = (sys.executable, "-B", "-c", code)
        for _ in range(2):
            done = run(*without, source, table, "--no-names", "--jobs", 1, status=75)
            self.assertRegex(done.stderr, rb"\Anet_tool table: a file is not read, since a package is missing; the same command tries "
                                          rb"again: [^\n]*POSCAR: [^\n]*python3-ase[^\n]*\n\Z")
            rows = [line.split("\t") for line in (table / "table.tsv").read_text().splitlines()[1:]]
            self.assertEqual([(row[1].rpartition("/")[2], row[4]) for row in rows], [("POSCAR", "unreadable"), ("a.cgd", "accepted")])
            self.assertIn("apt-get install python3-ase", (table / "refused.tsv").read_text())
        run(*without, source, parts, "--plan")
        run(*without, parts, "--part", "1/1", "--jobs", 1, status=75)
        for folder in (table, parts):
            run(command("table"), folder, "--no-names", "--jobs", 1)
            self.assertEqual((folder / "table.tsv").read_bytes().count(b"\taccepted\t"), 2)
        importlib.import_module("crystal_nets.structures.conversion")  # with its packages, which the patch would take away
        answers = identify_each([source / "a.cgd", source / "POSCAR"], archive=None)
        with mock.patch.dict(sys.modules, {"ase.io": None}):
            self.assertEqual([answer.accepted for answer in answers], [True, False])

    def test_a_full_output_is_no_status_of_nets(self):
        need_program()
        (self.folder / "a.cgd").write_bytes(SQUARE)
        done = run("sh", "-c", "exec \"$@\" >/dev/full", "sh", command("table"), self.folder / "a.cgd", self.folder / "table",
                   "--no-names", status=3)
        self.assertEqual(done.stderr, b"net_tool table: standard output: No space left on device\n")
