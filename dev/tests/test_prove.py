"""dev/prove_crates: the order of crates, their workers, what it says of time, and which compiler's program stands."""

import contextlib
import importlib.machinery
import importlib.util
import io
import os
import shutil
import subprocess
import sys
import time
from pathlib import Path

from testing import PATIENCE, TOP, FolderTest, long_test, run


def load():
    """The module of dev/prove_crates."""
    loader = importlib.machinery.SourceFileLoader("prove_crates", str(TOP / "dev/prove_crates"))
    module = importlib.util.module_from_spec(importlib.util.spec_from_loader(loader.name, loader))
    sys.modules[loader.name] = module
    loader.exec_module(module)
    return module


prove = load()
BELOW = {"low": [], "side": [], "middle": ["low"], "other": ["low"], "net_tool": ["middle", "other", "side"]}
SECONDS = {"low": 60.0, "side": 10.0, "middle": 100.0, "other": 20.0, "net_tool": 60.0}


class Order(FolderTest):
    def proving(self):
        """A run whose crates are noted as they begin, and do nothing."""
        run_of_crates = prove.Proving(prove.Plan(BELOW, SECONDS), set(BELOW) - {"net_tool"}, jobs=4)
        begun = []

        def begin(crate, *, heads_all, workers):
            begun.append((crate, workers))
            run_of_crates.left.discard(crate)
            run_of_crates.running[crate] = prove.Check(process=None)

        run_of_crates.begin = begin
        return run_of_crates, begun

    def end(self, run_of_crates, crate, seconds, log="proved\n"):
        """Ends a crate, and returns what is said."""
        path = self.folder / "crates" / crate / "out/prove.log"
        path.parent.mkdir(parents=True)
        path.write_text(log)
        run_of_crates.running.pop(crate)
        prove.TOP, top = self.folder, prove.TOP
        try:
            with contextlib.redirect_stderr(io.StringIO()) as said:
                run_of_crates.note_proved(crate, seconds)
        finally:
            prove.TOP = top
        return said.getvalue()

    def test_workers_by_need(self):
        run_of_crates, begun = self.proving()
        self.assertEqual(run_of_crates.all_crates, {"low", "side", "middle", "other"})
        run_of_crates.begin_ready()
        self.assertEqual(begun, [("low", 2), ("side", 1)])  # low heads the longest chain
        self.end(run_of_crates, "side", 10.0)
        self.end(run_of_crates, "low", 60.0)
        run_of_crates.begin_ready()
        self.assertEqual(begun[2:], [("middle", 2), ("other", 1)])

    def test_a_crate_that_is_alone_has_more(self):
        plan = prove.Plan({"low": [], "net_tool": ["low"]}, SECONDS)
        run_of_crates, begun = self.proving()
        run_of_crates.plan, run_of_crates.left = plan, {"low"}
        run_of_crates.begin_ready()
        self.assertEqual(begun, [("low", 3)])

    def test_seconds_side_by_side(self):
        plan = prove.Plan(BELOW, SECONDS)
        self.assertEqual(plan.seconds_together(SECONDS, set(), 4), 60 + 100 + 60)
        self.assertEqual(plan.seconds_together(SECONDS, set(), 1), sum(SECONDS.values()))
        self.assertEqual(plan.seconds_together({"middle": 5.0, "net_tool": 60.0}, {"middle"}, 4), 65)

    def test_how_long_it_takes_is_told_by_this_machine(self):
        run_of_crates, _ = self.proving()
        run_of_crates.begin_ready()
        self.assertEqual(run_of_crates.minutes_left(), round(220 / 60))
        self.assertNotIn("this machine", self.end(run_of_crates, "side", 30.0))  # ten seconds show little
        said = self.end(run_of_crates, "low", 180.0)  # three times as slow
        self.assertIn("this machine takes 3.0 times", said)
        self.assertEqual(run_of_crates.minutes_left(), round(3 * 160 / 60))

    def test_what_was_taken_over_shows_nothing_of_the_machine(self):
        run_of_crates, _ = self.proving()
        run_of_crates.begin_ready()
        self.assertNotIn("this machine", self.end(run_of_crates, "low", 1.0, log=""))
        self.assertEqual(run_of_crates.slowness(), 1.0)


class Standing(FolderTest):
    """Which program stands, by the sum beside it."""

    def setUp(self):
        super().setUp()
        self.addCleanup(os.chdir, os.getcwd())
        os.chdir(self.folder)
        Path("out").mkdir()

    def test_the_sum_says_which_compiler_made_it(self):
        self.assertFalse(prove.has_program("sum"))
        for compiler, are_there in (("rattle", (True, False)), ("llvm", (True, True))):
            Path("out/made").write_text(compiler)
            prove.put_program("out/made", f"sum\n{prove.COMPILERS[compiler]}\n")
            self.assertEqual(Path("out/net_tool").read_text(), compiler)
            self.assertTrue(os.access("out/net_tool", os.X_OK))
            self.assertEqual((prove.has_program("sum", "rattle"), prove.has_program("sum", "llvm")), are_there)
            self.assertFalse(prove.has_program("other"))
        Path("out/net_tool.sum").write_text("sum\n")  # of a build before compilers were noted, which was LLVM's
        self.assertTrue(prove.has_program("sum", "llvm"))
        Path("out/net_tool.sum").write_text("")
        self.assertFalse(prove.has_program(""))

    def test_a_link_that_is_under_way_is_left_alone(self):
        Path("out/net_tool.sum").write_text(f"sum\n{prove.COMPILERS['rattle']}\n")
        with open("out/link.lock", "wb") as lock:
            prove.fcntl.flock(lock, prove.fcntl.LOCK_EX)
            self.assertEqual(prove.link_program("llvm", "sum"), 0)
        self.assertEqual(Path("out/net_tool.sum").read_text(), f"sum\n{prove.COMPILERS['rattle']}\n")


class FirstAnswer(FolderTest):
    @long_test
    def test_a_small_repository(self):
        """The first answer is by the toolchain's own compiler, and LLVM's program comes after it."""
        if shutil.which("rt") is None:
            self.skipTest("the command rt of the toolchain is not there")
        examples = Path(run("rt", "doc").stdout.decode().strip()).parent / "rattle/examples"
        for example, name in (("start_lib", "start_lib"), ("start_io", "net_tool")):
            shutil.copytree(examples / example, self.folder / "crates" / name, ignore=shutil.ignore_patterns("BUILD.bazel", "*.md"))
        (self.folder / "crates.txt").write_text("start_lib:\nnet_tool: start_lib\n")
        for name in ("HANDLES", "TOOLCHAIN", "net_tool", "dev/crates.tsv", "front/words.sh", "dev/prove_crates"):
            (self.folder / name).parent.mkdir(exist_ok=True)
            shutil.copy(TOP / name, self.folder / name)
        done = subprocess.run([self.folder / "net_tool", "key"], input=b"tea 95\n", capture_output=True, check=True)
        self.assertEqual(done.stdout, b"tea 1:35\n")
        self.assertIn(b"minutes on a machine as", done.stderr)
        note = self.folder / "crates/net_tool/out/net_tool.sum"
        told = [note.read_text().splitlines()[1]]
        until = time.monotonic() + 4 * PATIENCE
        while told[-1] != "by LLVM" and time.monotonic() < until:
            time.sleep(1)
            told.append((note.read_text().splitlines() if note.exists() else ["", ""])[1])
        self.assertEqual((told[0], told[-1]), ("by Rattle's own compiler", "by LLVM"))
        again = subprocess.run([self.folder / "net_tool", "key"], input=b"tea 95\n", capture_output=True, check=True)
        self.assertEqual((again.stdout, again.stderr), (b"tea 1:35\n", b""))
