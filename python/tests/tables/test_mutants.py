"""Each command of many nets on damaged texts: no traceback, no status that is lost, nothing told beside a reason."""

import random
import unittest
from pathlib import Path

from mutants import Done, Script, mutant
from test_damaged import ARCHIVE, EXAMPLES
from testing import IS_LONG, PROGRAM, FolderTest, command, need_modules, need_program, run

from crystal_nets.texts.net_text import nets_of_report  # noqa: E402

MUTANTS = 2_000 if IS_LONG else 25
SHELLS = 200 if IS_LONG else 5  # mutants for a script of sh, of which each run starts several processes
STATUSES = {0, 1, 2, 3, 5, 6, 8, 11, 75}  # of net_tool and of the commands here


def nets_in(report: bytes) -> int:
    return len(list(nets_of_report(report.splitlines(keepends=True))))


class Mutants(FolderTest):
    """Seeded mutants of what a command reads."""

    @classmethod
    def setUpClass(cls):
        need_program()
        cls.nets = (EXAMPLES / "mystery.cgd").read_bytes()
        cls.report = run(PROGRAM, "identify", EXAMPLES / "mystery.cgd", "--archive", ARCHIVE).stdout
        cls.keys = run(PROGRAM, "key", EXAMPLES / "interpenetrating.cgd", status=1).stdout
        archive = ARCHIVE.read_bytes()
        cls.archive = archive[:archive.index(b"end\n", 9_000) + 4]

    def setUp(self):
        super().setUp()
        self.chance = random.Random(self.id())

    def mutants(self, *texts: bytes, count: int = MUTANTS):
        for _ in range(count):
            yield mutant(self.chance.choice(texts), self.chance)

    def written(self, name: str, content: bytes) -> Path:
        (self.folder / name).write_bytes(content)
        return self.folder / name

    def check(self, done: Done, is_silent: bool = True) -> None:
        """It ended with a status of its own, with its reason where there is one, and told nothing then."""
        told = done.stderr.decode(errors="replace")
        self.assertNotIn("Traceback", told)
        self.assertIn(done.status, STATUSES, told)
        if is_silent:
            self.assertEqual(done.status > 0, told != "", done)
            self.assertTrue(done.status == 0 or not done.stdout, done)


class Scripts(Mutants):
    """Those of python3."""

    def test_archive_nets(self):
        script = Script(command("convert"), self.folder)
        for text in self.mutants(self.archive):
            self.check(script.run(self.written("x.archive", text)))

    def test_net_table(self):
        """Of a damaged source each net or file has its row."""
        need_modules("gemmi", "numpy", "scipy", "spglib")
        script = Script(command("table"), self.folder)
        archive = self.written("x.archive", self.archive)
        for k, text in enumerate(self.mutants(self.nets, (EXAMPLES / "embedded.cgd").read_bytes())):
            result = self.folder / f"r{k}"
            words = ["--archive", archive] if k % 8 == 0 else ["--no-names"]
            done = script.run("--jobs", 1, *words, self.written("nets.cgd", text), result)
            self.check(done, is_silent=False)
            self.assertIn(done.status, (0, 1), done.stderr)
            self.assertEqual(done.stderr, b"")
            rows = (result / "table.tsv").read_bytes().splitlines()[1:]
            refused = (result / "refused.tsv").read_bytes().splitlines()[1:]
            self.assertEqual(done.status, int(bool(refused)))
            self.assertTrue(done.stdout.endswith(b": %d nets, " % len(rows) + done.stdout.partition(b" nets, ")[2]))

    def test_what_net_table_keeps(self):
        """Where a plan or rows were damaged, it makes them anew or says why not, and the table is that of a whole run."""
        script, source = Script(command("table"), self.folder), self.written("nets.cgd", self.nets)
        result = self.folder / "result"
        self.check(script.run("--no-names", source, result), is_silent=False)
        kept = {path: path.read_bytes() for path in (result / "work").iterdir() if path.name != "lock"}
        table = (result / "table.tsv").read_bytes()
        for path in self.chance.choices(sorted(kept), k=MUTANTS):
            path.write_bytes(mutant(kept[path], self.chance))
            done = script.run("--no-names", "--jobs", 1, source, result)
            self.check(done, is_silent=False)
            self.assertIn(done.status, (0, 3))
            if done.status == 0:
                self.assertEqual((result / "table.tsv").read_bytes(), table, path)
            path.write_bytes(kept[path])


    def test_plans_that_are_taken_up(self):
        """Of a plan that was damaged nothing is made, without its source beside it too."""
        script, result = Script(command("table"), self.folder), self.folder / "result"
        script.run("--plan", self.written("nets.cgd", self.nets), result)
        path = result / "work/plan"
        plan = path.read_bytes()
        for k, text in enumerate(self.mutants(plan)):
            path.write_bytes(text)
            done = script.run("--no-names", "--jobs", 1, *([], ["--part", "1/1"])[k % 2], result)
            self.check(done)
            self.assertEqual(done.status, 0 if text == plan else 3)


class ShellScripts(Mutants):
    """Those of sh."""

    def ran(self, *words: object) -> Done:
        done = run(*words, status=None)
        return Done(done.returncode, done.stdout, done.stderr)

    def test_name_nets(self):
        archive = self.written("x.archive", self.archive)
        for text in self.mutants(self.nets, count=SHELLS):
            done = self.ran(command("names"), self.written("nets.cgd", text), "--archive", archive)
            self.check(done, is_silent=False)  # nets with a key have their names beside those without
            self.assertEqual(done.status > 0, done.stderr != b"", done)
        nets = self.written("whole.cgd", self.nets)
        for text in self.mutants(self.archive, count=SHELLS):
            self.check(self.ran(command("names"), nets, "--archive", self.written("y.archive", text)))


if __name__ == "__main__":
    unittest.main()
