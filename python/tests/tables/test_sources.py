"""Sources that change, or are away for a while, between the plan of a table and its end."""

import os
import signal
import subprocess
import sys
from pathlib import Path

from testing import PROGRAM, TOP, FolderTest, command, need_commands, need_modules, need_program, run, wait_until

from crystal_nets.tables.plan import Plan, Portion, read_plan, write_plan  # noqa: E402
from crystal_nets.tables.source import Failed  # noqa: E402

NET_TABLE = command("table")
FILES = ("table.tsv", "groups.tsv", "names.tsv", "refused.tsv")
SMALL = (f"import sys; sys.path.insert(0, {str(TOP / 'python')!r})\n"
         "from crystal_nets.tables import plan; plan.MOST_BLOCKS = 5\n"
         "from crystal_nets.tables.command import main; sys.exit(main())")
COMMAND = (sys.executable, "-B", "-c", SMALL)
COUNT = 20
TRY_AGAIN, FAILED = 75, 3


def block(number: int) -> bytes:
    """One of several nets, all of as many bytes."""
    return b"PERIODIC_GRAPH\nNAME net%02d\nEDGES\n1 1 1 0\n1 1 %d 1\n1 1 0 1\nEND\n" % (number, 1 + number % 9)


def contents(folder: Path) -> dict[str, bytes]:
    return {name: (folder / name).read_bytes() for name in FILES}


class Sources(FolderTest):
    def setUp(self):
        super().setUp()
        need_program()
        need_commands("sort")
        self.blocks = [block(k) for k in range(COUNT)]
        self.source = self.folder / "nets.cgd"
        self.source.write_bytes(b"".join(self.blocks))
        self.result = self.folder / "result"

    def make(self, *words: object, status: int, at: Path | None = None) -> str:
        place = ("env", "-C", at) if at else ()
        return run(*place, *COMMAND, *words, "--no-names", "--keys-alone", "--jobs", 1, status=status).stderr.decode()

    def whole(self) -> dict[str, bytes]:
        self.make(self.source, self.folder / "whole", status=0)
        return contents(self.folder / "whole")

    def swap(self, keeps_time: bool) -> None:
        """Puts the second half of the file before the first one."""
        stat = self.source.stat()
        self.source.write_bytes(b"".join(self.blocks[COUNT // 2:] + self.blocks[:COUNT // 2]))
        if keeps_time:
            os.utime(self.source, ns=(stat.st_atime_ns, stat.st_mtime_ns))

    def restore(self) -> None:
        self.source.write_bytes(b"".join(self.blocks))

    def test_files_in_other_encodings(self):
        need_modules("gemmi", "numpy", "scipy")
        source = self.folder / "source"
        source.mkdir()
        nets, quartz = block(1).decode(), (TOP / "examples/quartz.cif").read_text()
        for encoding in ("utf-8", "utf-16", "utf-32", "utf-16-be"):
            (source / f"{encoding}.cgd").write_text("stray\n" + nets, encoding=encoding)
        (source / "quartz.cif").write_text(quartz, encoding="utf-16")
        self.make(source, self.result, status=1)
        rows = [line.split("\t") for line in (self.result / "table.tsv").read_text().splitlines()[1:]]
        self.assertEqual([(Path(row[1]).name, row[2], row[4]) for row in rows], [
            ("quartz.cif", "", "accepted"), ("utf-16-be.cgd", "", "unreadable"),
            *((f"{encoding}.cgd", line, outcome) for encoding in ("utf-16", "utf-32", "utf-8")
              for line, outcome in (("1", "unreadable"), ("2", "accepted")))])
        told = (self.result / "refused.tsv").read_text()
        self.assertIn("iconv -f UTF-16BE -t UTF-8", told)
        self.assertEqual(told.count("line 1: a block 'stray' is not read"), 3)

    def test_halves_that_were_swapped(self):
        whole = self.whole()
        for keeps_time in (False, True):
            result = self.folder / f"result {keeps_time}"
            self.make("--plan", self.source, result, status=0)
            self.make(result, "--part", "1/2", status=0)
            rows = {path: path.read_bytes() for path in result.glob("work/*.rows")}
            self.swap(keeps_time)
            for words in ((result, "--part", "2/2"), (result,), (self.source, result)):
                self.assertIn("was changed since", self.make(*words, status=FAILED), words)
            self.assertEqual({path: path.read_bytes() for path in result.glob("work/*.rows")}, rows)
            self.assertFalse((result / "table.tsv").exists())
            self.restore()
            self.make(result, "--part", "2/2", status=0)
            self.make(result, status=0)
            self.assertEqual(contents(result), whole)

    def test_a_file_that_grew(self):
        self.make("--plan", self.source, self.result, status=0)
        self.source.write_bytes(b"".join(self.blocks) + block(COUNT))
        self.assertIn("was changed since", self.make(self.result, "--part", "1/1", status=FAILED))
        self.assertEqual(list(self.result.glob("work/*.rows")), [])

    def test_a_file_that_is_away_for_a_while(self):
        whole = self.whole()
        away = self.folder / "away"
        self.make("--plan", self.source, self.result, status=0)
        for words in ((self.result, "--part", "1/2"), (self.result,)):
            self.source.rename(away)
            self.assertIn("tries again", self.make(*words, status=TRY_AGAIN))
            away.rename(self.source)
        self.assertEqual(list(self.result.glob("work/*.rows")), [])
        self.make(self.result, status=0)
        self.assertEqual(contents(self.result), whole)

    def test_a_file_of_a_folder_that_is_away(self):
        source = self.folder / "source"
        (source / "deep").mkdir(parents=True)
        for k in range(4):
            (source / "deep" / f"{k}.cgd").write_bytes(b"".join(self.blocks[5 * k:5 * k + 5]))
        (source / "quartz.cif").write_bytes((TOP / "examples/quartz.cif").read_bytes())
        need_modules("gemmi", "numpy", "scipy", "spglib")
        self.make("--plan", source, self.result, status=0)
        (source / "deep/2.cgd").rename(self.folder / "away")
        self.assertIn("2.cgd", self.make(self.result, status=TRY_AGAIN))
        (self.folder / "away").rename(source / "deep/2.cgd")
        (source / "more.cgd").write_bytes(block(1))
        self.assertIn("more.cgd was changed since, or is new", self.make(self.result, status=FAILED))
        (source / "more.cgd").unlink()
        self.make(self.result, status=0)
        self.assertNotIn(b"not readable", (self.result / "table.tsv").read_bytes())

    def test_a_file_that_goes_while_pieces_are_made(self):
        """The program takes the file away at the second piece: the pieces before stand, and the others come later."""
        whole = self.whole()
        taking = self.folder / "taking"
        taking.write_text(f"#!/bin/sh\nif [ -e '{self.result}/work/000001.rows' ] && [ -e '{self.source}' ]; then\n"
                          f"mv '{self.source}' '{self.folder}/away'; fi\nexec '{PROGRAM}' \"$@\"\n")
        taking.chmod(0o755)
        done = run(*COMMAND, self.source, self.result, "--no-names", "--keys-alone", "--jobs", 1, status=TRY_AGAIN,
                   NET_TOOL=str(taking))
        self.assertIn(b"2 of 4 pieces are not there", done.stderr)
        self.assertEqual(len(list(self.result.glob("work/*.rows"))), 2)
        (self.folder / "away").rename(self.source)
        self.make(self.source, self.result, "--again", status=0)
        self.assertEqual(contents(self.result), whole)

    def test_killed_in_the_middle_and_then_changed(self):
        whole = self.whole()
        process = subprocess.Popen([*map(str, COMMAND), str(self.source), str(self.result), "--no-names", "--keys-alone"],
                                   stdout=subprocess.DEVNULL, stderr=subprocess.DEVNULL,
                                   env={**os.environ, "NET_TOOL": PROGRAM})
        wait_until(lambda: process.poll() is not None or list(self.result.glob("work/*.rows")))
        process.send_signal(signal.SIGKILL)
        process.wait()
        self.swap(keeps_time=True)
        if len(list(self.result.glob("work/*.rows"))) < COUNT // 5:
            self.assertIn("was changed since", self.make(self.result, status=FAILED))
        self.restore()
        self.make(self.result, status=0)
        self.assertEqual(contents(self.result), whole)

    def test_a_relative_source_from_another_folder(self):
        other = self.folder / "other"
        other.mkdir()
        self.make("--plan", "nets.cgd", self.result, status=0, at=self.folder)
        self.make(self.result, "--part", "1/1", status=0, at=other)
        self.make("../nets.cgd", self.result, status=0, at=other)
        self.assertEqual((self.result / "table.tsv").read_bytes().count(b"\tnets.cgd\t"), COUNT)
        (other / "nets.cgd").write_bytes(block(1))
        self.assertIn("its source is 'nets.cgd'", self.make("nets.cgd", self.result, status=FAILED, at=other))

    def test_one_bad_entry_stops_no_other(self):
        """A link that leads nowhere, one to itself, and a file that goes after the plan, have a row each, and are reported once."""
        source = self.folder / "source"
        source.mkdir()
        for k in range(3):
            (source / f"{k}.cgd").write_bytes(block(k))
        (source / "dangling.cgd").symlink_to(self.folder / "nowhere")
        (source / "self.cif").symlink_to("self.cif")
        self.make("--plan", source, self.result, status=0)
        (source / "1.cgd").rename(self.folder / "away")
        self.assertIn("3 files are no longer there; the same command tries again", self.make(self.result, status=TRY_AGAIN))
        rows = [line.split("\t")[4] for line in (self.result / "table.tsv").read_text().splitlines()[1:]]
        self.assertEqual(rows, ["accepted", "unreadable", "accepted", "unreadable", "unreadable"])
        self.assertIn("it is not there: No such file or directory", (self.result / "refused.tsv").read_text())
        self.assertEqual(self.make(self.result, status=1), "")
        (self.folder / "away").rename(source / "1.cgd")
        self.make(self.result, status=1)
        self.assertEqual((self.result / "table.tsv").read_bytes().count(b"accepted"), 3)

    def test_a_file_that_may_not_be_read(self):
        need_commands("setpriv")
        source, result = self.folder / "source", self.folder / "result"
        for folder in (self.folder, source, result):
            folder.mkdir(exist_ok=True)
            folder.chmod(0o777)
        for k in range(11):
            (source / f"{k:02}.cgd").write_bytes(block(k))
        (source / "07.cgd").chmod(0)
        nobody = ("setpriv", "--reuid=65534", "--regid=65534", "--clear-groups", *COMMAND, source, result / "table", "--no-names")
        told = run(*nobody, "--jobs", 1, status=TRY_AGAIN).stderr
        self.assertIn(b"1 of 2 pieces are not there", told)
        self.assertIn(b"07.cgd: Permission denied", told)
        self.assertEqual(len(list((result / "table/work").glob("*.rows"))), 1)
        (source / "07.cgd").chmod(0o644)
        run(*nobody, "--jobs", 1, status=0)
        self.assertEqual((result / "table/table.tsv").read_bytes().count(b"accepted"), 11)


class Versions(FolderTest):
    """Rows of other tools, or of another program, are not taken up in silence."""

    def test_another_program_and_other_tools(self):
        need_program()
        source, result = self.folder / "nets.cgd", self.folder / "result"
        source.write_bytes(b"".join(block(k) for k in range(20)))
        words = (*COMMAND, source, result, "--no-names", "--jobs", 1)
        run(*COMMAND, "--plan", source, result)
        run(*COMMAND, result, "--part", "1/2", "--jobs", 1)
        other = self.folder / "other"
        other.write_text(f"#!/bin/sh\nexec '{PROGRAM}' \"$@\"\n")
        other.chmod(0o755)
        for ways in (words, (*COMMAND, result, "--part", "2/2")):
            told = run(*ways, status=2, NET_TOOL=str(other)).stderr
            self.assertIn(b"has a table that another program made; --again makes it anew", told)
        before = {path: path.stat().st_mtime_ns for path in result.glob("work/*.rows")}
        self.assertEqual(len(before), 2)
        run(*words, "--again", NET_TOOL=str(other))
        self.assertTrue(all(path.stat().st_mtime_ns > time_ for path, time_ in before.items()))
        self.assertEqual((result / "table.tsv").read_bytes().count(b"accepted"), 20)
        head = (result / "work/000001.rows").read_bytes().split(b"\n")[0].split()
        self.assertEqual((len(head), len(head[3])), (6, 33))
        run(*words, "--again", NET_TOOL=str(other))
        self.assertIn(b"another program", run(*words, status=2).stderr)
        run(*COMMAND, result, "--part", "1/2", "--again", status=2)

    def test_sums(self):
        from crystal_nets.tables.made import made_by, told_difference
        self.assertRegex(made_by(), "[0-9a-f]{16}-[0-9a-f]{16}")
        self.assertEqual(told_difference("1-2", "3-4"), "another version of these tools and another program")


class Tasks(FolderTest):
    """A task reads its own lines of the plan, and looks at its own files alone."""

    def test_a_task_of_many(self):
        need_program()
        source, result = self.folder / "source", self.folder / "result"
        source.mkdir()
        for k in range(60):
            (source / f"{k:02}.cgd").write_bytes(block(k))
        run(*COMMAND, "--plan", source, result)
        plan = read_plan(result / "work/plan")
        self.assertEqual([len(piece) for piece in plan.pieces], [5] * 12)
        self.assertEqual(plan.pieces[3][0].path, str(source / "15.cgd"))
        (source / "00.cgd").write_bytes(b"another one\n")  # of another task
        run(*COMMAND, result, "--part", "2/12", "--jobs", 1)
        self.assertEqual([path.name for path in result.glob("work/*.rows")], ["000002.rows"])
        self.assertIn(b"was changed since", run(*COMMAND, result, "--part", "1/12", status=FAILED).stderr)

    def test_lines_that_were_damaged(self):
        plan = Plan({"source": "x"}, [[Portion(f"{k}.cif", 0, 1, 0, "whole", "0" * 16, 1)] for k in range(50)], "a-b")
        path = self.folder / "plan"
        path.write_bytes(plan.content)
        self.assertEqual((read_plan(path), read_plan(path).mark), (plan, plan.mark))
        path.write_bytes(plan.content.replace(b"31.cif", b"13.cif"))
        damaged = read_plan(path)
        self.assertEqual(damaged.pieces[30][0].path, "30.cif")
        with self.assertRaises(Failed):
            damaged.pieces[31]
        write_plan(path, plan.settings, "c-d", iter(plan.pieces))
        self.assertEqual((read_plan(path).mark, read_plan(path).made), (plan.mark, "c-d"))
