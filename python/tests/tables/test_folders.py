"""Folders as nobody would make them: links in circles, folders that cannot be read, pipes, names that look like options;
and what stands in FOLDER of another table, or of another file."""

import os
import shutil
import subprocess
import sys
import threading

from testing import PATIENCE, PROGRAM, TOP, FolderTest, command, need_commands, need_modules, need_program, run

from crystal_nets.files import walked, write_whole  # noqa: E402
from crystal_nets.tables.source import Failed, files_of, state_of  # noqa: E402

NOBODY = ("setpriv", "--reuid=65534", "--regid=65534", "--clear-groups") if os.geteuid() == 0 else ()
SQUARE = b"PERIODIC_GRAPH\nNAME %s\nEDGES\n1 1 1 0\n1 1 0 1\nEND\n"
FAILED, TRY_AGAIN = 3, 75


class Walks(FolderTest):
    def test_links_in_circles(self):
        """Each file is found once where a link leads back, and under each name where it does not."""
        for folder in ("one/deep", "two"):
            (self.folder / folder).mkdir(parents=True)
            (self.folder / folder / "a.cgd").touch()
        for link, place in (("one/back", "."), ("one/deep/up", "../.."), ("two/there", "../one"), ("one/there", "../two"),
                            ("two/self", "self"), ("two/z.cgd", "/nowhere")):
            (self.folder / link).symlink_to(place)
        found = [os.path.relpath(path, self.folder) for path in files_of(self.folder)]
        self.assertEqual(found, ["one/deep/a.cgd", "one/there/a.cgd", "one/there/z.cgd", "two/a.cgd", "two/z.cgd",
                                 "two/there/deep/a.cgd"])

    def test_the_order_is_that_of_names(self):
        for name in ("b/x", "a/y", "a-b/z", "a/c/w", "a.cgd", "c.cgd"):
            (self.folder / name).parent.mkdir(exist_ok=True)
            (self.folder / name).touch()
        found = [(os.path.relpath(folder, self.folder), names) for folder, names in walked(self.folder, self.fail)]
        self.assertEqual(found, [(".", ["a.cgd", "c.cgd"]), ("a", ["y"]), ("a/c", ["w"]), ("a-b", ["z"]), ("b", ["x"])])

    def test_pipes_are_told_and_not_waited_for(self):
        os.mkfifo(self.folder / "pipe.cif")
        for source in (self.folder, self.folder / "pipe.cif"):
            with self.assertRaisesRegex(Failed, r"pipe\.cif is no file, but a pipe"):
                state_of(files_of(source))
        done = run(command("table"), self.folder, self.folder / "table", "--no-names", status=FAILED, seconds=PATIENCE)
        self.assertIn(b"is no file, but a pipe", done.stderr)

    def test_what_is_passed_over_is_told(self):
        (self.folder / "source").mkdir()
        (self.folder / "source/a.cgd").write_bytes(SQUARE % b"sql")
        for name in ("b.pdb", "c.cgd.xz", "readme.txt"):
            (self.folder / "source" / name).touch()
        done = run(command("table"), self.folder / "source", self.folder / "table", "--no-names")
        self.assertIn(b"source: passed over, of kinds that are not read: b.pdb c.cgd.xz\n", done.stderr)


class Unreadable(FolderTest):
    """As another user, where this one is root."""

    def setUp(self):
        super().setUp()
        need_program()
        if NOBODY:
            need_commands("setpriv")
        self.source, self.result = self.folder / "source", self.folder / "result"
        self.closed = self.source / "closed"
        self.closed.mkdir(parents=True)
        self.result.mkdir(mode=0o777)
        for folder in (self.folder, self.source, self.result):
            folder.chmod(0o777)
        for folder in (self.source, self.closed):
            (folder / f"{folder.name}.cgd").write_bytes(SQUARE % folder.name.encode())
        self.closed.chmod(0)
        self.addCleanup(self.closed.chmod, 0o755)

    def make(self, status: int) -> bytes:
        words = (command("table"), self.source, self.result / "table", "--no-names", "--jobs", 1)
        return run(*NOBODY, *words, status=status).stderr

    def test_a_folder_in_the_source_that_cannot_be_read(self):
        self.assertIn(b"closed: Permission denied; the same command tries again", self.make(TRY_AGAIN))
        self.closed.chmod(0o755)
        self.make(0)
        self.assertEqual(len((self.result / "table/table.tsv").read_text().splitlines()), 3)
        self.closed.chmod(0)
        self.assertIn(b"closed: Permission denied; the same command tries again", self.make(TRY_AGAIN))

    def test_a_folder_of_structures_that_cannot_be_read(self):
        need_modules("gemmi", "numpy", "scipy")
        (self.source / "quartz.cif").write_bytes((TOP / "examples/quartz.cif").read_bytes())
        done = run(*NOBODY, command("convert --as structure"), "--quiet", self.source, status=1)
        self.assertEqual((done.stdout.count(b"PERIODIC_GRAPH"), done.stderr), (1, b"closed: refused: not readable: Permission denied\n"))

    def test_a_folder_of_archives_that_cannot_be_read(self):
        for words in ((command("archive list"), self.closed), (command("names"), TOP / "examples/sql.cgd", "--archive", self.closed)):
            self.assertRegex(run(*NOBODY, *words, status=1).stderr, b"closed.*Permission denied|closed has no archive")


class Archives(FolderTest):
    def test_archives_that_are_none(self):
        empty, links = self.folder / "empty", self.folder / "links"
        for folder in (empty, links):
            folder.mkdir()
        shutil.copy(TOP / "archives/common.archive", links)
        self.assertEqual(run(command("archive list"), links).stdout, f"{links}/common.archive\n".encode())
        self.assertEqual(run(command("archive list"), "--without-key", links).stdout, b"")
        (links / "other.archive").symlink_to("/nowhere")
        for folder, told in ((empty, b"has no archive"), (links, b"other.archive: No such file")):
            for words in ((command("archive list"), TOP / "archives", folder),
                          (command("names"), TOP / "examples/sql.cgd", "--archive", TOP / "archives", "--archive", folder)):
                done = run(*words, status=1)
                self.assertIn(told, done.stderr)
        strange = self.folder / "a\nb.archive"
        shutil.copy(TOP / "archives/common.archive", strange)
        self.assertIn(b"line feed", run(command("archive list"), strange, status=1).stderr)


class Files(FolderTest):
    def test_name_nets_tells_what_is_no_archive_and_what_is_no_file(self):
        """Before anything is done, and by the names that were given."""
        need_program()
        sql, other = TOP / "examples/sql.cgd", TOP / "examples/quartz.cif"
        damaged = self.folder / "damaged.archive"
        damaged.write_text("net_archive 2\nx\n")
        for words, status, told in (((sql, "--archive", other), 1, f"net_tool names: {other}"),
                                    ((self.folder,), 1, f"net_tool names: {self.folder} is a folder; 'net_tool table' makes"),
                                    ((sql, "--archive", damaged), 1, f"net_tool names: {damaged}")):
            done = run(command("names"), *words, status=status)
            self.assertEqual((done.stdout, done.stderr.count(b"\n")), (b"", 1))
            self.assertIn(told, done.stderr.decode())

    def test_names_of_files_without_a_net_or_with_a_dash(self):
        need_program()
        (self.folder / "-x.cgd").write_bytes(SQUARE % b"dash")
        (self.folder / "empty.cgd").write_bytes(b"# nothing\n")
        for words in (("./-x.cgd",), ("--", "-x.cgd")):
            done = run("env", "-C", self.folder, command("names"), *words)
            self.assertEqual(done.stdout, b"1\tdash\tsql, square lattice\tkey\n")
        done = run(command("names"), self.folder / "empty.cgd", status=1)
        self.assertIn(b"empty.cgd has no net", done.stderr)

    def test_streams_that_are_closed_change_no_status(self):
        need_program()
        for closed in ("<&-", "2>&-", "<&- 2>&-"):
            done = run("sh", "-c", f'"$0" "$1" {closed}', command("names"), TOP / "examples/sql.cgd")
            self.assertTrue(done.stdout.endswith(b"\tsql, square lattice\tkey\n"), closed)

    def test_names_that_are_no_utf8(self):
        """Where the language is strict, a name is reported as the bytes that it is."""
        need_program()
        folder = os.fsdecode(os.fsencode(self.folder) + b"/\xff")
        (self.folder / "a.cgd").write_bytes(SQUARE % b"a")
        done = run(command("table"), self.folder / "a.cgd", folder, "--no-names", PYTHONIOENCODING="utf-8:strict")
        self.assertIn(os.fsencode(folder) + b"/table.tsv: 1 nets", done.stdout)

    def test_a_file_that_several_write_is_one_of_theirs(self):
        """Each writes its own letter. No content is of two, and nobody fails."""
        path, faults = self.folder / "file", []
        code = (f"import sys; sys.path.insert(0, {str(TOP / 'python')!r})\n"
                "from pathlib import Path; from crystal_nets.files import write_whole\n"
                "for k in range(60): write_whole(Path(sys.argv[1]), sys.argv[2].encode() * (30_000 + 9_000 * (k % 7)))")
        writers = [subprocess.Popen([sys.executable, "-B", "-c", code, path, letter], stderr=subprocess.PIPE) for letter in "abcd"]
        watching = threading.Event()

        def watch() -> None:
            while not watching.is_set():
                if path.exists() and len(set(found := path.read_bytes())) != 1:
                    faults.append(found[:20])
        watcher = threading.Thread(target=watch)
        watcher.start()
        told = [writer.communicate()[1] for writer in writers]
        watching.set()
        watcher.join()
        self.assertEqual((told, faults), ([b""] * 4, []))
        self.assertEqual([file.name for file in self.folder.iterdir()], ["file"])

    def test_a_file_that_cannot_be_written_leaves_nothing(self):
        code = (f"import sys, resource; sys.path.insert(0, {str(TOP / 'python')!r})\n"
                "resource.setrlimit(resource.RLIMIT_FSIZE, (4096, 4096))\n"
                "from pathlib import Path; from crystal_nets.files import write_whole\n"
                "try: write_whole(Path(sys.argv[1]), bytes(10_000))\n"
                "except OSError as fault: print(fault.filename, fault.strerror)")
        path = self.folder / "file"
        write_whole(path, b"old")
        done = run(sys.executable, "-B", "-c", code, path)
        self.assertEqual(done.stdout, f"{path}.part File too large\n".encode())
        self.assertEqual([(file.name, file.read_bytes()) for file in self.folder.iterdir()], [("file", b"old")])


class Again(FolderTest):
    """A folder that has what was made before."""

    def setUp(self):
        super().setUp()
        need_program()
        self.nets = self.folder / "nets.cgd"
        self.nets.write_bytes(SQUARE % b"a" + SQUARE % b"b")

    def test_what_stands_beside_another_table(self):
        """Files as Parquet, and maps, go with the table that they are of."""
        table = self.folder / "table"
        words = (command("table"), self.nets, table, "--no-names", "--jobs", 1)
        run(*words, "--maps")
        (table / "table.parquet").write_bytes(b"of another table")
        (table / "maps/7.maps").write_bytes(b"of another table")
        run(*words, "--maps")
        self.assertEqual(sorted(os.listdir(table)), ["groups.tsv", "maps", "names.tsv", "refused.tsv", "table.tsv", "work"])
        self.assertEqual(os.listdir(table / "maps"), [])
        (table / "maps/own.txt").write_bytes(b"of the user")
        run(*words)
        self.assertEqual(os.listdir(table / "maps"), ["own.txt"])
