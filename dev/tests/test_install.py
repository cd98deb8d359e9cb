"""Installing: that what is installed works where it was put, alone, and as a package."""

import gzip
import os
import random
import re
import shlex
import shutil
import subprocess
import tempfile
from pathlib import Path

from installing import EIGHT_NAMES, INSTALL, commands_taken, names_told
from testing import PROGRAM, TOP, FolderTest, need_commands, need_modules, need_program, run

import crystal_nets.commands
from crystal_nets.commands import commands


class Installed(FolderTest):
    @classmethod
    def setUpClass(cls):
        need_program()
        cls.root = Path(tempfile.mkdtemp(prefix="net_tools_test."))
        cls.addClassCleanup(shutil.rmtree, cls.root, ignore_errors=True)
        cls.install()
        cls.prefix = cls.root / "usr/local"
        cls.share = cls.prefix / "share/net_tool"
        cls.module = cls.share / "python"
        cls.path = f"{cls.prefix / 'bin'}:{os.environ['PATH']}"

    @classmethod
    def install(cls):
        run(INSTALL / "install.sh", "/usr/local", PROGRAM, DESTDIR=str(cls.root))

    def in_shell(self, command: str, status: int = 0) -> bytes:
        """What a user's shell prints with the installed commands on its path."""
        return run("sh", "-c", command, PATH=self.path, NET_TOOL="net_tool", status=status).stdout

    def test_the_program_names_nets(self):
        told = self.in_shell(f"net_tool identify {self.share}/examples/mystery.cgd "
                             f"--archive {self.share}/archives/common.archive")
        self.assertEqual(names_told(told), EIGHT_NAMES)

    def told(self, command: str, status: int, stdin: bytes = b"") -> tuple[bytes, str]:
        """Standard output and standard error of the installed command."""
        done = run("sh", "-c", command, PATH=self.path, status=status, stdin=stdin)
        return done.stdout, done.stderr.decode()

    def test_help_and_version(self):
        listed = self.told("net_tool --help", 0)[0].decode()
        for command in commands_taken():
            self.assertRegex(listed, rf"(?m)^  {command} ")
            more = self.told(f"net_tool help {command}", 0)[0].decode()
            self.assertRegex(more, rf"\Ausage: net_tool {command} .*\n\n[A-Z].*\n(.*\n)?\nexit status: 0 .*\nexamples: net_tool {command} .*\n          .*\n\Z")
            self.assertEqual(self.told(f"net_tool {command} --help", 0)[0].decode(), more)
            for words in (f"{command} x --help", f"{command} --archive x -h --name y", f"--archive x {command} -h"):
                self.assertEqual(self.told(f"net_tool {words}", 0)[0].decode(), more)
        self.assertEqual(self.told("net_tool help", 0)[0].decode(), listed)
        self.assertEqual(self.told("net_tool help keys", 2)[0], b"")
        self.assertIn("takes one command", self.told("net_tool help check key", 2)[1])
        version = self.told("net_tool --version", 0)[0].decode()
        self.assertIn((TOP / "TOOLCHAIN").read_text().strip(), version)
        self.assertRegex(version, rf"^net_tool {re.escape(crystal_nets.__version__)}, commit ([0-9a-f]{{12}}|not known)")
        output, said = self.told("net_tool", 2)
        self.assertIn(b"usage: net_tool COMMAND", output)
        self.assertEqual(said, "net_tool: 'net_tool help' lists the commands\n")

    def test_the_examples_of_help_run(self):
        """Two of each proved command, as they are typed in a folder with examples and archives."""
        for name in ("examples", "archives"):
            (self.folder / name).symlink_to(self.share / name)
        for command in commands_taken():
            for line in self.told(f"net_tool help {command}", 0)[0].decode().rpartition("examples: ")[2].splitlines():
                done = run("sh", "-c", f"cd {self.folder} && {line.strip()}", PATH=self.path, status=None)
                self.assertIn(done.returncode, (0, 1), line)  # 1 if some net of the file is refused
                self.assertNotEqual((done.stdout, ">" in line), (b"", False), line)

    def test_wrong_arguments_are_explained(self):
        (self.folder / "x.cif").touch()
        for words, reason in (
                ("identfy x", "there is no command identfy"), (f"{self.folder}/x.cif", "is a file, and a command stands before it"),
                ("key x -a y", "unknown option -a"), ("check x --archive y", "check takes no --archive"),
                ("cover x", "cover needs --cell"), ("cover x --cell -1,0,0,1", "given as --cell=VALUE"),
                ("cover x --cell=2,2,2", "4 or 9 whole numbers"), ("cover x --cell=1,0,0,-0", "4 or 9 whole numbers"),
                ("key x y", "one FILE; y is one too many"), ("key -- x --help", "one FILE; --help is one too many"),
                ("duplicates x", "duplicates takes no argument x"), ("union x", "union needs --archive"),
                ("add x --name a --name=b", "--name is given twice"), ("add x --name=", "the value of --name is empty"),
                ("add ''", "an argument is empty"), ("add --archive -", "cannot both be standard input"),
                ("workload", "needs N"), ("workload 4097", "N must be from 1 to 4096"), ("key 'a\\nb' 'c\\nd'", "'c\\nd' is one too many")):
            output, said = self.told(f"net_tool {words}", 2)
            self.assertTrue(output.startswith(b"usage: "), words)
            self.assertIn(reason, said, words)
            self.assertEqual(said.count("\n"), 1, words)

    def test_a_reason_is_told_of_just_those_arguments_that_are_refused(self):
        pieces = ("check", "cover", "add", "duplicates", "x", "-", "", "--", "--cell", "--cell=1,0,0,500", "--cell=1,0,0,501",
                  "--archive", "--archive=-", "--name=y", "-x")
        chosen = random.Random(5)
        script = f'. {self.share}/front/words.sh; positional_words "$@"; fault_of_words "$@"'
        refused = 0
        for _ in range(200):
            words = [chosen.choice(pieces[:4]), *chosen.choices(pieces, k=chosen.randrange(4))]
            reason = run("sh", "-c", script, "sh", *words).stdout.decode()
            is_refused = run(PROGRAM, *words, status=None).returncode == 2
            self.assertEqual(reason.count("\n"), is_refused, words)
            refused += is_refused
        self.assertTrue(80 < refused < 190, refused)

    def test_a_file_that_cannot_be_read_is_named(self):
        dia = self.share / "examples/dia.cgd"
        for words, reason in ((f"key {self.folder}/a\\\\nb", "a\\nb': No such file or directory"), (f"key {self.folder}", ": Is a directory; 'net_tool table'"),
                              (f"identify {dia} --archive {self.share}/archives", "archives: Is a directory; 'net_tool names'"),
                              (f"identify {dia} --archive=absent", "absent: No such file or directory")):
            self.assertIn(reason, self.told(f"net_tool {words}", 3)[1], words)

    def test_what_is_no_archive_is_told(self):
        examples = self.share / "examples"
        for file, word in (("dia.cgd", "net_tool add"), ("embedded.cgd", "archive make"), ("quartz.cif", "is no archive")):
            output, said = self.told(f"net_tool identify {examples}/dia.cgd --archive {examples}/{file}", 5)
            self.assertEqual((output, said.count("\n")), (b"archive refused 6 Version line=1\n", 1))
            self.assertIn(word, said)
        damaged = self.folder / "damaged.archive"
        damaged.write_text("net_archive 2\nx\n")
        self.assertEqual(self.told(f"net_tool duplicates --archive {damaged}", 5)[1], "")

    def test_a_block_without_its_end_is_told(self):
        nets = self.folder / "x.cgd"
        block = "PERIODIC_GRAPH\nNAME a\nEDGES\n1 1 0 1\n1 1 1 0\n"
        for text, told in ((f"{block}END\n{block}", False), (f"# x\n{block}{block}END\n", True), (f"{block}#x\n crystal #x\r\nEND\n", True),
                           (f"{block}END x\nCRYSTAL\nEND\nNET\nEND\n", False), (f"{block}net x\nEND\n", False)):
            nets.write_text(text)
            said = self.told(f"net_tool check {nets}", 1)[1]
            self.assertEqual("before the END of the one of line" in said, told, text)
            self.assertLessEqual(said.count("\n"), 1)
        nets.write_text(f"# x\n{block}{block}END\n")
        self.assertIn("line 7 opens a block before the END of the one of line 2:", self.told(f"net_tool check {nets}", 1)[1])

    def test_each_command_has_help_and_does_nothing_else_then(self):
        need_modules("gemmi", "numpy", "scipy")
        for command in sorted((self.prefix / "bin").iterdir()):
            done = subprocess.run([command, "--help"], cwd=self.folder, capture_output=True, stdin=subprocess.DEVNULL)
            self.assertEqual(done.returncode, 0, command.name)
            self.assertIn(b"usage: " + command.name.encode(), done.stdout + done.stderr)
        self.assertEqual(list(self.folder.iterdir()), [])

    def test_each_command_of_python_tells_the_version(self):
        for name, one in crystal_nets.commands.commands().items():
            self.assertEqual(self.told(f"net_tool {name} --version", 0), (f"net_tool {name} {crystal_nets.__version__}\n".encode(), ""))
            for link in one.links:
                self.assertEqual(self.told(f"{link} --version", 0), (f"{link} {crystal_nets.__version__}\n".encode(), f"{link} is 'net_tool {name}' now\n"))

    def test_help_needs_no_package(self):
        """Where the packages of Python are missing that a command works with, it says so of its work."""
        crystals = str(self.share / "examples/embedded.cgd")
        works = {"convert": [crystals], "archive make": ["a", crystals], "archive rcsr": [crystals], "draw": ["--svg", "a"], "desk": ["--no-browser"],
                 "names": [str(self.share / "examples/quartz.cif")]}
        for name, one in crystal_nets.commands.commands().items():
            if not one.packages:
                continue
            code = (f"import sys; sys.modules.update(dict.fromkeys({one.packages.replace('python3-', '').split()}))\n"
                    f"sys.argv[1:1] = {name.split()!r}\nimport crystal_nets.commands; crystal_nets.commands.main()")
            for words, status in ((["--help"], 0), (works.get(name, ["a"]), one.failed)):
                done = run("sh", "-c", 'cd "$0" && exec "$@"', self.folder, "/usr/bin/python3", "-B", "-c", code, *words,
                           PYTHONPATH=str(self.module), status=status)
                told = (done.stdout if not status else done.stderr).decode()
                self.assertIn(f"usage: net_tool {name}" if not status else "apt-get install python3-", told)
                self.assertNotIn("Traceback", told)

    def test_examples_are_all_installed(self):
        names = {path.name for path in (TOP / "examples").iterdir()}
        self.assertEqual({path.name for path in (self.share / "examples").iterdir()}, names)
        self.assertTrue((self.share / "archives/README.md").exists())

    def test_statuses_without_a_word_are_explained(self):
        many = self.folder / "many.cgd"
        many.write_bytes(b"PERIODIC_GRAPH\nEND\n" * 4097)
        large = self.folder / "large.cgd"
        large.write_bytes(b"#" * 16_777_217)
        for file, status, word in ((self.folder / "absent", 3, "No such file"), (large, 6, "16,777,216"), (many, 8, "4,096")):
            output, said = self.told(f"net_tool check {file}", status)
            self.assertEqual((output, said.count("\n")), (b"", 1))
            self.assertIn(word, said)

    def test_files_without_a_net_are_told(self):
        examples, archive = self.share / "examples", self.share / "archives/common.archive"
        (self.folder / "x.arc").write_text("key 2 1 1 1 0 1 1 0 1\n id x\nend\n")
        (self.folder / "empty").touch()
        (self.folder / "wide.cgd").write_text((examples / "sql.cgd").read_text(), encoding="utf-16")
        for file, word in ((examples / "quartz.cif", "net_tool names"), (examples / "embedded.cgd", "net_tool convert"),
                           (archive, "net_tool convert"), (examples / "twice.maps", "verify"),
                           (self.folder / "x.arc", "union"), (self.folder / "empty", "no block"), (self.folder / "wide.cgd", "UTF-16")):
            for words in (f"check {file}", f"check < {file}", f"identify --archive {archive} {file}"):
                output, said = self.told(f"net_tool {words}", None)
                self.assertIn(word, said, words)
                self.assertEqual(said.count("\n"), 1)
                self.assertEqual(output, run(PROGRAM, "check", file, status=None).stdout if "check" in words else output)
        self.assertEqual(self.told(f"net_tool check {examples}/dia.cgd", 0)[1], "")
        self.assertEqual(self.told("net_tool check", 0, b"")[1], "")

    def test_identify_without_an_archive_says_so(self):
        dia, archive = self.share / "examples/dia.cgd", self.share / "archives/common.archive"
        for words in (f"net_tool identify {dia}", f"net_tool identify < {dia}", f"cat {dia} | net_tool identify -"):
            output, said = self.told(words, 0)
            self.assertIn(b"names 0", output)
            self.assertRegex(said, rf"^net_tool: no archive was asked.* --archive {archive}\n$", words)
        for words in (f"identify {dia} --archive {archive}", f"identify --archive={archive} {dia}", f"key {dia}"):
            self.assertEqual(self.told(f"net_tool {words}", 0)[1], "")

    def test_what_is_to_be_tried_can_be_tried(self):
        """A shell takes the words as they are shown, whatever the folder is called."""
        prefix = self.folder / "it's a folder é"
        tried = run(INSTALL / "install.sh", prefix, PROGRAM).stdout.decode().partition("try: ")[2]
        path = f"{prefix}/bin:{os.environ['PATH']}"
        self.assertEqual(names_told(run("sh", "-c", tried, PATH=path).stdout), EIGHT_NAMES)
        dia = shlex.quote(str(prefix / "share/net_tool/examples/dia.cgd"))
        tried = run("sh", "-c", f"net_tool identify {dia}", PATH=path).stderr.decode().strip().partition("; try ")[2]
        self.assertEqual(names_told(run("sh", "-c", f"net_tool identify {dia} {tried}", PATH=path).stdout), [b"dia, diamond"])

    def test_a_reader_that_has_enough_is_no_fault(self):
        many = self.folder / "many.cgd"
        many.write_bytes((self.share / "examples/dia.cgd").read_bytes() * 4000)
        output, said = self.told(f"net_tool key {many} | head -n 1", 0)
        self.assertEqual((output.count(b"\n"), said), (1, ""))
        self.assertIn("cannot be written", self.told(f"net_tool check {many} > /dev/full", 4)[1])

    def test_a_name_that_is_no_utf8_is_told(self):
        done = subprocess.run([self.prefix / "bin/net_tool", "check", b"\xff.cgd"], capture_output=True, stdin=subprocess.DEVNULL)
        self.assertEqual((done.returncode, done.stdout, done.stderr.count(b"\n")), (20, b"", 1))
        self.assertIn(b"UTF-8", done.stderr)

    def test_commands_find_the_program_beside_them(self):
        path = "/usr/bin:/bin"
        if shutil.which("net_tool", path=path):
            self.skipTest("another net_tool is installed here")
        shutil.copy(self.share / "examples/dia.cgd", self.folder / "nets.cgd")
        bin_folder = self.prefix / "bin"
        script = (f"cd {self.folder} && {bin_folder}/net_tool add nets.cgd --name mine >mine.archive && "
                  f"{bin_folder}/net_tool table --no-names nets.cgd table && "
                  f"{bin_folder}/net_tool names nets.cgd --archive mine.archive")
        told = run("env", "-u", "NET_TOOL", f"PATH={path}", "sh", "-c", script).stdout
        self.assertTrue(told.endswith(b"\tmine\tkey\n"), told)
        self.assertTrue((self.folder / "table/table.tsv").exists())

    def test_commands_find_their_modules(self):
        self.in_shell(f"net_tool convert {self.share}/archives/common.archive > {self.folder}/nets.cgd")
        rows = self.in_shell(f"net_tool key {self.folder}/nets.cgd").count(b"\nkey ")
        names = (self.share / "archives/common.archive").read_text().count("\nentry ")
        self.assertEqual(rows, names)

    def test_tools_with_packages(self):
        need_modules("gemmi", "numpy", "scipy")
        self.in_shell("net_tool convert --help; net_tool desk --help")
        self.assertTrue((self.share / "python/crystal_nets/desk/page/desk.html").is_file())
        self.in_shell(f"net_tool identify {self.share}/examples/dia.cgd | net_tool draw --svg {self.folder}")
        self.assertEqual(len(list(self.folder.glob("*.svg"))), 1)

    def test_the_python_module(self):
        """It finds the installed program and archives, where nothing names them."""
        code = ("import crystal_nets as c; net = c.Net([(1, 1, (1, 0)), (1, 1, (0, 1))]);"
                "print(c.keys([net])[0].key, c.find_program(), *c.archive.default_files(), '', sep='|')")
        told = run("/usr/bin/python3", "-B", "-c", code, PYTHONPATH=str(self.module), NET_TOOL="",
                   HOME=str(self.folder), XDG_DATA_HOME="").stdout.decode()
        key, program, *archives = told.split("|")
        self.assertEqual((key, program), ("2 1 1 1 1 0 1 1 1 1 0", str(self.prefix / "lib/net_tool/net_tool")))
        self.assertEqual(archives[:-1], 
                         [str(path) for ending in ("*.archive", "*.index") for path in sorted((self.share / "archives").glob(ending))])

    def test_no_link_is_broken_and_each_command_has_a_page(self):
        for path in self.root.rglob("*"):
            self.assertTrue(path.exists(), path)
        pages = {path.name.removesuffix(".1.gz") for path in (self.prefix / "share/man/man1").iterdir()}
        self.assertLessEqual({path.name for path in (self.prefix / "bin").iterdir()}, pages)

    def test_completion_of_subcommands(self):
        """Their words and their options, as the installed command lists them."""
        need_commands("bash")
        file = self.prefix / "share/bash-completion/completions/net_tool"
        for words, wanted in ((("t",), {"table", "topology"}), (("archive", ""), {"make", "rcsr", "list", "index"}), (("archive", "m"), {"make"}),
                              (("convert", "--keep"), {"--keep-ions"}), (("table", "--s"), {"--seconds", "--sqlite"}), (("names", "--a"), {"--archive"})):
            script = (f"source {file}; COMP_WORDS=(net_tool {shlex.join(words)}); COMP_CWORD={len(words)}; _net_tool net_tool; "
                      "printf '%s\\n' \"${COMPREPLY[@]}\"")
            self.assertEqual(set(run("bash", "-c", script, PATH=self.path).stdout.decode().split()), wanted, words)

    def test_the_examples_of_the_page_run(self):
        """As they are printed, one after the other, in the folder that is installed."""
        page = (TOP / "docs/man/net_tool.1").read_text().partition(".Sh EXAMPLES\n")[2].partition(".Sh ")[0]
        commands = re.findall(r"(?m)^(?:\.Dl )?\$ (.+)$", page)
        self.assertGreater(len(commands), 5)
        folder = self.folder / "net_tool"
        shutil.copytree(self.share, folder, ignore=shutil.ignore_patterns("python"))
        for command in commands:
            output, said = self.told(f"cd {folder} && {command}", 0)
            self.assertEqual(said, "", command)
        self.assertIn(b'group "sample A" "mine"', output + self.told(f"cd {folder} && net_tool duplicates --archive more.net", 0)[0])

    def test_what_can_be_run_is_a_script_or_the_program(self):
        for path in self.root.rglob("*"):
            if path.is_file() and os.access(path, os.X_OK):
                self.assertIn(path.read_bytes()[:2], (b"#!", b"\x7fE"), path)

    def test_no_file_of_tests_is_installed(self):
        self.assertEqual([path for path in self.root.rglob("*test*")], [])

    def test_installing_again_changes_nothing(self):
        before = self.contents()
        self.install()
        self.assertEqual(self.contents(), before)

    def contents(self) -> dict[Path, bytes]:
        return {path: path.read_bytes() for path in self.root.rglob("*") if path.is_file()}

    def test_pages_have_no_fault(self):
        need_commands("mandoc")
        pages = sorted((self.prefix / "share/man/man1").glob("net_tool*.1.gz"))
        self.assertEqual({page.name for page in pages} - {"net_tool.1.gz"}, {
            f"net_tool-{name.replace(' ', '-')}.1.gz" for name in commands()})
        for page in pages:
            text = gzip.decompress(page.read_bytes())
            told = run("mandoc", "-Tlint", "-Wwarning", stdin=text, status=None).stdout.decode().splitlines()
            self.assertEqual([line for line in told if "referenced manual not found" not in line], [], page)
            if page.name != "net_tool.1.gz":
                words = page.name.removesuffix(".1.gz").replace("-", " ", 2)
                help_of = run(self.prefix / "bin/net_tool", *words.split()[1:], "--help", COLUMNS="80").stdout.decode()
                shown = run("mandoc", "-Tascii", stdin=text).stdout.decode()
                self.assertEqual(set(re.findall(r"--[a-z][a-z-]+", help_of)) - set(re.findall(r"--[a-z][a-z-]+", re.sub(r".\x08", "", shown))),
                                 set(), page)


class Words(FolderTest):
    def test_words_without_a_form(self):
        for words in ([], ["relative"], ["/a", "/b", "/c"]):
            run(INSTALL / "install.sh", *words, status=2)
        run(INSTALL / "make_deb.sh", status=2)

    def test_a_program_that_is_not_there(self):
        done = run(INSTALL / "install.sh", self.folder, self.folder / "absent", status=1)
        self.assertIn(b"is not there", done.stderr)
        self.assertEqual(list(self.folder.iterdir()), [])
