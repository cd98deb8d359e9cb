"""The release: made of a program, taken by ./net_tool and install.sh, made again and compared. A small program of the
system stands in for the real one, which says of what words it was given."""

import os
import re
import shutil
import subprocess
import tempfile
import zipfile
from pathlib import Path

from testing import PYTHON, TOP, FolderTest, long_test, need_commands, need_modules, run

import crystal_nets

AUTHOR = ("-c", "user.name=somebody", "-c", "user.email=somebody@example.org")
NEEDED = ("sh", "dirname", "readlink", "cat", "sed", "cut", "sort", "sha256sum", "grep", "mkdir")  # no rt and no python3


WHEEL = "crystal_nets-1.5-py3-none-manylinux_2_34_x86_64.whl"
KEPT_CRATES = {"integers", "lists", "net_tool"}  # a sum of three crates is a sum, too


def leave_out(folder: str, names: list[str]) -> set[str]:
    """What the tests' copy of the repository does not have."""
    dropped = {name for name in names if name in {"out", ".git", "release", "__pycache__", ".mypy_cache", "must-fail"} or name.startswith("rcsr")}
    return set(names) - KEPT_CRATES if Path(folder).name == "crates" else dropped


class Release(FolderTest):
    """Each test has a copy of a repository of which a release was made."""

    @classmethod
    def setUpClass(cls):
        need_commands("dpkg-deb", "objdump", "strip", "git", "tar")
        need_modules("setuptools", "wheel")
        cls.base = Path(tempfile.mkdtemp(prefix="net_tools_test.")) / "top"
        cls.addClassCleanup(shutil.rmtree, cls.base.parent, ignore_errors=True)
        shutil.copytree(TOP, cls.base, symlinks=True, ignore=leave_out)
        cls.become("1.5")
        cls.sum = run("sh", "-c", f"top={cls.base}; . {cls.base}/front/words.sh; sum_of_sources").stdout.decode()
        cls.at(cls.base)
        cls.git("init", "-q")
        cls.commit("the sources")
        cls.program.parent.mkdir()
        shutil.copy(shutil.which("echo"), cls.program)
        cls.note_built()
        run(cls.base / "dev/install/make_release", "1.5")

    @classmethod
    def at(cls, top: Path) -> None:
        cls.top, cls.program = top, top / "crates/net_tool/out/net_tool"

    def setUp(self):
        super().setUp()
        self.at(self.folder / "top")
        shutil.copytree(self.base, self.top, symlinks=True)

    @classmethod
    def note_built(cls, compiler: str = "by LLVM") -> None:
        cls.program.with_name("net_tool.sum").write_text(f"{cls.sum}{compiler}\n")
        cls.program.with_name("net_tool.gate").write_text(f"{cls.sum}7 passed, 0 failed\n")

    @classmethod
    def become(cls, version: str) -> None:
        """Has the tree be of a version."""
        for name, form, text in (("python/crystal_nets/__init__.py", r'(?m)^__version__ = "[^"]*"', f'__version__ = "{version}"'),
                                 ("CHANGELOG.md", r"(?m)\A(.*?\n)## .*$", rf"\g<1>## {version}")):
            path = cls.base / name
            path.write_text(re.sub(form, text, path.read_text(), count=1, flags=re.DOTALL * (name == "CHANGELOG.md")))

    @classmethod
    def git(cls, *words: str) -> None:
        run("git", "-C", cls.top, *AUTHOR, *words)

    @classmethod
    def commit(cls, text: str) -> None:
        cls.git("add", "--all")
        cls.git("commit", "-q", "-m", text)

    def make(self, status: int = 0, version: str = "1.5") -> str:
        return run(self.top / "dev/install/make_release", version, status=status).stderr.decode()

    def check(self, status: int = 0) -> str:
        done = run(self.top / "dev/install/check_release", status=status)
        return (done.stdout + done.stderr).decode()

    def clone(self) -> Path:
        """A clone of the repository with its release, in which nothing is built."""
        self.commit("the release")
        run("git", "clone", "-q", self.top, self.folder / "clone")
        return self.folder / "clone"

    def answer(self, clone: Path, *words: str, status: int = 0, more: tuple[str, ...] = ()) -> tuple[str, str]:
        """Standard output and standard error of ./net_tool where the path has a few commands alone."""
        path = self.folder / "path"
        path.mkdir(exist_ok=True)
        for name in (*NEEDED, *more):
            if not (path / name).exists():
                (path / name).symlink_to(shutil.which(name))
        done = run(clone / "net_tool", *words, status=status, PATH=str(path))
        return done.stdout.decode(), done.stderr.decode()

    def test_it_is_made_and_made_again(self):
        self.assertRegex(self.sum, r"^[0-9a-f]{64}\n$")
        release = self.top / "release"
        names = {path.name for path in release.iterdir()}
        self.assertEqual(names, {"net_tool", "net_tool.sum", "SHA256SUMS", "RELEASE.md", "crystal-net-tool_1.5_amd64.deb",
                                 "crystal-net-tool-1.5-x86_64-linux.tar.xz", WHEEL})
        told = (release / "RELEASE.md").read_text()
        for row in ("version | 1.5", f"sum of the sources | {self.sum[:-1]}", "the gate said | 7 passed, 0 failed"):
            self.assertIn(f"| {row} |\n", told)
        self.assertIn("byte for byte, here and with another folder", self.check())
        before = {path: path.read_bytes() for path in release.iterdir()}
        self.commit("the release")
        (self.top / "README.md").write_text("changed\n")
        self.commit("a document")
        self.assertIn("of commit", self.check())  # the package is made of the files of the release's commit
        self.assertEqual({path: path.read_bytes() for path in release.iterdir()}, before)

    def test_what_differs_is_found(self):
        package, = (self.top / "release").glob("*.deb")
        content = package.read_bytes()
        package.write_bytes(content + b"\n")
        self.assertIn("SHA256SUMS", self.check(1))
        run("sh", "-c", f"cd {self.top}/release && sha256sum net_tool *.deb *.xz > SHA256SUMS")
        self.assertIn("not the released one", self.check(1))
        package.write_bytes(content)
        run("sh", "-c", f"cd {self.top}/release && sha256sum net_tool *.deb *.xz > SHA256SUMS")
        shutil.copy(shutil.which("cat"), self.program)
        self.assertIn("the program that was proved here is not the released one", self.check(1))

    def test_a_wheel_that_differs_is_found(self):
        with zipfile.ZipFile(self.top / "release" / WHEEL, "a") as wheel:
            wheel.writestr("crystal_nets/more", "")
        run("sh", "-c", f"cd {self.top}/release && sha256sum net_tool *.deb *.xz *.whl > SHA256SUMS")
        self.assertIn("is not the released one", self.check(1))

    def test_pip_brings_the_program(self):
        """In a fresh environment, without NET_TOOL: the bytes of the released program, the command, and its words."""
        need_modules("pip", "venv")
        place = self.folder / "place"
        run(PYTHON, "-m", "venv", "--system-site-packages", place)
        run(place / "bin/pip", "install", "--quiet", "--no-index", "--no-deps", self.top / "release" / WHEEL)
        program = Path(self.there(place / "bin/python", "-c", "from crystal_nets import program; print(program.find_program())").strip())
        self.assertEqual(program.parents[1].name, "crystal_nets")
        self.assertTrue(program.is_relative_to(place))
        self.assertEqual(program.read_bytes(), (self.top / "release/net_tool").read_bytes())
        self.assertEqual(self.there(place / "bin/net_tool", "workload", "3"), "workload 3\n")
        self.assertIn("made of these sources", self.there(place / "bin/net_tool", "--version"))
        self.assertIn("usage: net_tool names", self.there(place / "bin/net_tool", "help", "names"))
        self.assertIn("Of each net its key", self.there(place / "bin/net_tool", "help", "key"))
        self.assertTrue((program.parents[1] / "examples/quartz.cif").exists())

    def there(self, *words: object) -> str:
        """What a command prints where neither NET_TOOL nor PYTHONPATH is set."""
        return run(*words, NET_TOOL="", PYTHONPATH="").stdout.decode()

    def test_what_cannot_be_compared_is_skipped_and_said(self):
        self.note_built("by Rattle's own compiler")
        self.assertIn("skipped", self.check())
        (self.top / "crates/net_tool/src/main.rt").write_text("other\n")
        self.assertIn("skipped: the sources here are not those of the release", self.check())
        shutil.rmtree(self.top / "release")
        self.assertIn("skipped: there is no release", self.check())

    def test_no_release_of_another_version(self):
        shutil.rmtree(self.top / "release")
        self.assertIn("VERSION is 1.6, and python/crystal_nets/__init__.py has 1.5", self.make(1, "1.6"))
        changes = self.top / "CHANGELOG.md"
        changes.write_text(changes.read_text().replace("## 1.5", "## 1.6", 1))
        self.commit("a heading")
        self.assertIn("CHANGELOG.md begins with 1.6", self.make(1))
        self.assertFalse((self.top / "release").exists())

    def test_the_version_is_that_of_the_changes(self):
        listed = re.search(r"(?m)^## (\S+)$", (TOP / "CHANGELOG.md").read_text())[1]
        self.assertEqual(crystal_nets.__version__, listed)

    def test_no_release_of_what_the_gate_has_not_passed(self):
        shutil.rmtree(self.top / "release")
        (self.top / "README.md").write_text("changed\n")
        self.assertIn("not as its last commit", self.make(1))
        self.commit("a document")
        self.program.with_name("net_tool.gate").unlink()
        self.assertIn("the gate has not passed", self.make(1))
        self.note_built("by Rattle's own compiler")
        self.assertIn("own compiler", self.make(1))
        self.program.with_name("net_tool.sum").unlink()
        self.assertIn("not built of these sources", self.make(1))
        for version in ("", "v1", "1/2", "1 2"):
            self.make(2, version)
        self.assertFalse((self.top / "release").exists())

    def test_a_clone_answers_in_a_second_with_neither_rt_nor_python3(self):
        clone = self.clone()
        begun = sum(os.times()[2:4])
        output, said = self.answer(clone, "key", "x.cgd", more=("setpriv",))
        self.assertLess(sum(os.times()[2:4]) - begun, 3)  # a second of a processor, which others use as well
        self.assertEqual(output, "key x.cgd\n")
        self.assertEqual(said.count("\n"), 1)
        self.assertIn("this is the released program, 1.5", said)
        self.assertIn("./net_tool --prove", said)
        self.assertEqual(self.answer(clone, "key", "x.cgd"), ("key x.cgd\n", ""))  # said once
        self.assertIn("the released one, 1.5", self.answer(clone, "--version")[0])
        self.assertIn("rt of the toolchain is not there", self.answer(clone, "--prove", status=70)[1])
        (clone / "docs/FORMATS.md").write_text("documents are no part of the program\n")
        self.assertEqual(self.answer(clone, "key", "x.cgd"), ("key x.cgd\n", ""))

    def test_other_sources_are_told(self):
        clone = self.clone()
        for path in (clone / "crates/integers/proofs").rglob("*.antt"):
            path.write_text(path.read_text() + "\n")
            break
        output, said = self.answer(clone, "key", str(clone / "examples/dia.cgd"), status=70)
        self.assertEqual(output, "")
        self.assertIn("not those of the release, 1.5", said)
        self.assertIn("release/net_tool (older sources, proved)", said)
        self.assertNotIn("./preview", said)  # which needs the toolchain
        self.assertNotIn("released program", said)

    def test_a_released_program_that_is_cut_is_not_run(self):
        clone = self.clone()
        (clone / "release/net_tool").write_bytes((clone / "release/net_tool").read_bytes()[:-1])
        self.assertIn("does not run on this machine", self.answer(clone, "key", str(clone / "examples/dia.cgd"), status=70)[1])

    def test_it_is_installed_where_nothing_is_built(self):
        clone = self.clone()
        run(clone / "dev/install/install.sh", self.folder / "prefix")
        self.assertEqual((self.folder / "prefix/lib/net_tool/net_tool").read_bytes(), (clone / "release/net_tool").read_bytes())
        self.assertIn("made of these sources", run(self.folder / "prefix/bin/net_tool", "--version").stdout.decode())

    def test_the_archive_is_a_prefix(self):
        archive, = (self.top / "release").glob("*.tar.xz")
        run("tar", "-xf", archive, "-C", self.folder, "--strip-components=1")
        self.assertEqual(run(self.folder / "bin/net_tool", "workload", "3").stdout, b"workload 3\n")
        owners = run("tar", "--numeric-owner", "-tvf", archive).stdout.decode().splitlines()
        self.assertEqual({row.split()[1] for row in owners}, {"0/0"})


class Sum(FolderTest):
    """The sum of the sources: of the crates that the program stands on, crates.txt and TOOLCHAIN."""

    def sum(self) -> str:
        return run("sh", "-c", f"top={self.folder}; . {TOP}/front/words.sh; sum_of_sources").stdout.decode()

    def test_it_covers_what_the_program_is_made_of_and_nothing_else(self):
        (self.folder / "crates.txt").write_text("low:\nside: low\nmiddle: low std\nnet_tool: middle\ntests: side\n")
        (self.folder / "TOOLCHAIN").write_text("one\n")
        for crate in ("low", "side", "middle", "net_tool", "tests"):
            for file in ("src/lib.rt", "specs/A.antt", "proofs/deep/B.antt", "README.md", "out/x"):
                path = self.folder / "crates" / crate / file
                path.parent.mkdir(parents=True, exist_ok=True)
                path.write_text("text\n")
        before = self.sum()
        for file, is_covered in (("crates/low/src/lib.rt", True), ("crates/middle/proofs/deep/B.antt", True),
                                 ("crates/net_tool/specs/A.antt", True), ("TOOLCHAIN", True), ("crates.txt", True),
                                 ("crates/side/src/lib.rt", False), ("crates/tests/specs/A.antt", False),
                                 ("crates/low/README.md", False), ("crates/low/out/x", False)):
            path = self.folder / file
            text = path.read_text()
            path.write_text(text + "\n")
            self.assertEqual(self.sum() != before, is_covered, file)
            path.write_text(text)
        self.assertEqual(self.sum(), before)

    def test_its_crates_are_those_that_crates_txt_gives(self):
        lines = [line.split("#")[0].partition(":") for line in (TOP / "crates.txt").read_text().splitlines()]
        below = {name.split()[0]: words.split() for name, colon, words in lines if colon}
        wanted, open_names = set(), ["net_tool"]
        while open_names:
            name = open_names.pop()
            if name in below and name not in wanted:
                wanted.add(name)
                open_names += below[name]
        told = run("sh", "-c", f"cd {TOP}; . front/words.sh; crates_of_program").stdout.decode().split()
        self.assertEqual((set(told), len(told)), (wanted, len(wanted)))


class Bytes(FolderTest):
    """What the bytes of a program do not depend on, by a small one of the toolchain's examples."""

    @long_test
    def test_neither_folder_nor_workers(self):
        if shutil.which("rt") is None:
            self.skipTest("the command rt of the toolchain is not there")
        example = Path(run("rt", "doc").stdout.decode().strip()).parent / "rattle/examples/start_io"
        made = set()
        for folder, workers in (("one", 1), ("two/deeper", 4)):
            top = self.folder / folder
            (top / "crates").mkdir(parents=True)
            shutil.copytree(example, top / "crates/net_tool", ignore=shutil.ignore_patterns("BUILD.bazel", "*.md"))
            (top / "crates.txt").write_text("net_tool:\n")
            (top / "HANDLES").write_text("Handles allowed: none.\n")
            subprocess.run(["rt", "run", "--jobs", str(workers), "--", "x"], cwd=top / "crates/net_tool", check=True,
                           stdin=subprocess.DEVNULL, stdout=subprocess.DEVNULL, stderr=subprocess.DEVNULL, env=os.environ)
            made.add((top / "crates/net_tool/out/net_tool").read_bytes())
        self.assertEqual(len(made), 1)
