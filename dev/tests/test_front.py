"""The command in front of the program: that both end together, what it explains and completes; and help of all scripts."""

import os
import shlex
import shutil
import signal
import subprocess
import tempfile
from pathlib import Path

from installing import INSTALL, commands_taken
from testing import PATIENCE, TOP, FolderTest, ends_soon, need_commands, need_modules, run, wait_until

import crystal_nets.commands


class WithPrefix(FolderTest):
    """What is installed once, with a program that each test writes."""

    @classmethod
    def setUpClass(cls):
        cls.prefix = Path(tempfile.mkdtemp(prefix="net_tools_test."))
        cls.addClassCleanup(shutil.rmtree, cls.prefix, ignore_errors=True)
        cls.front, cls.program = cls.prefix / "bin/net_tool", cls.prefix / "lib/net_tool/net_tool"
        (cls.prefix / "first").write_text("#!/bin/sh\n")
        (cls.prefix / "first").chmod(0o755)
        run(INSTALL / "install.sh", cls.prefix, cls.prefix / "first")

    def become(self, script: str) -> None:
        """From now on the program is this script."""
        self.program.unlink()
        self.program.write_text(f"#!/bin/sh\n{script}\n")
        self.program.chmod(0o755)


class Scripts(FolderTest):
    """All scripts of the repository, also those that are not installed."""

    def test_each_has_help_that_does_nothing_else(self):
        need_modules("gemmi", "numpy", "scipy", "flask")
        files = [path for folder in ("dev/*", "dev/*/*") for path in TOP.glob(folder)]
        scripts = [path for path in [*files, TOP / "net_tool", TOP / "preview"] if path.is_file() and os.access(path, os.X_OK)]
        self.assertGreater(len(scripts), 12)
        for script in scripts:
            for word in ("--help", "-h"):
                done = subprocess.run([script, word], cwd=self.folder, capture_output=True, stdin=subprocess.DEVNULL,
                                      env={**os.environ, "PYTHONDONTWRITEBYTECODE": "1"})
                self.assertEqual((done.returncode, done.stderr), (0, b""), script)
                self.assertGreater(len(done.stdout), 80, script)
        self.assertEqual(list(self.folder.iterdir()), [])


class InFront(WithPrefix):
    """The command in front of a program that ends as the test wants it."""

    def run_program(self, script: str, *words: object, status: int) -> str:
        self.become(script)
        return run(self.front, *words, status=status).stderr.decode()

    def test_a_union_that_took_no_item(self):
        blocks = TOP / "examples/dia.cgd"
        said = self.run_program("echo net_archive 2", "union", blocks, "--archive", "x", status=0)
        self.assertIn("no key lines, but blocks PERIODIC_GRAPH", said)
        self.assertEqual(run(self.front, "union", "--archive=x",
                             TOP / "archives/common.archive").stderr, b"")

    def test_a_union_of_a_pipe(self):
        """What comes by a pipe is reported as a file is, and reaches the program whole."""
        text = b"PERIODIC_GRAPH\nEND\n" * 900_000  # more than the program reads
        self.run_program('cat >"$0.read"; exit 1', "union", "--archive", "x", status=1)
        for words in (("union", "--archive", "x"), ("union", "-", "--archive=x")):
            done = run(self.front, *words, stdin=text, status=1)
            self.assertIn(b"no key lines, but blocks PERIODIC_GRAPH", done.stderr)
            self.assertEqual((self.program.with_name("net_tool.read")).read_bytes(), text[:16_777_217])
        self.assertEqual(run(self.front, "union", "--archive=x", stdin=b"key 2 1 1 1 0 1 1 0 1\nid x\nend\n",
                             status=1).stderr, b"")

    def test_a_union_of_a_pipe_leaves_no_file(self):
        temporary = self.folder / "temporary"
        temporary.mkdir()
        self.run_program("cat", "union", "--archive", "x", status=0)
        run(self.front, "union", "--archive", "x", stdin=b"id x\nend\n", TMPDIR=str(temporary))
        self.assertEqual(list(temporary.iterdir()), [])

    def test_a_union_of_keys_in_several_lines(self):
        items = self.folder / "x.arc"
        for text, count in (("key 2 1 1 1 0 1 1 0 1\n id x\nend\n", 0), ("key 2 1 1 1 0\n 1 1 0 1\n id x\nend\n", 1)):
            items.write_text(text)
            said = self.run_program("echo net_archive 2", "union", items, "--archive", "x", status=0)
            self.assertEqual((said.count("\n"), said.count("union reads no key further than its line")), (count, count))

    def test_the_status_is_that_of_the_program(self):
        for status, said in ((0, ""), (5, ""), (7, "memory was refused"), (9, ""), (11, "")):
            self.assertIn(said, self.run_program(f"exit {status}", "workload", 3, status=status))
        self.assertIn("not known", run(self.front, "--version").stdout.decode())


class Ending(WithPrefix):
    """The command in front of the program and the program end together."""

    def begun(self, *before: str) -> tuple[subprocess.Popen, int]:
        """The installed command, while its program runs, and the number of the program's process."""
        note = self.folder / "pid"
        self.become(f"echo $$ >{note}.new\nmv {note}.new {note}\nexec sleep {2 * PATIENCE}")
        note.unlink(missing_ok=True)
        process = subprocess.Popen([*before, self.front, "workload", "1"], stdin=subprocess.DEVNULL, start_new_session=True)
        self.addCleanup(process.kill)
        wait_until(note.exists)
        return process, int(note.read_text())

    def test_by_each_signal(self):
        for number, send in ((signal.SIGTERM, os.kill), (signal.SIGHUP, os.kill), (signal.SIGKILL, os.kill),
                             (signal.SIGINT, os.killpg)):  # a terminal sends this one to all of the group
            process, program = self.begun()
            send(process.pid, number)
            self.assertEqual(process.wait(PATIENCE), -number)
            self.assertTrue(ends_soon(program), number)

    def test_without_setpriv_the_program_is_the_command_itself(self):
        tools = self.folder / "tools"
        tools.mkdir()
        for name in ("sh", "dirname", "readlink", "sleep", "mv"):
            (tools / name).symlink_to(shutil.which(name))
        process, program = self.begun("env", f"PATH={tools}")
        self.assertEqual(process.pid, program)
        process.kill()
        process.wait(PATIENCE)


class Completion(FolderTest):
    def complete(self, *words: str) -> set[str]:
        """What bash offers for the last word."""
        need_commands("bash")
        script = (f"source {shlex.quote(str(TOP / 'front/net_tool.bash'))}; COMP_WORDS=({shlex.join(words)}); "
                  f"COMP_CWORD={len(words) - 1}; _net_tool {TOP / 'net_tool'}; printf '%s\\n' \"${{COMPREPLY[@]}}\"")
        done = subprocess.run(["bash", "-c", script], cwd=self.folder, capture_output=True, timeout=PATIENCE)
        return set(done.stdout.decode().split("\n")) - {""}

    def test_commands_options_and_files(self):
        for name in ("a net.cgd", "b.archive", "c.txt", "d.arc"):
            (self.folder / name).touch()
        (self.folder / "deep").mkdir()
        self.assertEqual(self.complete("net_tool", "i"), {"identify"})
        self.assertEqual(self.complete("net_tool", ""), commands_taken() | {name.split()[0] for name in crystal_nets.commands.commands()} | {"help", "--help", "--version"})
        self.assertEqual(self.complete("net_tool", "help", "co"), {"components", "convert", "cover"})
        self.assertEqual(self.complete("net_tool", "key", ""), {"a net.cgd", "deep"})
        self.assertEqual(self.complete("net_tool", "identify", "--"), {"--archive"})
        self.assertEqual(self.complete("net_tool", "add", "--"), {"--archive", "--name"})
        self.assertEqual(self.complete("net_tool", "identify", "--archive", ""), {"b.archive", "deep"})
        self.assertEqual(self.complete("net_tool", "identify", "--archive", "=", "b"), {"b.archive"})
        self.assertEqual(self.complete("net_tool", "union", ""), {"b.archive", "d.arc", "deep"})
        self.assertEqual(self.complete("net_tool", "key", "c"), {"c.txt"})
        self.assertEqual(self.complete("net_tool", "workload", ""), set())
