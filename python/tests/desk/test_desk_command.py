"""How net_desk begins and ends: one line for each fault, and nothing that is left running."""

import os
import signal
import socket
import subprocess
import sys
import threading
import time
from collections.abc import Iterator
from contextlib import contextmanager
from functools import partial
from pathlib import Path
from unittest import mock

from desk import DESK, Server, form_of, need_desk
from testing import PATIENCE, PROGRAM, TOP, FolderTest, is_running, run, wait_until

need_desk()

ENDLESS = 86_399  # seconds
SQL = b"PERIODIC_GRAPH\nEDGES\n1 1 1 0\n1 1 0 1\nEND\n"


class Beginning(FolderTest):
    def fault(self, *words: object, status: int = 1, **settings: str) -> str:
        told = run(DESK, "--no-browser", *words, status=status, **settings).stderr.decode()
        self.assertNotIn("Traceback", told)
        if status == 1:
            self.assertEqual(told.count("\n"), 1, told)
        return told

    def test_help(self):
        self.assertIn(b"--no-browser", run(DESK, "--help").stdout)
        for words in ("--port 0", "--port 70000", "--port x", "--seconds 0", "--memory 1", "--other"):
            self.fault(*words.split(), status=2)

    def test_a_port_that_is_taken(self):
        with socket.socket() as taken:
            taken.bind(("127.0.0.1", 0))
            taken.listen()
            number = taken.getsockname()[1]
            told = self.fault("--port", number)
        self.assertIn(f"port {number} cannot be had: Address already in use; give another", told)

    def test_no_program(self):
        told = self.fault(NET_TOOL=str(self.folder / "absent"))
        self.assertIn("which is no program", told)
        self.assertIn("proves and builds it", told)

    def test_files_that_are_not_there(self):
        self.assertIn("absent.cif cannot be read", self.fault(self.folder / "absent.cif"))
        self.assertIn("is a folder", self.fault(self.folder))

    def test_a_pipe_or_a_device_is_no_file(self):
        os.mkfifo(self.folder / "pipe.cif")
        for path in (self.folder / "pipe.cif", "/dev/zero"):
            self.assertIn("is no file, but a pipe or a device", self.fault(path))

    def test_a_file_that_becomes_a_pipe(self):
        path = self.folder / "a.cgd"
        path.write_bytes(SQL)
        server = Server(path)
        self.assertEqual(server.request("GET", "given/0")[2], SQL)
        path.unlink()
        os.mkfifo(path)
        status, _, told = server.request("GET", "given/0")
        server.end()
        self.assertEqual((status, b"it is no file" in told), (404, True))

    def test_the_browser_is_led_by_a_file_of_its_user(self):
        """Its command line has no token."""
        browser = self.folder / "browser"
        browser.write_text(f"#!/bin/sh\necho \"$1\" >{self.folder}/told.part; stat -c %a \"${{1#file://}}\" >>{self.folder}/told.part\n"
                           f"cat \"${{1#file://}}\" >>{self.folder}/told.part; mv {self.folder}/told.part {self.folder}/told\n")
        browser.chmod(0o755)
        server = Server(browser=True, BROWSER=f"{browser} %s", TMPDIR=str(self.folder))
        wait_until((self.folder / "told").exists)
        address, mode, page = (self.folder / "told").read_text().split("\n", 2)
        path = Path(address.removeprefix("file://"))
        folder_mode = path.parent.stat().st_mode & 0o777
        server.end()
        self.assertNotIn(server.path.strip("/"), address)
        self.assertEqual((mode, folder_mode), ("600", 0o700))
        self.assertIn(f"url={server.address}", page)
        self.assertFalse(path.parent.exists())

    def test_a_long_path_of_temporary_files(self):
        """The path of a socket has 107 bytes at most."""
        long = self.folder / ("x" * 200)
        long.mkdir()
        server = Server(TMPDIR=str(long))
        found = server.nets("a.cgd", SQL)
        self.assertEqual((found["total"], server.end()), (1, (0, "", "")))
        self.assertEqual(list(long.iterdir()), [])
        from crystal_nets.desk import worker
        with (mock.patch("tempfile.gettempdir", return_value=str(long)), mock.patch("os.access", return_value=False),
              self.assertRaisesRegex(OSError, "TMPDIR is too long for a socket")):
            worker.folder_of_socket()

    def test_packages_that_are_not_there(self):
        for name in ("flask", "numpy"):
            (self.folder / f"{name}.py").write_text(f"raise ModuleNotFoundError(\"No module named '{name}'\")\n")
            self.assertIn("apt-get install python3-flask", self.fault(PYTHONPATH=str(self.folder)))
            (self.folder / f"{name}.py").unlink()

    def test_no_browser(self):
        screens = ("DISPLAY", "WAYLAND_DISPLAY", "BROWSER")
        process = subprocess.Popen([DESK], stdout=subprocess.PIPE, stderr=subprocess.PIPE, text=True,
                                   env={name: value for name, value in os.environ.items() if name not in screens})
        told = process.stderr.readline()
        process.send_signal(signal.SIGINT)
        out, rest = process.communicate(timeout=PATIENCE)
        self.assertIn("no browser was found; open the address above", told)
        self.assertEqual(rest, "")
        self.assertEqual(process.returncode, 0)
        self.assertTrue(out.startswith("net_tool desk: http://127.0.0.1:"))


class End(FolderTest):
    """The worker waits for a program that never ends, so that there is one however fast or slow the machine is."""

    def setUp(self):
        super().setUp()
        self.program = self.folder / "endless"
        self.program.write_text(f'#!/bin/sh\n[ "$1" = identify ] && exec sleep {ENDLESS}\nexec {PROGRAM} "$@"\n')
        self.program.chmod(0o755)

    @contextmanager
    def at_work(self) -> Iterator[tuple[Server, set[int]]]:
        """A server whose worker waits for its program, and the processes that descend from it."""
        server = Server(NET_TOOL=str(self.program))
        body, kind = form_of({"file": ("a.cgd", SQL), "convention": "auto", "choices": "[]"})
        with server.begun("nets", body, kind):
            wait_until(lambda: any(map(is_endless, server.children())))
            children = server.children()
            self.assertGreaterEqual(len(children), 4)  # the server of forks, its tracker, a worker, the program
            yield server, children

    def test_nothing_is_left(self):
        """While a worker is at work, with each of the signals that end it."""
        for name in (signal.SIGINT, signal.SIGTERM, signal.SIGHUP):
            with self.at_work() as (server, children):
                status, _, told = server.end(name)
            self.assertEqual((status, told), (0, ""), told)
            wait_until(lambda: not any(map(is_running, children)), "some go on")  # noqa: B023

    def test_nothing_runs_on_after_it_was_killed(self):
        """By what no program hears of, while a worker is at work."""
        with self.at_work() as (server, children):
            server.process.kill()
            server.wait()
        wait_until(lambda: not any(map(is_running, children)), "some go on")

    def test_an_interrupt_is_kept_as_the_fork_server_begins(self):
        from crystal_nets.desk.worker import Workers
        before = signal.signal(signal.SIGINT, signal.default_int_handler)
        self.addCleanup(signal.signal, signal.SIGINT, before)
        interrupt = partial(signal.pthread_kill, threading.get_ident(), signal.SIGINT)
        with mock.patch("multiprocessing.forkserver.ensure_running", interrupt), self.assertRaises(KeyboardInterrupt):
            Workers().start()

    def test_an_interrupt_between_the_address_and_the_first_request(self):
        code = (f"import os, signal, sys; sys.path.insert(0, {str(TOP / 'python')!r}); sys.argv = ['net_tool', 'desk']\n"
                "from crystal_nets import commands\nfrom crystal_nets.desk import command\n"
                "command.write_leading_file = lambda *_: os.kill(os.getpid(), signal.SIGINT)\ncommands.main()\n")
        done = run(sys.executable, "-c", code)
        self.assertEqual((done.stdout.count(b"\n"), done.stderr), (2, b""))

    def test_ended_at_once(self):
        for wait in (0, 0.05, 0.2, 0.5):
            process = subprocess.Popen([DESK, "--no-browser"], stdout=subprocess.PIPE, stderr=subprocess.PIPE, text=True)
            time.sleep(wait)
            process.send_signal(signal.SIGINT)
            _, told = process.communicate(timeout=PATIENCE)
            if process.returncode == 0:
                self.assertEqual(told, "")
            self.assertNotIn("net_desk", told)  # nor is it in a traceback of python3 itself, which begins yet


def is_endless(pid: int) -> bool:
    try:
        return Path(f"/proc/{pid}/cmdline").read_bytes() == b"sleep\0%d\0" % ENDLESS
    except OSError:
        return False


if __name__ == "__main__":
    import unittest

    unittest.main()
