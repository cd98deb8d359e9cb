"""What the tests of the tools share. NET_TOOL is the program; NET_TOOL_LONG=1 asks for the long tests too."""

from __future__ import annotations

import atexit
import contextlib
import importlib.util
import os
import pty
import shutil
import signal
import subprocess
import tempfile
import time
import unittest
from collections.abc import Callable
from pathlib import Path
from typing import TypeVar

import forked

Result = TypeVar("Result")
TESTS = Path(__file__).resolve().parent
TOP = TESTS.parents[1]
PYTHON = "/usr/bin/python3"  # for which Debian's packages are
BIN = Path(tempfile.mkdtemp(prefix="net_tool_tests."))
BIN.chmod(0o755)  # other users run these, too
atexit.register(shutil.rmtree, BIN, ignore_errors=True)
COMMANDS: dict[str, list[str]] = {}  # the subcommands that files in BIN are for
PROGRAM = os.environ.get("NET_TOOL", str(TOP / "crates/net_tool/out/net_tool"))
IS_LONG = os.environ.get("NET_TOOL_LONG") == "1"
PATIENCE = 300  # seconds until what has to come is a failure, on a machine that has much to do
PACKAGES = {"gemmi": "python3-gemmi", "numpy": "python3-numpy", "spglib": "python3-spglib", "scipy": "python3-scipy",
            "ase": "python3-ase", "pymatgen": "python3-pymatgen", "networkx": "python3-networkx",
            "pandas": "python3-pandas", "nbconvert": "python3-nbconvert", "ipykernel": "python3-ipykernel",
            "mypy": "mypy", "pip": "python3-pip", "setuptools": "python3-setuptools", "wheel": "python3-wheel", "venv": "python3-venv",
            "parallel": "parallel", "time": "time", "slurmctld": "slurm-wlm",
            "munged": "munge", "rsvg-convert": "librsvg2-bin", "chromium": "chromium",
            "flask": "python3-flask", "node": "nodejs", "tqdm": "python3-tqdm", "werkzeug": "python3-werkzeug", "selenium": "python3-selenium",
            "chromedriver": "chromium-driver", "mandoc": "mandoc", "lintian": "lintian", "debootstrap": "debootstrap",
            "distributed": "python3-distributed", "mpi4py": "python3-mpi4py", "mpiexec": "openmpi-bin", "joblib": "python3-joblib",
            "dpkg-deb": "dpkg", "objdump": "binutils", "strip": "binutils", "bash": "bash"}


def need_modules(*names: str) -> None:
    """Skips the tests that follow where a module of Python is not there."""
    for name in names:
        if importlib.util.find_spec(name) is None:
            raise unittest.SkipTest(f"{PACKAGES.get(name, name)} is not there")


def need_commands(*names: str) -> None:
    """Skips the tests that follow where a command is not there."""
    for name in names:
        if shutil.which(name, path=os.environ.get("PATH", "") + ":/usr/sbin:/sbin") is None:
            raise unittest.SkipTest(f"{PACKAGES.get(name, name)} is not there")


def need_program() -> None:
    if not os.access(PROGRAM, os.X_OK):
        raise unittest.SkipTest("the program is not built")


long_test = unittest.skipUnless(IS_LONG, "long tests are run by dev/test --long")


def command(words: str) -> Path:
    """A file that runs a subcommand of net_tool that is written in Python, as `archive list`."""
    path = BIN / words.replace(" ", ".")
    if str(path) not in COMMANDS:
        COMMANDS[str(path)] = words.split()
        path.write_text(f"#!{PYTHON}\nimport sys\nsys.path[:1], sys.argv[1:1] = [{str(TOP / 'python')!r}], {words.split()!r}\n"
                        "from crystal_nets.commands import main\nif __name__ == '__main__':\n    main()\n")
        path.chmod(0o755)
    return path


def run(*words: object, status: int | None = 0, stdin: bytes = b"", seconds: int = 1800,
        **settings: str) -> subprocess.CompletedProcess:
    """Runs a command; where it does not end with the status, the test fails with what it told."""
    environment = {**os.environ, "NET_TOOL": PROGRAM, "PYTHONDONTWRITEBYTECODE": "1", **settings}
    first, *others = (str(word) for word in words)
    if first in COMMANDS and forked.can_call(settings):
        done = forked.call([first, *COMMANDS[first], *others], stdin, seconds, environment)
    else:
        done = subprocess.run([first, *others], input=stdin, capture_output=True, timeout=seconds, env=environment)
    if status is not None and done.returncode != status:
        told = done.stderr[-2000:].decode(errors="replace") or done.stdout[-500:].decode(errors="replace")
        raise AssertionError(f"{words[0]} ended with {done.returncode}, not {status}: {told}")
    return done


def run_on_terminal(*words: object, stdin: bytes = b"") -> tuple[int, bytes]:
    """The status of a command whose standard error is a terminal, and what is shown there."""
    ours, theirs = pty.openpty()
    with subprocess.Popen([str(word) for word in words], stdin=subprocess.PIPE, stdout=subprocess.DEVNULL, stderr=theirs,
                          env={**os.environ, "NET_TOOL": PROGRAM}) as process:
        os.close(theirs)
        process.stdin.write(stdin)
        process.stdin.close()
        told = b""
        with contextlib.suppress(OSError):  # where the other end is closed
            while part := os.read(ours, 4096):
                told += part
    os.close(ours)
    return process.returncode, told


def wait_until(comes: Callable[[], Result], told: str = "it does not come") -> Result:
    """What a call gives once that is something; the test fails if it is not within PATIENCE."""
    until = time.monotonic() + PATIENCE
    while not (result := comes()):
        if time.monotonic() > until:
            raise AssertionError(f"{told}, in {PATIENCE} seconds")
        time.sleep(0.02)
    return result


def is_running(number: int) -> bool:
    """Whether there is a process of this number. One that has ended, and that nobody waits for, is none."""
    try:
        return Path(f"/proc/{number}/stat").read_text().rpartition(")")[2].split()[0] not in "ZX"
    except OSError:
        return False


def ends_soon(number: int) -> bool:
    """Whether a process has ended, or ends within PATIENCE; it is killed if not."""
    try:
        return wait_until(lambda: not is_running(number))
    except AssertionError:
        os.kill(number, signal.SIGKILL)
        return False


def running_with(setting: str) -> set[int]:
    """The processes that run, and began with a variable of the environment, as NET_TOOL=/x."""
    found = set()
    for path in Path("/proc").glob("[0-9]*/environ"):
        with contextlib.suppress(OSError):  # of another user, or ended by now
            if setting.encode() in path.read_bytes().split(b"\0"):
                found.add(int(path.parent.name))
    return set(filter(is_running, found))


class FolderTest(unittest.TestCase):
    """A test with a folder of its own, which is removed after it."""

    def setUp(self) -> None:
        self.folder = Path(tempfile.mkdtemp(prefix="net_tools_test."))
        self.addCleanup(shutil.rmtree, self.folder, ignore_errors=True)
