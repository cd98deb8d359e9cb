"""Commands in Python as forks of one process that has loaded all of them: for each one alone Python takes most of a second.

`python3 -m forked SOCKET` is that process, and the runner of the tests starts it. A connection brings the words of a command,
its environment, its folder and its standard files. It is answered with the number of the process that has become the
command, and later with its status and its seconds of a processor. `call` asks for that, as subprocess.run does."""

from __future__ import annotations

import gc
import importlib
import json
import os
import pkgutil
import signal
import socket
import subprocess
import sys
import tempfile
import time
from collections.abc import Iterator, Mapping, Sequence
from concurrent.futures import ThreadPoolExecutor
from contextlib import contextmanager, suppress
from pathlib import Path
from typing import IO

SOCKET = "NET_TOOL_FORKS"  # the variable of the environment that names the socket
OF_START = ("PYTHON", "LC_", "LANG", "OPENBLAS")  # begin names of variables that count when Python starts
ELSEWHERE = ("crystal_nets.desk.warm", "crystal_nets.__main__")  # modules that do something when they are loaded
LARGE = ("ase.io",)  # packages that functions load
LOOK = 1.0  # seconds between two looks whether the runner is there yet
HEAD = 8    # bytes of the length of a request
seconds_of_forks = 0.0  # of processors, of all calls of this process


def can_call(settings: Mapping[str, str]) -> bool:
    """Whether a command with some variables of its environment can be a fork."""
    return bool(os.environ.get(SOCKET)) and not any(name.startswith(OF_START) for name in settings)


def call(words: Sequence[str], stdin: bytes, seconds: float, environment: Mapping[str, str]) -> subprocess.CompletedProcess[bytes]:
    """What a command writes, and its status. subprocess.TimeoutExpired if it does not end in some seconds."""
    with socket.socket(socket.AF_UNIX) as server:
        server.connect(environment[SOCKET])
        with _pipes() as (theirs, (to_stdin, from_stdout, from_stderr)), ThreadPoolExecutor(3) as pool:
            body = json.dumps([list(words), dict(environment), os.getcwd()]).encode()
            socket.send_fds(server, [len(body).to_bytes(HEAD)], theirs)
            for end in theirs:
                os.close(end)
            server.sendall(body)
            pool.submit(_write, to_stdin, stdin)
            stdout, stderr = pool.submit(from_stdout.read), pool.submit(from_stderr.read)
            answer = server.makefile()
            number = int(answer.readline())  # which is waited for, since the first call of all has much loaded
            server.settimeout(seconds)
            try:
                status = _status(answer)
            except TimeoutError:
                os.kill(number, signal.SIGKILL)
                raise subprocess.TimeoutExpired(words, seconds) from None
            return subprocess.CompletedProcess(words, status, stdout.result(), stderr.result())


@contextmanager
def _pipes() -> Iterator[tuple[list[int], tuple[IO[bytes], IO[bytes], IO[bytes]]]]:
    """The three ends that a command has as its standard files, and the three other ends."""
    (stdin, to_stdin), (from_stdout, stdout), (from_stderr, stderr) = os.pipe(), os.pipe(), os.pipe()
    with open(to_stdin, "wb", 0) as one, open(from_stdout, "rb") as two, open(from_stderr, "rb") as three:
        yield [stdin, stdout, stderr], (one, two, three)


def _write(file: IO[bytes], content: bytes) -> None:
    with suppress(BrokenPipeError), file:
        left = memoryview(content)
        while left:
            left = left[file.write(left):]


def _status(answer: IO[str]) -> int:
    """The status that the process is answered with."""
    global seconds_of_forks
    status, used = answer.readline().split()
    seconds_of_forks += float(used)
    return int(status)


@contextmanager
def serving() -> Iterator[dict[str, str]]:
    """The process to fork from, as long as it lasts, and the variable of the environment that names its socket."""
    with tempfile.TemporaryDirectory(prefix="net_tool_tests.") as folder:
        path = Path(folder, "socket")
        server = subprocess.Popen([sys.executable, "-B", "-m", "forked", str(path)], stdin=subprocess.DEVNULL)
        try:
            while not path.exists() and server.poll() is None:
                time.sleep(0.02)
            yield {SOCKET: str(path)} if server.poll() is None else {}
        finally:
            server.terminate()
            server.wait()


def load() -> bool:
    """Loads all modules of crystal_nets, and what they need; not what is not installed. It gives True."""
    os.environ["OPENBLAS_NUM_THREADS"] = "1"  # no thread is there when a process is forked
    package = importlib.import_module("crystal_nets")
    modules = [found.name for found in pkgutil.walk_packages(package.__path__, "crystal_nets.") if found.name not in ELSEWHERE]
    for name in (*modules, *LARGE):
        with suppress(ImportError):
            importlib.import_module(name)
    tempfile.tempdir = None
    gc.freeze()
    return True


def serve(path: str) -> None:
    """Forks a process for each connection, and returns in the one that is to be a command. Before the first one it loads
    all that they need."""
    parent, is_loaded = os.getppid(), False
    with socket.socket(socket.AF_UNIX) as listener:
        listener.bind(f"{path}.new")
        listener.listen(128)
        listener.settimeout(LOOK)
        os.rename(f"{path}.new", path)
        while os.getppid() == parent:
            with suppress(ChildProcessError):
                while os.waitpid(-1, os.WNOHANG)[0]:
                    pass
            try:
                connection, _ = listener.accept()
            except TimeoutError:
                continue
            is_loaded = is_loaded or load()
            if not os.fork():
                listener.close()
                return become_command(connection)
            connection.close()
    sys.exit()


def become_command(connection: socket.socket) -> None:
    """Returns in a process with all that the request asks for. The one above it answers, and ends."""
    connection.settimeout(None)
    head, files, _, _ = socket.recv_fds(connection, HEAD, 3)
    with connection.makefile("rb") as rest:
        words, environment, folder = json.loads(rest.read(int.from_bytes(head)))
    if number := os.fork():
        for file in files:
            os.close(file)
        answer_for(number, connection)
    connection.close()
    for place, file in enumerate(files):
        os.dup2(file, place)
        os.close(file)
    open_standard_files()
    os.environ.clear()
    os.environ.update(environment)
    os.chdir(folder)
    sys.argv[:] = words


def answer_for(number: int, connection: socket.socket) -> None:
    """Tells the number of the process, and its status and seconds when it has ended; it does not return."""
    try:
        connection.sendall(f"{number}\n".encode())
        _, status, used = os.wait4(number, 0)
        connection.sendall(f"{os.waitstatus_to_exitcode(status)} {used.ru_utime + used.ru_stime}\n".encode())
    finally:
        os._exit(0)


def open_standard_files() -> None:
    """Anew, as Python does when it starts: what is known of them is of others."""
    sys.stdin = open(0, encoding=sys.stdin.encoding, errors=sys.stdin.errors, closefd=False)
    sys.stdout = open(1, "w", encoding=sys.stdout.encoding, errors=sys.stdout.errors, closefd=False)
    sys.stderr = open(2, "w", 1, encoding=sys.stderr.encoding, errors=sys.stderr.errors, closefd=False)


if __name__ == "__main__":
    serve(sys.argv[1])
    from crystal_nets.commands import main
    main()
