"""Processes with limits of time and memory, one for each question.

They are forked by the fork server of multiprocessing, which has one thread, and has loaded modules and archives
already. So each begins at once, and leaves nothing behind. What a worker says is JSON: nothing that it sends is
executed."""

from __future__ import annotations

import json
import multiprocessing
import os
import resource
import select
import signal
import socket
import tempfile
import threading
import time
from collections.abc import Callable, Iterator
from contextlib import contextmanager, suppress
from dataclasses import dataclass, field
from multiprocessing import connection, forkserver, resource_tracker
from multiprocessing.connection import Connection
from pathlib import Path
from typing import Any

from ..errors import CrystalNetsError, ProgramFailed

LONGEST_ANSWER = 256 * 2**20  # bytes
LOOK = 0.5                    # seconds between two looks at the clock and the client
WALL_TIMES = 6                # a worker may wait so many times as long as it may compute
PACKAGES = Path(__file__).resolve().parents[2]
OUT_OF_MEMORY = 7             # the status of net_tool
LONGEST_SOCKET = 107          # bytes of the path of a socket (man 7 unix)
SOCKET_NAME = "/pymp-12345678/listener-12345678"  # as multiprocessing names it


@dataclass(frozen=True)
class Limits:
    """Of one worker: seconds of processor time, and bytes of memory."""

    seconds: int = 60
    memory: int = 2 * 2**30

    @property
    def out_of_time(self) -> str:
        return f"it was stopped after {self.seconds} seconds of work"

    @property
    def out_of_memory(self) -> str:
        return f"it was stopped, since it asked for more than {self.memory >> 20} MB of memory"


class NoAnswer(Exception):
    """A worker gave no answer, for the reason that it is made with."""


class ClientGone(Exception):
    """Nobody waits for the answer any more."""


@dataclass
class Workers:
    """At most so many workers side by side; the others wait."""

    limits: Limits = Limits()
    most: int = field(default_factory=lambda: max(1, min(4, len(os.sched_getaffinity(0)))))

    def __post_init__(self) -> None:
        self._context = multiprocessing.get_context("forkserver")
        self._places = threading.BoundedSemaphore(self.most)
        self._starting = threading.Lock()  # multiprocessing is not made for several threads
        self._running: dict[int, Any] = {}
        self._is_closed = False

    def start(self) -> None:
        """Starts the fork server, which loads what all workers share. Ctrl-C does not reach it, nor its workers."""
        self._context.set_forkserver_preload([f"{__package__}.warm"])
        resource_tracker.ensure_running()  # it unblocks the signals that it blocks
        before = signal.pthread_sigmask(signal.SIG_BLOCK, {signal.SIGINT})  # what comes meanwhile comes after it
        paths = os.pathsep.join(filter(None, (str(PACKAGES), os.environ.get("PYTHONPATH"))))
        settings = {"PYTHONPATH": paths, "OPENBLAS_NUM_THREADS": "1", "PYTHONDONTWRITEBYTECODE": "1"}
        try:
            with surroundings(folder_of_socket(), settings):
                forkserver.ensure_running()
        finally:
            signal.pthread_sigmask(signal.SIG_SETMASK, before)

    def ask(self, question: Callable[..., Any], *arguments: Any, client: socket.socket | None = None) -> bytes:
        """The answer to a question, as JSON. NoAnswer says why there is none; ClientGone ends the work, where the
        client went away."""
        with self._places:
            if self._is_closed or is_gone(client):
                raise ClientGone
            with self._process(question, arguments) as (process, reader):
                return self._answer(process, reader, client)

    @contextmanager
    def _process(self, question: Callable[..., Any], arguments: tuple) -> Iterator[tuple[Any, Connection]]:
        reader, writer = self._context.Pipe(duplex=False)
        with reader:
            with writer, self._starting:
                if self._is_closed:
                    raise ClientGone
                process = self._started(writer, question, arguments)
                self._running[process.pid] = process
            try:
                yield process, reader
            finally:
                end_group(process)
                with self._starting:
                    process.join(5)
                    self._running.pop(process.pid, None)

    def _started(self, writer: Connection, question: Callable[..., Any], arguments: tuple) -> Any:
        process = self._context.Process(target=serve, args=(writer, self.limits, question, arguments), daemon=True)
        try:
            process.start()
        except OSError as fault:
            raise NoAnswer(f"its process could not be started, or was ended from outside: {fault.strerror}") from None
        return process

    def _answer(self, process: Any, reader: Connection, client: socket.socket | None) -> bytes:
        last = time.monotonic() + self.limits.seconds * WALL_TIMES
        while True:
            ready = connection.wait([reader, process.sentinel], LOOK)
            if reader in ready:
                try:
                    return reader.recv_bytes(LONGEST_ANSWER)
                except (EOFError, OSError):
                    raise NoAnswer(self._why_ended(process)) from None
            if process.sentinel in ready:
                raise NoAnswer(self._why_ended(process))
            if is_gone(client):
                raise ClientGone
            if time.monotonic() > last:
                raise NoAnswer(self.limits.out_of_time)

    def _why_ended(self, process: Any) -> str:
        with self._starting:
            process.join(5)
        code = process.exitcode
        if code == -signal.SIGXCPU:
            return self.limits.out_of_time
        if code is not None and code < 0:
            return f"its process was ended from outside, by {name_of_signal(-code)}"
        return f"its process ended without an answer (status {code})"

    def close(self) -> None:
        """Ends all workers and what they run, and waits until those who asked have seen it."""
        with self._starting:
            self._is_closed = True
            for process in list(self._running.values()):
                end_group(process)
        last = time.monotonic() + 5
        while self._running and time.monotonic() < last:
            time.sleep(0.02)


def folder_of_socket() -> str:
    """A folder in which the path of a socket is not too long: that of temporary files, or else one that is usual."""
    for folder in (tempfile.gettempdir(), os.environ.get("XDG_RUNTIME_DIR", ""), "/tmp", "/var/tmp", "/dev/shm"):
        if folder and len(os.fsencode(folder + SOCKET_NAME)) <= LONGEST_SOCKET and os.access(folder, os.W_OK | os.X_OK):
            return folder
    raise OSError("the path of TMPDIR is too long for a socket, and /tmp cannot be written; give a shorter one")


@contextmanager
def surroundings(folder: str, settings: dict[str, str]) -> Iterator[None]:
    """Has temporary files in a folder, and variables of the environment, as long as it lasts."""
    before, kept = tempfile.tempdir, {name: os.environ.get(name) for name in settings}
    tempfile.tempdir = folder
    os.environ.update(settings)
    try:
        yield
    finally:
        tempfile.tempdir = before
        for name, value in kept.items():
            os.environ.pop(name) if value is None else os.environ.update({name: value})


def name_of_signal(number: int) -> str:
    """As SIGKILL; those of real time have no names."""
    return next((known.name for known in signal.Signals if known == number), f"signal {number}")


def reason_of_program(fault: ProgramFailed, limits: Limits) -> str:
    """Why the program gave no answer. What its limits end has a signal of its own, and a status of its own."""
    if fault.status == -signal.SIGXCPU:
        return limits.out_of_time
    if fault.status == OUT_OF_MEMORY:
        return limits.out_of_memory
    return f"net_tool was ended by {name_of_signal(-fault.status)}" if fault.status < 0 else str(fault)


def is_gone(client: socket.socket | None) -> bool:
    """Whether the client has closed the connection on which it waits for an answer."""
    if client is None:
        return False
    try:
        look = select.poll()  # select itself knows no file number past 1,023
        look.register(client, select.POLLIN)
        return bool(look.poll(0)) and client.recv(1, socket.MSG_PEEK) == b""
    except (OSError, ValueError):
        return True


def end_group(process: Any) -> None:
    """Ends a worker and the program that it runs, where they are there yet."""
    with suppress(ProcessLookupError, PermissionError):
        os.killpg(process.pid, signal.SIGKILL)
        return
    is_over = bool(connection.wait([process.sentinel], 0))  # its number may be that of another process by now
    with suppress(ProcessLookupError, PermissionError):
        if not is_over:
            os.kill(process.pid, signal.SIGKILL)  # it has no group of its own yet


def serve(writer: Connection, limits: Limits, question: Callable[..., Any], arguments: tuple) -> None:
    """The whole life of a worker."""
    os.setsid()  # a group of its own, which is ended as one
    threading.Thread(target=end_with, args=(os.getppid(),), daemon=True).start()
    signal.signal(signal.SIGINT, signal.SIG_IGN)
    for what, most in ((resource.RLIMIT_CPU, limits.seconds), (resource.RLIMIT_AS, limits.memory),
                       (resource.RLIMIT_CORE, 0)):
        resource.setrlimit(what, (most, most + 5 if what == resource.RLIMIT_CPU else most))
    answer = text_of_answer(question, arguments, limits)
    with suppress(BrokenPipeError):  # the server is gone
        writer.send_bytes(answer)


def end_with(parent: int) -> None:
    """Ends the worker and the program that it runs once the fork server is gone, as it is after the server was killed."""
    while os.getppid() == parent:
        time.sleep(LOOK)
    os.killpg(0, signal.SIGKILL)


def text_of_answer(question: Callable[..., Any], arguments: tuple, limits: Limits) -> bytes:
    """The answer as JSON; its text takes memory, too."""
    try:
        return json.dumps(answer_to(question, arguments, limits)).encode()
    except MemoryError:
        return json.dumps({"reason": limits.out_of_memory}).encode()


def answer_to(question: Callable[..., Any], arguments: tuple, limits: Limits) -> Any:
    """What a question gives; or {"reason": why there is no answer}."""
    try:
        return question(*arguments)
    except MemoryError:
        return {"reason": limits.out_of_memory}
    except ProgramFailed as fault:
        return {"reason": reason_of_program(fault, limits)}
    except CrystalNetsError as reason:
        return {"reason": str(reason)}
    except Exception as fault:  # of the reader, or of a library: the reader of the page gets one line of it
        return {"reason": f"net_tool desk could not do it: {type(fault).__name__} {fault}"[:500]}
