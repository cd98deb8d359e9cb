"""Work in a process of its own, which can be ended at any time, and what is answered from there.

The process is forked: it begins with all that this one has, and loads nothing. Its result comes back by a pipe. It ends
without a trace when nobody asks for the result any more."""

from __future__ import annotations

import gc
import os
import pickle
import resource
import signal
import sys
import threading
import traceback
from collections import deque
from collections.abc import Callable, Iterator
from concurrent.futures import Executor, Future
from contextlib import contextmanager, suppress
from functools import partial
from multiprocessing.connection import Connection, Pipe, wait
from types import TracebackType
from typing import Any, Generic, NoReturn, ParamSpec, TypeVar

from .errors import CrystalNetsError, ProgramFailed
from .side_by_side import bind_programs, end_with_parent

Result = TypeVar("Result")
Words = ParamSpec("Words")
NO_RESULT = 20  # the status of a process that could not even tell why it has no result
MOST_MEMORY = 4 << 30  # bytes that such a process may have beyond those that it begins with


class Child(Generic[Result]):
    """A process that does some work. The result, or what was raised, has to be such as pickle takes."""

    def __init__(self, work: Callable[[], Result]) -> None:
        self.connection, theirs = Pipe(duplex=False)
        # a process that is bound to its parent ends with the thread that began it, which may end before the parent does
        is_bound, parent = threading.current_thread() is threading.main_thread(), os.getpid()
        self.number = os.fork()
        if not self.number:
            _work_and_end(work, theirs, parent if is_bound else 0)
        theirs.close()
        self._is_there = True

    def __enter__(self) -> Child[Result]:
        return self

    def __exit__(self, kind: type[BaseException] | None, fault: BaseException | None, trace: TracebackType | None) -> None:
        self.end()

    def has_ended(self, seconds: float | None = None) -> bool:
        """Whether it has a result, or is no more, within so many seconds."""
        return self.connection.poll(seconds)

    def result(self) -> Result:
        """Its result, when it comes; or what it raised. ProgramFailed if it was ended from outside."""
        try:
            content = self.connection.recv_bytes()
        except (EOFError, OSError):
            number = os.waitstatus_to_exitcode(self.end())
            told = f"was ended by signal {-number}" if number < 0 else f"ended with {number} and without a result"
            raise ProgramFailed(f"a process that worked on it {told}", number or NO_RESULT) from None
        self.end()
        is_result, value = pickle.loads(content)
        if is_result:
            return value  # type: ignore[no-any-return]
        raise value

    def end(self) -> int:
        """Ends it, and gives its status; what it has started ends with it."""
        self.connection.close()
        if not self._is_there:
            return 0
        self._is_there = False
        with suppress(ProcessLookupError, ChildProcessError):
            if not (ended := os.waitpid(self.number, os.WNOHANG))[0]:
                os.kill(self.number, signal.SIGKILL)
                ended = os.waitpid(self.number, 0)
            return ended[1]
        return 0


def _work_and_end(work: Callable[[], Any], answer: Connection, parent: int) -> NoReturn:
    """What the process does; it never returns into what it was forked from."""
    status = NO_RESULT
    try:
        gc.freeze()  # what was there before is not looked at for garbage, and so its memory stays shared
        if parent:
            end_with_parent(parent)
        else:
            bind_programs()
        signal.signal(signal.SIGINT, signal.SIG_DFL)
        limit_memory(MOST_MEMORY)
        answer.send_bytes(_pickled(work))
        status = 0
    finally:
        os._exit(status)


def limit_memory(more: int) -> None:
    """Lets this process have so many bytes more than now; then Python raises MemoryError."""
    with open("/proc/self/statm") as numbers:
        used = int(numbers.read().split()[0]) * resource.getpagesize()
    _, hard = resource.getrlimit(resource.RLIMIT_AS)
    most = used + more if hard == resource.RLIM_INFINITY else min(used + more, hard)
    resource.setrlimit(resource.RLIMIT_AS, (most, hard))


def _pickled(work: Callable[[], Any]) -> bytes:
    """The result, or what was raised, with a word before that tells which it is."""
    try:
        return pickle.dumps((True, work()), pickle.HIGHEST_PROTOCOL)
    except Exception as fault:
        if not isinstance(fault, (CrystalNetsError, OSError)):
            fault.add_note("".join(traceback.format_exception(fault)))
        with suppress(Exception):
            return pickle.dumps((False, fault), pickle.HIGHEST_PROTOCOL)
        return pickle.dumps((False, ProgramFailed(f"{type(fault).__name__} {fault}", NO_RESULT)))


class ForkedExecutor(Executor):
    """Calls in processes that are forked for one call each, so many at a time. It has no thread of its own: results are
    taken, and new processes begin, when a result is asked for."""

    def __init__(self, processes: int) -> None:
        self.processes = processes
        self._waiting: deque[_Call] = deque()
        self._running: dict[Connection, _Call] = {}

    def submit(self, call: Callable[Words, Result], /, *args: Words.args, **words: Words.kwargs) -> Future[Result]:
        asked: _Call = _Call(self, partial(call, *args, **words))
        self._waiting.append(asked)
        self._begin()
        return asked

    def _begin(self) -> None:
        while self._waiting and len(self._running) < self.processes:
            call = self._waiting.popleft()
            call.child = Child(call.work)
            self._running[call.child.connection] = call

    def take(self) -> None:
        """Waits until a process has a result or more, and has others begin."""
        for connection in wait(list(self._running)):
            assert isinstance(connection, Connection)
            call = self._running.pop(connection)
            assert call.child
            try:
                call.set_result(call.child.result())
            except BaseException as fault:
                call.set_exception(fault)
        self._begin()

    def shutdown(self, wait: bool = True, *, cancel_futures: bool = False) -> None:
        """Ends all processes; with `wait` and without `cancel_futures` when their work is done."""
        while wait and not cancel_futures and self._running:
            self.take()
        self._waiting.clear()
        for call in self._running.values():
            assert call.child
            call.child.end()
        self._running.clear()


class _Call(Future[Any]):
    """A call whose result is waited for by whoever asks for it."""

    def __init__(self, executor: ForkedExecutor, work: Callable[[], Any]) -> None:
        super().__init__()
        self.executor, self.work = executor, work
        self.child: Child[Any] | None = None

    def result(self, timeout: float | None = None) -> Any:
        while not self.done():
            self.executor.take()
        return super().result(0)


@contextmanager
def forked(processes: int) -> Iterator[ForkedExecutor]:
    """Processes that end with this block, whatever they are at."""
    executor = ForkedExecutor(processes)
    try:
        yield executor
    finally:
        executor.shutdown(cancel_futures=True)
