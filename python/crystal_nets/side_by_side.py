"""Work on many things in processes side by side."""

from __future__ import annotations

import contextlib
import ctypes
import multiprocessing
import os
import signal
from collections.abc import Callable, Iterator, Sequence
from concurrent.futures import ProcessPoolExecutor
from functools import partial
from threading import Event
from typing import TypeVar

from .progress import Progress

Item = TypeVar("Item")
Result = TypeVar("Result")
LIBRARY = ctypes.CDLL(None)  # the C library, found before a process is forked
PARENT_ENDED = 1  # of prctl: the signal that a process gets where its parent ends
FEWEST = 8  # items for which more than one process is started
_are_bound = Event()


def processors() -> int:
    """How many processors this process may use."""
    return len(os.sched_getaffinity(0))


def end_with_parent(parent: int) -> None:
    """Has this process end where its parent does, so that no run that was killed leaves one behind."""
    signal.signal(signal.SIGINT, signal.SIG_DFL)
    _bind(parent)
    bind_programs()


def bind_programs() -> None:
    """Has each program that this process starts from now on end where this one does, by whatever signal. It is for
    commands, which are small: a process is forked for it, and that takes long where much memory is in use."""
    _are_bound.set()


def first_of_program() -> Callable[[], None] | None:
    """What a program does first, as `preexec_fn`. A thread that starts one has to wait for it."""
    return partial(_bind, os.getpid()) if _are_bound.is_set() else None


def _bind(parent: int) -> None:
    with contextlib.suppress(AttributeError):
        LIBRARY.prctl(PARENT_ENDED, signal.SIGKILL)
    if os.getppid() != parent:
        os._exit(1)


def results_of(work: Callable[[Item], Result], items: Sequence[Item], jobs: int, bar: Progress) -> Iterator[Result]:
    """The results in the order of the items, whatever the number of processes is; the bar makes a step for each."""
    with bar:
        if jobs == 1 or len(items) < FEWEST:
            for item in items:
                yield work(item)
                bar.step()
            return
        with ProcessPoolExecutor(min(jobs, len(items)), multiprocessing.get_context("fork")) as pool:
            for result in pool.map(work, items, chunksize=max(1, min(16, len(items) // (4 * jobs)))):
                yield result
                bar.step()
