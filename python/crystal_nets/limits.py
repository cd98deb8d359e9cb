"""How long a call may take: with all that it asks the program, and with what is computed in Python."""

from __future__ import annotations

import time
from collections.abc import Callable, Iterator
from contextlib import contextmanager
from contextvars import ContextVar
from dataclasses import dataclass
from functools import partial, wraps
from typing import ParamSpec, TypeVar

from .apart import Child
from .errors import ProgramTimedOut

Result = TypeVar("Result")
Words = ParamSpec("Words")


@dataclass(frozen=True)
class Limit:
    """Until when a call may run, by the clock that only rises, and of how many seconds this is the end."""

    end: float
    seconds: float

    def left(self) -> float:
        """The seconds that are left. ProgramTimedOut if there are none."""
        left = self.end - time.monotonic()
        if left <= 0:
            raise ProgramTimedOut(self.seconds)
        return left


LIMIT: ContextVar[Limit | None] = ContextVar("LIMIT", default=None)
HELD: ContextVar[Limit | None] = ContextVar("HELD", default=None)  # the limit that the process above this one sees to


@contextmanager
def within(seconds: float | None) -> Iterator[None]:
    """Lets what is asked in this block take so many seconds in all, and raises ProgramTimedOut when they are over. Within
    another such block the one that ends first counts. None is without a limit of its own."""
    if seconds is None:
        yield
        return
    if not seconds > 0:
        raise ValueError(f"timeout is {seconds}, and not more than 0")
    limit, outer = Limit(time.monotonic() + seconds, seconds), LIMIT.get()
    token = LIMIT.set(limit if outer is None or limit.end < outer.end else outer)
    try:
        yield
    finally:
        LIMIT.reset(token)


def bounded(call: Callable[Words, Result]) -> Callable[Words, Result]:
    """A call that ends with ProgramTimedOut if its word `timeout` is given, and so many seconds are over."""
    @wraps(call)
    def in_so_many_seconds(*args: Words.args, **words: Words.kwargs) -> Result:
        timeout = words.get("timeout")
        if timeout is not None and not isinstance(timeout, (int, float)):
            raise TypeError(f"timeout is {timeout!r}, and no number of seconds")
        with within(timeout):
            return call(*args, **words)
    return in_so_many_seconds


def in_time(work: Callable[[], Result]) -> Result:
    """The result of work. If there is a limit, the work is done in a process of its own, which is ended with
    ProgramTimedOut when the time is over, whatever it is at; without one it is done here."""
    limit = LIMIT.get()
    if limit is None or limit is HELD.get():
        return work()
    limit.left()
    with Child(partial(_held, work, limit)) as child:
        if not child.has_ended(limit.left()):
            raise ProgramTimedOut(limit.seconds)
        return child.result()


def _held(work: Callable[[], Result], limit: Limit) -> Result:
    HELD.set(limit)
    return work()
