"""The lines of a report of net_tool one after the other, as the readers of reports ask for them."""

from __future__ import annotations

import re
from collections.abc import Iterable

from .net_text import HEADER, LIST, NoReport

COUNT = rb"([1-9]\d{0,17})"
NET_LINE = re.compile(HEADER.pattern.removesuffix(rb"\n"))
Row = tuple[int, ...]


class Lines:
    """Each line is to be whole, and is given without its line feed. NoReport tells the number of one that may not stand
    where it does, and of which command the report is to be."""

    def __init__(self, lines: Iterable[bytes], command: str) -> None:
        self.command = command
        self._lines = iter(lines)
        self._ahead: bytes | None = None  # the next line, if it was looked at
        self._last, self._number = b"", 0

    @property
    def are_over(self) -> bool:
        return not self._next()

    def is_next(self, *words: bytes) -> bool:
        """Whether the next line begins with one of these words."""
        return self._next().startswith(words)

    def text(self) -> bytes:
        """The next line."""
        self._last, self._ahead, self._number = self._next(), None, self._number + 1
        if not self._last.endswith(b"\n"):
            raise self.fault()
        return self._last[:-1]

    def matched(self, form: re.Pattern[bytes]) -> re.Match[bytes]:
        """The next line, as a match of a form."""
        found = form.fullmatch(self.text())
        if found is None:
            raise self.fault()
        return found

    def after(self, word: bytes) -> bytes:
        """What follows a word in the next line."""
        return self.matched(re.compile(re.escape(word) + rb"(.*)"))[1]

    def count(self, word: bytes) -> int:
        """The number that follows a word in the next line."""
        return int(self.matched(re.compile(re.escape(word) + COUNT))[1])

    def rows(self, word: bytes, count: int, length: int) -> tuple[Row, ...]:
        """So many lines of whole numbers after a word, each with so many of them."""
        form = re.compile(re.escape(word) + rb" (%s)" % LIST)
        return tuple(row_of(self.matched(form)[1], length) for _ in range(count))

    def end(self) -> None:
        """NoReport if a line is left."""
        if not self.are_over:
            self.text()
            raise self.fault()

    def fault(self) -> NoReport:
        """That the line which was read last may not stand there."""
        return NoReport(f"line {self._number}: {self._last[:60]!r} may not stand in a report of {self.command}, or is cut")

    def _next(self) -> bytes:
        """The next line with its line feed; it is empty if there is none."""
        if self._ahead is None:
            self._ahead = next(self._lines, b"")
        return self._ahead


def row_of(text: bytes, length: int) -> Row:
    """Whole numbers of a line; NoReport if they are not so many."""
    numbers = tuple(map(int, text.split()))
    if len(numbers) != length:
        raise NoReport(f"{text[:60]!r} has not {length} numbers")
    return numbers
