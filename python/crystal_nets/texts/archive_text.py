"""Archives of named nets, as docs/FORMATS.md says that they are written.

The form is read here, line by line. That keys and sequences are those of the edges is for
`net_tool duplicates` to say, which computes all of them anew."""

from __future__ import annotations

import re
from collections.abc import Callable, Iterable, Iterator
from dataclasses import dataclass, field

from ..files import told_encoding
from ..graph import Edge, QuotientGraph
from .net_text import GREATEST_SHIFT, MOST_EDGES, MOST_SHELLS, MOST_VERTICES, NoReport, key_numbers

ENTRY = re.compile(rb'entry "([^\x00-\x1f\x7f"]{1,200})"')
GRAPH = re.compile(rb"graph ([23]) ([1-9]\d*) ([1-9]\d*)")


@dataclass
class Entry:
    """A net of an archive."""

    name: bytes
    dimension: int = 0
    vertices: int = 0
    edges: list[Edge] = field(default_factory=list)
    key: bytes = b""

    @property
    def graph(self) -> QuotientGraph:
        """The net; its vertices are the numbers from 1 on."""
        name = self.name.decode(errors="surrogateescape")
        return QuotientGraph(tuple(range(1, self.vertices + 1)), tuple(self.edges), self.dimension, name)


def entries_of(lines: Iterable[bytes], file: str) -> Iterator[Entry]:
    """The entries of an archive, each whole. NoReport with the first line that breaks the form."""
    reader = Reader(lines)
    try:
        is_second = reader.line() == b"net_archive 2"
        if not is_second and reader.last != b"net_archive 1":
            raise ValueError
        names: set[bytes] = set()
        while reader.has_more():
            entry = _entry(reader, is_second)
            if entry.name in names:
                raise ValueError
            names.add(entry.name)
            yield entry
    except ValueError:
        raise NoReport(f"{file}: line {reader.count} may not stand in an archive, or is cut: "
                       f"{reader.last[:60]!r}{told_encoding(reader.last)}") from None


class Reader:
    """Lines one after the other, with the number and text of the last one."""

    def __init__(self, lines: Iterable[bytes]) -> None:
        self.lines = iter(lines)
        self.count, self.last = 0, b""
        self.waiting: bytes | None = None

    def has_more(self) -> bool:
        if self.waiting is None:
            self.waiting = next(self.lines, None)
        return self.waiting is not None

    def line(self) -> bytes:
        """The next line without its line feed; ValueError where it has none."""
        self.count += 1
        line = (self.waiting or b"") if self.has_more() else b""
        self.waiting = None
        self.last = line.removesuffix(b"\n")
        if self.last == line:
            raise ValueError
        return self.last

    def rest(self, word: bytes) -> bytes:
        """The next line without its first word, which is to be this one."""
        line = self.line()
        if not line.startswith(word + b" "):
            raise ValueError
        return line[len(word) + 1:]

    def numbers(self, word: bytes, is_right: Callable[[list[int]], bool]) -> list[int]:
        """The numbers after the first word, written as an archive has them."""
        rest = self.rest(word)
        numbers = [int(part) for part in rest.split(b" ")]
        if b" ".join(b"%d" % number for number in numbers) != rest or not is_right(numbers):
            raise ValueError
        return numbers


def _entry(reader: Reader, is_second: bool) -> Entry:
    found = ENTRY.fullmatch(reader.line())
    graph = GRAPH.fullmatch(reader.line()) if found else None
    if found is None or graph is None:
        raise ValueError
    dimension, vertices, edges = map(int, graph.groups())
    if vertices > MOST_VERTICES or edges > MOST_EDGES:
        raise ValueError
    entry = Entry(found[1], dimension, vertices)
    for _ in range(edges):
        tail, head, *shift = reader.numbers(b"edge", lambda row: _is_edge(row, entry))
        edge = Edge(tail - 1, head - 1, tuple(shift))
        if entry.edges and edge <= entry.edges[-1]:
            raise ValueError
        entry.edges.append(edge)
    entry.key = reader.rest(b"key")
    if key_numbers(entry.key)[0] != dimension:
        raise ValueError
    if is_second:
        classes, = reader.numbers(b"primitive", lambda row: len(row) == 1 and 1 <= row[0] <= vertices)
        for number in range(1, classes + 1):
            reader.numbers(b"shells", lambda row: row[0] == number and len(row) <= MOST_SHELLS + 1)
    if reader.line() != b"end":
        raise ValueError
    return entry


def _is_edge(row: list[int], entry: Entry) -> bool:
    tail, head, *shift = row
    is_ordered = tail < head or (tail == head and next((part for part in shift if part), 0) > 0)
    return (len(shift) == entry.dimension and 1 <= tail and head <= entry.vertices and is_ordered
            and max(abs(part) for part in shift) <= GREATEST_SHIFT)
