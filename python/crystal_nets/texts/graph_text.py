"""Quotient graphs as blocks PERIODIC_GRAPH: their writer and their reader.

The writer is given names and labels that a block may have; `written_name` and `written_labels` make them such."""

from __future__ import annotations

import re
from collections.abc import Iterable

from ..errors import NotANet
from ..graph import Edge, QuotientGraph, Vertex
from ..lattice import Vector

LONGEST_NAME = 198     # bytes between the quotes
LONGEST_STEM = 180     # bytes of a label, so that a number has room after it
LONGEST_NUMBER = 4000  # digits of a shift that are read
UNWRITABLE = re.compile(r'["\x00-\x1f\x7f]')
BLANKS = rb"[ \t\v\f\r]+"
END = rb'([+-]?\d+|"[^"\n]*")' + BLANKS  # of an edge: a vertex
ROW = re.compile(rb"(?:(EDGES?|BONDS?)" + BLANKS + rb")?" + END + END + rb"([+-]?\d+(?:" + BLANKS + rb"[+-]?\d+)*)",
                 re.IGNORECASE)
NO_ROW = re.compile(rb"(?i)(PERIODIC_GRAPH|NAME|ID|EDGES?$|BONDS?$|END)\b")
EDGES = b"EDGES"
ONCE = {b"PERIODIC_GRAPH", b"NAME"}  # in a block
PLAIN_INTEGER = re.compile(rb"-?(?:0|[1-9]\d*)")
SMALL_INTEGER = re.compile(r"0|[1-9][0-9]{0,8}")


def text_of_graph(graph: QuotientGraph) -> bytes:
    """The block of a net, with its edges as they were given. ValueError where a label cannot be written."""
    words = [vertex_word(vertex) for vertex in graph.vertices]
    head = f'PERIODIC_GRAPH\nNAME "{graph.name}"\nEDGES\n' if graph.name else "PERIODIC_GRAPH\nEDGES\n"
    rows = [f"{words[u]} {words[v]} {' '.join(map(str, shift))}\n" for u, v, shift in graph.edges]
    return f"{head}{''.join(rows)}END\n".encode(errors="surrogateescape")


def graph_of_text(block: bytes, name: str = "") -> QuotientGraph:
    """The graph of one block. Vertices are numbered as they appear, as the program numbers them. NotANet where a line is
    no row that the program reads: it opens a second block, is a second name, or stands under no EDGES."""
    number: dict[bytes, int] = {}
    edges = []
    heads: set[bytes] = set()
    for count, text in enumerate(block.splitlines(), start=1):
        row = _row_of(text, count, heads)
        if row is not None:
            u, v = (number.setdefault(word, len(number)) for word in row.groups()[1:3])
            edges.append(Edge(u, v, _shift_of(row[4], count)))
    dimension = len(edges[0].shift) if edges else 0
    return QuotientGraph(tuple(map(vertex_of, number)), tuple(edges), dimension, name)


def _row_of(line: bytes, number: int, heads: set[bytes]) -> re.Match[bytes] | None:
    """The row of a line; None where it has none. In `heads` are the words that stand once in a block, and stood, and EDGES
    where rows may follow."""
    text = _without_comment(line).strip()
    row = ROW.fullmatch(text)
    head = None if row else NO_ROW.match(text)
    word = _keyword(row[1] if row else head[1] if head else b"")
    if text and (word in heads & ONCE or not word and (row is None or EDGES not in heads)):
        raise NotANet(f"line {number} of the block is no row: {text[:60].decode(errors='replace')!r}")
    if word == EDGES:
        heads.add(EDGES)
    elif word in ONCE:
        heads -= {EDGES}
        heads.add(word)
    return row


def _keyword(word: bytes | None) -> bytes:
    """One word for all that mean the same, in capital letters; empty where there is none."""
    upper = (word or b"").upper()
    return b"NAME" if upper == b"ID" else EDGES if upper.startswith((b"EDGE", b"BOND")) else upper


def _shift_of(text: bytes, line: int) -> Vector:
    parts = text.split()
    if max(map(len, parts)) > LONGEST_NUMBER:
        raise NotANet(f"line {line} of the block has a number of {max(map(len, parts))} digits")
    return tuple(map(int, parts))


def _without_comment(line: bytes) -> bytes:
    """The line up to a # that stands in no quotes."""
    if b"#" not in line:
        return line
    kept = re.match(rb'(?:[^"#]|"[^"]*")*', line)
    return kept[0] if kept else b""


def vertex_word(vertex: Vertex) -> str:
    """A vertex as a block has it: a whole number as it is, a text in quotes. ValueError where it cannot be written."""
    if not isinstance(vertex, str):
        return str(vertex)
    if UNWRITABLE.search(vertex):
        raise ValueError(f"{vertex!r:.60} has a quote or a control character")
    vertex.encode(errors="surrogateescape")  # ValueError where it is no text that can be written
    return f'"{vertex}"'


def vertex_of(word: bytes) -> Vertex:
    """The vertex of a word in a block or a report; a number that is written otherwise than usual stays a text."""
    if word[:1] == b'"':
        return word[1:-1].decode(errors="surrogateescape")
    return int(word) if PLAIN_INTEGER.fullmatch(word) and word != b"-0" else word.decode()


def plain(text: str) -> str:
    """The text with _ for quotes and control characters, and ? for what UTF-8 has not."""
    return UNWRITABLE.sub("_", text).encode(errors="replace").decode()


def cut(text: str, most: int) -> str:
    """The text, cut so that it has at most so many bytes."""
    return text.encode(errors="surrogateescape")[:most].decode(errors="ignore")


def written_name(text: str) -> str:
    """A name as a block may have it between quotes."""
    return cut(plain(text), LONGEST_NAME)


def written_labels(labels: Iterable[str]) -> tuple[Vertex, ...]:
    """Labels as a block may have them, no two alike; whole numbers are numbers."""
    taken: dict[str, None] = {}
    for label in labels:
        stem = cut(plain(label), LONGEST_STEM)
        word, count = stem, 1
        while word in taken:
            count += 1
            word = f"{stem}_{count}"
        taken[word] = None
    return tuple(int(word) if SMALL_INTEGER.fullmatch(word) else word for word in taken)
