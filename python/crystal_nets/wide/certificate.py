"""What the proved program is asked: how it reads a block, and whether a map is right.

A certificate is a text of maps whose graphs are the very rows that `cover` prints of the blocks on the unit cell. That `cover`
prints the net that it was given is proved, and it asks for no placement and no key. So each step is proved, from the bytes of
the one block to those of the other; trusted is only that rows are compared here as they stand."""

from __future__ import annotations

import re
from collections.abc import Sequence
from dataclasses import dataclass

from ..errors import ProgramFailed
from ..graph import Edge, QuotientGraph, Vertex
from ..program import run
from ..texts.net_text import GREATEST_SHIFT, MOST_BYTES, MOST_EDGES, MOST_VERTICES
from .periodic_map import PeriodicMap, rows_of, text_of_maps

UNIT_CELL = {2: "--cell=1,0,0,1", 3: "--cell=1,0,0,0,1,0,0,0,1"}
COVERED = re.compile(rb'PERIODIC_GRAPH\n(?:NAME "([^"\n]*)"\n)?EDGES\n((?:\d+ \d+(?: -?\d+){2,3}\n)+)END\n')
GRAPHS = re.compile(r"(?m)^graph [23] \d+ \d+\n(?:edge [-\d ]+\n)+")
NOT_WRITTEN, BAD_MAP = 1, 11
AT_ONCE = 100  # blocks in one run of the program


@dataclass(frozen=True)
class ReadNet:
    """A net as the program reads its block. Only `as_read` makes one of what the program printed.

    graph  its vertices are the numbers that the program gives them"""

    name: str
    graph: QuotientGraph


@dataclass(frozen=True)
class Certificate:
    """A text that `net_tool verify` takes, each pair of it.

    text    maps of the first net to others; empty where none was taken
    taken   of each map that was asked about, whether it is in the text"""

    text: str
    taken: tuple[bool, ...]


def as_read(block: bytes, dimension: int) -> ReadNet | None:
    """How the program reads a block: its cover on the unit cell. None where it is not one net of this dimension."""
    status, told = run("cover", block, "-", UNIT_CELL[dimension])
    found = COVERED.fullmatch(told)
    return None if status == NOT_WRITTEN or found is None else _net_of(found, dimension)


def all_as_read(blocks: Sequence[bytes], dimension: int) -> list[ReadNet | None]:
    """The same of many blocks, of which the program is asked in few runs."""
    found: list[ReadNet | None] = []
    for start in range(0, len(blocks), AT_ONCE):
        piece = blocks[start:start + AT_ONCE]
        status, told = run("cover", b"".join(piece), "-", UNIT_CELL[dimension])
        nets = list(COVERED.finditer(told))
        if status != NOT_WRITTEN and len(nets) == len(piece) and sum(len(net[0]) for net in nets) == len(told):
            found += [_net_of(net, dimension) for net in nets]
        else:
            found += [as_read(block, dimension) for block in piece]
    return found


def _net_of(found: re.Match[bytes], dimension: int) -> ReadNet:
    name, rows = found.groups()
    edges = []
    for row in rows.splitlines():
        u, v, *shift = map(int, row.split())
        edges.append(Edge(u - 1, v - 1, tuple(shift)))
    vertices: tuple[Vertex, ...] = tuple(range(1, 1 + max(max(u, v) for u, v, _ in edges) + 1))
    return ReadNet((name or b"").decode(errors="surrogateescape"), QuotientGraph(vertices, tuple(edges), dimension))


def is_read(graph: QuotientGraph) -> bool:
    """Whether the program reads a block with so many vertices and edges, and such shifts."""
    return (len(graph.vertices) <= MOST_VERTICES and len(graph.edges) <= MOST_EDGES
            and all(abs(part) <= GREATEST_SHIFT for _, _, shift in graph.edges for part in shift))


def certificate(first: ReadNet, maps: Sequence[tuple[ReadNet, PeriodicMap]]) -> Certificate:
    """The maps that `verify` takes, as one text; none where that is longer than the program reads."""
    whole = text_of_maps(first.graph, [(other.graph, found) for other, found in maps])
    taken = verified(whole, len(maps))
    if maps and all(taken):
        return Certificate(whole, taken)
    kept = [(other.graph, found) for (other, found), is_right in zip(maps, taken) if is_right]
    text = text_of_maps(first.graph, kept) if kept else ""
    is_right = bool(kept) and all(verified(text, len(kept)))
    return Certificate(text, taken) if is_right else Certificate("", (False,) * len(maps))


def verified(text: str, count: int) -> tuple[bool, ...]:
    """Of each of so many pairs of a text whether `net_tool verify` has verified it."""
    if len(text) > MOST_BYTES:
        return (False,) * count
    status, told = run("verify", text.encode(), "-", allowed=(0, 1, BAD_MAP))
    if status == BAD_MAP:
        return (False,) * count
    lines = told.decode(errors="replace").splitlines()
    if len(lines) != count:
        raise ProgramFailed(f"net_tool verify reports {len(lines)} pairs of {count}")
    return tuple(line == f"pair {k} verified" for k, line in enumerate(lines, start=2))


def holds(text: str, blocks: Sequence[bytes], dimension: int) -> bool:
    """Whether a certificate stands: its graphs are the rows that `cover` prints of these blocks, in this order, and `verify`
    takes each of its maps."""
    read = [as_read(block, dimension) for block in blocks]
    rows = [rows_of(net.graph) for net in read if net]
    return len(rows) == len(blocks) > 1 and GRAPHS.findall(text) == rows and all(verified(text, len(blocks) - 1))
