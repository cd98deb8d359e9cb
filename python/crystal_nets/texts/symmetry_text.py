"""The report of `net_tool symmetry` on one net: its primitive graph, placed; its operations; orbits of vertices and edges."""

from __future__ import annotations

import re
from collections.abc import Iterable
from dataclasses import dataclass

from .net_text import GRAPH, LIST
from .report_lines import COUNT, NET_LINE, Lines, Row, row_of

GRAPH_LINE = re.compile(rb"graph " + GRAPH.pattern)
PRIMITIVE = re.compile(rb"primitive vertices=%s edges=%s" % (COUNT, COUNT))
VERTEX_ORBIT = re.compile(rb"orbit %s size=%s order=%s" % (COUNT, COUNT, COUNT))
EDGE_ORBIT = re.compile(rb"orbit (%s) size=%s" % (LIST, COUNT))
WITHOUT_GROUP = (b"unsupported ", b"malformed ", b"refused ")  # begin the line of a block that has no key


@dataclass(frozen=True)
class ToldOrbit:
    """An orbit of vertices: its least class, how many classes it has, and the order of the stabilizer of a vertex."""

    least: int
    size: int
    order: int


@dataclass(frozen=True)
class SymmetryReport:
    """What `symmetry` reports of a net. Vertices are the classes from 1 on.

    basis        of all translations of the net, in units of 1/D0 of the cell that was given
    edges        of the primitive graph: two classes and a shift in steps of that basis
    key          of the net
    denominator  D, of the positions of the primitive graph
    places       of each class in units of 1/D of the basis
    operations   of each its matrix row by row, and then its shift in units of 1/D
    vertices     orbits of vertices
    edge_orbits  of each its first edge, and how many edges it has"""

    basis: tuple[Row, ...]
    edges: tuple[Row, ...]
    key: str
    denominator: int
    places: tuple[Row, ...]
    operations: tuple[Row, ...]
    vertices: tuple[ToldOrbit, ...]
    edge_orbits: tuple[tuple[Row, int], ...]

    @property
    def dimension(self) -> int:
        return len(self.basis)


def symmetry_of_report(lines: Iterable[bytes]) -> SymmetryReport | None:
    """What is reported of the one net of a report; None if it has no key, or its primitive graph is past the limits. NoReport
    with the first line that may not stand there."""
    source = Lines(lines, "symmetry")
    source.matched(NET_LINE)
    if source.is_next(*WITHOUT_GROUP):
        return None
    dimension = int(source.matched(GRAPH_LINE)[1])
    if source.is_next(*WITHOUT_GROUP):
        return None
    classes, rows = map(int, source.matched(PRIMITIVE).groups())
    basis = source.rows(b"basis", dimension, dimension)
    edges = source.rows(b"edge", rows, dimension + 2)
    key = source.after(b"key ").decode()
    if source.is_next(b"symmetry refused "):
        return None
    denominator = source.count(b"placement D=")
    places = source.rows(b"at", classes, dimension + 1)
    operations = source.rows(b"operation", source.count(b"operations "), dimension * (dimension + 1))
    vertices = [source.matched(VERTEX_ORBIT) for _ in range(source.count(b"vertices "))]
    edge_orbits = [source.matched(EDGE_ORBIT) for _ in range(source.count(b"edges "))]
    source.end()
    return SymmetryReport(basis, edges, key, denominator, tuple(row[1:] for row in places), operations,
                          tuple(ToldOrbit(*map(int, found.groups())) for found in vertices),
                          tuple((row_of(found[1], dimension + 2), int(found[2])) for found in edge_orbits))
