"""The simplification of a net: ends left out, and vertices with two neighbours made edges."""

from __future__ import annotations

from collections.abc import Iterator
from dataclasses import dataclass

from ...graph import Edge, QuotientGraph, edge
from ...lattice import Vector, add, subtract


def without_ends(net: QuotientGraph) -> QuotientGraph:
    """Vertices with at most one neighbour left out, as long as there are any."""
    while True:
        degrees = net.degrees()
        keep = [v for v, degree in enumerate(degrees) if degree > 1]
        if len(keep) == len(degrees):
            return net
        net = net.part(keep)


@dataclass(frozen=True)
class Contracted:
    """A simplified net, and what became of the rest."""

    net: QuotientGraph
    made_edges: list[str]  # the names of the vertices that became edges
    doubled: int  # edges that fell together with others
    closed: int   # loops of one cell, which are no edges of a net


def contracted(net: QuotientGraph) -> Contracted:
    """Vertices with two neighbours made edges, and ends left out, as long as there are any.
    A vertex whose two edges lead to itself stays: the rod that it is on has no other."""
    doubled = closed = 0
    made_edges: list[str] = []
    while True:
        net = without_ends(net)
        arcs = net.arcs()
        bridge = [len(a) == 2 and a[0][0] != v for v, a in enumerate(arcs)]
        if not any(bridge):
            return Contracted(net, made_edges, doubled, closed)
        edges: set[Edge] = set()
        left_out = _apart(bridge, arcs)
        for v in sorted(left_out):
            made_edges.append(str(net.vertices[v]))
            (a, s), (b, t) = arcs[v]
            across = edge(a, b, subtract(t, s))
            if a == b and not any(across.shift):
                closed += 1
            elif across in edges or across in net.edge_set:
                doubled += 1
            else:
                edges.add(across)
        keep = [v for v in range(len(net.vertices)) if v not in left_out]
        net = net.with_edges(net.edge_set | edges).part(keep)


def _apart(chosen: list[bool], arcs: list[list[tuple[int, Vector]]]) -> set[int]:
    """As many of the chosen vertices as can be, from the first on, no two of them joined."""
    apart: set[int] = set()
    for v, is_chosen in enumerate(chosen):
        if is_chosen and not any(w in apart for w, _ in arcs[v]):
            apart.add(v)
    return apart


def shells(net: QuotientGraph, most: int = 8) -> tuple[tuple[int, ...], ...]:
    """The coordination sequences of the vertices, up to some shell, each sequence once."""
    return tuple(sorted(set(sequences_of(net, most))))


def sequences_of(net: QuotientGraph, most: int = 8) -> list[tuple[int, ...]]:
    """Of each vertex its coordination sequence, up to some shell."""
    return list(each_sequence(net, most))


def each_sequence(net: QuotientGraph, most: int) -> Iterator[tuple[int, ...]]:
    """The same, one after the other."""
    steps = _steps(net, most)
    return (_sequence(steps, start, most) for start in range(len(steps)))


def _steps(net: QuotientGraph, most: int) -> list[list[int]]:
    """Of each vertex what its arcs add to its number, where a vertex of a cell has one number for both. Cells that so many
    arcs reach have different numbers."""
    arcs, count = net.arcs(), len(net.vertices)
    base = 1 + 2 * most * max((abs(part) for around in arcs for _, shift in around for part in shift), default=0)

    def number(cell: Vector) -> int:
        return sum(part * base ** k for k, part in enumerate(cell))

    return [[w - v + count * number(shift) for w, shift in around] for v, around in enumerate(arcs)]


def _sequence(steps: list[list[int]], start: int, most: int) -> tuple[int, ...]:
    count = len(steps)
    before: set[int] = set()
    shell = {start}
    sizes = []
    for _ in range(most):
        following = {at + step for at in shell for step in steps[at % count]} - shell - before
        before, shell = shell, following
        sizes.append(len(shell))
    return tuple(sizes)
