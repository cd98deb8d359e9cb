"""The labelled quotient graph of a periodic net: the one form in which nets are held here.

S. J. Chung, Th. Hahn and W. E. Klee, Acta Cryst. A40 (1984) 42. How it is written and read as text, `texts.graph_text`
has."""

from __future__ import annotations

from collections.abc import Callable, Iterable, Sequence
from dataclasses import dataclass, replace
from functools import cached_property
from typing import NamedTuple

from .lattice import Vector, add, negate

Vertex = int | str                             # the label of a vertex
LabelledEdge = tuple[Vertex, Vertex, Vector]   # an edge with labels in place of numbers


class Edge(NamedTuple):
    """The vertex u in cell 0 is joined to the vertex v in the cell `shift`, which has a number for each dimension. The
    vertices have their places in `QuotientGraph.vertices`, from 0 on."""

    u: int
    v: int
    shift: Vector

    def reversed(self) -> Edge:
        """The same edge, seen from its other end."""
        return Edge(self.v, self.u, negate(self.shift))


def edge(u: int, v: int, shift: Vector) -> Edge:
    """One of the two ways to write an edge: from the lower vertex, or with a positive shift."""
    if u < v or (u == v and shift >= negate(shift)):
        return Edge(u, v, shift)
    return Edge(v, u, negate(shift))


@dataclass(frozen=True)
class QuotientGraph:
    """A periodic net, by its labelled quotient graph.

    vertices   their labels
    edges      as they were given: an edge may stand twice, and in either direction
    dimension  2 or 3, the length of the shifts; less for rods and molecules, 0 where there are no edges
    name       of the net, as a block may have it between quotes

    >>> square = QuotientGraph.of("A", [edge(0, 0, (1, 0)), edge(0, 0, (0, 1))], 2)
    >>> square.degrees(), square.labelled_edges
    ([4], (('A', 'A', (0, 1)), ('A', 'A', (1, 0))))"""

    vertices: tuple[Vertex, ...]
    edges: tuple[Edge, ...]
    dimension: int
    name: str = ""

    @classmethod
    def of(cls, vertices: Iterable[Vertex], edges: Iterable[Edge], dimension: int = 3, name: str = "") -> QuotientGraph:
        """The graph of these edges in their order, each once. They are to be written as `edge` writes them."""
        return cls(tuple(vertices), tuple(sorted(set(edges))), dimension, name)

    @classmethod
    def of_labelled(cls, edges: Iterable[LabelledEdge], name: str = "") -> QuotientGraph:
        """The graph of edges with labels, as they are given. Vertices are numbered as they appear."""
        number: dict[Vertex, int] = {}
        found = [Edge(number.setdefault(u, len(number)), number.setdefault(v, len(number)), shift)
                 for u, v, shift in edges]
        return cls(tuple(number), tuple(found), len(found[0].shift) if found else 0, name)

    @cached_property
    def edge_set(self) -> frozenset[Edge]:
        return frozenset(self.edges)

    @property
    def distinct_edges(self) -> tuple[Edge, ...]:
        """The edges as they were given, each once."""
        found: dict[Edge, None] = {}
        for one in self.edges:
            if one.reversed() not in found:
                found.setdefault(one)
        return tuple(found)

    @property
    def labelled_edges(self) -> tuple[LabelledEdge, ...]:
        """The edges as they were given, each once, with the labels of their vertices."""
        return tuple((self.vertices[u], self.vertices[v], shift) for u, v, shift in self.distinct_edges)

    @property
    def fault(self) -> str:
        """Why it is the graph of no net, as the program would refuse its form; empty where it has that form. Whether the
        net is connected, and how large the graph is, does not matter."""
        lengths = {len(one.shift) for one in self.edges}
        if not lengths:
            return "it has no edges"
        if len(lengths) > 1:
            return "its shifts have several lengths"
        if lengths != {self.dimension} or self.dimension not in (2, 3):
            return "its shifts have not two or three numbers"
        if any(one.u == one.v and not any(one.shift) for one in self.edges):
            return "an edge joins a vertex to itself in one cell"
        return ""

    def named(self, name: str) -> QuotientGraph:
        return replace(self, name=name)

    def degrees(self) -> list[int]:
        """Of each vertex how many ends of edges it has; a loop counts at both its ends."""
        degrees = [0] * len(self.vertices)
        for u, v, _ in self.edges:
            degrees[u] += 1
            degrees[v] += 1
        return degrees

    def arcs(self) -> list[list[tuple[int, Vector]]]:
        """Of each vertex its neighbours with their cells; a loop counts at both its ends."""
        arcs: list[list[tuple[int, Vector]]] = [[] for _ in self.vertices]
        for u, v, shift in self.edges:
            arcs[u].append((v, shift))
            arcs[v].append((u, negate(shift)))
        return arcs

    def with_edges(self, edges: Iterable[Edge]) -> QuotientGraph:
        """The graph of the same vertices with other edges, each once."""
        return QuotientGraph.of(self.vertices, edges, self.dimension, self.name)

    def part(self, keep: Iterable[int]) -> QuotientGraph:
        """The graph of some vertices, with the edges between them."""
        kept = sorted(keep)
        if len(kept) == len(self.vertices):
            return self
        number = {v: k for k, v in enumerate(kept)}
        edges = tuple(Edge(number[u], number[v], shift) for u, v, shift in self.edges if u in number and v in number)
        return replace(self, vertices=tuple(self.vertices[v] for v in kept), edges=edges)

    def with_shifts(self, shift_of: Callable[[Edge], Vector], dimension: int) -> QuotientGraph:
        """The graph with other shifts."""
        edges = (edge(one.u, one.v, shift_of(one)) for one in self.edges)
        return QuotientGraph.of(self.vertices, edges, dimension, self.name)

    def canonical(self) -> QuotientGraph:
        """The graph with its vertices numbered as they appear in its edges, and each edge once, as `edge` writes it."""
        number: dict[int, int] = {}
        for u, v, _ in self.edges:
            number.setdefault(u, len(number))
            number.setdefault(v, len(number))
        edges = (edge(number[u], number[v], shift) for u, v, shift in self.edges)
        return QuotientGraph.of((self.vertices[v] for v in number), edges, self.dimension, self.name)

    def connected_parts(self) -> list[list[int]]:
        """The vertices of the connected parts of the quotient graph, by their least ones."""
        near: list[list[int]] = [[] for _ in self.vertices]
        for u, v, _ in self.edges:
            near[u].append(v)
            near[v].append(u)
        seen: set[int] = set()
        parts = []
        for start in range(len(near)):
            if start not in seen:
                parts.append(_reached_from(start, near))
                seen.update(parts[-1])
        return parts

    def walks(self) -> list[Vector]:
        """For each vertex of a connected quotient graph the cell that a walk from vertex 0 ends in."""
        arcs = self.arcs()
        cell: dict[int, Vector] = {0: (0,) * self.dimension}
        order = [0]
        for v in order:
            for w, shift in arcs[v]:
                if w not in cell:
                    cell[w] = add(cell[v], shift)
                    order.append(w)
        return [cell[v] for v in range(len(self.vertices))]


def _reached_from(start: int, near: Sequence[Sequence[int]]) -> list[int]:
    """The vertices that are reached from one, in order, by the neighbours of each."""
    seen = {start}
    part = [start]
    for v in part:
        for w in near[v]:
            if w not in seen:
                seen.add(w)
                part.append(w)
    return sorted(part)
