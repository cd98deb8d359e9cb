"""The graph of a key. A key lists the edges of the primitive graph with their vectors, in units of
a frame; it has no cell. The vectors of the closed walks span the lattice of translations, and a
basis of it makes shifts of the vectors."""

from __future__ import annotations

from ..graph import Edge, QuotientGraph
from ..lattice import Vector
from .net_text import GREATEST_SHIFT, NoReport, key_numbers


class TooLong(NoReport):
    """The net of a key has a shift that a block may not have."""


def graph_of_key(key: bytes, name: str = "") -> QuotientGraph:
    """The quotient graph of a net that has this key; its vertices are the classes, from 1 on.

    NoReport where the key is of no connected net; TooLong where a shift would pass what the program takes."""
    dimension, classes, _, *numbers = key_numbers(key)
    size = dimension + 2
    edges = [(row[0], row[1], tuple(row[2:])) for row in zip(*[iter(numbers)] * size)]
    places = _places(classes, edges, dimension)
    loops = [_sum(_sum(places[i], vector), places[j], -1) for i, j, vector in edges]
    basis = short_basis(loops, dimension)
    found = []
    for (i, j, _), loop in zip(edges, loops):
        shift = coefficients(loop, basis)
        if max(abs(part) for part in shift) > GREATEST_SHIFT:
            raise TooLong(f"the key gives a shift past {GREATEST_SHIFT}: {shift}")
        found.append(Edge(i - 1, j - 1, shift))
    return QuotientGraph(tuple(range(1, classes + 1)), tuple(found), dimension, name)


def _sum(one: Vector, other: Vector, times: int = 1) -> Vector:
    return tuple(a + times * b for a, b in zip(one, other))


def _places(classes: int, edges: list[tuple[int, int, Vector]], dimension: int) -> dict[int, Vector]:
    """Where a walk over the edges from class 1 comes to each class."""
    places = {1: (0,) * dimension}
    ways: dict[int, list[tuple[int, Vector]]] = {}
    for i, j, vector in edges:
        ways.setdefault(i, []).append((j, vector))
        ways.setdefault(j, []).append((i, tuple(-part for part in vector)))
    waiting = [1]
    for here in waiting:  # grows while it is walked through: breadth first
        for there, vector in ways.get(here, ()):
            if there not in places:
                places[there] = _sum(places[here], vector)
                waiting.append(there)
    if len(places) != classes:
        raise NoReport("the key is of no connected graph")
    return places


def short_basis(vectors: list[Vector], dimension: int) -> list[Vector]:
    """A basis of the lattice that the vectors span, of short vectors: a staircase basis by
    Euclid's algorithm, and then each made shorter by the others as long as one can be."""
    rows = [vector for vector in vectors if any(vector)]
    basis: list[Vector] = []
    for place in range(dimension):
        with_part = [row for row in rows if row[place]]
        rows = [row for row in rows if not row[place]]
        while len(with_part) > 1:
            with_part.sort(key=lambda row: abs(row[place]))
            least, *others = with_part
            reduced = [_sum(row, least, -(row[place] // least[place])) for row in others]
            rows += [row for row in reduced if not row[place] and any(row)]
            with_part = [least, *(row for row in reduced if row[place])]
        if not with_part:
            raise NoReport("the key is of no net that reaches in all directions")
        basis += with_part
    return _shortened(basis)


def _shortened(basis: list[Vector]) -> list[Vector]:
    def product(one: Vector, other: Vector) -> int:
        return sum(a * b for a, b in zip(one, other))

    is_changed = True
    while is_changed:
        is_changed = False
        for k, row in enumerate(basis):
            for other in basis[:k] + basis[k + 1:]:
                length = product(other, other)
                times = (2 * product(row, other) + length) // (2 * length)
                shorter = _sum(row, other, -times)
                if product(shorter, shorter) < product(row, row):
                    basis[k] = row = shorter
                    is_changed = True
    return basis


def coefficients(vector: Vector, basis: list[Vector]) -> Vector:
    """The whole numbers that make the vector of the basis, by Cramer's rule."""
    whole = determinant(basis)
    parts = [determinant(basis[:k] + [vector] + basis[k + 1:]) for k in range(len(basis))]
    return tuple(part // whole for part in parts)


def determinant(rows: list[Vector]) -> int:
    if len(rows) == 2:
        (a, b), (c, d) = rows
        return a * d - b * c
    (a, b, c), (d, e, f), (g, h, i) = rows
    return a * (e * i - f * h) - b * (d * i - f * g) + c * (d * h - e * g)
