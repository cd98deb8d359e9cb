"""Lattices of whole vectors: staircase bases, coordinates in them, and small matrices."""

from __future__ import annotations

import operator
from collections.abc import Iterable, Sequence
from typing import TypeVar

Vector = tuple[int, ...]
Number = TypeVar("Number", int, float)


def add(u: Sequence[int], v: Sequence[int]) -> Vector:
    return tuple(map(operator.add, u, v))


def subtract(u: Sequence[int], v: Sequence[int]) -> Vector:
    return tuple(map(operator.sub, u, v))


def negate(u: Sequence[int]) -> Vector:
    return tuple(map(operator.neg, u))


def pivot_place(v: Sequence[int]) -> int:
    """The first place of v that is not 0; its length, where there is none."""
    return next((k for k, x in enumerate(v) if x), len(v))


def staircase(vectors: Iterable[Sequence[int]]) -> list[Vector]:
    """The basis in staircase form (Hermite) of the lattice that the vectors span."""
    row_with_pivot: dict[int, Vector] = {}
    for vector in vectors:
        rest = tuple(vector)
        for k in range(len(rest)):
            if rest[k] == 0:
                continue
            if k not in row_with_pivot:
                row_with_pivot[k] = rest
                break
            row_with_pivot[k], rest = _cleared(row_with_pivot[k], rest, k)
    rows = [row if row[k] > 0 else negate(row) for k, row in sorted(row_with_pivot.items())]
    return _reduced_above(rows)


def _cleared(row: Vector, rest: Vector, k: int) -> tuple[Vector, Vector]:
    """Two vectors that span what these two span, with 0 at place k of the second (Euclid)."""
    while rest[k]:
        times = row[k] // rest[k]
        row, rest = rest, tuple(x - times * y for x, y in zip(row, rest))
    return row, rest


def _reduced_above(rows: list[Vector]) -> list[Vector]:
    """Each number above a pivot brought between 0 and the pivot."""
    for i, row in enumerate(rows):
        k = pivot_place(row)
        for j in range(i):
            times = rows[j][k] // row[k]
            rows[j] = tuple(x - times * y for x, y in zip(rows[j], row))
    return rows


def coordinates(vector: Sequence[int], basis: Sequence[Vector]) -> Vector:
    """The coordinates of a vector of the lattice in its staircase basis."""
    rest, parts = tuple(vector), []
    for row in basis:
        k = pivot_place(row)
        times, remainder = divmod(rest[k], row[k])
        if remainder:
            break
        parts.append(times)
        rest = tuple(x - times * y for x, y in zip(rest, row))
    if any(rest):
        raise ValueError(f"{vector} is not in the lattice")
    return tuple(parts)


def index(basis: Sequence[Vector]) -> int:
    """How many cosets a lattice of full rank has in all whole vectors."""
    product = 1
    for row in basis:
        product *= row[pivot_place(row)]
    return product


def determinant(rows: Sequence[Sequence[Number]]) -> Number:
    """Of two or three rows."""
    if len(rows) == 2:
        (a, b), (c, d) = rows
        return a * d - b * c
    (a, b, c), (d, e, f), (g, h, i) = rows
    return a * (e * i - f * h) - b * (d * i - f * g) + c * (d * h - e * g)


def adjugate(rows: Sequence[Sequence[Number]]) -> list[list[Number]]:
    """The matrix whose product with that of two or three rows is the determinant times the unit matrix."""
    if len(rows) == 2:
        (a, b), (c, d) = rows
        return [[d, -b], [-c, a]]
    (a, b, c), (d, e, f), (g, h, i) = rows
    return [[e * i - f * h, c * h - b * i, b * f - c * e], [f * g - d * i, a * i - c * g, c * d - a * f],
            [d * h - e * g, b * g - a * h, a * e - b * d]]


def unit_matrix(size: int) -> list[list[int]]:
    return [[int(i == k) for k in range(size)] for i in range(size)]


def times(vector: Sequence[int], rows: Sequence[Sequence[int]]) -> Vector:
    """The vector with these coordinates in a basis of these rows."""
    return tuple([sum([part * row[k] for part, row in zip(vector, rows)]) for k in range(len(rows[0]))])
