"""Short bases of lattices. Any basis serves; on a short one shifts and coordinates are small."""

from __future__ import annotations

from collections.abc import Sequence

from ..lattice import Vector, adjugate, determinant, unit_matrix
from .elimination import Arcs

SWEEPS = 12  # of averaging, by which positions become nearly barycentric
ROUNDS = 200
Form = list[list[float]]


def shortened(basis: Sequence[Vector], arcs: Arcs) -> list[Vector]:
    """The basis with shorter rows, in an approximation of the metric of the net: from a row others are taken away as often
    as makes it shorter (C. F. Gauss's reduction, pair by pair)."""
    form, rows = _approximate_metric(arcs, len(basis)), list(basis)

    def product(one: Vector, other: Vector) -> float:
        return sum(x * form[i][j] * y for i, x in enumerate(one) for j, y in enumerate(other))

    pairs = [(k, i) for k in range(len(rows)) for i in range(len(rows)) if i != k]
    for _ in range(ROUNDS):
        is_changed = False
        for k, i in pairs:
            length = product(rows[i], rows[i])
            count = round(product(rows[k], rows[i]) / length) if length > 0 else 0
            shorter = tuple(x - count * y for x, y in zip(rows[k], rows[i]))
            if count and product(shorter, shorter) < product(rows[k], rows[k]) * (1 - 1e-9):
                rows[k], is_changed = shorter, True
        if not is_changed:
            break
    return rows


def _approximate_metric(arcs: Arcs, dimension: int) -> Form:
    """The inverse of the sum of v v^T over all arcs, up to a factor; the unit matrix where it cannot be computed."""
    places, size = _approximate_positions(arcs, dimension), range(dimension)
    total = [[0.0] * dimension for _ in size]
    for u, row in enumerate(arcs):
        for v, shift in row:
            vector = [places[v][k] + shift[k] - places[u][k] for k in size]
            total = [[part + x * y for part, y in zip(line, vector)] for line, x in zip(total, vector)]
    whole = determinant(total)
    if not 1e-9 < whole < 1e60:
        return [[float(part) for part in row] for row in unit_matrix(dimension)]
    return [[part / whole for part in row] for row in adjugate(total)]


def _approximate_positions(arcs: Arcs, dimension: int) -> list[list[float]]:
    """Places along a walk, and then some sweeps in which each vertex moves to the mean of its neighbours."""
    size = range(dimension)
    places: dict[int, list[float]] = {0: [0.0] * dimension}
    order = [0]
    for u in order:
        for v, shift in arcs[u]:
            if v not in places:
                places[v] = [x - s for x, s in zip(places[u], shift)]
                order.append(v)
    for _ in range(SWEEPS):
        for u in order:
            row = arcs[u]
            places[u] = [sum([places[v][k] + shift[k] for v, shift in row]) / len(row) for k in size]
    return [places[u] for u in range(len(arcs))]
