"""Nets of one node for any group, with their graphs computed from the operations in whole numbers: other code than
that of cgd2net, in the usual cell and not in a primitive one."""

from __future__ import annotations

import math
import random
from collections.abc import Iterator
from dataclasses import dataclass
from functools import cached_property
from itertools import product

import gemmi
import numpy as np

UNIT = 24_000  # parts of an edge of the cell: places are whole numbers of them
Place = tuple[int, ...]
Operation = tuple[tuple[tuple[int, ...], ...], Place]  # columns x go to matrix·x + vector
# of each plane group a space group that it is, seen along its third axis
ALONG_THIRD_AXIS = {
    "p1": "P 1", "p2": "P 1 1 2", "pm": "P m 1 1", "pg": "P b 1 1", "cm": "C m 1 1", "p2mm": "P m m 2",
    "p2mg": "P m a 2", "p2gg": "P b a 2", "c2mm": "C m m 2", "p4": "P 4", "p4mm": "P 4 m m", "p4gm": "P 4 b m",
    "p3": "P 3", "p3m1": "P 3 m 1", "p31m": "P 3 1 m", "p6": "P 6", "p6mm": "P 6 m m"}


def operations_of(group: gemmi.SpaceGroup, dimension: int = 3) -> list[Operation]:
    den = gemmi.Op.DEN
    return [(tuple(tuple(x // den for x in row[:dimension]) for row in op.rot[:dimension]),
             tuple(t * UNIT // den for t in op.tran[:dimension])) for op in group.operations()]


def moved(operation: Operation, place: Place) -> Place:
    matrix, vector = operation
    return tuple(sum((m * x for m, x in zip(row, place)), t) for row, t in zip(matrix, vector))


def in_cell(place: Place) -> tuple[Place, tuple[int, ...]]:
    """The place in the cell, and which cell it is from."""
    cell = tuple(x // UNIT for x in place)
    return tuple(x - c * UNIT for x, c in zip(place, cell)), cell


def metric_of(operations: list[Operation], chance: random.Random) -> np.ndarray:
    """The products of the edges of a cell that fits the operations, and no others where it can be."""
    dimension = len(operations[0][1])
    rows = np.diag([chance.uniform(1, 1.7) for _ in range(dimension)])
    rows = rows + np.array([[chance.uniform(-0.2, 0.2) for _ in range(dimension)] for _ in range(dimension)])
    matrices = [np.array(matrix) for matrix, _ in operations]
    return sum(m.T @ rows @ rows.T @ m for m in matrices) / len(matrices)


def cell_row(metric: np.ndarray) -> str:
    lengths = np.sqrt(np.diag(metric))
    pairs = [(0, 1)] if len(metric) == 2 else [(1, 2), (0, 2), (0, 1)]
    angles = [math.degrees(math.acos(metric[i, j] / lengths[i] / lengths[j])) for i, j in pairs]
    return " ".join(f"{x:.6f}" for x in [*lengths, *angles])


@dataclass
class Generated:
    """A net of one node, as a graph and as a CRYSTAL block."""

    operations: list[Operation]
    place: Place
    metric: np.ndarray

    def __post_init__(self) -> None:
        self.orbit = sorted({in_cell(moved(operation, self.place))[0] for operation in self.operations})

    @property
    def is_special(self) -> bool:
        return len(self.orbit) < len(self.operations)

    @cached_property
    def shells(self) -> list[list[Place]]:
        """The other places around the node, those that are equally far together, by rising distance."""
        return list(self.by_length.values())[:-1]

    @cached_property
    def by_length(self) -> dict[float, list[Place]]:
        """The other places around the node by their distances, which rise; the last may not be all."""
        shifts = list(product(range(-2, 3), repeat=len(self.place)))
        places = [tuple(x + s * UNIT for x, s in zip(spot, shift)) for spot in self.orbit for shift in shifts]
        steps = (np.array(places) - np.array(self.place)) / UNIT
        lengths = np.round(np.sqrt(np.einsum("ij,jk,ik->i", steps, self.metric, steps)), 6)
        shells: dict[float, list[Place]] = {}
        for k in np.argsort(lengths, kind="stable")[1:200]:
            shells.setdefault(float(lengths[k]), []).append(places[k])
        return shells

    def edges(self, count: int) -> set[tuple]:
        """The edges of one cell where the node is joined to so many shells."""
        number = {place: k for k, place in enumerate(self.orbit)}
        found = set()
        for operation in self.operations:
            start, at = in_cell(moved(operation, self.place))
            for end in (place for shell in self.shells[:count] for place in shell):
                stop, cell = in_cell(moved(operation, end))
                shift = tuple(c - a for c, a in zip(cell, at))
                back = tuple(-s for s in shift)
                found.add(min((number[start], number[stop], shift), (number[stop], number[start], back)))
        return found

    def graph(self, name: str, count: int) -> str:
        rows = [f"{u + 1} {v + 1} {' '.join(map(str, shift))}" for u, v, shift in sorted(self.edges(count))]
        return "\n".join(["PERIODIC_GRAPH", f'NAME "{name}"', "EDGES", *rows, "END", ""])

    def crystal(self, name: str, group: str, count: int, has_edges: bool = True) -> str:
        """The block; its coordinates are decimals, and where it has no edges they are to be found by distance."""
        def words(place: Place) -> str:
            return " ".join(f"{x / UNIT:.5f}" for x in place)

        ends = [place for shell in self.shells[:count] for place in shell]
        edges = [f"EDGE {words(self.place)} {words(end)}" for end in ends] if has_edges else []
        return "\n".join(["CRYSTAL", f'  NAME "{name}"', f"  GROUP {group}", f"  CELL {cell_row(self.metric)}",
                          f"  NODE 1 {len(ends)} {words(self.place)}", *edges, "END", ""])

    def symbolic(self, name: str, group: str, count: int) -> str:
        """The NET block: a general position as x,y,z, a special one by its fractions, and edges as operations."""
        variables = "xyz"[:len(self.place)]
        site = ",".join(f"{x}/{UNIT}" for x in self.place) if self.is_special else ",".join(variables)
        lines = ["NET", f'  NAME "{name}"', f"  GROUP {group}", f"  NODE 1 {site}"]
        for end in (place for shell in self.shells[:count] for place in shell):
            for matrix, vector in self.operations:
                gaps = [e - i for e, i in zip(end, moved((matrix, vector), self.place))]
                if all(gap % UNIT == 0 for gap in gaps):
                    parts = ["".join(f"{m:+}{v}" for m, v in zip(row, variables) if m) + f"+{t + gap}/{UNIT}"
                             for row, t, gap in zip(matrix, vector, gaps)]
                    lines.append("  EDGE 1 1 " + ",".join(parts).replace("+-", "-"))
                    break
        return "\n".join([*lines, "END", ""])

    def fewest_shells(self) -> Iterator[int]:
        """Numbers of shells that give a connected net, from the fewest on."""
        return (count for count in range(1, len(self.shells)) if is_connected(self.edges(count), len(self.orbit)))


def is_connected(edges: set[tuple], vertices: int) -> bool:
    """Whether the net is one piece: its quotient graph is, and the shifts of closed walks are all whole vectors."""
    arcs: dict[int, list] = {}
    for u, v, shift in edges:
        arcs.setdefault(u, []).append((v, shift))
        arcs.setdefault(v, []).append((u, tuple(-s for s in shift)))
    at = {0: (0,) * len(next(iter(edges))[2])}
    order, closed = [0], set()
    for u in order:
        for v, shift in arcs.get(u, []):
            cell = tuple(a + s for a, s in zip(at[u], shift))
            if v not in at:
                at[v] = cell
                order.append(v)
            closed.add(tuple(a - b for a, b in zip(cell, at[v])))
    return len(at) == vertices and spans_all([list(row) for row in closed if any(row)])


def spans_all(rows: list[list[int]]) -> bool:
    """Whether whole vectors span all whole vectors, by Euclid's algorithm on their columns."""
    if not rows:
        return False
    for k in range(len(rows[0])):
        while sum(1 for row in rows if row[k]) > 1:
            pivot = min((row for row in rows if row[k]), key=lambda row: abs(row[k]))
            rows = [row if row is pivot else [x - row[k] // pivot[k] * y for x, y in zip(row, pivot)] for row in rows]
        pivots = [row for row in rows if row[k]]
        if not pivots or abs(pivots[0][k]) != 1:
            return False
        rows = [row for row in rows if row is not pivots[0]]
        if not rows:
            return k == len(pivots[0]) - 1
    return True


def special_places(dimension: int) -> Iterator[Place]:
    """Places on symmetry elements of many groups, the more special first."""
    parts = [UNIT * n // 8 for n in (0, 4, 2, 6, 1, 3)] + [UNIT // 3, UNIT * 2 // 3]
    free = UNIT * 17 // 100
    yield from product(parts[:4], repeat=dimension)
    yield from product((*parts[:4], free), repeat=dimension)
    yield from product(parts, repeat=dimension)
    yield from product((free, 2 * free, -free, UNIT // 4 + free, UNIT // 2 + free, 0), repeat=dimension)
