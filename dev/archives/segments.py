"""Nets whose edges are the orbits of a few segments under a space group: each vertex is an end of one."""

from __future__ import annotations

from dataclasses import dataclass
from fractions import Fraction

import gemmi
import numpy as np

from quotient import Net

Place = tuple[Fraction | float, ...]
H, Q, T = Fraction(1, 2), Fraction(1, 4), Fraction(1, 3)
FINE = 1e5  # places nearer than a part of this are one


@dataclass(frozen=True)
class Segments:
    """A space group by its symbol, and segments by the coordinates of both ends."""

    group: str
    ends: tuple[tuple[Place, Place], ...]

    def net(self) -> Net:
        numbers: dict[tuple[int, ...], int] = {}
        edges = [(*_in_cell(one, numbers), *_in_cell(other, numbers)) for one, other in self._images()]
        net = Net(len(numbers))
        for u, cell, v, end in edges:
            net.join(u, v, end - cell)
        return net

    def _images(self) -> list[tuple[np.ndarray, np.ndarray]]:
        return [tuple(np.array(operation.apply_to_xyz([float(x) for x in place])) for place in ends)
                for operation in gemmi.find_spacegroup_by_name(self.group).operations() for ends in self.ends]


def _in_cell(place: np.ndarray, numbers: dict[tuple[int, ...], int]) -> tuple[int, np.ndarray]:
    """The number of a place, a new one if it has none, and its cell."""
    cell = np.floor(place + 0.5 / FINE).astype(int)
    marks = tuple(np.rint((place - cell) * FINE).astype(int).tolist())
    return numbers.setdefault(marks, len(numbers)), cell


ORIGIN = (0, 0, 0)
BY_SEGMENTS = {
    "hxg, hexagons": Segments("P n -3 m:2", ((ORIGIN, (H, -H, 0)),)),
    "bcs, sites a of Ia-3d": Segments("I a -3 d", ((ORIGIN, (Q, Q, -Q)),)),
    "ttt, triangles and truncated tetrahedra": Segments("F -4 3 m", (((T, T, T), (H, H, 0)),)),
    "twf, tetrahedra and truncated octahedra": Segments("I m -3 m", ((ORIGIN, (Q, 0, H)),)),
    "sqp, square pyramids": Segments("I 4/m m m", (((0, 0, Q), (H, H, Q)), ((0, 0, Q), (0, 0, -Q)))),
    "hms, layers of graphite on top of each other, joined at each second vertex":
        Segments("P -6 m 2", ((ORIGIN, (T, 2 * T, 0)), (ORIGIN, (0, 0, 1)))),
    "gra, layers of graphite in turn, joined where two vertices face each other":
        Segments("P 63/m m c", (((0, 0, Q), (T, 2 * T, Q)), ((0, 0, Q), (0, 0, 3 * Q)))),
    "qzd, rods in three directions": Segments("P 62 2 2", ((ORIGIN, (1, 0, 0)), (ORIGIN, (0, 0, T)))),
}
