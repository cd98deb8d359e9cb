"""Tilings of the plane by regular polygons with two kinds of vertices, found by a search on a torus.

Points are whole combinations of the twelfth roots of unity: four numbers, of 1, w, w^2 and w^3 with
w^4 = w^2 - 1. All edges have length 1 and one of twelve directions. That there are 20 tilings with two
kinds of vertices is due to O. Krötenheerdt, Wiss. Z. Univ. Halle 18 (1969) 273."""

from __future__ import annotations

from collections.abc import Iterator
from dataclasses import dataclass, field
from functools import cache
from itertools import product

import numpy as np

from quotient import Net

Point = tuple[int, ...]
Sector = tuple[int, int]  # its polygon, and the direction in which that begins
Sectors = tuple[Sector, ...]
Star = tuple[int, ...]  # the polygons around a vertex, in order
TURN = 12
ANGLES = {3: 2, 4: 3, 6: 4, 12: 5}  # of polygons, in twelfths of a turn
BASIS = np.array([np.exp(1j * np.pi * k / 6) for k in range(4)])


def _directions() -> list[np.ndarray]:
    steps = [np.array([1, 0, 0, 0])]
    for _ in range(TURN - 1):
        a, b, c, d = steps[-1]
        steps.append(np.array([-d, a, b + d, c]))
    return steps


STEPS = _directions()


@dataclass
class Torus:
    """The plane up to the translations of two points, and what is placed on it: around each vertex twelve
    sectors, each with its polygon and the sector where that begins."""

    rows: tuple[Point, Point]
    stars: tuple[Star, ...]
    sectors: dict[Point, list[Sector | None]] = field(default_factory=dict)

    def __post_init__(self) -> None:
        rows = np.array(self.rows) @ BASIS
        self.back = np.linalg.inv(np.array([rows.real, rows.imag]))
        self.patterns = frozenset().union(*map(_patterns, self.stars))

    def reduced(self, point: np.ndarray) -> tuple[Point, tuple[int, int]]:
        """The point's image in the cell, and the cell that it is in."""
        at = point @ BASIS
        cell = np.floor(self.back @ (at.real, at.imag) + 1e-6).astype(int)
        return tuple((point - cell @ np.array(self.rows)).tolist()), tuple(cell.tolist())

    def place(self, point: np.ndarray, start: int, size: int) -> bool:
        """Places a polygon that has a corner there; whether it fits."""
        for k in range(size):
            corner = (start + k * TURN // size) % TURN
            at_home = self.reduced(point)[0]
            if at_home not in self.sectors and not self.has_room(at_home):
                return False
            around = self.sectors.setdefault(at_home, [None] * TURN)
            for at in range(corner, corner + ANGLES[size]):
                if around[at % TURN] not in (None, (size, corner)):
                    return False
                around[at % TURN] = (size, corner)
            point = point + STEPS[corner]
        return True

    def has_room(self, point: Point) -> bool:
        """Whether no vertex is nearer than the length of an edge."""
        if not self.sectors:
            return True
        cells = np.array(list(product((-1, 0, 1), repeat=2))) @ (np.array(self.rows) @ BASIS)
        gaps = (np.array(list(self.sectors)) - np.array(point)) @ BASIS
        return bool(np.abs(gaps[:, None] + cells).min() > 1 - 1e-6)

    def fits(self) -> bool:
        """Whether the sectors of each vertex are part of an allowed star."""
        return all(_is_part(tuple(around), self.patterns) for around in self.sectors.values())

    def fillings(self) -> Iterator[Torus]:
        """All tilings that have what is placed here."""
        open_ones = {point: around for point, around in self.sectors.items() if None in around}
        if not open_ones:
            yield self
            return
        point, around = min(open_ones.items(), key=lambda item: (item[1].count(None), item[0]))
        start = next(k for k in range(TURN) if around[k] is None and around[k - 1] is not None)
        for size in ANGLES:
            torus = Torus(self.rows, self.stars, {at: list(these) for at, these in self.sectors.items()})
            if torus.place(np.array(point), start, size) and torus.fits():
                yield from torus.fillings()

    def net(self) -> Net:
        numbers = {point: k for k, point in enumerate(sorted(self.sectors))}
        net = Net(len(numbers))
        for point, around in self.sectors.items():
            for corner in {sector[1] for sector in around if sector}:
                end, cell = self.reduced(np.array(point) + STEPS[corner])
                net.join(numbers[point], numbers[end], cell)
        return net

    def used(self) -> set[Star]:
        """The stars of the vertices."""
        return {star for around in self.sectors.values() for star in self.stars
                if tuple(around) in _patterns(star)}


def _sectors(star: Star, start: int) -> list[Sector]:
    """The twelve sectors of a star whose first polygon begins at a direction."""
    sectors: list[Sector] = [(0, 0)] * TURN
    for size in star:
        for at in range(start, start + ANGLES[size]):
            sectors[at % TURN] = (size, start % TURN)
        start += ANGLES[size]
    return sectors


@cache
def _patterns(star: Star) -> frozenset[Sectors]:
    """The star in each direction, and turned over."""
    return frozenset(tuple(_sectors(turned[k:] + turned[:k], start)) for turned in (star, star[::-1])
                     for k in range(len(star)) for start in range(TURN))


@cache
def _is_part(around: tuple[Sector | None, ...], patterns: frozenset[Sectors]) -> bool:
    return any(all(sector in (None, wanted) for sector, wanted in zip(around, pattern)) for pattern in patterns)


def tilings(rows: tuple[Point, Point], stars: tuple[Star, ...]) -> Iterator[Torus]:
    """All tilings with these translations that have each of the stars and no other, one vertex with the first
    star at the origin."""
    for sectors in sorted(_patterns(stars[0])):
        torus = Torus(rows, stars)
        if all(torus.place(np.zeros(4, int), start, size) for size, start in sorted(set(sectors))) and torus.fits():
            yield from (filled for filled in torus.fillings() if filled.used() == set(stars))


# The stars of both kinds of vertices, and two translations
TWO_UNIFORM: dict[str, tuple[tuple[Star, Star], tuple[Point, Point]]] = {
    "tiling [3^6; 3^2.4.3.4]": (((3,) * 6, (3, 3, 4, 3, 4)), ((1, 2, 0, -1), (0, 1, 1, 1))),
    "tiling [3.4.6.4; 3^3.4^2]": (((3, 4, 6, 4), (3, 3, 3, 4, 4)), ((2, 2, 0, -1), (0, 1, 2, 1))),
    "tiling [4.6.12; 3.4.6.4]": (((4, 6, 12), (3, 4, 6, 4)), ((2, 4, 0, -2), (0, 2, 2, 2))),
    "tiling [3.12^2; 3.4.3.12]": (((3, 12, 12), (3, 4, 3, 12)), ((2, 2, 0, -1), (-1, 0, 2, 2))),
    "tiling [3.4^2.6; 3.6.3.6], a cell with right angles": (((3, 4, 4, 6), (3, 6, 3, 6)), ((1, 2, 0, -1), (0, 0, 0, 2))),
    "tiling [3.4^2.6; 3.6.3.6], a rhombic cell": (((3, 4, 4, 6), (3, 6, 3, 6)), ((0, 0, 2, 1), (2, 0, -2, -1))),
    "tiling [3^6; 3^2.4.12]": (((3,) * 6, (3, 3, 4, 12)), ((3, 2, 0, -1), (0, 1, 3, 1))),
    "tiling [3.4.6.4; 3^2.4.3.4]": (((3, 4, 6, 4), (3, 3, 4, 3, 4)), ((2, 2, 0, -1), (0, 1, 2, 1))),
    "tiling [3.4.6.4; 3.4^2.6]": (((3, 4, 6, 4), (3, 4, 4, 6)), ((3, 2, 0, -1), (0, 1, 3, 1))),
    "tiling [3^3.4^2; 3^2.4.3.4], 8 vertices": (((3, 3, 3, 4, 4), (3, 3, 4, 3, 4)), ((2, 2, 0, 0), (-1, 0, 1, 1))),
    "tiling [3^3.4^2; 3^2.4.3.4], 12 vertices": (((3, 3, 3, 4, 4), (3, 3, 4, 3, 4)), ((1, 1, 1, 1), (2, 1, -1, -2))),
}


def two_uniform_tilings() -> dict[str, Net]:
    """Of each the first net that is found whose vertices have two coordination sequences."""
    return {name: next(filter(_has_two_sequences, (torus.net() for torus in tilings(rows, stars))))
            for name, (stars, rows) in TWO_UNIFORM.items()}


def _has_two_sequences(net: Net) -> bool:
    return len({net.shells(vertex) for vertex in range(net.count)}) == 2
