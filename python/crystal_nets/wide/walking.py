"""The images of all vertices, from the image of one and the linear part of the map.

Where all arcs of a vertex have different vectors, an arc goes to the arc whose vector is the image of its own. So the map is
walked from vertex to vertex."""

from __future__ import annotations

from enum import Enum
from fractions import Fraction
from itertools import product
from math import lcm

from ..lattice import Vector, times
from .periodic_map import LONGEST_PERIOD, MOST_IMAGES, PeriodicMap, Place
from .placed import Matrix, NotFound, VectorNet

BEGINNING = 5_000      # vertices of a walk that is too long
MOST_WORK = 8_000_000  # arcs that are followed in one search


class Fault(Enum):
    """Why a walk gives no map."""

    NO_ARC = "an arc has no image"
    CLASH = "two walks to a vertex end at two that stand in one place, so that a longer period may serve"
    LONG = f"the map has more than {MOST_IMAGES:,} images, or a period past {LONGEST_PERIOD}"


class Work:
    """How much a search may still do."""

    def __init__(self, most: int = MOST_WORK) -> None:
        self.left = most

    def spend(self, amount: int) -> None:
        """NotFound where nothing is left."""
        self.left -= amount
        if self.left < 0:
            raise NotFound("the search would take too long")


class Turned:
    """The vectors of a net's arcs after a linear map, modulo the prime; computed where the walk comes to a vertex."""

    def __init__(self, net: VectorNet, matrix: Matrix) -> None:
        self.net, self.matrix = net, matrix
        self.rows: dict[int, list[Vector]] = {}

    def __getitem__(self, vertex: int) -> list[Vector]:
        row = self.rows.get(vertex)
        if row is None:
            p = self.net.prime
            row = [tuple([part % p for part in times(vector, self.matrix)]) for vector in self.net.vectors[vertex]]
            self.rows[vertex] = row
        return row


def rational(number: int, p: int, most: int = LONGEST_PERIOD) -> Fraction | None:
    """The fraction with a denominator up to `most` and a small numerator that a number modulo p stands for, if there is
    one: the convergents of Euclid's algorithm (P. S. Wang, Proc. SYMSAC (1981) 212)."""
    above, below, one, other = p, number, 0, 1
    while below * most * 4 > p:
        quotient = above // below
        above, below, one, other = below, above - quotient * below, other, one - quotient * other
    return Fraction(below, other) if other and abs(other) <= most else None


def linear_map(matrix: Matrix, p: int) -> tuple[int, tuple[Vector, ...]] | None:
    """The period of a linear part, and the images of the cells period·e1 and so on; None where it has no small one."""
    rows = [[rational(part, p) for part in row] for row in matrix]
    known = [[part for part in row if part is not None] for row in rows]
    if any(len(row) < len(matrix) for row in known):
        return None
    period = lcm(*(part.denominator for row in known for part in row))
    return period, tuple(tuple(int(part * period) for part in row) for row in known)


def is_too_long(count: int, period: int, dimension: int) -> bool:
    """Whether a map of so many vertices has more images than `verify` takes."""
    return period > LONGEST_PERIOD or count * period**dimension > MOST_IMAGES


def cells_of(period: int, dimension: int) -> list[Vector]:
    """The cells with parts below the period, in rising order."""
    return list(product(range(period), repeat=dimension))


def walk(a: VectorNet, b: VectorNet, start: int, image: int, matrix: Matrix, work: Work) -> PeriodicMap | Fault:
    """The map with this start, image and linear part, with its least period; or why there is none."""
    turned, linear = Turned(a, matrix), linear_map(matrix, a.prime)
    if linear is None:
        return _begun(a, b, turned, start, image, work)
    period, base = linear
    if is_too_long(a.count, period, a.dimension):
        return _begun(a, b, turned, start, image, work)
    return _walked(a, b, turned, start, image, period, base, work)


def _begun(a: VectorNet, b: VectorNet, turned: Turned, start: int, image: int, work: Work) -> Fault:
    """A walk that is too long, as far as some vertices: NO_ARC where an arc has no image there, and else LONG."""
    waiting = [(start, (0,) * a.dimension, image)]
    met = {waiting[0][:2]}
    for u, at, here in waiting:
        work.spend(len(a.arcs[u]))
        for vector, (v, shift) in zip(turned[u], a.arcs[u]):
            end = b.steps[here].get(vector)
            if end is None:
                return Fault.NO_ARC
            there = v, tuple([x + s for x, s in zip(at, shift)])
            if there not in met and len(waiting) <= BEGINNING:
                met.add(there)
                waiting.append((*there, end[0]))
    return Fault.LONG


def _walked(a: VectorNet, b: VectorNet, turned: Turned, start: int, image: int, period: int, base: tuple[Vector, ...],
            work: Work) -> PeriodicMap | Fault:
    """The walk over all cells below the period. What lies beyond goes where its cell within the period goes, moved by the
    base rows."""
    size = range(a.dimension)
    begin = start, (0,) * a.dimension
    found: dict[Place, Place] = {begin: (image, begin[1])}
    waiting = [begin]
    for u, at in waiting:
        here, cell = found[u, at]
        steps = b.steps[here]
        work.spend(len(a.arcs[u]))
        for vector, (v, shift) in zip(turned[u], a.arcs[u]):
            end = steps.get(vector)
            if end is None:
                return Fault.NO_ARC
            if period == 1:
                whole, home = shift, begin[1]
            else:
                whole, home = zip(*[divmod(x + s, period) for x, s in zip(at, shift)])
            moved = times(whole, base)
            there = end[0], tuple([cell[k] + end[1][k] - moved[k] for k in size])
            known = found.setdefault((v, home), there)
            if known is there:
                waiting.append((v, home))
            elif known != there:
                return Fault.CLASH
    cells = cells_of(period, a.dimension)
    if len(found) < a.count * len(cells):
        raise NotFound("the net is not connected")
    return PeriodicMap(period, {(u, at): found[u, at] for u in range(a.count) for at in cells}, base)
