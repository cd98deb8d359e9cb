"""A net placed modulo a prime.

An isomorphism of two connected nets is affine on their barycentric positions: it carries the mean of neighbours to the mean of
neighbours, and the placement is unique up to translation. Let A be its linear part, and S the sum of v v^T over the vectors v of
all arcs from a cell, divided by the number of vertices of the cell. S is a mean over vertices, so it depends neither on the size
of the cell nor on its origin; another basis, or another net, turns it into A S A^T. So the inner product u^T S^-1 v of two vectors
is the same for their images. This metric, in which S is the unit matrix, is that of the standard realization (M. Kotani and
T. Sunada, Trans. Amer. Math. Soc. 353 (2001) 1). Lengths of arcs are invariant in it, and so is the volume of the cell for each
vertex, det(S^-1) over the square of the number of vertices.

Modulo a prime all this holds as well, since positions modulo a prime are the images of the rational ones. What is equal there
is equal here: isomorphic nets have equal invariants, whatever the prime. Two numbers that differ are equal modulo a prime of 61
bits only where it divides their difference."""

from __future__ import annotations

from functools import cached_property
from operator import mul
from typing import TYPE_CHECKING

from ..graph import QuotientGraph
from ..lattice import Vector, adjugate, determinant
from .elimination import Arcs, NoInverse, barycentric_positions, inverse

if TYPE_CHECKING:
    from .sites import FibredNet

PRIMES = (2**61 - 1, 2**89 - 1, 2**107 - 1)
Matrix = list[list[int]]
Steps = list[dict[Vector, tuple[int, Vector]]]


class NotFound(Exception):
    """The search cannot go on with these nets, for this reason. It says nothing of the nets."""


class VectorNet:
    """Vertices, or sites, with arcs whose vectors are known modulo a prime.

    arcs     of each vertex its neighbours with their cells
    vectors  of each vertex: of each arc the vector, in the order of the arcs
    metric   in which inner products are the same for images
    colours  of each vertex a number that depends on the net alone; only of sites"""

    prime: int
    dimension: int
    count: int
    arcs: Arcs
    vectors: list[list[Vector]]
    metric: Matrix
    colours: list[int]

    def product(self, one: Vector, other: Vector) -> int:
        """The inner product of two vectors in the metric of the net."""
        total: int = sum([part * sum(map(mul, row, other)) for part, row in zip(one, self.metric)])
        return total % self.prime

    @cached_property
    def lengths(self) -> list[list[int]]:
        """Of each arc the square of its length in the metric of the net."""
        return [[self.product(vector, vector) for vector in row] for row in self.vectors]

    @cached_property
    def steps(self) -> Steps:
        """Of each vertex: vector -> its arc. Where two arcs have one vector only one of them is there."""
        return [dict(zip(row, arcs)) for row, arcs in zip(self.vectors, self.arcs)]


class PlacedNet(VectorNet):
    """A net with the vectors of its arcs modulo a prime.

    graph    each edge once, as `edge` writes it
    places   of each vertex in cell 0 its position modulo the prime
    volume   the square of the volume of the cell for each of its vertices, in the metric of the net

    NotFound where no prime of the list serves."""

    def __init__(self, graph: QuotientGraph, prime: int = 0) -> None:
        self.graph = graph
        self.dimension, self.count = graph.dimension, len(graph.vertices)
        self.arcs = graph.arcs()
        for self.prime in [prime] if prime else PRIMES:
            try:
                self._place()
                break
            except NoInverse:
                continue
        else:
            raise NotFound("modulo each prime a sum has no inverse: is the net connected?")
        self.volume = determinant(self.metric) * pow(self.count, -2, self.prime) % self.prime

    def _place(self) -> None:
        """The vectors and the metric. NoInverse where the prime does not serve."""
        p, size = self.prime, range(self.dimension)
        places = self.places = barycentric_positions(self.arcs, self.dimension, p)
        self.vectors = [[tuple([(places[v][k] + shift[k] - place[k]) % p for k in size]) for v, shift in row]
                        for place, row in zip(places, self.arcs)]
        columns = list(zip(*(vector for row in self.vectors for vector in row)))
        scale = inverse(self.count, p)
        self.metric = inverse_matrix([[sum(map(mul, one, other)) * scale % p for other in columns] for one in columns], p)

    @cached_property
    def fibred(self) -> FibredNet:
        """The net as maps of it are looked for. NotFound where it is not connected."""
        from .sites import FibredNet  # here, since sites stand on placements
        return FibredNet(self)

    @property
    def is_stable(self) -> bool:
        """Whether no two vertices stand in one place, so that the net has a key where the limits allow it."""
        return self.fibred.is_stable

    @property
    def index(self) -> str:
        """32 digits that are equal for isomorphic nets in whatever cells."""
        return self.fibred.index


def inverse_matrix(rows: Matrix, p: int) -> Matrix:
    """Modulo p. NoInverse where there is none."""
    scale = inverse(determinant(rows), p)
    return [[part * scale % p for part in row] for row in adjugate(rows)]
