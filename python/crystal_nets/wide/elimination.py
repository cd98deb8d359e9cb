"""The barycentric placement modulo a prime, by elimination.

Each vertex v is to stand at the mean of its neighbours: the sum over its arcs of (position of the end - position of v) is 0.
These linear equations have whole coefficients, and one solution up to a translation where the quotient graph is connected.
Modulo a prime they have the image of that solution, unless the prime divides a determinant; then a sum has no inverse."""

from __future__ import annotations

from collections import Counter
from collections.abc import Sequence
from heapq import heapify, heappop, heappush
from operator import mul
from typing import NamedTuple

from ..lattice import Vector

Arcs = list[list[tuple[int, Vector]]]  # of each vertex its neighbours with their cells
DENSE = 2  # a vertex that is joined to one of so many of the rest begins the dense part


class NoInverse(ArithmeticError):
    """A number has no inverse modulo the prime."""


class Eliminated(NamedTuple):
    """A vertex that was taken out: its position is its offset and the mean of its neighbours, weighted by the factors."""

    vertex: int
    neighbours: list[int]
    factors: list[int]


def inverse(number: int, p: int) -> int:
    """Modulo p. NoInverse where there is none."""
    if number % p == 0:
        raise NoInverse
    return pow(number, -1, p)


def barycentric_positions(arcs: Arcs, dimension: int, p: int) -> list[Vector]:
    """The positions modulo the prime p, with some vertex in the origin. NoInverse where a sum has no inverse.

    Vertices are taken out one after the other, that with the fewest neighbours first. Its neighbours i and j are joined by
    the weight w(i,k) * w(k,j) / W, as in a network of resistors, where W is the sum of its weights. Numbers are reduced
    modulo p only when their vertex is taken out. Once most of the rest is joined to most of it, the rest goes on as whole
    rows."""
    network = _Network(arcs, dimension, p)
    order = network.sparse_part()
    rest = network.left()
    order += network.dense_part(rest)
    positions: list[Vector] = [()] * len(arcs)
    positions[rest[-1]] = (0,) * dimension
    for vertex, neighbours, factors in reversed(order):
        there = [positions[i] for i in neighbours]
        positions[vertex] = tuple([(own + sum(map(mul, factors, column))) % p
                                   for own, column in zip(network.offsets[vertex], zip(*there))])
    return positions


class _Network:
    """The equations: of each vertex its weights to the others, and the sum of the shifts of its arcs."""

    def __init__(self, arcs: Arcs, dimension: int, p: int) -> None:
        self.p = p
        self.weights: list[dict[int, int]] = []
        self.offsets: list[list[int]] = []
        self.is_left = [True] * len(arcs)
        for u, row in enumerate(arcs):
            others = [(v, shift) for v, shift in row if v != u]  # a loop pulls in both directions alike
            self.weights.append(dict(Counter(v for v, _ in others)))
            self.offsets.append([sum(column) for column in zip(*(shift for _, shift in others))] or [0] * dimension)

    def left(self) -> list[int]:
        return [u for u, is_there in enumerate(self.is_left) if is_there]

    def sparse_part(self) -> list[Eliminated]:
        """Takes out vertices as long as they have few neighbours; one vertex at least stays."""
        heap = [(len(row), u) for u, row in enumerate(self.weights)]
        heapify(heap)
        order = []
        left = len(heap)
        while left > 1:
            size, vertex = heappop(heap)
            if not self.is_left[vertex] or size != len(self.weights[vertex]):
                continue  # it was taken out, or has another number of neighbours since
            if size * DENSE > left:
                break
            left -= 1
            done = self._without(vertex)
            order.append(done)
            for i in done.neighbours:
                heappush(heap, (len(self.weights[i]), i))
        return order

    def _without(self, vertex: int) -> Eliminated:
        """Takes a vertex out."""
        row, factors, own = self.weights[vertex], *self._solved(vertex, list(self.weights[vertex].values()))
        self.is_left[vertex] = False
        values = [value % self.p for value in row.values()]
        for i, factor in zip(row, factors):
            other = self.weights[i]
            del other[vertex]
            _add(other, factor, row, values, i)
            self._move(i, factor, own)
        return Eliminated(vertex, list(row), factors)

    def _solved(self, vertex: int, weights: Sequence[int]) -> tuple[list[int], list[int]]:
        """The weights of a vertex over their sum, and its offset, which becomes that of its equation solved for it."""
        p = self.p
        scale = inverse(sum(weights), p)
        own = [part % p for part in self.offsets[vertex]]
        self.offsets[vertex] = [part * scale % p for part in own]
        return [value * scale % p for value in weights], own

    def _move(self, vertex: int, factor: int, offset: Sequence[int]) -> None:
        self.offsets[vertex] = [total + factor * part for total, part in zip(self.offsets[vertex], offset)]

    def dense_part(self, rest: list[int]) -> list[Eliminated]:
        """Takes out all but the last of the rest, with a row for each vertex over those after it."""
        p = self.p
        rows = [[self.weights[u].get(v, 0) for v in rest[k + 1:]] for k, u in enumerate(rest)]
        order = []
        for k, u in enumerate(rest[:-1]):
            values = [value % p for value in rows[k]]
            factors, own = self._solved(u, values)
            for i, factor in enumerate(factors, start=1):
                if factor:
                    rows[k + i] = [x + factor * y for x, y in zip(rows[k + i], values[i:])]
                    self._move(rest[k + i], factor, own)
            order.append(Eliminated(u, rest[k + 1:], factors))
        return order


def _add(row: dict[int, int], factor: int, others: Sequence[int] | dict[int, int], values: list[int], own: int) -> None:
    """Adds so many times the weights of others to those of a row, all but the weight to itself."""
    for j, value in zip(others, values):
        if j in row:
            row[j] += factor * value
        elif j != own:
            row[j] = factor * value
