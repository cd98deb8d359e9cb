"""The vertices of the infinite net as whole numbers, and how far they are from each other.

The vertex u in a cell has the number u + count·c, where c has the parts of the cell as the digits of a base. So to follow an arc
is to add a number."""

from __future__ import annotations

from collections.abc import Iterable

from ..graph import QuotientGraph
from ..lattice import Vector
from ..wide.placed import NotFound
from ..wide.walking import Work

BASE = 1 << 20  # above twice the parts of the cells that are reached
MOST_HELD = 1_500_000  # vertices in all balls of a net


class InfiniteNet:
    """The infinite net of a quotient graph whose vertices 0 to count - 1 in cell 0 have these numbers.

    steps  of each vertex of a cell what its arcs add to its number; two edges between the same ends are one
    work   what may still be done; NotFound is raised where it is used up, or too many vertices are held"""

    def __init__(self, graph: QuotientGraph, work: Work) -> None:
        self.work = work
        self.held = 0
        self.count = len(graph.vertices)
        self.steps = [sorted({v - u + self.count * _number(shift) for v, shift in arcs})
                      for u, arcs in enumerate(graph.arcs())]
        self._balls = [Ball(self, u) for u in range(self.count)]

    def hold(self, count: int) -> None:
        """Counts vertices that are held in a ball. NotFound if there are too many."""
        self.held += count
        if self.held > MOST_HELD:
            raise NotFound("the surroundings of its vertices are too large")

    def near(self, vertex: int) -> Iterable[int]:
        """The neighbours of a vertex."""
        return (vertex + step for step in self.steps[vertex % self.count])

    def arcs_of(self, vertices: Iterable[int]) -> int:
        """How many arcs these vertices have."""
        return sum(len(self.steps[vertex % self.count]) for vertex in vertices)

    def shell(self, start: int, radius: int) -> list[int]:
        """The vertices at this distance from one in cell 0."""
        return self._balls[start].shell(radius)

    def distance(self, one: int, other: int, most: int) -> int:
        """How many edges a shortest path has, where these are `most` at most; else most + 1."""
        start = one % self.count
        return self._balls[start].distance(other - one + start, most)


class Ball:
    """The vertices around one, by their distances, as far as was asked."""

    def __init__(self, net: InfiniteNet, start: int) -> None:
        self.net = net
        self.distances = {start: 0}
        self.shells = [[start]]

    def shell(self, radius: int) -> list[int]:
        while len(self.shells) <= radius:
            self._grow()
        return self.shells[radius]

    def distance(self, vertex: int, most: int) -> int:
        found = self.distances.get(vertex)
        while found is None and len(self.shells) <= most:
            self._grow()
            found = self.distances.get(vertex)
        return most + 1 if found is None else found

    def _grow(self) -> None:
        radius, shell = len(self.shells), []
        self.net.work.spend(self.net.arcs_of(self.shells[-1]))
        for vertex in self.shells[-1]:
            for other in self.net.near(vertex):
                if other not in self.distances:
                    self.distances[other] = radius
                    shell.append(other)
        self.net.hold(len(shell))
        self.shells.append(shell)


def _number(shift: Vector) -> int:
    """The parts of a cell as the digits of a base."""
    number = 0
    for part in shift:
        number = number * BASE + part
    return number
