"""Shortest cycles and shortest rings at the angles of a vertex.

An angle is a vertex with two of its neighbours. A ring is a cycle without a short cut: no path between two of its vertices
is shorter than the way along the cycle. So it is no sum of two smaller cycles (K. Goetzke and H.-J. Klein, J. Non-Cryst.
Solids 127 (1991) 215; M. O'Keeffe and S. T. Hyde, Zeolites 19 (1997) 370). It is enough that vertices opposite to each other
in the cycle are as far from each other in the net."""

from __future__ import annotations

from collections import defaultdict
from collections.abc import Iterable, Iterator
from dataclasses import dataclass

from ..wide.walking import Work
from .infinite import InfiniteNet

MOST_CYCLE = 24  # edges of a cycle or a ring that is looked for
Pair = tuple[int, int]


@dataclass(frozen=True, order=True)
class Rings:
    """How many edges the shortest rings at an angle have, and how many such rings there are. Size 0 where there is none of
    up to 24 edges."""

    size: int
    count: int


def shortest_cycle(net: InfiniteNet, corner: int, one: int, other: int, work: Work) -> int:
    """How many edges the shortest cycle through an angle has; 0 where there is none of up to 24."""
    seen, shell = {corner, one}, [one]
    for size in range(3, MOST_CYCLE + 1):
        following = []
        work.spend(net.arcs_of(shell))
        for vertex in shell:
            for near in net.near(vertex):
                if near == other:
                    if vertex != corner:
                        return size
                elif near not in seen:
                    seen.add(near)
                    following.append(near)
        shell = following
    return 0


def shortest_rings(net: InfiniteNet, corner: int, one: int, other: int, work: Work) -> Rings:
    """The shortest rings through an angle; the corner stands in cell 0."""
    for size in range(3, MOST_CYCLE + 1):
        count = sum(_Walk(net, corner, ends, size, work).rings(one, other) for ends in _opposite(net, corner, size, work))
        if count:
            return Rings(size, count)
    return Rings(0, 0)


def is_ring(net: InfiniteNet, cycle: list[int]) -> bool:
    """Whether a cycle has no short cut. It is enough to look at vertices that are opposite to each other."""
    half = len(cycle) // 2
    return all(net.distance(u, v, half) == half for u, v in zip(cycle, cycle[half:] + cycle[:half]))


def _opposite(net: InfiniteNet, corner: int, size: int, work: Work) -> Iterator[Pair]:
    """What may be opposite to the corner in a ring of this size: a vertex, twice, or the ends of an edge."""
    half = size // 2
    shell = net.shell(corner, half)
    work.spend(len(shell))
    for end in shell:
        if size % 2 == 0:
            yield end, end
        else:
            yield from ((end, near) for near in net.near(end) if net.distance(corner, near, half) == half)


@dataclass(frozen=True)
class _Walk:
    """Two vertices that go around a ring, opposite to each other: the first from the corner to the end, and the second from
    there back to the corner. They go on by one edge in turn, and are always as far from each other in the net as in the ring."""

    net: InfiniteNet
    corner: int
    ends: Pair  # where the first comes to, and where the second begins
    size: int
    work: Work

    def rings(self, one: int, other: int) -> int:
        """How many rings go from the corner to the one neighbour, and come back by the other. Rings in which the two vertices
        are at the same places go on together."""
        half = self.size // 2
        if self.net.distance(one, self.ends[0], half) != half - 1 or self.net.distance(other, self.ends[1], half) != half - 1:
            return 0
        places: dict[Pair, int] = {(self.corner, self.ends[1]): 1}
        for gone in range(1, half + 1):
            places = self._first_goes_on(places, gone)
            if gone == 1:
                places = {pair: count for pair, count in places.items() if pair[0] == one}
            if gone < half:
                places = self._second_goes_on(places, half - gone)
        return sum(count for (_, second), count in places.items() if second == other)

    def _first_goes_on(self, places: dict[Pair, int], gone: int) -> dict[Pair, int]:
        """With the first so many edges from the corner."""
        end, half = self.ends[0], self.size // 2
        left, apart = half - gone, half if self.size % 2 else half - 1
        return self._kept((((near, second), count) for (first, second), count in places.items() for near in self.net.near(first)
                           if self.net.distance(end, near, left) == left), apart)

    def _second_goes_on(self, places: dict[Pair, int], left: int) -> dict[Pair, int]:
        """With the second so many edges from the corner."""
        return self._kept((((first, near), count) for (first, second), count in places.items() for near in self.net.near(second)
                           if self.net.distance(self.corner, near, left) == left), self.size // 2)

    def _kept(self, found: Iterable[tuple[Pair, int]], apart: int) -> dict[Pair, int]:
        """Those that are so far from each other, in all ways that lead there."""
        kept: dict[Pair, int] = defaultdict(int)
        for pair, count in found:
            self.work.spend(1)
            if self.net.distance(*pair, apart) == apart:
                kept[pair] += count
        return kept
