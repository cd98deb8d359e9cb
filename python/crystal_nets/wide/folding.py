"""Leaves and twins of a net, folded into the vertices that they hang on.

A leaf has one neighbour, as the hydrogen atoms of graphane; open twins have the same neighbours, as the two sulphur atoms above
and below one place in MoS2; closed twins have the same neighbours and each other. The placement lays them upon each other, and
a map may exchange them at will. So they are folded away, again and again, and the colour of a vertex says what is in it. An
isomorphism carries each round of folding to the same round: two nets are isomorphic if and only if the folded ones are, by a map
that keeps colours."""

from __future__ import annotations

from collections.abc import Iterator
from enum import IntEnum

from ..graph import QuotientGraph, edge
from ..lattice import Vector, add, negate, subtract
from .colours import mixed
from .periodic_map import Place

Rounds = list[tuple["Kind", list["Member"]]]
Member = tuple[int, int, Vector]  # the colour of a vertex, the vertex, and its cell if its host is in cell 0
PLAIN = 0                         # the colour of a vertex in which nothing is
MOST_ROUNDS = 1 << 30             # of folding into one vertex


class Kind(IntEnum):
    LEAF = 1
    OPEN_TWIN = 2
    CLOSED_TWIN = 3


class FoldedNet:
    """What is left of a net.

    graph    of the vertices that are left
    kept     their numbers in the net
    colours  of each of them a number that says what is folded into it
    inside   of each vertex of the net, for each round in which something was folded into it, what kind that was, and the members
             in rising order"""

    def __init__(self, graph: QuotientGraph) -> None:
        self._near = [set(row) for row in graph.arcs()]
        self._colours = [PLAIN] * len(graph.vertices)
        self._left = set(range(len(graph.vertices)))
        self.inside: list[Rounds] = [[] for _ in graph.vertices]
        while self._fold(Kind.LEAF, self._leaves()) or any(self._fold(kind, self._twins(kind)) for kind in
                                                           (Kind.OPEN_TWIN, Kind.CLOSED_TWIN)):
            pass
        self.kept = sorted(self._left)
        number = {vertex: k for k, vertex in enumerate(self.kept)}
        edges = (edge(number[u], number[v], shift) for u, v, shift in graph.edges if u in number and v in number)
        self.graph = QuotientGraph.of(range(1, 1 + len(self.kept)), edges, graph.dimension)
        self.colours = [self._colours[vertex] for vertex in self.kept]

    def _leaves(self) -> dict[int, list[Member]]:
        """The vertices with one neighbour, by their neighbours."""
        groups: dict[int, list[Member]] = {}
        for v in self._left:
            if len(self._near[v]) == 1:
                (host, shift), = self._near[v]
                groups.setdefault(host, []).append((self._colours[v], v, negate(shift)))
        return groups

    def _twins(self, kind: Kind) -> dict[int, list[Member]]:
        """All but the first of the vertices of one colour with the same neighbours, by the first."""
        groups: dict[int, list[Member]] = {}
        first: dict[tuple[int, frozenset[Place]], tuple[int, Vector]] = {}
        for v in sorted(self._left):
            arcs = self._near[v]
            if kind is Kind.CLOSED_TWIN:
                arcs = arcs | {(v, (0,) * len(next(iter(arcs))[1]))}
            begin = min(arcs)[1]
            seen = self._colours[v], frozenset([(w, subtract(shift, begin)) for w, shift in arcs])
            host, there = first.setdefault(seen, (v, begin))
            if host != v:
                groups.setdefault(host, []).append((self._colours[v], v, subtract(there, begin)))
        return groups

    def _fold(self, kind: Kind, groups: dict[int, list[Member]]) -> bool:
        """Folds members into their hosts; whether there were any."""
        for host, members in groups.items():
            members.sort()
            self.inside[host].append((kind, members))
            self._colours[host] = mixed(self._colours[host], int(kind), [colour for colour, _, _ in members])
            for _, vertex, _ in members:
                self._take_away(vertex)
        return bool(groups)

    def _take_away(self, vertex: int) -> None:
        self._left.discard(vertex)
        for w, shift in self._near[vertex]:
            if w != vertex:
                self._near[w].discard((vertex, negate(shift)))
        self._near[vertex] = set()

    def unfolded(self, other: FoldedNet, vertex: Place, image: Place) -> list[tuple[Place, Place]]:
        """The images of a vertex that is left, and of all that is folded into it, if it goes to a vertex of another net."""
        return _carried(self, other, (self.kept[vertex[0]], vertex[1]), (other.kept[image[0]], image[1]))

    def exchanges(self, origin: Vector) -> Iterator[list[tuple[Place, Place]]]:
        """The images under maps of the net to itself that exchange two leaves, or two twins, and all that is in them."""
        for host, rounds in enumerate(self.inside):
            for number, (kind, members) in enumerate(rounds):
                alike = [(colour, (vertex, cell), MOST_ROUNDS) for colour, vertex, cell in members]
                if kind is not Kind.LEAF:  # the host is a twin of them, with what was in it before
                    alike.insert(0, (members[0][0], (host, origin), number))
                for (colour, one, rounds_of_one), (other_colour, other, _) in zip(alike, alike[1:]):
                    if colour == other_colour:
                        yield [*_carried(self, self, one, other, rounds_of_one), *_carried(self, self, other, one, rounds_of_one)]


def _carried(net: FoldedNet, other: FoldedNet, vertex: Place, image: Place, most: int = MOST_ROUNDS) -> list[tuple[Place, Place]]:
    """The images of a vertex of the net and of what is folded into it, of its first rounds."""
    waiting = [(vertex, image)]
    for (u, cell), (v, there) in waiting:  # grows
        limit = most if (u, v) == (vertex[0], image[0]) else MOST_ROUNDS
        for (_, ours), (_, theirs) in zip(net.inside[u][:limit], other.inside[v][:limit]):
            waiting += [((x, add(cell, s)), (y, add(there, t))) for (_, x, s), (_, y, t) in zip(ours, theirs)]
    return waiting
