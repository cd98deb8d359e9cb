"""The vertices of a net gathered at the places where they stand.

A site is a position; the vertices that stand there are its fibre. The sites and the different vectors between them are a net in
which an arc is known by its vector, as a net without collisions. A map between two nets is an affine map of their sites, and
over it a map of the fibres."""

from __future__ import annotations

from collections import Counter
from collections.abc import Sequence
from fractions import Fraction
from functools import cached_property
from hashlib import blake2b
from itertools import combinations
from typing import NamedTuple

from ..graph import QuotientGraph
from ..lattice import Vector, add, index, staircase, subtract
from .colours import closed_walks, mixed, refined
from .folding import FoldedNet
from .periodic_map import Place
from .placed import NotFound, PlacedNet, VectorNet

LARGEST_SHIFT = 1 << 20  # between two vertices of a cell that stand in one place
VERTEX_ROUNDS, SITE_ROUNDS = 6, 2  # in which colours take in those of the neighbours
MOST_VECTORS = 40  # of a site whose inner products are compared


class Fibres(NamedTuple):
    """In how many places the vertices of a cell stand, and how many at most in one."""

    sites: int
    largest: int


def fibres_of(graph: QuotientGraph) -> Fibres:
    """Of a net, leaves and twins among its vertices. NotFound if it cannot be placed."""
    sizes = [len(cluster) for cluster in _clusters(PlacedNet(graph))]
    return Fibres(len(sizes), max(sizes))


class FibredNet:
    """A net with leaves and twins folded away, its vertices gathered at sites.

    whole    the net as it was given
    folded   what is left of it, and what is inside
    placed   that, placed
    site     of each vertex that is left its site, and its offset: the vertex in the cell x is at the site in the cell x + offset
    members  of each site its vertices with their offsets

    NotFound where the net is not connected."""

    def __init__(self, whole: PlacedNet) -> None:
        if not is_connected(whole.graph):
            raise NotFound("the net is not connected")
        self.whole, self.prime, self.dimension = whole, whole.prime, whole.dimension
        self.placed, self.folded = whole, None if _is_plain(whole) else FoldedNet(whole.graph)
        if self.folded and len(self.folded.kept) < whole.count:
            self.placed = PlacedNet(self.folded.graph, whole.prime)
        self.site, self.members = _gathered(self.placed)
        self.place_in_fibre = [0] * self.placed.count
        for members in self.members:
            for k, (u, _) in enumerate(members):
                self.place_in_fibre[u] = k
        self.is_stable = self.folded is None

    @property
    def largest_fibre(self) -> int:
        """How many vertices stand in one place, at most, of those that are left."""
        return max(map(len, self.members))

    @cached_property
    def sites(self) -> Sites:
        return Sites(self)

    @cached_property
    def own_colours(self) -> list[int]:
        """Of each vertex that is left what is folded into it, and how many closed walks it has."""
        inside = self.folded.colours if self.folded else [0] * self.placed.count
        return [mixed(*both) for both in zip(inside, closed_walks(self.placed.arcs))]

    @cached_property
    def colours(self) -> list[int]:
        """Of each vertex that is left a number that depends on the net alone."""
        return refined(self.own_colours, self.placed.lengths, self.placed.arcs, VERTEX_ROUNDS)

    @cached_property
    def shares(self) -> tuple[Counter[int], Counter[int]]:
        """How often each colour occurs among the vertices that are left, and each kind among the sites."""
        return Counter(self.colours), Counter(self.sites.kinds)

    @cached_property
    def index(self) -> str:
        """32 digits that are equal for isomorphic nets in whatever cells: of the dimension, the prime, the volume of a vertex, and
        how often each colour of vertices and each kind of sites occurs."""
        count = self.placed.count
        shares = [sorted((one, Fraction(times, count).as_integer_ratio()) for one, times in counts.items()) for counts in self.shares]
        content = repr((self.dimension, self.prime, self.placed.volume, shares))
        return blake2b(content.encode(), digest_size=16).hexdigest()

    def unfolded(self, other: FibredNet, vertex: Place, image: Place) -> list[tuple[Place, Place]]:
        """The images of a vertex that is left and of all that is folded into it."""
        if self.folded and other.folded:
            return self.folded.unfolded(other.folded, vertex, image)
        return [(vertex, image)]


class Sites(VectorNet):
    """The sites of a net, and the different vectors between them; at a site no two arcs have one vector. Zero vectors, between
    vertices of one site, are left out.

    kinds    of each site a number by its fibre and the inner products of its vectors
    colours  these, with those of the sites around"""

    def __init__(self, net: FibredNet) -> None:
        placed = net.placed
        self.prime, self.dimension, self.metric = placed.prime, placed.dimension, placed.metric
        self.count = len(net.members)
        steps = [_steps_of(net, members) for members in net.members]
        self.arcs = [list(row.values()) for row in steps]
        self.vectors = [list(row) for row in steps]
        self.kinds = [mixed(sorted(net.colours[u] for u, _ in members), self._products(row, lengths))
                      for members, row, lengths in zip(net.members, self.vectors, self.lengths)]
        self.colours = refined(self.kinds, self.lengths, self.arcs, SITE_ROUNDS)

    def _products(self, row: list[Vector], lengths: list[int]) -> list[int]:
        """The inner products of each two vectors of a site; of many vectors their lengths alone."""
        if len(row) > MOST_VECTORS:
            return sorted(lengths)
        return sorted([*lengths, *(self.product(one, other) for one, other in combinations(row, 2))])


def _steps_of(net: FibredNet, members: list[Place]) -> dict[Vector, Place]:
    """Of a site in cell 0: vector -> the site to which it leads, with its cell."""
    placed, found = net.placed, {}
    for u, offset in members:
        for vector, (v, shift) in zip(placed.vectors[u], placed.arcs[u]):
            if any(vector) and vector not in found:
                there, other = net.site[v]
                found[vector] = there, add(subtract(shift, offset), other)
    return found


def is_connected(graph: QuotientGraph) -> bool:
    """Whether the infinite net is: closed walks reach all cells."""
    if len(graph.connected_parts()) != 1:
        return False
    cells = graph.walks()
    basis = staircase(subtract(add(cells[u], shift), cells[v]) for u, v, shift in graph.edges)
    return len(basis) == graph.dimension and index(basis) == 1


def difference(one: FibredNet, other: FibredNet) -> str:
    """Which invariant differs; empty where none of these does."""
    if one.dimension != other.dimension:
        return "dimension"
    if one.placed.volume != other.placed.volume:
        return "volume of a vertex"
    for ours, theirs, what in zip(one.shares, other.shares, ("vertices", "sites")):
        if ours.keys() != theirs.keys():
            return f"kinds of {what}"
        if any(ours[kind] * other.placed.count != theirs[kind] * one.placed.count for kind in ours):
            return f"shares of {what}"
    return ""


def _is_plain(net: PlacedNet) -> bool:
    """Whether all vertices stand at sites of their own."""
    return len(_clusters(net)) == net.count


def _gathered(net: PlacedNet) -> tuple[list[Place], list[list[Place]]]:
    """Of each vertex its site and offset, and of each site its members."""
    p, half = net.prime, net.prime // 2
    site: list[Place] = [(0, ())] * net.count
    members: list[list[Place]] = []
    for number, cluster in enumerate(sorted(_clusters(net))):
        first = net.places[cluster[0]]
        found = [(u, tuple([(x - y + half) % p - half for x, y in zip(net.places[u], first)])) for u in cluster]
        members.append(found)
        for u, offset in found:
            site[u] = number, offset
    return site, members


def _clusters(net: PlacedNet) -> list[list[int]]:
    """The vertices of each site in rising order. Positions of one site differ by whole numbers, and these are small; modulo
    the prime no two other positions are near each other, but by a chance of 1 in some 10^9."""
    clusters = [list(range(net.count))]
    for axis in range(net.dimension):
        parts = [place[axis] for place in net.places]
        clusters = [part for cluster in clusters for part in _near_each_other(cluster, parts, net.prime)]
    return [sorted(cluster) for cluster in clusters]


def _near_each_other(cluster: list[int], parts: Sequence[int], p: int) -> list[list[int]]:
    """A cluster parted where two numbers next to each other, on a circle of p, are far from each other."""
    if len(cluster) == 1:
        return [cluster]
    cluster = sorted(cluster, key=parts.__getitem__)
    found = [[cluster[0]]]
    for before, u in zip(cluster, cluster[1:]):
        if parts[u] - parts[before] <= LARGEST_SHIFT:
            found[-1].append(u)
        else:
            found.append([u])
    if len(found) > 1 and parts[cluster[0]] + p - parts[cluster[-1]] <= LARGEST_SHIFT:
        found[0] = found.pop() + found[0]
    return found
