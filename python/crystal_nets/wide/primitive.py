"""The net over the lattice of all its translations, on a short basis. Not proved: a map to it, which `verify` takes, is.

A net may be refused in one cell and have a key in another: the common denominator of a smaller cell divides that of the larger
one times their index, and coordinates on a short basis are smaller."""

from __future__ import annotations

from collections import Counter
from collections.abc import Hashable, Iterator, Sequence
from dataclasses import dataclass
from fractions import Fraction
from functools import reduce
from math import gcd, lcm

from ..graph import QuotientGraph, edge
from ..lattice import Vector, add, adjugate, determinant, staircase, subtract, times, unit_matrix
from .fibres import FibreSearch
from .lifting import Lifting, Refuted
from .over_sites import SiteMap
from .periodic_map import PeriodicMap, Place
from .placed import NotFound, PlacedNet
from .shortening import shortened
from .sites import FibredNet
from .walking import Work, walk

MOST_DEFECT = 64  # of the order of what a translation may exchange

Rows = list[Vector]
Move = list[Place]  # of each vertex in cell 0: where a translation carries it


@dataclass(frozen=True)
class PrimitiveNet:
    """A net with no translation but its shifts, and the map of the given net to it, of period 1.

    index  as many of its cells go into the given one"""

    graph: QuotientGraph
    map: PeriodicMap
    index: int


def primitive_net(net: PlacedNet) -> PrimitiveNet:
    """The net on a short basis of all its translations; a net with collisions on one of those that were found. NotFound if the
    search gives up.

    Maps that turn nothing may be no group of translations where vertices collide: applied twice, one may exchange two sheets.
    So the map to each smaller cell is checked, and the net stays in its cell if that is none."""
    if net.is_stable:
        return _over(net, generators(net))
    small = _over(net, [])
    work = Work()
    try:
        while smaller := _step(small.graph, net.prime, work):
            small = PrimitiveNet(smaller.graph, small.map.then(smaller.map), small.index * smaller.index)
    except NotFound:
        pass  # the cell so far is right, and may be too large
    return small


def _over(net: PlacedNet, moves: Sequence[Move]) -> PrimitiveNet:
    """The net over the lattice of these translations. NotFound if they are none of a lattice."""
    small = _Quotient(net, moves, Lattice.of(moves, net)).net()
    if not small.map.carries(net.graph, small.graph):
        raise NotFound("a smaller cell was found wrong")
    return small


def _step(graph: QuotientGraph, prime: int, work: Work) -> PrimitiveNet | None:
    """A net with collisions on a larger lattice of translations; None if none was found."""
    net = PlacedNet(graph, prime)
    for sites in _translations(net.fibred, work):
        move = _lifted(sites, work)
        if move:
            return _over(net, [move])
    return None


def _translations(net: FibredNet, work: Work) -> Iterator[SiteMap]:
    """The translations of the sites, one for each image of some site in another class."""
    colours = net.sites.colours
    start = _start_of_translations(colours)
    if start is None:
        return
    unit = unit_matrix(net.dimension)
    for image in range(net.sites.count):
        if image != start and colours[image] == colours[start]:
            walked = walk(net.sites, net.sites, start, image, unit, work)
            if isinstance(walked, PeriodicMap):
                yield SiteMap(net, net, unit, walked)


def _start_of_translations(kinds: Sequence[Hashable]) -> int | None:
    """A vertex, or a site, of the rarest kind. None if the net has no translations but its shifts: they act freely, so the order
    of their group divides how often each kind occurs."""
    counts = Counter(kinds)
    if reduce(gcd, counts.values()) == 1:
        return None
    rarest = min(counts.values())
    return next(k for k, kind in enumerate(kinds) if counts[kind] == rarest)


def _lifted(sites: SiteMap, work: Work) -> Move | None:
    """A translation of the net over one of its sites; None if none was found. It goes along with all shifts, and applied as often
    as brings the sites home it is a shift."""
    try:
        found = Lifting(sites, FibreSearch(work)).at_once()
    except Refuted:
        return None
    if found is None:
        return None
    zero = (0,) * sites.first.dimension
    move = [found.images[u, zero] for u in range(sites.first.whole.count)]
    order, shift = _order([sites.map.images[site, zero] for site in range(sites.first.sites.count)])
    return _without_defect(move, order, shift)


def _order(move: Move) -> tuple[int, Vector]:
    """How often a translation of sites is applied until the first site is home, and by which shift it has then moved."""
    at, total = move[0]
    count = 1
    while at:
        at, shift = move[at]
        total, count = add(total, shift), count + 1
    return count, total


def _without_defect(move: Move, order: int, shift: Vector) -> Move | None:
    """The move, after what makes its power of this order the shift alone. The power may exchange vertices of one place as well:
    that is a defect, which goes along with the move, and a power of it may undo it."""
    home = [(u, (0,) * len(shift)) for u in range(len(move))]
    power = move
    for _ in range(order - 1):
        power = _after(power, move)
    defect = [(v, subtract(cell, shift)) for v, cell in power]
    at = home
    for times_undone in range(MOST_DEFECT):
        # the move times so many defects has as its power the shift and 1 + order * times_undone defects
        if _repeated(defect, 1 + order * times_undone) == home:
            for _ in range(times_undone):
                move = _after(move, defect)
            return move
        at = _after(at, defect)
        if at == home:
            return None
    return None


def _repeated(move: Move, times_applied: int) -> Move:
    """A move that is applied so many times, at least once."""
    found = move
    for digit in bin(times_applied)[3:]:
        found = _after(found, found)
        if digit == "1":
            found = _after(found, move)
    return found


def _after(first: Move, second: Move) -> Move:
    """The second move after the first."""
    return [(second[v][0], add(cell, second[v][1])) for v, cell in first]


def generators(net: PlacedNet) -> list[Move]:
    """Translations that generate, with the shifts, all those of a net in which no two vertices stand in one place. A translation
    is a map of the net to itself with the unit matrix as its linear part."""
    kinds = [(colour, frozenset(step)) for colour, step in zip(net.fibred.colours, net.steps)]
    start = _start_of_translations(kinds)
    if start is None:
        return []
    found: list[Move] = []
    reached = {start}
    unit, zero, work = unit_matrix(net.dimension), (0,) * net.dimension, Work()
    for v in (u for u, kind in enumerate(kinds) if kind == kinds[start]):
        if v not in reached:
            done = walk(net, net, start, v, unit, work)
            if isinstance(done, PeriodicMap):
                found.append([done.images[u, zero] for u in range(net.count)])
                reached = _orbit(start, found)
    return found


def _orbit(start: int, moves: Sequence[Move]) -> set[int]:
    """The vertices that the moves carry one to, whatever their cells."""
    reached, waiting = {start}, [start]
    for u in waiting:
        new = {move[u][0] for move in moves} - reached
        reached |= new
        waiting += new
    return reached


def vector_of(move: Move) -> tuple[Fraction, ...]:
    """The vector of a translation in lattice steps: applied often enough it moves a vertex by a shift."""
    at, total, count = 0, (0,) * len(move[0][1]), 0
    while True:
        at, shift = move[at]
        total = add(total, shift)
        count += 1
        if at == 0:
            return tuple(Fraction(part, count) for part in total)


@dataclass(frozen=True)
class Lattice:
    """The lattice of the shifts and of some translations, in units of 1/scale of the cell.

    basis    short rows
    vectors  of the translations"""

    scale: int
    basis: Rows
    vectors: Rows

    @classmethod
    def of(cls, moves: Sequence[Move], net: PlacedNet) -> Lattice:
        fractions = [vector_of(move) for move in moves]
        scale = lcm(1, *(part.denominator for vector in fractions for part in vector))
        vectors = [tuple(int(part * scale) for part in vector) for vector in fractions]
        shifts = [tuple(scale * part for part in row) for row in unit_matrix(net.dimension)]
        return cls(scale, shortened(staircase([*shifts, *vectors]), net.arcs), vectors)

    def coordinates(self, vector: Vector) -> Vector:
        """The coordinates of a vector of the lattice in its basis. NotFound where it is none of it."""
        whole = determinant(self.basis)
        parts = times(vector, adjugate(self.basis))
        if any(part % whole for part in parts):
            raise NotFound("a translation was found wrong")
        return tuple(part // whole for part in parts)

    @property
    def index(self) -> int:
        size: int = self.scale ** len(self.basis)
        return size // abs(determinant(self.basis))


class _Quotient:
    """The classes of the vertices under the translations, as a walk meets them. The walk is breadth first, and each new
    class is placed where the walk comes to it.

    home   of each vertex in cell 0 its class, and its vector from the representative of the class, in units of 1/scale
    begun  the representatives: a vertex and its cell"""

    def __init__(self, net: PlacedNet, moves: Sequence[Move], lattice: Lattice) -> None:
        self.placed, self.moves, self.lattice = net, moves, lattice
        self.home: dict[int, tuple[int, Vector]] = {}
        self.begun: list[Place] = []

    def net(self) -> PrimitiveNet:
        zero = (0,) * self.placed.dimension
        self._begin(0, zero)
        edges = []
        for own, (u, cell) in enumerate(self.begun):  # grows
            for v, shift in self.placed.arcs[u]:
                there = add(cell, shift)
                if v not in self.home:
                    self._begin(v, there)
                other, vector = self.home[v]
                # v in the cell `there` is its representative moved by the vector and by the cell
                edges.append(edge(own, other, self.lattice.coordinates(add(vector, self._whole(there)))))
        if len(self.home) < self.placed.count:
            raise NotFound("the net is not connected")
        graph = QuotientGraph.of(range(1, len(self.begun) + 1), edges, self.placed.dimension)
        images = {(u, zero): (self.home[u][0], self.lattice.coordinates(self.home[u][1])) for u in range(self.placed.count)}
        base = tuple(self.lattice.coordinates(self._whole(row)) for row in unit_matrix(self.placed.dimension))
        return PrimitiveNet(graph, PeriodicMap(1, images, base), self.lattice.index)

    def _whole(self, cell: Sequence[int]) -> Vector:
        return tuple(self.lattice.scale * part for part in cell)

    def _begin(self, vertex: int, cell: Vector) -> None:
        """The vertex in this cell represents a class: all that translations carry it to get their vectors."""
        number = len(self.begun)
        self.begun.append((vertex, cell))
        self.home[vertex] = number, self._whole([-part for part in cell])
        waiting = [vertex]
        for u in waiting:
            for move, vector in zip(self.moves, self.lattice.vectors):
                v, shift = move[u]
                if v not in self.home:  # u in cell 0, moved by the vector, is v in the cell `shift`
                    self.home[v] = number, subtract(add(self.home[u][1], vector), self._whole(shift))
                    waiting.append(v)
