"""All that databases list of a net, as far as it is computed here."""

from __future__ import annotations

from collections import defaultdict
from dataclasses import dataclass
from fractions import Fraction
from functools import reduce
from math import gcd
from typing import Any

from ..errors import NotANet, PackageMissing
from ..graph import QuotientGraph
from ..net import Net
from ..symmetries import NetSymmetry, count_of, symmetry_if_told
from ..wide.placed import NotFound, PlacedNet
from ..wide.primitive import primitive_net
from ..wide.sites import is_connected
from ..wide.walking import Work
from .infinite import InfiniteNet
from .symbols import point_symbol, vertex_symbol
from .symmetries import Symmetries, symmetries

SHELLS = 10
MOST_WORK = 6_000_000  # arcs that are followed for one net, and as many for its automorphisms
NOT_THERE = "the net is not connected, or takes too long"


@dataclass(frozen=True)
class VertexKind:
    """Vertices that automorphisms carry to each other; those that agree in all that stands here, if automorphisms were not found.

    count          in a primitive cell
    connectivity   how many neighbours each has
    point_symbol   the sizes of the shortest cycles at its angles, as `6^6`
    vertex_symbol  the sizes of the shortest rings, with how many there are, as `6(2).6(2).6(2).6(2).6(2).6(2)`; empty where it
                   has more than six neighbours
    sequence       its coordination sequence, ten shells"""

    count: int
    connectivity: int
    point_symbol: str
    vertex_symbol: str
    sequence: tuple[int, ...]


@dataclass(frozen=True)
class Topology:
    """What databases list of a net. If the program lists the symmetries of the net, the kinds of vertices and
    edges are proved, and nothing else.

    kinds       of vertices, by their connectivity, symbols and sequences
    edge_kinds  how many kinds of edges there are; 0 if automorphisms were not found
    symmetries  how many automorphisms there are up to translations; of a net with collisions, up to those that exchange vertices
                of one place, too. 0 if they were not found
    space_group the symbol of the space group or plane group that they make, as `Fd-3m`; empty if the net has no key, or
                python3-spglib is not there"""

    kinds: tuple[VertexKind, ...]
    edge_kinds: int
    symmetries: int
    space_group: str = ""

    @property
    def transitivity(self) -> str:
        """How many kinds of vertices and of edges there are, as `11`, and `12 9` where one has two digits. The two numbers that
        databases have after these are of a tiling, and are not computed. Empty where automorphisms were not found."""
        if not self.edge_kinds:
            return ""
        numbers = [str(len(self.kinds)), str(self.edge_kinds)]
        return ("" if max(map(len, numbers)) == 1 else " ").join(numbers)

    @property
    def told_symmetry(self) -> str:
        """As a chemist asks first: `Fd-3m, 1 kind of vertices, 1 of edges`. Without the group if that is not known, and empty if
        automorphisms were not found."""
        if not self.edge_kinds:
            return ""
        kinds = count_of(len(self.kinds), self.edge_kinds)
        return f"{self.space_group}, {kinds}" if self.space_group else kinds

    @property
    def td10(self) -> Fraction:
        """The topological density: how many vertices there are up to the tenth shell, with that in the middle, in the mean over
        all vertices (M. O'Keeffe, Z. Kristallogr. 196 (1991) 21)."""
        total = sum(kind.count for kind in self.kinds)
        return 1 + Fraction(sum(kind.count * sum(kind.sequence) for kind in self.kinds), total)

    @property
    def point_symbol(self) -> str:
        """That of the net: `6^6`, or of each kind with how often it occurs, as `{6^2.8^4}3{6^3}4`."""
        counts: dict[str, int] = defaultdict(int)
        for kind in self.kinds:
            counts[kind.point_symbol] += kind.count
        if len(counts) == 1:
            return next(iter(counts))
        least = reduce(gcd, counts.values())
        return "".join(f"{{{symbol}}}" + (str(count // least) if count > least else "") for symbol, count in counts.items())

    def to_dict(self) -> dict[str, Any]:
        """All of it as JSON has it."""
        kinds = [{"count": kind.count, "connectivity": kind.connectivity, "point_symbol": kind.point_symbol,
                  "vertex_symbol": kind.vertex_symbol, "sequence": list(kind.sequence)} for kind in self.kinds]
        return {"point_symbol": self.point_symbol, "td10": round(float(self.td10), 3), "transitivity": self.transitivity,
                "space_group": self.space_group, "symmetries": self.symmetries, "edge_kinds": self.edge_kinds, "kinds": kinds}


def topology_of(graph: QuotientGraph, most_work: int = MOST_WORK) -> Topology | None:
    """What databases list of a net; None where the graph is of none, or of one that is not connected, or the search takes
    too long.

    >>> from crystal_nets import Net
    >>> dia = topology_of(Net([(1, 2, (0, 0, 0)), (1, 2, (1, 0, 0)), (1, 2, (0, 1, 0)), (1, 2, (0, 0, 1))]).graph)
    >>> dia.point_symbol, dia.kinds[0].vertex_symbol, int(dia.td10), dia.transitivity
    ('6^6', '6(2).6(2).6(2).6(2).6(2).6(2)', 981, '11')"""
    if graph.fault:
        return None
    try:
        return _topology_of(graph, most_work)
    except NotFound:
        return None


def topology_or_reason(net: Net) -> Topology | str:
    """What databases list of a net, or why that is not told: it is no net, or not connected, or the search takes too
    long."""
    if net.refusal:
        return net.refusal
    try:
        graph = net.graph
    except NotANet as fault:
        return str(fault)
    return graph.fault or topology_of(graph) or NOT_THERE


def _topology_of(graph: QuotientGraph, most_work: int) -> Topology:
    """The kinds are those of the program, if the net has a key. Else they are searched for, with work of their own: where that
    takes too long, all else is reported without them."""
    if not is_connected(graph):
        raise NotFound("the net is not connected")
    told = symmetry_if_told(graph)
    small = told.graph if told else primitive_net(PlacedNet(graph.canonical())).graph
    found = Symmetries(told.order, told.vertex_kinds, len(told.edge_orbits)) if told else _searched(small, most_work)
    work = Work(most_work)
    net = InfiniteNet(small, work)
    counts: dict[int, int] = defaultdict(int)
    for least in found.vertex_kinds:
        counts[least] += 1
    kinds = [_kind_of(net, vertex, count, work) for vertex, count in counts.items()]
    if not found.order:
        kinds = _alike(kinds)
    kinds.sort(key=lambda kind: (kind.connectivity, kind.sequence, kind.point_symbol, kind.vertex_symbol, kind.count))
    return Topology(tuple(kinds), found.edge_kinds, found.order, _symbol_of(told) if told else "")


def _searched(graph: QuotientGraph, most_work: int) -> Symmetries:
    """The automorphisms, as they are found here; none if that takes too long."""
    try:
        return symmetries(graph, Work(most_work))
    except NotFound:
        return Symmetries(0, tuple(range(len(graph.vertices))), 0)


def _symbol_of(told: NetSymmetry) -> str:
    try:
        return told.space_group[1] if told.space_group else ""
    except PackageMissing:
        return ""


def _kind_of(net: InfiniteNet, vertex: int, count: int, work: Work) -> VertexKind:
    sequence = tuple(len(net.shell(vertex, radius)) for radius in range(1, SHELLS + 1))
    return VertexKind(count, len(net.steps[vertex]), point_symbol(net, vertex, work), vertex_symbol(net, vertex, work), sequence)


def _alike(kinds: list[VertexKind]) -> list[VertexKind]:
    """The kinds, those together that agree in all but how many they are."""
    counts: dict[tuple[int, str, str, tuple[int, ...]], int] = defaultdict(int)
    for one in kinds:
        counts[one.connectivity, one.point_symbol, one.vertex_symbol, one.sequence] += one.count
    return [VertexKind(count, *rest) for rest, count in counts.items()]
