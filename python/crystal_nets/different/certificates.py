"""What tells two nets apart: the coordination sequence of a vertex, or the list of a start and a frame, which the other net has
not.

A bijection that joins images if and only if the vertices are joined keeps how many vertices stand at each distance from one.
So a vertex of the one net whose shells no vertex of the other has shows that there is no such bijection: whatever cells,
placements and dimensions. If shells do not tell, the rows of one start and frame in primitive cells do, which depend on the
net alone (O. Delgado-Friedrichs and M. O'Keeffe, Acta Cryst. A59 (2003) 351)."""

from __future__ import annotations

from collections.abc import Iterator
from dataclasses import dataclass
from itertools import count, islice, zip_longest

from ..graph import QuotientGraph, Vertex
from ..lattice import Vector
from ..texts.graph_text import vertex_word
from ..topology.infinite import InfiniteNet
from ..wide.exact_key import ExactNet, Frame
from ..wide.placed import NotFound, PlacedNet
from ..wide.primitive import primitive_net
from ..wide.walking import Work

MOST_SHELLS = 12
MOST_WORK = 3_000_000  # arcs that are followed for the shells of one net
MOST_FRAMES = 20_000   # of the other net, whose lists are looked at
HEAD = "net_different 1"


@dataclass(frozen=True)
class OtherShells:
    """The vertex of one net whose first shells have sizes that those of no vertex of the other have.

    is_of_second  whether it is of the second net"""

    vertex: Vertex
    sizes: tuple[int, ...]
    is_of_second: bool = False

    def text(self, first: int = 1, second: int = 2) -> str:
        """The certificate, of blocks with these numbers."""
        one, other = (second, first) if self.is_of_second else (first, second)
        return f"{HEAD}\nnets {one} {other}\nshells {vertex_word(self.vertex)} {' '.join(map(str, self.sizes))}\n"


@dataclass(frozen=True)
class OtherLists:
    """The list of a start and a frame of the first net: each list of the second differs from it in one of the first rows.

    places  of each net the denominator D, and where its vertices stand, in units of 1/D
    frame   vectors in units of 1/D of the first net
    rows    the last row that is to be looked at, from 0 on; the scale q stands before it"""

    start: int
    frame: Frame
    rows: int
    places: tuple[tuple[int, tuple[Vector, ...]], tuple[int, tuple[Vector, ...]]]

    def text(self, first: int = 1, second: int = 2) -> str:
        lines = [HEAD, f"nets {first} {second}"]
        for denominator, places in self.places:
            lines += [f"placement {denominator}", *("at " + " ".join(map(str, place)) for place in places)]
        frame = " ".join(str(part) for vector in self.frame for part in vector)
        return "\n".join([*lines, f"list {self.start + 1} {frame}", f"rows {self.rows}", ""])


def told_apart(one: QuotientGraph, other: QuotientGraph, by_lists: bool = True) -> OtherShells | OtherLists | None:
    """What shows that two nets are different; None if nothing was found, which shows nothing.

    by_lists  whether lists are looked for where shells do not tell. Both nets are to stand in primitive cells then"""
    return told_by_shells(one, other) or (told_by_lists(one, other) if by_lists else None)


def told_by_shells(one: QuotientGraph, other: QuotientGraph, most: int = MOST_SHELLS) -> OtherShells | None:
    """By the fewest shells that tell, of the first net if it has such a vertex."""
    if one.fault or other.fault:
        return None
    nets = InfiniteNet(one.canonical(), Work(MOST_WORK)), InfiniteNet(other.canonical(), Work(MOST_WORK))
    labels = one.canonical().vertices, other.canonical().vertices
    try:
        for radius in range(1, most + 1):
            sizes = [[tuple(len(net.shell(u, k)) for k in range(1, radius + 1)) for u in range(net.count)] for net in nets]
            for mine in (0, 1):
                known = set(sizes[1 - mine])
                for u, found in enumerate(sizes[mine]):
                    if found not in known:
                        return OtherShells(labels[mine][u], found, mine == 1)
    except NotFound:
        pass
    return None


def told_by_lists(one: QuotientGraph, other: QuotientGraph) -> OtherLists | None:
    """By the list of least scale of the first net. None if a net has no key, or does not stand in a primitive cell; or if the
    second has too many frames, or the same list."""
    try:
        first, second = _exact(one), _exact(other)
    except NotFound:
        return None
    if (first.dimension, len(first.arcs)) != (second.dimension, len(second.arcs)):
        return None
    scale, frames = first.frames_of_least_scale()
    start, frame = frames[0]
    wanted = list(_list(first, start, frame))
    last, seen = 0, count(1)
    for there in range(len(second.arcs)):
        for their_frame in second.frames(there):
            if next(seen) > MOST_FRAMES:
                return None
            place = _first_difference(wanted, _list(second, there, their_frame))
            if place is None:
                return None
            last = max(last, place)
    return OtherLists(start, frame, last, ((first.scale, tuple(first.places)), (second.scale, tuple(second.places))))


def _exact(graph: QuotientGraph) -> ExactNet:
    """NotFound if the net does not stand in a primitive cell."""
    net = graph.canonical()
    if net.fault or len(primitive_net(PlacedNet(net)).graph.vertices) != len(net.vertices):
        raise NotFound("the net does not stand in a primitive cell")
    return ExactNet(net)


def _list(net: ExactNet, start: int, frame: Frame) -> Iterator[Vector]:
    """The scale, and then the rows."""
    scale = net.scale_of(frame)
    yield (scale,)
    yield from net.rows(start, frame, scale)


def _first_difference(one: list[Vector], other: Iterator[Vector]) -> int | None:
    return next((place for place, (a, b) in enumerate(zip_longest(one, islice(other, len(one) + 1))) if a != b), None)
