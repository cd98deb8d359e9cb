"""A periodic map between two nets, as a text of maps has it."""

from __future__ import annotations

from collections.abc import Iterable, Sequence
from dataclasses import dataclass
from itertools import product
from math import gcd

from ..graph import QuotientGraph
from ..lattice import Vector, add, adjugate, determinant, subtract, times

MOST_IMAGES, LONGEST_PERIOD = 100_000, 512  # what `verify` takes
Place = tuple[int, Vector]                  # a vertex, from 0 on, and its cell
HEAD = "net_maps 1\n"


@dataclass(frozen=True)
class PeriodicMap:
    """Where the vertices of one net go in another, as docs/FORMATS.md has it.

    period  the map goes on alike after so many cells along each axis
    images  of each vertex in each cell with parts below the period, in rising order
    base    where the cells period·e1, period·e2 and so on go"""

    period: int
    images: dict[Place, Place]
    base: tuple[Vector, ...]

    def item(self, other: QuotientGraph, number: int) -> str:
        """The item of a text of maps that carries its first net to this one."""
        lines = [f"pair {number} map\n", rows_of(other), f"period {self.period}\n"]
        lines += [f"image {u + 1} {_text(cell)} {v + 1} {_text(there)}\n" for (u, cell), (v, there) in self.images.items()]
        lines += [f"base {_text(row)}\n" for row in self.base]
        return "".join([*lines, "end\n"])

    def image(self, vertex: int, cell: Vector) -> Place:
        """Where a vertex goes, in whatever cell."""
        whole = [part // self.period for part in cell]
        end, there = self.images[vertex, tuple([part % self.period for part in cell])]
        return end, add(there, times(whole, self.base))

    def then(self, other: PeriodicMap) -> PeriodicMap:
        """This map, and after it another one; both of period 1."""
        images = {place: other.image(*image) for place, image in self.images.items()}
        return PeriodicMap(1, images, tuple(times(row, other.base) for row in self.base))

    def inverse(self) -> PeriodicMap | None:
        """The map back; None if it has more images than `verify` takes."""
        size, whole, rows = range(len(self.base)), determinant(self.base), adjugate(self.base)
        period = abs(whole) // gcd(whole, *(part for row in rows for part in row))
        targets = {v for v, _ in self.images.values()}
        if period > LONGEST_PERIOD or len(targets) * period ** len(self.base) > MOST_IMAGES:
            return None
        origins = {(v, tuple([part % whole for part in times(there, rows)])): (u, cell, there)
                   for (u, cell), (v, there) in self.images.items()}
        images = {}
        for v, at in product(sorted(targets), product(range(period), repeat=len(self.base))):
            u, cell, there = origins[v, tuple([part % whole for part in times(at, rows)])]
            moved = times(subtract(at, there), rows)
            images[v, at] = u, tuple([x + self.period * (part // whole) for x, part in zip(cell, moved)])
        base = tuple(tuple(self.period * period * rows[k][i] // whole for i in size) for k in size)
        return PeriodicMap(period, images, base)

    def carries(self, first: QuotientGraph, other: QuotientGraph) -> bool:
        """Whether it carries the first net to the other one, by the conditions of docs/FORMATS.md: as many images as vertices,
        each once, and the neighbours of a vertex to those of its image. This is a check in Python beside that of `net_tool
        verify`, for nets that are larger than the program reads."""
        volume = abs(determinant(self.base))
        rows = adjugate(self.base)
        met = {(v, tuple(part % volume for part in times(there, rows))) for v, there in self.images.values()} if volume else set()
        if not len(met) == len(self.images) == len(other.vertices) * volume == len(first.vertices) * self.period**first.dimension:
            return False
        ours, theirs = first.arcs(), [set(row) for row in other.arcs()]
        return all(len(ours[u]) == len(theirs[v]) and theirs[v] == {self._arc(end, add(cell, shift), there) for end, shift in ours[u]}
                   for (u, cell), (v, there) in self.images.items())

    def _arc(self, end: int, cell: Vector, there: Vector) -> Place:
        """The arc from the image of a vertex, which is in the cell `there`, to that of a neighbour."""
        image, moved = self.image(end, cell)
        return image, subtract(moved, there)


def text_of_maps(first: QuotientGraph, maps: Iterable[tuple[QuotientGraph, PeriodicMap]]) -> str:
    """What `net_tool verify` reads: the first net, and a map of it to each of the others."""
    return HEAD + rows_of(first) + "".join(found.item(other, k) for k, (other, found) in enumerate(maps, start=2))


def rows_of(graph: QuotientGraph) -> str:
    """The lines `graph` and `edge` of a graph whose edges stand once, as `edge` writes them, in rising order."""
    lines = [f"graph {graph.dimension} {len(graph.vertices)} {len(graph.edges)}\n"]
    lines += [f"edge {u + 1} {v + 1} {_text(shift)}\n" for u, v, shift in graph.edges]
    return "".join(lines)


def _text(shift: Sequence[int]) -> str:
    return " ".join(map(str, shift))
