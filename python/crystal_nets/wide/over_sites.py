"""Two nets over the same sites: the first, and the second pulled back along an affine map of sites.

On a torus of some cells, or on a patch of them, they are two finite graphs over the same places. A map between the nets over this
affine map is one that keeps the places; so it carries an arc to an arc with the same label, which numbers the vectors of a
site."""

from __future__ import annotations

from dataclasses import dataclass
from functools import cached_property
from itertools import product
from math import prod

from ..lattice import Vector, times
from .periodic_map import PeriodicMap, Place
from .placed import Matrix, NotFound
from .refinement import LABEL, Arc, Pair
from .sites import FibredNet

MOST_NODES = 120_000  # of two graphs, which some 200 MB hold
Template = list[list[tuple[int, int, int]]]  # of each vertex of a site its arcs: label, site, place of the end in its fibre


class NoArc(Exception):
    """A vector of the second net is none of the first: no map lies over this affine map."""


@dataclass(frozen=True)
class SiteMap:
    """An affine map of the sites of one net to those of another.

    matrix  the linear part modulo the prime
    map     of the sites, with the least period that the linear part allows"""

    first: FibredNet
    second: FibredNet
    matrix: Matrix
    map: PeriodicMap

    def turned(self, site: int) -> dict[Vector, int]:
        """The images of the vectors of a site, with their numbers."""
        p = self.first.prime
        return {tuple([part % p for part in times(vector, self.matrix)]): number
                for number, vector in enumerate(self.first.sites.vectors[site])}

    @cached_property
    def first_arcs(self) -> list[Template]:
        """Of each site of the first net the arcs of its vertices."""
        net = self.first
        numbers = [{vector: k for k, vector in enumerate(row)} for row in net.sites.vectors]
        return [_template(net, site, numbers[site], [end for end, _ in net.sites.arcs[site]]) for site in range(net.sites.count)]

    def second_arcs(self, site: int, image: int) -> Template:
        """The arcs of the vertices at the image of a site, which may have several. NoArc where one has no label."""
        return _template(self.second, image, self.turned(site), [end for end, _ in self.first.sites.arcs[site]])


def _template(net: FibredNet, site: int, numbers: dict[Vector, int], ends: list[int]) -> Template:
    rows = []
    for u, _ in net.members[site]:
        row = []
        for vector, (v, _) in zip(net.placed.vectors[u], net.placed.arcs[u]):
            label = numbers.get(vector, -1)
            if label < 0 and any(vector):
                raise NoArc
            row.append((label, site if label < 0 else ends[label], net.place_in_fibre[v]))
        rows.append(row)
    return rows


class OverSites:
    """The two nets over the sites of some cells.

    extent    how many cells along each axis
    is_closed of each axis whether it closes to a ring; if not, arcs that lead out are left out
    pair      the two graphs, and `names` of each node its vertex, with the site and the cell"""

    def __init__(self, sites: SiteMap, extent: Vector, is_closed: tuple[bool, ...]) -> None:
        self.sites, self.extent, self.is_closed = sites, extent, is_closed
        self.cells = list(product(*map(range, extent)))
        first, second = sites.first, sites.second
        self.begin: tuple[list[int], list[int]] = [], []
        self.names: list[tuple[int, int, Vector]] = []
        self.colours: list[int] = []
        if (first.placed.count + second.placed.count * first.sites.count // second.sites.count) * len(self.cells) > MOST_NODES:
            raise NotFound("two nets over so many cells would take too much memory")
        self._is_first: list[bool] = []
        self._number_nodes()
        self.pair = Pair([*self._arcs()], self._is_first, range(len(self.names)))

    def _number_nodes(self) -> None:
        """Numbers the vertices of both nets, place by place, and gives them the colours of place and vertex."""
        table: dict[tuple[int, int], int] = {}
        first, second = self.sites.first, self.sites.second
        for site, cell in product(range(first.sites.count), self.cells):
            place = len(self.begin[0])
            image, _ = self.sites.map.image(site, cell)
            for net, at, begin in ((first, site, self.begin[0]), (second, image, self.begin[1])):
                begin.append(len(self.names))
                for u, _ in net.members[at]:
                    self.names.append((u, site, cell))
                    self._is_first.append(net is first and begin is self.begin[0])
                    self.colours.append(table.setdefault((place, net.colours[u]), len(table)))

    def _arcs(self) -> list[list[Arc]]:
        arcs: list[list[Arc]] = []
        for site in range(self.sites.first.sites.count):
            seconds: dict[int, Template] = {}
            ends = [self._places(end, shift) for end, shift in self.sites.first.sites.arcs[site]]
            ends.append(self._places(site, (0,) * len(self.extent)))  # of the label -1
            for k, cell in enumerate(self.cells):
                image, _ = self.sites.map.image(site, cell)
                if image not in seconds:
                    seconds[image] = self.sites.second_arcs(site, image)
                for template, begin in ((self.sites.first_arcs[site], self.begin[0]), (seconds[image], self.begin[1])):
                    arcs += [[((label + 1) * LABEL, begin[place] + other) for label, _, other in row
                              if (place := ends[label][k]) >= 0] for row in template]
        return arcs

    def _places(self, site: int, shift: Vector) -> list[int]:
        """Of each cell the number of the place of a site in the cell moved by a shift; -1 if it is outside."""
        found = []
        for cell in self.cells:
            number = 0
            for part, step, size, is_closed in zip(cell, shift, self.extent, self.is_closed):
                moved = part + step
                if is_closed:
                    moved %= size
                elif not 0 <= moved < size:
                    number = -1
                    break
                number = number * size + moved
            found.append(number if number < 0 else site * len(self.cells) + number)
        return found

    def winding(self, node: int, label: int) -> Vector:
        """How often the arc of a node with this label, a multiple of LABEL, leads around the torus, along each axis."""
        _, site, cell = self.names[node]
        if not label:
            return (0,) * len(cell)
        _, shift = self.sites.first.sites.arcs[site][label // LABEL - 1]
        return tuple([(part + step) // size for part, step, size in zip(cell, shift, self.extent)])

    @property
    def images_of_map(self) -> int:
        """How many images the map of the whole net has."""
        return self.sites.first.whole.count * prod(self.extent)

    def image_of(self, node: int, other: int) -> list[tuple[Place, Place]]:
        """The images of a vertex, and of what is folded into it, if its node goes to another one."""
        (u, site, cell), (v, _, _) = self.names[node], self.names[other]
        first, second = self.sites.first, self.sites.second
        _, there = self.sites.map.image(site, cell)
        offset, moved = first.site[u][1], second.site[v][1]
        return first.unfolded(second, (u, tuple([x - y for x, y in zip(cell, offset)])),
                              (v, tuple([x - y for x, y in zip(there, moved)])))
