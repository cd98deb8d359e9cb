"""From an affine map of sites to a map of the nets.

The map of the fibres may need a longer period than that of the sites, as two sheets that are exchanged after each turn do. The
least torus is tried first. If the fibres allow no map there, rings of some cells along each axis say which multiples may serve:
a torus that has a map has one on each ring of its length. If the colours differ on a torus, or the equations of pairs have no
solution on the infinite net, or a finite patch has no map, no period serves."""

from __future__ import annotations

from collections.abc import Iterator, Sequence
from dataclasses import dataclass, field
from itertools import product
from math import lcm, prod

from ..lattice import Vector, add, subtract, times
from .fibres import FibreSearch, Images
from .over_sites import NoArc, OverSites, SiteMap
from .parities import least_multiples, may_agree, ways_of
from .periodic_map import PeriodicMap, Place
from .refinement import cells_of_colours, parts_of, refine
from .walking import cells_of, is_too_long

MULTIPLES = (2, 3, 4, 5, 6, 8, 12)  # of the least period, which are tried along each axis
PATCHES = (2, 3)                    # cells along each axis of a patch that may refute an affine map
MOST_PLACES = 4_000                 # of a patch


class Refuted(Exception):
    """No map, of whatever period, lies over this affine map of sites."""


@dataclass
class Lifting:
    """The search over one affine map of sites. Each step gives a map, or None if that is not known yet. Refuted if there is none.

    sizes     of the colours of more than two vertices, which may be multiples of the period
    wanted    the multiples that the equations of pairs ask for
    is_long   whether some map would have more images than `verify` takes"""

    sites: SiteMap
    search: FibreSearch
    sizes: set[int] = field(default_factory=set)
    wanted: Vector | None = None
    is_long: bool = False
    _rings: dict[tuple[int, int], bool] = field(default_factory=dict)

    @property
    def dimension(self) -> int:
        return self.sites.first.dimension

    def at_once(self) -> PeriodicMap | None:
        """With the least period that the sites allow."""
        if self._is_too_long(self.sites.map.period):
            return None
        try:
            over = self._torus([1] * self.dimension)
        except NoArc:
            raise Refuted from None
        colours = list(over.colours)
        if not refine(over.pair, colours, None, self.search.work):
            raise Refuted  # colours are the same on the infinite net, which covers the torus
        cells = cells_of_colours(over.pair, colours)
        self.sizes = {len(ours) for ours, _ in cells.values() if len(ours) > 2}
        if not self.sizes:
            parts = [ways_of(over, over.pair, colours, cells, part) for part in parts_of(over.pair, colours, cells)]
            if not all(may_agree(part.loops, self.dimension) for part in parts):
                raise Refuted
            if not all(part.images for part in parts):
                self.wanted = least_multiples([part.loops for part in parts], self.dimension)
                return None
        images = self.search.solved(over, over.pair, colours)
        return None if images is None else written(over, images)

    def later(self) -> Iterator[PeriodicMap]:
        """With longer periods, the first that is found."""
        if self.wanted:
            yield from self._on_torus(self.wanted)
        if not self.sizes:
            return
        self._refute_by_patch(PATCHES[0])
        tried = sorted({*MULTIPLES, *self.sizes})
        along = [[1, *tried] for _ in range(self.dimension)]
        allowed = [[size for size in sizes if self._ring_serves(axis, size)] for axis, sizes in enumerate(along)]
        if not all(allowed):
            return
        yield from self._on_torus(tuple(sizes[0] for sizes in allowed))
        for size in tried:
            if all(size in sizes for sizes in allowed):
                yield from self._on_torus((size,) * self.dimension)
        for patch in PATCHES[1:]:
            self._refute_by_patch(patch)

    def _on_torus(self, multiples: Sequence[int]) -> Iterator[PeriodicMap]:
        periods = [size * self.sites.map.period for size in multiples]
        if self._is_too_long(lcm(*periods)):
            return
        over = self._torus(multiples)
        images = self.search.images(over)
        if images is not None:
            yield written(over, images)

    def _is_too_long(self, period: int) -> bool:
        is_long = is_too_long(self.sites.first.whole.count, period, self.dimension)
        self.is_long |= is_long
        return is_long

    def _ring_serves(self, axis: int, size: int) -> bool:
        """Whether there is a map on a ring of so many cells along an axis, one cell wide."""
        if (axis, size) not in self._rings:
            extent = [self.sites.map.period * (size if k == axis else 1) for k in range(self.dimension)]
            over = OverSites(self.sites, tuple(extent), tuple(k == axis for k in range(self.dimension)))
            self._rings[axis, size] = self.search.images(over) is not None
        return self._rings[axis, size]

    def _refute_by_patch(self, size: int) -> None:
        """Refuted if a patch of so many cells along each axis has no map."""
        extent = (size,) * self.dimension
        if self.sites.first.sites.count * prod(extent) <= MOST_PLACES:
            over = OverSites(self.sites, extent, (False,) * self.dimension)
            if self.search.images(over) is None:
                raise Refuted

    def _torus(self, multiples: Sequence[int]) -> OverSites:
        extent = tuple(size * self.sites.map.period for size in multiples)
        return OverSites(self.sites, extent, (True,) * self.dimension)


def written(over: OverSites, images: Images) -> PeriodicMap:
    """The map of the whole nets, folded vertices among them, that goes on alike beyond the torus."""
    sites, extent = over.sites, over.extent
    size = range(len(extent))
    rows = [tuple(part * (extent[axis] // sites.map.period) for part in sites.map.base[axis]) for axis in size]
    found: dict[Place, Place] = {}
    for node, other in images.items():
        for (u, cell), (v, there) in over.image_of(node, other):
            whole, home = _split(cell, extent)
            found[u, home] = v, subtract(there, times(whole, rows))
    period = lcm(*extent)
    base = tuple(tuple(part * (period // extent[axis]) for part in rows[axis]) for axis in size)
    everywhere: dict[Place, Place] = {}
    for u, cell in product(range(sites.first.whole.count), cells_of(period, len(extent))):
        whole, home = _split(cell, extent)
        v, there = found[u, home]
        everywhere[u, cell] = v, add(there, times(whole, rows))
    return PeriodicMap(period, everywhere, base)


def _split(cell: Vector, extent: Vector) -> tuple[Vector, Vector]:
    """How often a cell lies beyond the torus along each axis, and the cell on it."""
    return tuple([part // size for part, size in zip(cell, extent)]), tuple([part % size for part, size in zip(cell, extent)])
