"""The map of the fibres over an affine map of sites: which vertex of a place goes to which.

After refinement a vertex whose colour no other has goes to the only one of its colour. Colours of two are equations
(`parities`). Of larger ones a vertex is given each image in turn. Parts that do not constrain each other are settled one by one,
so that a wrong choice in one costs nothing in another."""

from __future__ import annotations

from collections.abc import Sequence

from .over_sites import OverSites
from .parities import ways_of
from .placed import NotFound
from .refinement import LABEL, Cells, Pair, cells_of_colours, parts_of, refine
from .walking import Work

MOST_DEPTH = 100  # of choices, each of which takes five calls of Python
Images = dict[int, int]  # of nodes of the first graph, by their names
Nodes = tuple[list[int], list[int]]
Shape = tuple[object, ...]


class FibreSearch:
    """The search for one pair of nets.

    refuted  the shapes of parts that have no map, which other affine maps often have as well
    depth    how many choices stand in each other; NotFound if these are too many"""

    def __init__(self, work: Work) -> None:
        self.work = work
        self.refuted: set[Shape] = set()
        self.depth = 0

    def images(self, over: OverSites) -> Images | None:
        """A map over the places; None if there is none."""
        colours = list(over.colours)
        if not refine(over.pair, colours, None, self.work):
            return None
        return self.solved(over, over.pair, colours)

    def solved(self, over: OverSites, pair: Pair, colours: list[int]) -> Images | None:
        """A map that keeps the colours, which are refined."""
        cells = cells_of_colours(pair, colours)
        images = {pair.names[ours[0]]: pair.names[theirs[0]] for ours, theirs in cells.values() if len(ours) == 1}
        for part in sorted(parts_of(pair, colours, cells), key=lambda part: sum(len(cells[colour][0]) for colour in part)):
            found = self._part_solved(over, pair, colours, cells, part)
            if found is None:
                return None
            images.update(found)
        return images

    def _part_solved(self, over: OverSites, pair: Pair, colours: list[int], cells: Cells, part: list[int]) -> Images | None:
        if all(len(cells[colour][0]) == 2 for colour in part):
            images = ways_of(over, pair, colours, cells, part).images
            return {pair.names[x]: pair.names[y] for x, y in images.items()} or None
        shape = _shape(pair, colours, cells, part)
        if shape in self.refuted:
            return None
        found = self._chosen(over, pair, colours, cells, part)
        if found is None:
            self.refuted.add(shape)
        return found

    def _chosen(self, over: OverSites, pair: Pair, colours: list[int], cells: Cells, part: list[int]) -> Images | None:
        """A node of a least cell is given each image. If one leads nowhere, neither does another one that an automorphism of the
        second graph makes of it. Such are found fast, and without this the number of tries grows exponentially."""
        least = min((colour for colour in part if len(cells[colour][0]) > 2), key=lambda colour: len(cells[colour][0]))
        ours, theirs = ([node for colour in part for node in cells[colour][side]] for side in (0, 1))
        node = cells[least][0][0]
        failed: list[int] = []
        for image in cells[least][1]:
            if any(self._with_image(over, pair, colours, (theirs, theirs), (other, image)) for other in failed):
                continue
            found = self._with_image(over, pair, colours, (ours, theirs), (node, image))
            if found is not None:
                return found
            failed.append(image)
        return None

    def _with_image(self, over: OverSites, pair: Pair, colours: Sequence[int], nodes: Nodes,
                    chosen: tuple[int, int]) -> Images | None:
        """A map of some nodes to others that carries one chosen node to the other."""
        part = pair.part(*nodes)
        mine = [colours[node] for node in (*nodes[0], *nodes[1])]
        pin = nodes[0].index(chosen[0]), len(nodes[0]) + nodes[1].index(chosen[1])
        self.depth += 1
        if self.depth > MOST_DEPTH:
            raise NotFound("too many choices stand in each other")
        found = self.pinned(over, part, mine, [pin])
        self.depth -= 1
        return found

    def pinned(self, over: OverSites, pair: Pair, colours: list[int], pins: Sequence[Sequence[int]]) -> Images | None:
        """A map that keeps the colours and carries the first node of each pin to the second."""
        fresh = 1 + max(colours)
        for k, pin in enumerate(pins):
            for node in pin:
                colours[node] = fresh + k
        if not refine(pair, colours, [node for pin in pins for node in pin], self.work):
            return None
        return self.solved(over, pair, colours)


def _shape(pair: Pair, colours: Sequence[int], cells: Cells, part: Sequence[int]) -> Shape:
    """The two graphs of a part, with numbers of their own. What is equal in it has the same maps."""
    number: dict[int, int] = {}
    for side in (0, 1):
        for colour in part:
            for node in cells[colour][side]:
                number[node] = len(number)
    sizes = tuple(len(cells[colour][0]) for colour in part)
    arcs = tuple(tuple(sorted((label // LABEL, number[end]) for label, end in pair.arcs[node] if end in number)) for node in number)
    return sizes, arcs
