"""The shape of a net: its sites in the drawn cell, its axes, and its kinds of vertices."""

from __future__ import annotations

from collections.abc import Callable
from dataclasses import dataclass
from itertools import product

import numpy as np

from ..embedding.cell import drawn_cell
from ..embedding.listed import symmetries_of
from ..embedding.metric import standard_gram
from ..embedding.placed import Placed, into_cell, marks
from ..embedding.symmetry import Symmetry


@dataclass
class Window:
    """The vertices that are shown, their edges among each other, and those that leave."""

    spots: np.ndarray                       # in units of the drawn cell
    classes: list[int]
    whole: list[tuple[int, int]]            # by numbers of spots
    leaving: list[tuple[int, np.ndarray]]   # a spot, and the vector of the edge


class Shape:
    """All that a picture needs of a net."""

    def __init__(self, net: Placed) -> None:
        gram = standard_gram(net)
        found = symmetries_of(net, gram)
        cell, self.system = drawn_cell(gram, [symmetry.turn for symmetry in found])
        self.dimension = net.dimension
        self.order = len(found)
        firsts, kinds = np.unique(np.min([symmetry.to for symmetry in found], axis=0), return_inverse=True)
        self.kind: list[int] = kinds.tolist()
        self.kinds = len(firsts)
        self.axes = np.linalg.cholesky(cell @ gram @ cell.T)  # rows; the first to the right
        to_cell = np.linalg.inv(cell)
        origin = _origin(net.places, found, self.system == "hexagonal" and self.dimension == 3)
        steps = _lattice_points(to_cell, abs(round(np.linalg.det(cell))))
        self.sites = into_cell(np.vstack([(net.places - origin) @ to_cell + step for step in steps]))
        self.site_class = np.tile(np.arange(len(net.places)), len(steps))
        tails, _, vectors = net.arcs()
        self.arcs = [vectors[tails == k] @ to_cell for k in range(len(net.places))]  # of each class, a row for each

    @property
    def degrees(self) -> list[int]:
        return sorted({len(arcs) for arcs in self.arcs})

    @property
    def lengths(self) -> np.ndarray:
        """Of the axes."""
        return np.linalg.norm(self.axes, axis=1)

    def edge_lengths(self) -> np.ndarray:
        return np.linalg.norm(np.concatenate(self.arcs) @ self.axes, axis=1)

    def window(self, low: np.ndarray, high: np.ndarray,
               inside: Callable[[np.ndarray], np.ndarray] | None = None) -> Window:
        """What stands between low and high, in units of the cell, and is inside."""
        ranges = [range(int(np.floor(a)) - 1, int(np.ceil(b)) + 1) for a, b in zip(low, high)]
        shifts = np.array(list(product(*ranges)))
        spots = (shifts[:, None, :] + self.sites[None, :, :]).reshape(-1, self.dimension)
        classes = np.tile(self.site_class, len(shifts))
        shown = np.all((spots >= np.array(low) - 1e-6) & (spots <= np.array(high) + 1e-6), axis=1)
        if inside:
            shown &= inside(spots)
        spots, classes = spots[shown], classes[shown].tolist()
        tails = np.repeat(np.arange(len(spots)), np.array([len(self.arcs[c]) for c in classes], int))
        vectors = np.concatenate([self.arcs[c] for c in classes] or [spots])
        number = {tuple(mark): k for k, mark in enumerate(marks(spots).tolist())}
        heads = [number.get(tuple(mark)) for mark in marks(spots[tails] + vectors).tolist()]
        arcs = list(zip(tails.tolist(), heads, vectors))
        whole = [(tail, head) for tail, head, _ in arcs if head is not None and tail < head]
        leaving = [(tail, vector) for tail, head, vector in arcs if head is None]
        return Window(spots, classes, whole, leaving)


def _lattice_points(to_cell: np.ndarray, count: int) -> list[np.ndarray]:
    """The points of the primitive lattice that the drawn cell has, one for each cell in it."""
    found: dict[tuple, np.ndarray] = {}
    for row in product(range(-4, 5), repeat=len(to_cell)):
        point = into_cell(np.array(row) @ to_cell)
        found.setdefault(tuple(marks(point)), point)
        if len(found) == count:
            break
    return list(found.values())


def _origin(places: np.ndarray, found: list[Symmetry], is_far: bool) -> np.ndarray:
    """The point that most symmetries fix, of vertices and of points that single symmetries fix; of
    equals the one nearest to a vertex, or farthest from all where a channel is to be in the middle."""
    fixed = list(places)
    shifts = np.array(list(product(range(-1, 3), repeat=places.shape[1])))
    for symmetry in found:
        still = np.eye(places.shape[1]) - symmetry.turn
        if round(np.linalg.det(still)) != 0:
            fixed += list((symmetry.move + shifts) @ np.linalg.inv(still))
    points = into_cell(np.array(fixed))
    points = points[np.sort(np.unique(marks(points), axis=0, return_index=True)[1])]
    fixed_by = np.zeros(len(points), int)
    for symmetry in found:
        gap = points @ symmetry.turn + symmetry.move - points
        fixed_by += np.all(np.abs(gap - np.rint(gap)) < 1e-5, axis=1)
    best = points[fixed_by == fixed_by.max()]
    gaps = places[None, :, :] - best[:, None, :]
    away = np.round(np.abs(gaps - np.rint(gaps)).sum(axis=2).min(axis=1), 6)
    return best[int(np.argmax(away) if is_far else np.argmin(away))]
