"""A net over all its own translations, where its cell is several times the primitive one, as in
files without symmetry and cells of molecular dynamics.

A translation is proposed by the barycentric placement, as the step from one vertex to another, and
then tested: it is taken where it carries every edge to an edge. So the places may be floating-point
numbers; what is tested are whole numbers. A map that carries every edge to an edge may exchange two sheets
that stand in one place, and is no translation then. So the vertices are counted: one of each orbit has to be
as many as the smaller cell has. If vertices stand in one place, `crystal_nets.wide` looks for a smaller cell."""

from __future__ import annotations

from collections import Counter
from dataclasses import dataclass
from fractions import Fraction
from math import lcm, prod

import numpy as np
from scipy.sparse import coo_matrix, csr_matrix, diags
from scipy.sparse.csgraph import connected_components
from scipy.sparse.linalg import cg, splu
from scipy.spatial import cKDTree

from ...graph import QuotientGraph, edge
from ...lattice import Vector, staircase
from ...wide.placed import NotFound, PlacedNet
from ...wide.primitive import primitive_net

RESIDUE = 1e-13    # of the places, as a share of the sums
MOST_ROUNDS = 2_000  # of conjugate gradients
MOST_SEARCHED = 2_000  # vertices of a net whose smaller cell is searched for by maps
SAME_PLACE = 1e-6  # in edges of the cell, between vertices of the placement


@dataclass(frozen=True)
class Translation:
    """A translation of a net: where each vertex of cell 0 comes to, and how far it goes."""

    image: np.ndarray   # of each vertex the number of the one that it is carried to
    shift: np.ndarray   # and the cell of that, one row for each vertex
    step: tuple[Fraction, ...]  # in edges of the cell


def divided_by_translations(net: QuotientGraph) -> QuotientGraph:
    """The net over the lattice of all its translations; the same net where it has no others, or none was found."""
    translations = _translations(net)
    if not translations:
        return net
    return _divided(net, translations)


def divided_by_maps(net: QuotientGraph) -> QuotientGraph:
    """The net over the smallest cell that is found by maps, also if vertices stand in one place; the same net if none is. Each
    vertex has the name of one that is carried to it."""
    if len(net.vertices) > MOST_SEARCHED:
        return net
    large = net.canonical()
    try:
        small = primitive_net(PlacedNet(large))
    except NotFound:
        return net
    names = {v: large.vertices[u] for (u, _), (v, _) in reversed(small.map.images.items())}
    return QuotientGraph.of((names[v] for v in range(len(names))), small.graph.edges, net.dimension, net.name)


def _divided(net: QuotientGraph, translations: list[Translation]) -> QuotientGraph:
    """The net over the lattice that these and those of the cell make; the same net if they exchange vertices of one place."""
    denominator = lcm(*(part.denominator for t in translations for part in t.step))
    dimension = len(translations[0].step)
    units = [tuple(denominator * (i == k) for k in range(dimension)) for i in range(dimension)]
    basis = staircase(units + [tuple(int(part * denominator) for part in t.step) for t in translations])
    return _over(net, translations, basis, denominator)


def _over(net: QuotientGraph, translations: list[Translation], basis: list[Vector], denominator: int) -> QuotientGraph:
    """The net with one vertex for each orbit of the translations, over the basis, which is in
    units of 1/denominator."""
    first, moved = _orbits(net, translations, denominator)
    number = {v: k for k, v in enumerate(sorted(set(first)))}
    if len(number) * denominator ** len(basis) != len(first) * prod(row[k] for k, row in enumerate(basis)):
        return net
    ends = np.array([(u, v) for u, v, _ in net.edges]).reshape(-1, 2)
    shifts = np.array([shift for _, _, shift in net.edges])
    cells = _coordinates(denominator * shifts + moved[ends[:, 1]] - moved[ends[:, 0]], basis).tolist()
    edges = {(number[first[u]], number[first[v]], tuple(cell)) for (u, v), cell in zip(ends.tolist(), cells)}
    return QuotientGraph.of((net.vertices[v] for v in sorted(number)), (edge(*one) for one in edges), net.dimension, net.name)


def _coordinates(rows: np.ndarray, basis: list[Vector]) -> np.ndarray:
    """Of whole vectors of a lattice, one in each row, the coordinates in its staircase basis."""
    rest, found = rows.copy(), np.zeros_like(rows)
    for k, row in enumerate(basis):
        found[:, k] = rest[:, k] // row[k]
        rest -= found[:, k:k + 1] * np.array(row)
    if rest.any():
        raise ValueError(f"{rows[rest.any(axis=1)][0]} is not in the lattice")
    return found


def _orbits(net: QuotientGraph, translations: list[Translation], denominator: int) -> tuple[list[int], np.ndarray]:
    """Of each vertex the first of its orbit, and the translation that carries that to it, in units of 1/denominator."""
    count, dimension = len(net.vertices), len(translations[0].step)
    steps = [np.array([int(part * denominator) for part in t.step]) - denominator * t.shift for t in translations]
    images = [t.image.tolist() for t in translations]
    first = [-1] * count
    moved = np.zeros((count, dimension), dtype=int)
    for start in range(count):
        if first[start] >= 0:
            continue
        first[start] = start
        reached = [start]
        for v in reached:
            for image, step in zip(images, steps):
                w = image[v]
                if first[w] < 0:
                    first[w] = start
                    moved[w] = moved[v] + step[v]
                    reached.append(w)
    return first, moved


def _translations(net: QuotientGraph) -> list[Translation]:
    """Translations that, with those of the cell, make all of the net; where several vertices have
    one place, there may be others."""
    places = _placement(net)
    if places is None:
        return []
    proposals = Proposals(net, places)
    start, others = _rarest(net)
    found: list[Translation] = []
    done = {start}
    for other in others:
        if other in done:
            continue
        translation = proposals.translation(start, other)
        if translation is not None:
            found.append(translation)
            done = _orbit(start, found)
    return found


class Proposals:
    """Translations of a net that its places propose, and the test of them."""

    def __init__(self, net: QuotientGraph, places: np.ndarray) -> None:
        self.places = places
        self.tails, self.heads, self.shifts = _arcs(net)
        self.tree = cKDTree(places % 1.0 % 1.0, boxsize=1.0)
        self.known = set(zip(self.tails.tolist(), self.heads.tolist(), map(tuple, self.shifts.tolist())))

    def translation(self, start: int, other: int) -> Translation | None:
        """The translation that carries one vertex to another, where there is one: first the arcs
        of the one are tested, and then all."""
        step = self.places[other] - self.places[start]
        if self._carried(step, np.flatnonzero(self.tails == start)) is None:
            return None
        carried = self._carried(step, np.arange(len(self.tails)))
        if carried is None:
            return None
        image, shift = carried
        if len(np.unique(image)) < len(image):
            return None
        return Translation(image, shift, _step(image, shift))

    def _carried(self, step: np.ndarray, arcs: np.ndarray) -> tuple[np.ndarray, np.ndarray] | None:
        """Where the ends of arcs are carried to, by their numbers, where each arc becomes one."""
        ends = np.unique(np.concatenate((self.tails[arcs], self.heads[arcs])))
        moved = self.places[ends] + step
        distance, nearest = self.tree.query(moved % 1.0 % 1.0, distance_upper_bound=SAME_PLACE)
        if np.any(np.isinf(distance)):
            return None
        image = np.zeros(len(self.places), dtype=int)
        shift = np.zeros_like(self.places, dtype=int)
        image[ends], shift[ends] = nearest, np.rint(moved - self.places[nearest])
        tails, heads = self.tails[arcs], self.heads[arcs]
        shifts = (self.shifts[arcs] + shift[heads] - shift[tails]).tolist()
        carried = zip(image[tails].tolist(), image[heads].tolist(), map(tuple, shifts))
        return (image, shift) if all(arc in self.known for arc in carried) else None


def _orbit(start: int, found: list[Translation]) -> set[int]:
    reached = [start]
    seen = {start}
    for v in reached:
        for t in found:
            w = int(t.image[v])
            if w not in seen:
                seen.add(w)
                reached.append(w)
    return seen


def _placement(net: QuotientGraph) -> np.ndarray | None:
    """The barycentric placement in edges of the cell, with vertex 0 at the origin."""
    tails, heads, shifts = _arcs(net)
    is_step = tails != heads
    count = len(net.vertices)
    if count < 2:
        return None
    rows = np.concatenate((tails[is_step], tails[is_step]))
    columns = np.concatenate((tails[is_step], heads[is_step]))
    values = np.concatenate((np.ones(is_step.sum()), -np.ones(is_step.sum())))
    laplacian = coo_matrix((values, (rows, columns)), shape=(count, count)).tocsr()
    sums = np.zeros((count, shifts.shape[1]))
    np.add.at(sums, tails[is_step], shifts[is_step])
    if connected_components(laplacian, directed=False, return_labels=False) > 1:
        return None
    columns_of_places = [_solution(laplacian, column) for column in sums.T]
    places = np.array(columns_of_places).T
    return places - places[0]


def _solution(laplacian: csr_matrix, sums: np.ndarray) -> np.ndarray:
    """The solution of a system of a connected graph, up to a constant: by conjugate gradients, which take time in proportion
    to the cell of a net in space (M. R. Hestenes and E. Stiefel, J. Res. Natl. Bur. Stand. 49 (1952) 409); where they do not
    come to an end, as along a narrow net, by elimination."""
    inverse = diags(1 / laplacian.diagonal())
    found, status = cg(laplacian, sums, tol=RESIDUE, atol=0.0, maxiter=MOST_ROUNDS, M=inverse)
    if status == 0:
        return found
    return np.concatenate(([0.0], splu(laplacian[1:, 1:].tocsc()).solve(sums[1:])))


def _arcs(net: QuotientGraph) -> tuple[np.ndarray, np.ndarray, np.ndarray]:
    """Tails, heads and shifts of all arcs, each edge in both its directions."""
    tails = np.array([u for u, _, _ in net.edges] + [v for _, v, _ in net.edges])
    heads = np.array([v for _, v, _ in net.edges] + [u for u, _, _ in net.edges])
    shifts = np.array([s for _, _, s in net.edges])
    return tails, heads, np.vstack((shifts, -shifts))


def _rarest(net: QuotientGraph) -> tuple[int, list[int]]:
    """A vertex of the kind that is rarest, by its neighbours' numbers of neighbours, and the others
    of that kind."""
    arcs = net.arcs()
    kinds = [tuple(sorted(len(arcs[w]) for w, _ in near)) for near in arcs]
    count = Counter(kinds)
    kind = min(count, key=lambda k: (count[k], k))
    start, *others = [v for v, k in enumerate(kinds) if k == kind]
    return start, others


def _step(image: np.ndarray, shift: np.ndarray) -> tuple[Fraction, ...]:
    """How far a translation goes: vertex 0 comes to itself after some times, some cells on."""
    at, times, total = int(image[0]), 1, shift[0].copy()
    while at != 0:
        total += shift[at]
        at, times = int(image[at]), times + 1
    return tuple(Fraction(int(part), times) for part in total)
