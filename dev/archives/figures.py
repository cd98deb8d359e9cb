"""The figure of the neighbours of a vertex, and two nets that are made with it: each vertex replaced by
its figure, and the middles of edges, joined around each vertex as its figure is."""

from __future__ import annotations

from itertools import combinations

import numpy as np

from quotient import Net

NEAR = 1e-6  # of unit vectors: in one plane up to rounding


def augmented(net: Net) -> Net:
    """Each vertex replaced by the figure of its neighbours: a triangle, a tetrahedron, a prism, .."""
    places, cell = net.places(), net.cell()
    number: dict[tuple, int] = {}
    for v, arcs in enumerate(net.arcs()):
        for arc in arcs:
            number[v, *arc] = len(number)
    result = Net(len(number))
    for (v, w, shift), k in number.items():
        result.join(k, number[w, v, tuple(-x for x in shift)], shift)
    for v, arcs in enumerate(net.arcs()):
        steps = np.array([(places[w] + shift - places[v]) @ cell for w, shift in arcs])
        for one, other in figure_of(steps):
            result.join(number[v, *arcs[one]], number[v, *arcs[other]], (0,) * net.dimension)
    return result


def of_edges(net: Net) -> Net:
    """A vertex in the middle of each edge, joined to those of the next edges around either end."""
    places, cell = net.places(), net.cell()
    number = {edge: k for k, edge in enumerate(sorted(net.edges))}
    result = Net(len(number))
    for v, arcs in enumerate(net.arcs()):
        steps = np.array([(places[w] + shift - places[v]) @ cell for w, shift in arcs])
        middles = [middle_of(v, w, shift, number) for w, shift in arcs]
        for one, other in figure_of(steps):
            (k, at), (m, to) = middles[one], middles[other]
            result.join(k, m, np.subtract(to, at))
    return result


def figure_of(steps: np.ndarray) -> list[tuple[int, int]]:
    """Which neighbours are joined in the figure around a vertex: the sides of a polygon if they lie in a plane
    with it, and else the edges of the convex polyhedron of their directions. Steps as rows."""
    units = steps / np.linalg.norm(steps, axis=1)[:, None]
    if np.linalg.svd(units, compute_uv=False)[-1] < NEAR or steps.shape[1] == 2:
        return _polygon(units)
    faces = _faces(units)
    return [pair for pair in combinations(range(len(units)), 2) if sum(set(pair) <= face for face in faces) > 1]


def _polygon(units: np.ndarray) -> list[tuple[int, int]]:
    """Each direction of a plane with the next one around."""
    axes = np.linalg.svd(units)[2][:2]
    turn = np.argsort(np.arctan2(*(units @ axes.T).T))
    return [(int(one), int(other)) for one, other in zip(turn, np.roll(turn, -1))]


def _faces(units: np.ndarray) -> set[frozenset[int]]:
    """The faces of the convex polyhedron of these corners, each by the numbers of its corners."""
    faces = set()
    for i, j, k in combinations(range(len(units)), 3):
        normal = np.cross(units[j] - units[i], units[k] - units[i])
        heights = (units - units[i]) @ normal / max(float(np.linalg.norm(normal)), NEAR)
        if np.linalg.norm(normal) > NEAR and (np.all(heights < NEAR) or np.all(heights > -NEAR)):
            faces.add(frozenset(np.flatnonzero(np.abs(heights) < NEAR).tolist()))
    return faces


def middle_of(v: int, w: int, shift: tuple[int, ...], number: dict[tuple, int]) -> tuple[int, tuple[int, ...]]:
    """The number of the edge of an arc, and the cell of the edge's first end, seen from the tail."""
    if (v, w, shift) in number:
        return number[v, w, shift], (0,) * len(shift)
    return number[w, v, tuple(-x for x in shift)], shift
