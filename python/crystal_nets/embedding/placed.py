"""The primitive graph of a net with its barycentric positions, out of the report of `net_tool identify` or out of a key."""

from __future__ import annotations

from dataclasses import dataclass

import numpy as np

from ..graph import Edge, QuotientGraph
from ..texts.key_graph import graph_of_key
from ..texts.net_text import NetReport

FARTHEST = 1e-9  # from the mean of its neighbours, in edges of the cell: up to rounding


def marks(numbers: np.ndarray) -> np.ndarray:
    """Whole numbers that are equal for numbers that are equal up to rounding. Positions are
    simple fractions, and no simple fraction is near a step."""
    return np.floor(np.asarray(numbers) * 314159.26535 + 0.377).astype(np.int64)


def into_cell(places: np.ndarray) -> np.ndarray:
    """The fractions in the cell, 0 where they are a little below 1."""
    return places - np.floor(places + 1e-7)


@dataclass
class Placed:
    """A net in units of its primitive basis: where its classes stand, and its edges."""

    places: np.ndarray
    edges: list[Edge]

    @property
    def dimension(self) -> int:
        return self.places.shape[1]

    def vectors(self) -> np.ndarray:
        return np.array([self.places[v] + shift - self.places[u] for u, v, shift in self.edges])

    def arcs(self) -> tuple[np.ndarray, np.ndarray, np.ndarray]:
        """Of each arc, two for each edge, the tail, the head and the vector."""
        tails = np.array([u for u, _, _ in self.edges])
        heads = np.array([v for _, v, _ in self.edges])
        vectors = self.vectors()
        return (np.concatenate([tails, heads]), np.concatenate([heads, tails]),
                np.concatenate([vectors, -vectors]))

    def in_basis(self, rows: np.ndarray) -> Placed:
        """The same net in another basis of its lattice, whose rows are whole numbers in this one."""
        to_basis = np.linalg.inv(rows)
        edges = [Edge(u, v, tuple(np.rint(shift @ to_basis).astype(int).tolist())) for u, v, shift in self.edges]
        return Placed(self.places @ to_basis, edges)

    def mirrored(self) -> Placed:
        """The mirror image through the origin. It is the same net."""
        return Placed(-self.places, [Edge(u, v, tuple(-part for part in shift)) for u, v, shift in self.edges])

    def degrees(self) -> list[int]:
        """How many edges end at each vertex; one from it to itself ends there twice."""
        found: list[int] = np.bincount(self.arcs()[0], minlength=len(self.places)).tolist()
        return found

    def worst_mean(self) -> float:
        """How far the worst class is from the mean of its neighbours: 0 up to rounding."""
        tails, _, vectors = self.arcs()
        sums = np.zeros_like(self.places)
        np.add.at(sums, tails, vectors)
        degrees = np.bincount(tails, minlength=len(sums))
        return float(np.abs(sums / degrees[:, None]).max())


class NotPlaced(Exception):
    """Positions and edges of the report do not fit each other, so that it is of no net."""


def placed_net(report: NetReport) -> Placed:
    """The net of a report that has a key. The report says where each vertex stands; two share a
    class where their places differ by a vector of the lattice, and the classes are numbered by
    their first vertices. NotPlaced where this is no net whose vertices are at the means."""
    to_basis = np.linalg.inv(np.array(report.basis, float))
    places: list[np.ndarray] = []
    seen: set[tuple[int, ...]] = set()
    for _, position in report.positions:
        place = np.array(position, float) @ to_basis
        mark = tuple(marks(into_cell(place)))
        if mark not in seen:
            seen.add(mark)
            places.append(place)
    edges = [Edge(u - 1, v - 1, tuple(shift)) for u, v, *shift in report.edges]
    if len(places) != report.classes:
        raise NotPlaced(f"its vertices stand in {len(places)} places, and it has {report.classes} classes")
    return _checked(Placed(np.array(places), edges))


def placed_of_key(key: str) -> Placed:
    """The net of a key, with the first vertex in the origin: the same for all nets that have the key. NotPlaced if it is
    of no net whose vertices are at the means; NoReport if it has not the form of a key."""
    return _checked(placed_graph(graph_of_key(key.encode())))


def placed_graph(graph: QuotientGraph) -> Placed:
    """A connected net with its vertices at the means of their neighbours, the first one in the origin."""
    count = len(graph.vertices)
    weights, sums = np.zeros((count, count)), np.zeros((count, graph.dimension))
    for u, v, shift in graph.edges:
        for tail, head, sign in ((u, v, 1), (v, u, -1)):
            weights[tail, tail] += 1
            weights[tail, head] -= 1
            sums[tail] += sign * np.array(shift)
    places = np.zeros((count, graph.dimension))
    places[1:] = np.linalg.solve(weights[1:, 1:], sums[1:])
    return Placed(places, list(graph.edges))


def _checked(net: Placed) -> Placed:
    """The net, if its edges join it and its vertices are at the means."""
    if not _is_joined(net):
        raise NotPlaced("its edges do not join all vertices in all directions")
    if not net.worst_mean() < FARTHEST:
        raise NotPlaced("a vertex is not at the mean of its neighbours")
    return net


def _is_joined(net: Placed) -> bool:
    """Whether the edges join all classes, have a length, are different and reach in all directions."""
    joined = {0}
    while True:
        more = {end for u, v, _ in net.edges if (u in joined) != (v in joined) for end in (u, v)}
        if not more:
            break
        joined |= more
    vectors = net.vectors()
    return (len(joined) == len(net.places) and len(set(net.edges)) == len(net.edges)
            and np.linalg.matrix_rank(vectors) == net.dimension and bool((np.abs(vectors).max(axis=1) > FARTHEST).all()))
