"""What is measured of an embedding: lengths, angles, distances, density, degrees of freedom.

The statistics are those that Systre prints: lengths over all edges, each once; angles at each vertex of each pair of edges
that end there; the shortest distance of two vertices that no edge joins."""

from __future__ import annotations

from dataclasses import dataclass
from itertools import product

import numpy as np

from .metric import short_basis
from .placed import Placed
from .symmetry import Symmetry, vertex_orbits


@dataclass(frozen=True)
class Range:
    """The least and the greatest of some numbers, and their mean."""

    least: float
    greatest: float
    mean: float

    @classmethod
    def of(cls, values: np.ndarray) -> Range:
        return cls(float(values.min()), float(values.max()), float(values.mean()))

    def __str__(self) -> str:
        return f"minimum = {self.least:.5f}, maximum = {self.greatest:.5f}, average = {self.mean:.5f}"


@dataclass(frozen=True)
class Measures:
    """Numbers of an embedding whose mean edge has the length 1.

    edges               lengths
    angles              between edges at a vertex, in degrees
    shortest_distance   of two vertices that no edge joins
    volume              of the primitive cell
    density             vertices in a volume of 1, or in an area of 1
    genus               how many edges of the primitive graph close a ring: edges - vertices + 1
    degrees_of_freedom  free numbers of an embedding with all symmetries of the net, its scale among them"""

    edges: Range
    angles: Range
    shortest_distance: float
    volume: float
    density: float
    genus: int
    degrees_of_freedom: int


def measures_of(net: Placed, gram: np.ndarray, found: list[Symmetry]) -> Measures:
    """All of them, of a net with its places and symmetries."""
    vectors = net.vectors()
    lengths = np.sqrt(np.einsum("ij,jk,ik->i", vectors, gram, vectors))
    volume = float(np.sqrt(np.linalg.det(gram)))
    return Measures(Range.of(lengths), Range.of(angles(net, gram)), shortest_distance(net, gram, found), volume,
                    len(net.places) / volume, len(net.edges) - len(net.places) + 1, degrees_of_freedom(found))


def angles(net: Placed, gram: np.ndarray) -> np.ndarray:
    """In degrees, of each pair of edge ends at each vertex; one angle of 0 if no vertex has two."""
    tails, _, vectors = net.arcs()
    basis = np.linalg.cholesky(gram)
    found = [np.zeros(0)]
    for k in range(len(net.places)):
        unit = vectors[tails == k] @ basis
        unit /= np.linalg.norm(unit, axis=1)[:, None]
        upper = np.triu_indices(len(unit), 1)
        found.append(np.degrees(np.arccos(np.clip((unit @ unit.T)[upper], -1, 1))))
    all_of_them = np.concatenate(found)
    return all_of_them if len(all_of_them) else np.zeros(1)


def shortest_distance(net: Placed, gram: np.ndarray, found: list[Symmetry]) -> float:
    """Of two different vertices of the infinite net that no edge joins; translates of one vertex count. One vertex of each
    orbit is looked at."""
    short = short_basis(gram)
    metric, to_short = short @ gram @ short.T, np.linalg.inv(short)
    joined = {(u, v, tuple(np.rint(shift @ to_short).astype(int).tolist())) for u, v, shift in net.edges}
    joined |= {(v, u, tuple(-part for part in shift)) for u, v, shift in joined}
    places = net.places @ to_short
    reach = float(np.sqrt(np.diag(metric).min()))  # a translate of one vertex is so near
    while True:
        distance = _nearest(places, metric, joined, reach, sorted(set(vertex_orbits(found))))
        if distance is not None:
            return distance
        reach *= 1.3


def _nearest(places: np.ndarray, metric: np.ndarray, joined: set[tuple[int, int, tuple[int, ...]]],
             reach: float, starts: list[int]) -> float | None:
    """The shortest distance up to a reach from some vertices, or None. The cells that it can pass are bounded by the dual
    basis."""
    cells = np.ceil(reach * np.sqrt(np.diag(np.linalg.inv(metric))) + 1e-9).astype(int) + 1
    shifts = np.array(list(product(*(range(-int(n), int(n) + 1) for n in cells))))
    inside = places - np.floor(places)
    floors = np.floor(places).astype(int)
    best: float | None = None
    for u in starts:
        here = inside[u]
        steps = inside[:, None, :] + shifts[None, :, :] - here
        squares = np.einsum("vsi,ij,vsj->vs", steps, metric, steps)
        for v, s in zip(*np.nonzero(squares <= reach**2 + 1e-9)):
            shift = tuple((shifts[s] - floors[v] + floors[u]).tolist())
            if (u, int(v), shift) in joined or (u == v and not any(shift)):
                continue
            distance = float(np.sqrt(max(squares[v, s], 0.0)))
            best = distance if best is None else min(best, distance)
    return best


def degrees_of_freedom(found: list[Symmetry]) -> int:
    """Of metrics that all symmetries keep, and of each orbit of vertices the dimension of the points that the stabilizer
    of one keeps, less the free directions of the origin."""
    turns = np.array([symmetry.turn for symmetry in found], float)
    traces = np.trace(turns, axis1=1, axis2=2)
    metrics = (traces**2 + np.trace(turns @ turns, axis1=1, axis2=2)).mean() / 2
    fixed = [traces[[symmetry.to[vertex] == vertex for symmetry in found]].mean()
             for vertex in sorted(set(vertex_orbits(found)))]
    return round(metrics + sum(fixed) - traces.mean())
