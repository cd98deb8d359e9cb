"""Edges that a block does not give: each node joined to its nearest, by rising distance, up to its degree."""

from __future__ import annotations

from collections.abc import Iterator
from dataclasses import dataclass
from itertools import product

import numpy as np
from ..provenance import DOUBT, Note
from ..refusal import Refused
from ..texts.net_text import MOST_EDGES

from .crystal import CrystalBlock, Node
from .orbits import Orbits

EQUAL = 1.001        # times as far is equally far: coordinates have four or five digits
DOUBTFUL = 1.1       # a next neighbour that is not so many times as far is reported
GROWTH = 1.4         # of the reach, until it has enough neighbours
MOST_IMAGES = 400_000


@dataclass(frozen=True)
class Candidate:
    """A vertex near a node."""

    length: float
    node: int
    vertex: int
    shift: tuple[int, ...]


def join_nearest(crystal: CrystalBlock, orbits: Orbits, notes: list[str | Note]) -> None:
    """Adds edges from each node that lacks some to the nearest vertices, all that are equally far at a time."""
    if not crystal.has_cell and not crystal.group.has_one_shape:
        raise Refused("there is no CELL, and edges are to be found by distance")
    nodes = orbits.places.nodes
    wanted = [0 if node.degree is None else node.degree for node in nodes]
    have = orbits.degrees()
    lacking = [k for k, degree in enumerate(wanted) if have[k] < degree]
    candidates = sorted((c for k in lacking for c in _near(orbits, k, wanted[k])), key=lambda c: c.length)
    at, farthest = 0, [0.0] * len(nodes)
    while at < len(candidates) and any(have[k] < wanted[k] for k in lacking):
        bound = candidates[at].length * EQUAL
        is_open = [found < degree for found, degree in zip(have, wanted)]
        while at < len(candidates) and candidates[at].length <= bound:
            c = candidates[at]
            kind = orbits.places.kind[c.vertex]
            if is_open[c.node] or is_open[kind]:
                orbits.add(orbits.places.first[c.node], c.vertex, np.array(c.shift))
                farthest[c.node] = max(farthest[c.node], c.length)
                farthest[kind] = max(farthest[kind], c.length)
            at += 1
        if len(orbits.edges) > MOST_EDGES:
            raise Refused(f"more than {MOST_EDGES} edges in a primitive cell")
        have = orbits.degrees()
    notes += _doubts(nodes, candidates, farthest)


def _doubts(nodes: list[Node], candidates: list[Candidate], farthest: list[float]) -> Iterator[Note]:
    """Notes on the nodes with a vertex a little farther than their farthest neighbour."""
    for k, node in enumerate(nodes):
        beyond = [c.length / farthest[k] for c in candidates if c.node == k and c.length > farthest[k] * EQUAL > 0]
        if beyond and min(beyond) < DOUBTFUL:
            yield Note(DOUBT, f"edges are by distance, and of the node {node.name} a vertex that is not joined is "
                       f"{min(beyond):.3f} times as far as one that is")


def _near(orbits: Orbits, node: int, degree: int) -> list[Candidate]:
    """The vertices near a node, more than its degree of them."""
    places = orbits.places
    start = places.places[places.first[node]]
    dimension = len(start)
    inverse = np.linalg.inv(places.frame)
    volume = float(np.prod(np.diag(places.frame)))
    reach = 1.2 * (volume * (degree + 1) / len(places.places)) ** (1 / dimension)
    while True:
        margin = np.ceil(reach * np.linalg.norm(inverse, axis=0) + 1).astype(int)
        if np.prod(2.0 * margin + 1) * len(places.places) > MOST_IMAGES:
            raise Refused("the cell is too flat for edges to be found by distance")
        shifts = np.array(list(product(*(range(-m, m + 1) for m in margin))))
        steps = places.places[None, :, :] + shifts[:, None, :] - start
        lengths = np.linalg.norm(steps @ places.frame, axis=2)
        cells, vertices = np.nonzero((lengths <= reach) & (lengths > places.tolerance))
        if len(cells) > degree:
            return [Candidate(float(lengths[c, v]), node, int(v), tuple(shifts[c].tolist()))
                    for c, v in zip(cells, vertices)]
        reach *= GROWTH
