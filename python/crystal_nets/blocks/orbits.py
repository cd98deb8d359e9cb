"""Orbits under a group: the vertices of the nodes, and the images of edges."""

from __future__ import annotations

import numpy as np
from ..graph import Edge, edge
from ..provenance import DROPPED, Note
from ..refusal import Refused
from ..texts.net_text import MOST_EDGES, MOST_VERTICES

from .crystal import Bond, Node
from .groups import Group
from .tokens import shown

EXACT = 1e-6  # in fractions of the cell: equal up to rounding
STEPS = 314159.26535


class Places:
    """The vertices of a primitive cell: the orbits of the nodes, each moved onto the symmetry elements that it is on.
    A place is a row of d numbers in units of the primitive basis."""

    def __init__(self, group: Group, metric: np.ndarray, nodes: list[Node], tolerance: float) -> None:
        """The tolerance is a fraction of the distance at which the nodes stood, were all in general position."""
        self.group = group
        self.frame = np.linalg.cholesky(metric)  # rows: the basis in the length unit of the cell
        volume = float(np.prod(np.diag(self.frame)))
        count = max(1, len(nodes)) * len(group.rotations)
        self.tolerance = tolerance * (volume / count) ** (1 / group.dimension)
        self.places = np.zeros((0, group.dimension))
        self.kind: list[int] = []        # of each vertex the number of its node
        self.names: list[str] = []
        self.first: list[int] = []       # of each node its first vertex
        self.nodes: list[Node] = []
        self.notes: list[Note] = []
        for node in nodes:
            self.add(node)

    def add(self, node: Node) -> None:
        """Adds the orbit of a node. Where its vertices are there already it is taken once, if the degrees agree."""
        place = self.snapped(node)
        images = place @ self.group.rotations + self.group.moves
        gaps = images[:, None, :] - images[None, :, :]
        is_same = np.abs(gaps - np.rint(gaps)).max(axis=2) < EXACT
        orbit = into_cell(images[np.unique(is_same.argmax(axis=1))])
        stands = self.find(orbit[:1])[0][0]
        if stands >= 0:
            self._take_once(node, int(stands))
            return
        if len(self.places) + len(orbit) > MOST_VERTICES:
            raise Refused(f"more than {MOST_VERTICES} vertices in a primitive cell", node.line)
        self.nodes.append(node)
        self.first.append(len(self.places))
        self.kind += [len(self.first) - 1] * len(orbit)
        self.places = np.vstack([self.places, orbit])
        self.names += [node.name] + [f"{node.name}_{k + 1}" for k in range(1, len(orbit))]

    def _take_once(self, node: Node, vertex: int) -> None:
        """Notes that a node is an image of another; refused where it is to have another degree."""
        other = self.nodes[self.kind[vertex]]
        if node.degree != other.degree:
            raise Refused(f"the node {shown(node.name)} is where {shown(self.names[vertex])} is, which has another "
                          "degree", node.line)
        text = f"line {node.line}: the node {node.name} is where {self.names[vertex]} is, and is taken once"
        self.notes.append(Note(DROPPED, text))

    def snapped(self, node: Node) -> np.ndarray:
        """The place of a node, at the mean of its images that are within the tolerance."""
        place = node.place @ self.group.to_basis
        gaps = place @ self.group.rotations + self.group.moves - place
        gaps -= np.rint(gaps)
        is_near = np.linalg.norm(gaps @ self.frame, axis=1) <= self.tolerance
        place = place + gaps[is_near].mean(axis=0)
        gaps = place @ self.group.rotations + self.group.moves - place
        if ((np.abs(gaps - np.rint(gaps)).max(axis=1) < EXACT) != is_near).any():
            raise Refused(f"the node {shown(node.name)} is near a symmetry element, and not on it", node.line)
        return place

    def find(self, places: np.ndarray) -> tuple[np.ndarray, np.ndarray]:
        """Of places (n, d) the vertices that they are, or -1, (n,), and the cells of these, (n, d)."""
        if not len(self.places):
            return np.full(len(places), -1), np.zeros(places.shape, int)
        gaps = places[:, None, :] - self.places[None, :, :]
        cells = np.rint(gaps)
        lengths = np.linalg.norm((gaps - cells) @ self.frame, axis=2)
        nearest = lengths.argmin(axis=1)
        rows = np.arange(len(places))
        found = np.where(lengths[rows, nearest] <= self.tolerance, nearest, -1)
        return found, cells[rows, nearest].astype(int)


def marks(places: np.ndarray) -> np.ndarray:
    """Of places (.., d) whole numbers (..) that are equal where they are equal up to rounding and translations."""
    parts = np.floor(into_cell(places) * STEPS + 0.377).astype(np.int64)
    return parts @ (int(STEPS) + 2) ** np.arange(places.shape[-1], dtype=np.int64)


def into_cell(places: np.ndarray) -> np.ndarray:
    """The places in the cell, 0 where they are a little below 1."""
    return places - np.floor(places + EXACT / 10)


class Orbits:
    """The edges of a crystal, each with all its images."""

    def __init__(self, places: Places) -> None:
        self.places = places
        group = places.group
        images = places.places @ group.rotations + group.moves[:, None, :]  # (n, v, d)
        own = marks(places.places)
        order = np.argsort(own)
        at = np.minimum(np.searchsorted(own[order], marks(images)), len(own) - 1)
        self.to = order[at]  # (n, v): of each operation and vertex the vertex that it goes to
        for k, v in np.argwhere(own[self.to] != marks(images)):  # a mark may change by rounding, though hardly ever
            self.to[k, v] = places.find(images[k, v][None, :])[0][0]
        self.cell = np.rint(images - places.places[self.to]).astype(int)  # (n, v, d): and the cell of that
        self.edges: set[Edge] = set()

    def add(self, u: int, v: int, shift: np.ndarray) -> None:
        """Joins the vertex u in cell 0 and the vertex v in a cell, and all images of them."""
        shifts = self.cell[:, v] + shift @ self.places.group.rotations - self.cell[:, u]
        rows = np.column_stack([self.to[:, u], self.to[:, v], shifts])
        for tail, head, *parts in rows.tolist():
            self.edges.add(edge(tail, head, tuple(parts)))

    def add_bond(self, bond: Bond) -> None:
        """Joins the vertices where the ends are; refused where an end is at none."""
        ends = np.array(bond.ends) @ self.places.group.to_basis
        (u, v), cells = self.places.find(ends)
        for vertex, end in zip((u, v), bond.ends):
            if vertex < 0:
                raise Refused(f"no node is at the end {' '.join(f'{x:g}' for x in end)}", bond.line)
        shift = cells[1] - cells[0]
        if u == v and not shift.any():
            raise Refused("both ends of an edge are one vertex", bond.line)
        self.add(int(u), int(v), shift)
        if len(self.edges) > MOST_EDGES:
            raise Refused(f"more than {MOST_EDGES} edges in a primitive cell", bond.line)

    def degrees(self) -> list[int]:
        """Of each node how many neighbours it has."""
        count = [0] * len(self.places.places)
        for u, v, _ in self.edges:
            count[u] += 1
            count[v] += 1
        return [count[first] for first in self.places.first]
