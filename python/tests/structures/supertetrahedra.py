"""MIL-100 from ideal geometry: tetrahedra of trimers that share their corners, as the tetrahedra of
silicon and oxygen in the zeolite MTN do.

In MTN all bonds are eclipsed, and so the corners are prisms, as trimers with six carboxylates are.
G. Férey and others, Angew. Chem. Int. Ed. 43 (2004) 6296."""

from __future__ import annotations

from itertools import combinations, product

import numpy as np
from assembly import Assembly, Places, arcs_of, placed
from odd_cells import Edge


from crystal_nets.graph import Edge as GraphEdge, QuotientGraph  # noqa: E402
from crystal_nets.structures.nets.translations import divided_by_translations  # noqa: E402

Corners = list[list[tuple[int, np.ndarray]]]  # of each tetrahedron its four corners, and their cells
ACROSS = (8 / 3) ** 0.5  # edges, between two neighbours of the middle of a tetrahedron
OUTWARD = 0.6  # times the way from the middle of a tetrahedron to a corner: the ring on the face opposite to it


def with_faces(edges: list[Edge]) -> tuple[list[Edge], Places]:
    """Corners, and after them faces that are joined to three corners each, as by the linkers of MIL-100,
    with their places.

    edges  of a net whose vertices have four neighbours, in any cell"""
    corners, places, middles, lattice = _tetrahedra(edges)
    joined, faces = [], []
    for v, face in product(range(len(corners)), range(4)):
        opposite, cell = corners[v][face]
        number = len(places) + len(faces)
        joined += [_edge(number, np.zeros(3, int), *corner) for k, corner in enumerate(corners[v]) if k != face]
        faces.append(middles[v] - OUTWARD * (places[opposite] + cell - middles[v]))
    return joined, (np.vstack((places, faces)), lattice)


def _tetrahedra(edges: list[Edge]) -> tuple[Corners, np.ndarray, np.ndarray, np.ndarray]:
    """Of a net in its primitive cell the corners, which are the middles of its edges, their places and
    those of its vertices, and the lattice."""
    count = 1 + max(max(u, v) for u, v, _ in edges)
    net = divided_by_translations(QuotientGraph.of(map(str, range(count)), (GraphEdge(*edge) for edge in edges)))
    edges = list(net.edges)
    middles, lattice = _regular(edges, len(net.vertices))
    places = np.array([(middles[u] + middles[v] + s) / 2 for u, v, s in edges])
    corners = [[(number, np.zeros(3, int) if end == 0 else step) for _, step, (number, end) in arcs]
               for arcs in arcs_of(edges, len(net.vertices))]
    return corners, places, middles, lattice


def _regular(edges: list[Edge], count: int) -> Places:
    """Places in which all edges are alike, and the angles those of tetrahedra, as far as they can be."""
    places, lattice = placed(edges, count)
    lattice = lattice / np.mean([np.linalg.norm((places[v] + s - places[u]) @ lattice) for u, v, s in edges])
    frame = Assembly(lattice, ["Si"] * count, list(places @ lattice))
    for u, v, s in edges:
        frame.join(u, v, s, 1.0)
    for around in arcs_of(edges, count):
        for (a, s, _), (b, t, _) in combinations(around, 2):
            frame.join(a, b, tuple(t - s), ACROSS)
    frame.relax(is_crowded=False)
    return np.array(frame.places) @ np.linalg.inv(frame.lattice), frame.lattice


def _edge(u: int, one: np.ndarray, v: int, other: np.ndarray) -> Edge:
    return u, v, tuple((other - one).tolist())
