"""What a block states of its net beside the edges: each row is compared, and one that the net contradicts refuses it."""

from __future__ import annotations

from collections.abc import Iterable

import numpy as np

from ..graph import QuotientGraph
from ..provenance import DOUBT, Note

from .orbits import Orbits
from .sections import Part
from .stated import check_stated
from .tokens import CENTRES, DENSITY, Row, number_of, shown

FARTHER = 2.0     # times the tolerance of places: a middle has the errors of both ends
OTHER = 0.02      # of a density: by more it is another one


def check_parts(parts: Iterable[Part], orbits: Orbits) -> list[Note]:
    """Compares what a block states with its net: middles of edges, coordination sequences, densities. Refused by the row
    that no edge or no vertex has; a doubt, if the net has an edge whose middle is not listed, or another density."""
    rows = [row for part in parts for row in part.content]
    graph = QuotientGraph.of(orbits.places.names, orbits.edges, orbits.places.group.dimension)
    notes = check_stated(rows, graph)
    notes += _check_centres([row for row in rows if row.keyword == CENTRES], orbits)
    return notes + [doubt for row in rows if row.keyword == DENSITY for doubt in _doubts_of_density(row, orbits)]


def _check_centres(rows: list[Row], orbits: Orbits) -> list[Note]:
    if not rows or not orbits.edges:
        return []
    places = orbits.places
    group = places.group
    middles = np.array([(places.places[u] + places.places[v] + np.array(shift)) / 2 for u, v, shift in sorted(orbits.edges)])
    is_listed = np.zeros(len(middles), dtype=bool)
    for row in rows:
        if len(row) != group.dimension:
            raise row.refused(f"{shown(row.text)} is no middle of an edge, which has {group.dimension} coordinates")
        images = np.array(row.numbers(row.tokens)) @ group.to_basis @ group.rotations + group.moves
        gaps = images[:, None, :] - middles[None, :, :]
        is_near = np.linalg.norm((gaps - np.rint(gaps)) @ places.frame, axis=2) <= FARTHER * places.tolerance
        if not is_near.any():
            raise row.refused(f"no edge has its middle at {row.text}")
        is_listed |= is_near.any(axis=0)
    count = int((~is_listed).sum())
    return [Note(DOUBT, f"{count} of {len(middles)} edges have their middle at none that is listed")] if count else []


def _doubts_of_density(row: Row, orbits: Orbits) -> list[Note]:
    """The density is the number of vertices in the volume of a cube whose edges are as long as those of the net, the
    shortest or the mean ones, or as the unit of the cell."""
    stated = number_of(row.tokens[0].text)
    places = orbits.places
    lengths = [float(np.linalg.norm((places.places[v] + np.array(shift) - places.places[u]) @ places.frame))
               for u, v, shift in orbits.edges]
    count = len(places.places) / float(np.prod(np.diag(places.frame)))
    found = [count * length ** places.group.dimension for length in (min(lengths), float(np.mean(lengths)), 1.0)] if lengths else []
    if stated is not None and any(abs(float(stated) - density) <= OTHER * density for density in found):
        return []
    told = " or ".join(dict.fromkeys(f"{density:.4g}" for density in found))
    return [Note(DOUBT, f"line {row.line}: the density is stated as {shown(row.text)[1:-1]}, and that of the net is {told}")]
