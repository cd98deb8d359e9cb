"""From what a CRYSTAL or TILING block lists to its net, with each degree as stated."""

from __future__ import annotations

import numpy as np
from ..graph import QuotientGraph
from ..net import Net
from ..provenance import DOUBT, GivenGroup, Note
from ..refusal import Refused
from ..structures.nets.pieces import is_one_piece

from .checks import check_parts
from .crystal import CrystalBlock, Node
from .made_net import net_made
from .neighbours import join_nearest
from .orbits import Orbits, Places
from .tokens import shown

# of the distance at which the nodes stood, were all of them in general position: what is tried in turn
TOLERANCES = (0.03, 0.003, 0.1)


def net_of_crystal_block(crystal: CrystalBlock) -> Net:
    """The net of a crystal, with each degree as stated. Where places that are matched within the usual
    tolerance do not give it, a smaller and a larger one are tried, and that is noted; refused by the first reason."""
    has_degrees = any(node.degree is not None for node in crystal.nodes)
    first: Refused | None = None
    for tolerance in TOLERANCES if has_degrees else TOLERANCES[:1]:
        notes: list[str | Note] = []
        try:
            net = _net_within(tolerance, crystal, notes)
        except Refused as reason:
            first = first or reason
            continue
        if first:
            text = f"places are matched within {tolerance:.1%} and not {TOLERANCES[0]:.1%}, since {first.reason}"
            notes.append(Note(DOUBT, text))
        crystal.notes += notes
        return net
    raise first or Refused("there are no nodes")


def _net_within(tolerance: float, crystal: CrystalBlock, notes: list[str | Note]) -> Net:
    """The same with places that are matched within a tolerance."""
    metric = crystal.group.metric(crystal.gram)
    places = Places(crystal.group, metric, crystal.nodes or _corners(crystal, metric, tolerance), tolerance)
    notes += places.notes
    orbits = Orbits(places)
    for bond in crystal.bonds:
        orbits.add_bond(bond)
    made = "edges as given"
    listed = len(orbits.edges)
    are_listed = crystal.has_edges and not _lack_some(orbits)
    if not are_listed:
        made = "edges by distance" if not crystal.has_edges else "edges as given, and others by distance"
        join_nearest(crystal, orbits, notes)
        if crystal.has_edges:
            notes.append(Note(DOUBT, f"the edges that are listed are fewer than the degrees ask for: {len(orbits.edges) - listed} "
                                     f"are added by distance to {listed}"))
        if not is_one_piece(QuotientGraph.of(places.names, orbits.edges, crystal.dimension)):
            notes.append(Note(DOUBT, "edges are by distance, and the net is not connected"))
    for node, found in zip(places.nodes, orbits.degrees()):
        if node.degree is not None and node.degree != found:
            by_edges = " by its edges" if are_listed else ""
            raise Refused(f"the node {shown(node.name)} has {found} neighbours{by_edges}, {node.degree} are stated",
                          node.line)
    notes += check_parts(crystal.stated, orbits)
    given = GivenGroup(crystal.group.name, len(crystal.group.rotations))
    return net_made(crystal.name, crystal.dimension, places.names, orbits.edges, f"{given.name}, {made}", given)


def _lack_some(orbits: Orbits) -> bool:
    """Whether a node has fewer neighbours than it is to have, and none has more."""
    pairs = [(found, node.degree) for node, found in zip(orbits.places.nodes, orbits.degrees()) if node.degree is not None]
    return any(found < degree for found, degree in pairs) and all(found <= degree for found, degree in pairs)


def _corners(crystal: CrystalBlock, metric: np.ndarray, tolerance: float) -> list[Node]:
    """The corners of the faces of a tiling as nodes, one of each orbit, named by numbers."""
    nodes: list[Node] = []
    places = Places(crystal.group, metric, [], tolerance / max(1, len(crystal.bonds)) ** (1 / crystal.dimension))
    for bond in crystal.bonds:
        if places.find(bond.ends[0][None, :] @ crystal.group.to_basis)[0][0] < 0:
            nodes.append(Node(str(len(nodes) + 1), None, bond.ends[0], bond.line))
            places.add(nodes[-1])
    if not nodes:
        raise Refused("there are no faces")
    return nodes
