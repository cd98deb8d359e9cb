"""What databases list of a net. Of a net with a key the kinds of vertices and edges are proved, and nothing else."""

from __future__ import annotations

from typing import Any

from ..net import Net
from ..symmetries import told_group
from ..topology import topology_or_reason


def listed(net: Net) -> dict[str, Any]:
    """The group with the kinds of vertices and edges, how that of the block is related to it, point symbol, vertex symbols of
    the kinds of vertices, TD10, transitivity; a reason if there are none."""
    found = topology_or_reason(net)
    if isinstance(found, str):
        return {"reason": found}
    symbols = [{"symbol": kind.vertex_symbol, "vertices": kind.count, "connectivity": kind.connectivity} for kind in found.kinds]
    group = told_group(net, found.symmetries, sum(kind.count for kind in found.kinds))
    return {"symmetry": found.told_symmetry, "group": group, "point_symbol": found.point_symbol, "vertex_symbols": symbols,
            "td10": f"{float(found.td10):.2f}", "transitivity": found.transitivity}
