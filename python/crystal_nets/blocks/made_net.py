"""The net that a block gives, within the limits of the program."""

from __future__ import annotations

from collections.abc import Iterable

from ..graph import Edge, QuotientGraph
from ..net import Net
from ..provenance import GivenGroup, Provenance
from ..refusal import Refused
from ..texts.graph_text import written_labels, written_name
from ..texts.net_text import GREATEST_SHIFT, MOST_EDGES, MOST_VERTICES

from .tokens import shown


def net_made(name: str, dimension: int, vertices: list[str], edges: Iterable[Edge], made: str,
             group: GivenGroup | None = None) -> Net:
    """The net of vertices and edges, and how they were made; refused where it is past a limit."""
    graph = QuotientGraph.of(vertices, edges, dimension)
    _check_limits(graph)
    labels = written_labels(vertices)
    return Net.of_graph(QuotientGraph(labels, graph.edges, dimension, written_name(name)), name, Provenance(made=made, group=group))


def _check_limits(graph: QuotientGraph) -> None:
    """Refuses a graph that the program would refuse for its size, and a vertex without an edge, which a block cannot
    have."""
    if len(graph.vertices) > MOST_VERTICES:
        raise Refused(f"{len(graph.vertices)} vertices in a primitive cell, at most {MOST_VERTICES} are read")
    if len(graph.edges) > MOST_EDGES:
        raise Refused(f"{len(graph.edges)} edges in a primitive cell, at most {MOST_EDGES} are read")
    if any(abs(part) > GREATEST_SHIFT for edge in graph.edges for part in edge.shift):
        raise Refused(f"an edge goes farther than {GREATEST_SHIFT} cells")
    for vertex, degree in zip(graph.vertices, graph.degrees()):
        if not degree:
            raise Refused(f"the vertex {shown(str(vertex))} has no edge")
    if not graph.edges:
        raise Refused("there are no edges")
