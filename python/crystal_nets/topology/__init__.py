"""What databases of nets list: point symbols, vertex symbols, topological density, kinds of vertices and edges.

If the program lists the symmetries of a net, the kinds of vertices and edges are proved. All else is computed here, and not
proved. Two nets may agree in all of it and differ.

infinite    the vertices of the infinite net as whole numbers, and how far they are from each other
angles      shortest cycles and shortest rings at the angles of a vertex
symbols     how these are written
symmetries  the automorphisms of a net, and its kinds of vertices and edges
sheets      the same of a net in which vertices stand in one place
listed      Topology: all of it of one net
command     net_tool topology: of the nets of files"""

from .listed import Topology, VertexKind, topology_of, topology_or_reason

__all__ = ["Topology", "VertexKind", "topology_of", "topology_or_reason"]
