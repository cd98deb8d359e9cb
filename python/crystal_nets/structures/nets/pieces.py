"""The pieces of a net: its connected components, each over its own lattice."""

from __future__ import annotations

from dataclasses import dataclass

from ...graph import Edge, QuotientGraph
from ...lattice import Vector, add, coordinates, index, staircase, subtract


@dataclass(frozen=True)
class Piece:
    """A connected component of a net."""

    net: QuotientGraph   # connected, with shifts in a basis of its own translations
    dimension: int       # 0 a molecule, 1 a rod, 2 a layer, 3 a net in space
    copies: int          # how many translates of it the lattice of the crystal makes, in dimension 3
    basis: list[Vector]  # of its translations, in the basis of the crystal
    cells: list[Vector]  # of each vertex: the cell of the crystal that it is in


def pieces_of(net: QuotientGraph) -> list[Piece]:
    """One piece for each connected part of the quotient graph."""
    return [_piece(net.part(part)) for part in net.connected_parts()]


def rank_and_walks(net: QuotientGraph) -> tuple[int, list[Vector]]:
    """Of a connected quotient graph the dimension of its piece, and the cells of walks."""
    cells = net.walks()
    return len(staircase(set(_closed_shifts(net, cells).values()))), cells


def lattice_of_walks(net: QuotientGraph) -> list[Vector]:
    """Of a connected quotient graph the staircase basis of the shifts of closed walks."""
    return staircase(set(_closed_shifts(net, net.walks()).values()))


def is_one_piece(net: QuotientGraph) -> bool:
    """Whether the net is connected: its quotient graph is, and the shifts of closed walks span all whole vectors."""
    if not net.edges or len(net.connected_parts()) > 1:
        return False
    basis = lattice_of_walks(net)
    return len(basis) == net.dimension and index(basis) == 1


def _closed_shifts(net: QuotientGraph, cells: list[Vector]) -> dict[Edge, Vector]:
    """For each edge the shift of the closed walk along it."""
    return {one: subtract(add(cells[one.u], one.shift), cells[one.v]) for one in net.edges}


def _piece(net: QuotientGraph) -> Piece:
    if not net.edges:  # a single atom, of which a crystal may have thousands
        return Piece(QuotientGraph.of(net.vertices, (), 0, net.name), 0, 1, [], [(0,) * net.dimension])
    cells = net.walks()
    closed = _closed_shifts(net, cells)
    basis = staircase(set(closed.values()))
    dimension = len(basis)
    copies = index(basis) if dimension == 3 else 1
    if dimension == 3 and copies == 1:
        return Piece(net, 3, 1, basis, [(0, 0, 0)] * len(cells))
    over_basis = net.with_shifts(lambda one: coordinates(closed[one], basis), dimension)
    return Piece(over_basis, dimension, copies, basis, cells)
