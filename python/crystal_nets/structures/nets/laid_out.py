"""A net laid over the atoms that it was read from: where its vertices stand among them, and which atoms belong to which.

Places are in angstrom. Those of vertices are the means of the atoms of their building units."""

from __future__ import annotations

from dataclasses import dataclass

import numpy as np

from ...graph import Edge, QuotientGraph
from ...lattice import Vector, add
from ...net import Net
from ...refusal import Refused
from ..atoms.crystal import Crystal
from ..units.conventions import CONVENTIONS, UnitNet
from .choice import Options, alike, atoms_chosen, bad_guests, bonds_asked, framework_of, read_by
from .pieces import Piece, pieces_of


@dataclass(frozen=True)
class LaidOut:
    """One piece of a crystal with its net.

    lattice   d x 3, rows: the translations of the net
    copies    the offsets of its copies, n x 3; the first is 0
    vertices  the places of the vertices of the net, in their order, n x 3
    edges     of the net, over the lattice
    elements  of the atoms
    places    of the atoms, n x 3, each where its building unit has it
    unit      of each atom the number of its building unit
    vertex    of each building unit the number of its vertex, or -1 where it became an edge or an end
    bonds     of the atoms, over the lattice"""

    lattice: np.ndarray
    copies: np.ndarray
    vertices: np.ndarray
    edges: tuple[Edge, ...]
    elements: list[str]
    places: np.ndarray
    unit: list[int]
    vertex: list[int]
    bonds: tuple[Edge, ...]


def laid_out(crystal: Crystal, options: Options, net: Net) -> list[LaidOut]:
    """The pieces of a crystal that a net stands for, each with its atoms. Refused where the net is none of its atoms."""
    convention = CONVENTIONS.get(net.convention)
    if convention is None:
        raise Refused("the net is of no convention")
    crystal = crystal.without(bad_guests(crystal))
    chosen = atoms_chosen(crystal, bonds_asked(crystal, options, []), options, [])
    periodic = [piece for piece in pieces_of(chosen) if piece.dimension >= 2]
    wanted = set(net.graph.labelled_edges)
    for group in [[piece] for piece in periodic] if options.every_copy else alike(periodic, crystal):
        try:
            _, simple = read_by(convention, framework_of(crystal, group[0]), group[0].dimension)
        except Refused:
            continue
        if set(simple.net.labelled_edges) == wanted:
            return [_of_piece(crystal, piece, net.convention) for piece in group]
    raise Refused("its net is that of no piece as it stands")


def _of_piece(crystal: Crystal, piece: Piece, convention: str) -> LaidOut:
    framework = framework_of(crystal, piece)
    units, simple = read_by(CONVENTIONS[convention], framework, piece.dimension)
    by_name = {atom.name: atom for atom in crystal.atoms}
    names = list(map(str, piece.net.vertices))
    cells = np.array(piece.cells, float) @ crystal.cell
    own = np.array([by_name[name].place for name in names]) + cells
    unit, shift = _units_of_atoms(piece.net, units)
    places = own + np.array(shift, float).reshape(len(names), -1) @ framework.lattice
    number = {str(vertex): k for k, vertex in enumerate(simple.net.vertices)}
    vertex = [number.get(name, -1) for name in units.atoms]
    bonds = tuple(Edge(u, v, tuple(np.array(s) + shift[u] - shift[v])) for u, v, s in piece.net.edges)
    return LaidOut(framework.lattice, _offsets(crystal, piece), _middles(places, names, units, simple.net), simple.net.edges,
                   [by_name[name].site.element for name in names], places, unit, vertex, bonds)


def _units_of_atoms(whole: QuotientGraph, units: UnitNet) -> tuple[list[int], list[Vector]]:
    """Of each atom the number of its unit, and the cell in which it belongs to it: that to which bonds lead from the first
    atom of the unit. Ends belong to the unit that they hang on; what hangs on none has the number -1."""
    number = {str(name): v for v, name in enumerate(whole.vertices)}
    unit = [-1] * len(number)
    for k, atoms in enumerate(units.atoms.values()):
        for name in atoms:
            unit[number[name]] = k
    arcs, zero = whole.arcs(), (0,) * whole.dimension
    shift: dict[int, Vector] = {}
    for atoms in units.atoms.values():
        for name in atoms:  # the first atom, and those that no bond within the unit reaches
            _walk(number[name], zero, arcs, unit, shift)
    for v in list(shift):  # ends
        reached = [v]
        for at in reached:
            for w, s in arcs[at]:
                if unit[w] < 0:
                    unit[w], shift[w] = unit[at], add(shift[at], s)
                    reached.append(w)
    return unit, [shift.get(v, zero) for v in range(len(unit))]


def _walk(start: int, cell: Vector, arcs: list[list[tuple[int, Vector]]], unit: list[int], shift: dict[int, Vector]) -> None:
    """Goes from an atom along bonds to all others of its unit."""
    if start in shift:
        return
    shift[start], reached = cell, [start]
    for v in reached:
        for w, s in arcs[v]:
            if unit[w] == unit[start] and w not in shift:
                shift[w] = add(shift[v], s)
                reached.append(w)


def _middles(places: np.ndarray, names: list[str], units: UnitNet, net: QuotientGraph) -> np.ndarray:
    """The mean place of the atoms of each vertex."""
    number = {name: v for v, name in enumerate(names)}
    return np.array([places[[number[name] for name in units.atoms[str(vertex)]]].mean(axis=0) for vertex in net.vertices])


def _offsets(crystal: Crystal, piece: Piece) -> np.ndarray:
    """The translations of the crystal up to those of a net in space."""
    if piece.dimension < 3:
        return np.zeros((1, 3))
    pivots = [row[k] for k, row in enumerate(piece.basis)]
    return np.array(np.meshgrid(*map(np.arange, pivots), indexing="ij"), float).reshape(3, -1).T @ crystal.cell
