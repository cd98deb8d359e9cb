"""The conventions by which the field reads a net from a framework.

Each says which atoms become one vertex. The sources: C. Bonneau and others, "Deconstruction of
crystalline networks into underlying nets", Cryst. Growth Des. 18 (2018) 3411, for single and all nodes;
A. Schoedel, M. Li, D. Li, M. O'Keeffe and O. M. Yaghi, "Structures of metal-organic frameworks with rod
secondary building units", Chem. Rev. 116 (2016) 12466, for points of extension; L. Zoubritzky and
F.-X. Coudert, "CrystalNets.jl", SciPost Chem. 1 (2022) 005, for the names; O. Delgado-Friedrichs and
M. O'Keeffe, Acta Cryst. A59 (2003) 351, for the net of all atoms."""

from __future__ import annotations

from collections.abc import Callable
from dataclasses import dataclass
from itertools import combinations

import numpy as np

from ...graph import Edge, QuotientGraph, edge
from ...lattice import Vector, add, subtract
from ...refusal import Refused
from ..atoms.elements import is_metal
from ..nets.pieces import lattice_of_walks
from .building_units import LARGEST_RING, Parts, Units, parts_of, ring_edges, units_of

ONE_LENGTH = 1.05  # times: steps along a rod that differ by less are of one length


@dataclass(frozen=True)
class Framework:
    """A net without ends whose vertices are atoms, with what the conventions ask of them."""

    net: QuotientGraph
    element: dict[str, str]
    places: dict[str, np.ndarray]  # of the atoms, in angstrom
    lattice: np.ndarray            # rows: the translations of the net, in angstrom

    @property
    def is_organic(self) -> bool:
        """Whether it has carbon that is bonded to a nonmetal, so that it is no carbide."""
        elements = [self.element[str(name)] for name in self.net.vertices]
        return any("C" in (elements[u], elements[v]) and not is_metal(elements[u]) and not is_metal(elements[v])
                   for u, v, _ in self.net.edges)

    @property
    def parts(self) -> Parts:
        return parts_of(self.net, self.element)


@dataclass(frozen=True)
class UnitNet:
    """A net of building units: for each of its vertices, by the name, the atoms that it stands for."""

    net: QuotientGraph
    atoms: dict[str, tuple[str, ...]]

    @classmethod
    def of_units(cls, framework: Framework, units: Units) -> UnitNet:
        names = framework.net.vertices
        return cls(units.net, {str(vertex): tuple(str(names[v]) for v in atoms)
                               for vertex, atoms in zip(units.net.vertices, units.atoms)})


@dataclass(frozen=True)
class Convention:
    """A way to read nets, by its name; the text and the source are reported with each net."""

    name: str
    text: str
    source: str
    apply: Callable[[Framework], UnitNet]


def all_atoms(framework: Framework) -> UnitNet:
    return UnitNet(framework.net, {str(name): (str(name),) for name in framework.net.vertices})


def single_nodes(framework: Framework) -> UnitNet:
    """A vertex for each metal part with its anions, and for each linker as a whole."""
    parts = _with_metals(framework)
    inner = parts.inner
    inside = parts.edges_within(inner) | parts.edges_within(set(range(len(parts.elements))) - inner)
    units = units_of(framework.net, inside)
    _check_metal_parts(units, parts)
    _check_linkers(units, parts)
    return UnitNet.of_units(framework, units)


def all_nodes(framework: Framework) -> UnitNet:
    """The same, but a linker is taken to pieces: its rings and its branching atoms are vertices."""
    parts = _with_metals(framework)
    units = units_of(framework.net, parts.edges_within(parts.inner) | _within_linkers(parts))
    _check_metal_parts(units, parts)
    _check_linkers(units, parts)
    return UnitNet.of_units(framework, units)


def points_and_metals(framework: Framework) -> UnitNet:
    """Metals, the atoms that join them, points of extension, and the branch points of linkers."""
    parts = _with_metals(framework)
    _check_rods(framework, parts)
    return UnitNet.of_units(framework, _points_and_metals(framework, parts))


def points_of_extension(framework: Framework) -> UnitNet:
    """The same without the metals: points of extension on one metal are joined, by the shortest steps
    that make a rod of them. Those of one end of a linker, as of a chelate, are one point."""
    parts = _with_metals(framework)
    _check_rods(framework, parts)
    return _without_metals(framework, parts, _points_and_metals(framework, parts))


def standard(framework: Framework) -> UnitNet:
    """Each building unit of a framework without metal parts is a vertex: rings that share atoms, and
    branching atoms."""
    if not framework.is_organic:
        raise Refused("there is no carbon")
    every = set(range(len(framework.net.vertices)))
    for largest in LARGEST_RINGS:
        units = units_of(framework.net, ring_edges(framework.net, every, largest))
        if not any(units.endless):
            return UnitNet.of_units(framework, units)
    raise Refused("its rings go on without end")


# atoms of a ring that is a vertex, or a part of one: where pores are rings of these, smaller ones are vertices, as the
# triazines of C3N4 and the benzenes of graphyne, whose pores have 12 atoms
LARGEST_RINGS = (LARGEST_RING, 11, 8, 6)

CONVENTIONS = {convention.name: convention for convention in (
    Convention("all-atoms", "each atom is a vertex", "Delgado-Friedrichs and O'Keeffe 2003", all_atoms),
    Convention("single-nodes", "each metal part with its anions is a vertex, and each linker",
               "Bonneau and others 2018", single_nodes),
    Convention("all-nodes", "each metal part is a vertex, and each branch point of a linker", "Bonneau and others 2018",
               all_nodes),
    Convention("pe", "points of extension of rods, and branch points of linkers", "Schoedel and others 2016",
               points_of_extension),
    Convention("pem", "metals, points of extension, and branch points of linkers", "Schoedel and others 2016",
               points_and_metals),
    Convention("standard", "each organic building unit is a vertex", "Zoubritzky and Coudert 2022", standard),
)}
AUTO = "auto"


AUTO_BY_DEFAULT = ""  # no convention is named: auto where there is organic carbon with metals, else all atoms


def convention_named(text: str) -> str:
    """The name of a convention, as others spell it, too: AllNodes, SingleNodes, PE, EachVertex of CrystalNets.jl.
    Raises ValueError where there is none."""
    plain = text.lower().replace("-", "").replace("_", "").replace(" ", "")
    names = {name.replace("-", ""): name for name in (*CONVENTIONS, AUTO)}
    names |= {"eachvertex": "all-atoms", "clusters": "single-nodes", "": AUTO_BY_DEFAULT}
    if plain not in names:
        raise ValueError(f"unknown convention {text!r} (choose from {', '.join([*CONVENTIONS, AUTO])})")
    return names[plain]


def conventions_for(asked: str, framework: Framework) -> list[Convention]:
    """The conventions that are tried: the one that is asked for, or for auto those of its kind."""
    if asked != AUTO:
        return [CONVENTIONS[asked or "all-atoms"]]
    if not framework.is_organic:
        return [CONVENTIONS["all-atoms"]]
    parts = framework.parts
    if not parts.metals or _has_endless_linkers(framework, parts):
        return [CONVENTIONS["standard"]]
    return [CONVENTIONS[name] for name in ("single-nodes", "all-nodes", "pe", "pem")]


def _has_endless_linkers(framework: Framework, parts: Parts) -> bool:
    """Whether the organic part goes on without end, as in covalent frameworks of metalloporphyrins."""
    outer = set(range(len(parts.elements))) - parts.inner
    units = units_of(framework.net, parts.edges_within(outer))
    return any(units.endless)


# What the conventions ask

def _with_metals(framework: Framework) -> Parts:
    parts = framework.parts
    if not parts.metals:
        raise Refused("there are no metals")
    outer = set(range(len(parts.elements))) - parts.inner
    if not outer:
        raise Refused("there are no linkers")
    if not _has_organic_linkers(framework, parts, outer):
        raise Refused("there is no organic linker: this convention is one for metal-organic frameworks")
    return parts


def _has_organic_linkers(framework: Framework, parts: Parts, outer: set[int]) -> bool:
    """Whether there is carbon that is bonded to a nonmetal, or a linker of several nitrogens, as azide."""
    return framework.is_organic or any(parts.elements[u] == parts.elements[v] == "N"
                                       for u, v, _ in parts.edges_within(outer))


def _check_metal_parts(units: Units, parts: Parts) -> None:
    if any(units.endless[unit] for unit in units.having(parts.metals)):
        raise Refused("the metal parts go on without end, as rods: pe and pem apply")


def _check_linkers(units: Units, parts: Parts) -> None:
    if any(units.endless):
        raise Refused("the organic parts go on without end: standard applies")


def _check_rods(framework: Framework, parts: Parts) -> None:
    units = units_of(framework.net, parts.edges_within(parts.inner))
    if not any(units.endless[unit] for unit in units.having(parts.metals)):
        raise Refused("there are no rods of metals")


def _within_linkers(parts: Parts) -> set[Edge]:
    """The bonds of rings in linkers, and of small anions."""
    outer = set(range(len(parts.elements))) - parts.inner
    of_held = {bond for bond in parts.edges_within(outer) if {bond.u, bond.v} & parts.held}
    return (ring_edges(parts.net, outer) - parts.beside_rings) | parts.edges_within(parts.small_anions) | of_held


# Rods

def _points_and_metals(framework: Framework, parts: Parts) -> Units:
    """The units of which an anion such as a carboxylate is one, and each metal, and each other donor;
    finite metal parts beside rods are one each."""
    within = parts.edges_within(parts.inner)
    whole = units_of(framework.net, within)
    finite = {v for v in parts.inner if not whole.endless[whole.unit[v]]}
    anions = {bond for bond in within if {bond.u, bond.v} & (parts.centres | parts.azolates)
              and not {bond.u, bond.v} & parts.metals}
    units = units_of(framework.net, anions | parts.edges_within(finite) | _within_linkers(parts))
    if any(units.endless):
        raise Refused("an organic part goes on without end: standard applies")
    return units


def _without_metals(framework: Framework, parts: Parts, units: Units) -> UnitNet:
    """The net of units without the metals of rods and the atoms that only join these."""
    arcs = units.net.arcs()
    metals = {unit for unit in units.having(parts.metals) if len(units.atoms[unit]) == 1}
    linkers = {unit for unit, atoms in enumerate(units.atoms) if not set(atoms) & parts.inner}
    bridges = {unit for unit in units.having(parts.donors) if len(units.atoms[unit]) == 1
               and not any(w in linkers for w, _ in arcs[unit])}
    kept = set(range(len(arcs))) - metals - bridges
    merged: set[Edge] = set()
    steps: set[Edge] = set()
    for metal in metals:
        near = [(w, s) for w, s in arcs[metal] if w in kept]
        for (a, s), (b, t) in combinations(near, 2):
            is_one = _have_one_neighbour(arcs, linkers, (a, s), (b, t))
            (merged if is_one else steps).add(edge(a, b, subtract(t, s)))
    places = _places_of_units(framework, units)
    edges = {one for one in units.net.edges if one.u in kept and one.v in kept}
    points = units_of(units.net.with_edges(edges | steps | merged), merged)
    if any(points.endless):
        raise Refused("the ends of linkers on a rod touch without end")
    middles = _places_of_points(places, points, framework.lattice)
    along = {edge(points.unit[u], points.unit[v], subtract(add(points.cell[u], s), points.cell[v]))
             for u, v, s in steps}
    along = {step for step in along if step.u != step.v or any(step.shift)}
    taken = _shortest_rods(points.net, along, middles, framework.lattice)
    net = points.net.with_edges((points.net.edge_set - along) | taken)
    names = framework.net.vertices
    atoms = {str(vertex): tuple(str(names[v]) for unit in members for v in units.atoms[unit])
             for vertex, members in zip(points.net.vertices, points.atoms)}
    return UnitNet(net.part(unit for unit, members in enumerate(points.atoms) if set(members) <= kept), atoms)


def _places_of_points(places: list[np.ndarray], points: Units, lattice: np.ndarray) -> list[np.ndarray]:
    """The mean places of units that became one."""
    return [np.mean([places[v] + np.array(points.cell[v]) @ lattice for v in members], axis=0)
            for members in points.atoms]


def _shortest_rods(points: QuotientGraph, steps: set[Edge], places: list[np.ndarray], lattice: np.ndarray) -> set[Edge]:
    """The shortest of the steps, up to the length that joins what all of them join."""
    length = {step: float(np.linalg.norm(places[step.v] + np.array(step.shift) @ lattice - places[step.u]))
              for step in steps}
    wanted = _joined(points.with_edges(steps))
    limits = sorted(set(length.values()))
    for limit in limits:
        taken = {step for step in steps if length[step] <= ONE_LENGTH * limit}
        if _joined(points.with_edges(taken)) == wanted:
            return taken
    return steps


def _joined(net: QuotientGraph) -> list[tuple[list[int], list[Vector]]]:
    """What a net joins: the parts of its quotient graph, and the lattice of each part's closed walks."""
    return [(part, lattice_of_walks(net.part(part))) for part in net.connected_parts()]


def _have_one_neighbour(arcs: list[list[tuple[int, Vector]]], linkers: set[int], one: tuple[int, Vector],
                        other: tuple[int, Vector]) -> bool:
    """Whether two points of extension, in their cells, are on one linker."""
    def linkers_at(point: tuple[int, Vector]) -> set[tuple[int, Vector]]:
        return {(w, add(point[1], s)) for w, s in arcs[point[0]] if w in linkers}

    return bool(linkers_at(one) & linkers_at(other))


def _places_of_units(framework: Framework, units: Units) -> list[np.ndarray]:
    """The mean place of each unit, in its cell 0."""
    places = []
    for atoms in units.atoms:
        of_atoms = np.array([framework.places[str(framework.net.vertices[v])] for v in atoms])
        cells = np.array([units.cell[v] for v in atoms], dtype=float)
        places.append(np.mean(of_atoms + cells @ framework.lattice, axis=0))
    return places
