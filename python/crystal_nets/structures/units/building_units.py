"""The building units of frameworks: which atoms of a net belong together.

A unit is a connected part of the net by some of its bonds, and is to be finite. Metal parts are
metals with the donors and the bridging anions on them; the rest are linkers."""

from __future__ import annotations

from collections.abc import Iterable
from dataclasses import dataclass, field

from ..atoms.elements import is_metal
from ...graph import Edge, QuotientGraph, edge
from ...lattice import Vector, add, subtract
from ..nets.pieces import rank_and_walks

ORGANIC = frozenset(("C", "H", "N", "B"))  # on a metal they belong to linkers; other donors belong to metal parts
ANION_CENTRES = frozenset(("C", "P", "S", "As", "Se", "Si", "Ge", "Cl"))
HOLDING = 4        # nitrogens of one linker on a metal that belongs to it
LARGEST_RING = 16  # atoms: the inner ring of porphyrins; pores of covalent frameworks have 18 and more


@dataclass
class Parts:
    """The atoms of a net by the parts that they belong to."""

    net: QuotientGraph
    elements: list[str]
    metals: set[int] = field(default_factory=set)
    donors: set[int] = field(default_factory=set)   # atoms on metals that are not of linkers, as O in OH and COO
    centres: set[int] = field(default_factory=set)  # of anions that join donors, as C in a carboxylate
    small_anions: set[int] = field(default_factory=set)  # oxalate and the like, carbons that all bear oxygen
    azolates: set[int] = field(default_factory=set)  # nitrogens beside each other that are both on metals
    held: set[int] = field(default_factory=set)      # metals that one ring holds, as in porphyrins: parts of linkers
    beside_rings: set[Edge] = field(default_factory=set)  # bonds of these to others than their ring

    @property
    def inner(self) -> set[int]:
        """The metal parts."""
        return self.metals | self.donors | self.centres

    def edges_within(self, atoms: set[int]) -> set[Edge]:
        return {bond for bond in self.net.edges if bond.u in atoms and bond.v in atoms} - self.beside_rings


def parts_of(net: QuotientGraph, element: dict[str, str]) -> Parts:
    """The parts of a net that has no ends."""
    parts = Parts(net, [element[str(name)] for name in net.vertices])
    around = [[w for w, _ in arcs] for arcs in net.arcs()]
    parts.metals = {v for v, e in enumerate(parts.elements) if is_metal(e)}
    _find_held(parts)
    parts.small_anions = _small_anions(parts, around)
    parts.azolates = _azolates(parts, around)
    parts.donors = {v for v, near in enumerate(around) if parts.elements[v] not in ORGANIC and v not in parts.metals
                    and v not in parts.small_anions and any(w in parts.metals for w in near)} | parts.azolates
    parts.centres = {v for v, near in enumerate(around)
                     if parts.elements[v] in ANION_CENTRES and v not in parts.metals | parts.donors | parts.small_anions
                     and sum(w in parts.donors and parts.elements[w] == "O" for w in near) >= 2}
    return parts


def _find_held(parts: Parts) -> None:
    """Metals with four or more nitrogens of one finite linker, as in porphyrins, phthalocyanines and cyclams."""
    net, bonds = parts.net, parts.edges_within(set(range(len(parts.elements))) - parts.metals)
    linkers = units_of(net, bonds)
    arcs = net.arcs()
    for v in sorted(parts.metals):
        of_linker: dict[tuple[int, Vector], list[tuple[int, Vector]]] = {}
        for w, s in arcs[v]:
            if w not in parts.metals and not linkers.endless[linkers.unit[w]]:
                of_linker.setdefault((linkers.unit[w], subtract(s, linkers.cell[w])), []).append((w, s))
        holding = [found for found in of_linker.values()
                   if sum(parts.elements[w] == "N" for w, _ in found) >= HOLDING]
        if holding:
            parts.held.add(v)
            parts.beside_rings |= {edge(v, w, s) for w, s in arcs[v] if (w, s) not in holding[0]}
    parts.metals -= parts.held


def _azolates(parts: Parts, around: list[list[int]]) -> set[int]:
    """Nitrogens that are bonded to each other and each to a metal, as in pyrazolates and triazolates: with them their
    metals are one part, as in Kuratowski units."""
    on_metals = {v for v, near in enumerate(around)
                 if parts.elements[v] == "N" and any(w in parts.metals for w in near)}
    return {v for v in on_metals if any(w in on_metals for w in around[v])}


def _small_anions(parts: Parts, around: list[list[int]]) -> set[int]:
    """Formate, carbonate, oxalate, squarate: carbons that each bear oxygen, and nothing beside each
    other, with these oxygens. They are linkers as they stand."""
    elements = parts.elements
    oxygens = {v: [w for w in near if elements[w] == "O"] for v, near in enumerate(around) if elements[v] == "C"}
    carbons = {v for v, near in oxygens.items() if near}
    found: set[int] = set()
    for part in parts.net.part(carbons).connected_parts():
        group = {sorted(carbons)[k] for k in part}
        if all(w in group or elements[w] == "O" for v in group for w in around[v]):
            found |= group | {w for v in group for w in oxygens[v]}
    return found


def ring_edges(net: QuotientGraph, atoms: set[int], largest: int = LARGEST_RING) -> set[Edge]:
    """The bonds between these atoms that are on a ring of at most so many of them."""
    arcs = [[(w, s) for w, s in near if w in atoms] if v in atoms else [] for v, near in enumerate(net.arcs())]
    return {bond for bond in net.edges
            if bond.u in atoms and bond.v in atoms and _is_on_ring(arcs, bond.u, (bond.v, bond.shift), largest)}


def _is_on_ring(arcs: list[list[tuple[int, Vector]]], start: int, end: tuple[int, Vector], largest: int) -> bool:
    """Whether another way leads from one atom to its neighbour, with at most so many atoms: the ways from both of them
    meet half-way."""
    origin = (start, (0,) * len(end[1]))
    half = largest // 2
    return bool(_reached(arcs, origin, end, half) & _reached(arcs, end, origin, largest - 1 - half))


def _reached(arcs: list[list[tuple[int, Vector]]], start: tuple[int, Vector], end: tuple[int, Vector],
             steps: int) -> set[tuple[int, Vector]]:
    """The atoms that are reached in so many steps, but not over the bond from the start to the end."""
    seen, shell = {start}, [start]
    for _ in range(steps):
        following = []
        for v, cell in shell:
            for w, s in arcs[v]:
                at = (w, add(cell, s))
                if at not in seen and not ((v, cell) == start and at == end):
                    seen.add(at)
                    following.append(at)
        shell = following
    return seen


@dataclass
class Units:
    """A net of units: for each atom its unit, and the cell that the unit is in, seen from the atom's."""

    net: QuotientGraph
    unit: list[int]
    cell: list[Vector]  # of each atom, in its unit
    atoms: list[list[int]]
    endless: list[bool]  # whether the unit goes on without end

    def having(self, atoms: set[int]) -> set[int]:
        """The units that have one of the atoms."""
        return {self.unit[v] for v in atoms}


def units_of(net: QuotientGraph, inside: Iterable[Edge]) -> Units:
    """The net whose vertices are the units that the inner edges make. A unit that goes on without
    end has no place, and so no edges."""
    inner = net.with_edges(inside)
    count = len(net.vertices)
    unit, cell = [0] * count, [(0,) * net.dimension] * count
    atoms, endless = [], []
    looped = {u for u, v, _ in inner.edges if u == v}
    for number, part in enumerate(inner.connected_parts()):
        rank, walks = rank_and_walks(inner.part(part)) if len(part) > 1 or part[0] in looped else (0, [])
        atoms.append(part)
        endless.append(rank > 0)
        for k, v in enumerate(part):
            unit[v] = number
            cell[v] = walks[k] if walks else cell[v]
    edges = {edge(unit[u], unit[v], subtract(add(cell[u], s), cell[v])) for u, v, s in net.edge_set - inner.edge_set
             if not endless[unit[u]] and not endless[unit[v]]}
    names = [net.vertices[part[0]] for part in atoms]
    kept = (one for one in edges if one.u != one.v or any(one.shift))
    return Units(QuotientGraph.of(names, kept, net.dimension), unit, cell, atoms, endless)
