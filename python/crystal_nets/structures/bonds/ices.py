"""Nets of water: ices, and hydrates with guests, by hydrogen atoms or without them.

Each water gives two hydrogen bonds and takes two (J. D. Bernal and R. H. Fowler, J. Chem. Phys. 1 (1933) 515). Where
the hydrogen atoms are not given, and a water has more than four others near it, as in ice VII with its two nets, the
four that stand most nearly as the corners of a tetrahedron are its neighbours. That is reported as a doubt. Where no choice
of four fits all waters, the net is not known."""

from __future__ import annotations

from collections import defaultdict
from itertools import combinations

import numpy as np

from .contacts import Contact
from .hydrogen import hydrogen_bridges
from ..atoms.crystal import Crystal
from ..atoms.elements import is_water
from ..nets.pieces import pieces_of
from ...graph import Edge, QuotientGraph
from ...lattice import negate
from ...refusal import Refused

LONGEST = 3.0       # angstrom, of a hydrogen bond between two oxygens
OF_OXYGENS = (1.15, 1.70)  # angstrom, bonds of two oxygens, as in peroxides
BONDS = 4           # of a water
MOST_NEAR = 14      # waters up to LONGEST of another
COSINE = -1 / 3     # of the angle of a tetrahedron
ALIKE = 1e-3        # of the sums of squares of cosines
MOST_STEPS = 20_000

Choice = frozenset[tuple[int, tuple[int, ...]]]  # the neighbours of a water, with their cells


def is_ice(crystal: Crystal) -> bool:
    """Whether all atoms are of water: oxygens with hydrogens that are listed, attached, told by the formula or by the
    labels; or oxygens alone that are too far from each other to be bonded."""
    elements = {atom.site.element for atom in crystal.atoms}
    if not may_have_water(crystal):
        return False
    if elements != {"O"}:
        return elements == {"O", "H"} and not _has_bonds(crystal)
    return (any(atom.site.hydrogens or is_water(atom.site.label) for atom in crystal.atoms)
            or crystal.formula.keys() == {"H", "O"} or not _has_bonds(crystal))


def may_have_water(crystal: Crystal) -> bool:
    """Whether the formula has hydrogen, or oxygen alone, or is not given: oxygens of other compounds are not of water."""
    return not {"H", "D"}.isdisjoint(crystal.formula) or crystal.formula.keys() <= {"O"}


def _has_bonds(crystal: Crystal) -> bool:
    """Whether two oxygens are so near that they are bonded."""
    elements = [atom.site.element for atom in crystal.atoms]
    return any(elements[c.first] == elements[c.second] == "O" and c.length >= OF_OXYGENS[0]
               for c in crystal.contacts(OF_OXYGENS[1]))


def ice_bonds(crystal: Crystal, doubts: list[str]) -> set[Edge]:
    """Waters joined through their hydrogens, or by their distances where none are given."""
    bridges = hydrogen_bridges(crystal)
    waters = {v for v, atom in enumerate(crystal.atoms) if atom.site.element == "O"}
    return bridges or _by_distances(crystal, waters, doubts)


def hydrate_bonds(crystal: Crystal, bonds: set[Edge], doubts: list[str]) -> set[Edge]:
    """The bonds of waters that make a net in space around guests, as in clathrate hydrates; none where the other atoms
    are periodic, or the waters make no such net."""
    elements = [atom.site.element for atom in crystal.atoms]
    bonded = {v for one in bonds for v, w in (one[:2], one[1::-1]) if elements[w] != "H"}
    waters = {v for v, element in enumerate(elements) if element == "O" and v not in bonded}
    names = range(len(elements))
    if len(waters) < BONDS or any(p.dimension for p in pieces_of(QuotientGraph.of(names, bonds))):
        return set()
    found = {one for one in hydrogen_bridges(crystal) if one.u in waters and one.v in waters}
    told: list[str] = []
    if not found:
        try:
            found = _by_distances(crystal, waters, told)
        except Refused:
            return set()
    if not any(p.dimension == 3 for p in pieces_of(QuotientGraph.of(names, found))):
        return set()
    doubts += told
    return found


def _by_distances(crystal: Crystal, waters: set[int], doubts: list[str]) -> set[Edge]:
    near: dict[int, list[Contact]] = defaultdict(list)
    for c in crystal.contacts(LONGEST):
        if c.first in waters and c.second in waters:
            near[c.first].append(c)
    most = max(map(len, near.values()), default=0)
    if most <= BONDS:
        few = sum(len(contacts) < BONDS for contacts in near.values())
        doubts += [f"{few} waters have fewer than {BONDS} others up to {LONGEST:.1f}"] if few else []
        return {c.edge() for contacts in near.values() for c in contacts}
    chosen = _chosen(near) if most <= MOST_NEAR else None
    if chosen is None:
        raise Refused(f"a water has {most} others up to {LONGEST:.1f} angstrom, and which {BONDS} it is bonded to "
                      "is not known without its hydrogen atoms")
    doubts.append(f"a water has {most} others up to {LONGEST:.1f}: the {BONDS} nearest to a tetrahedron are taken, "
                  "as no hydrogen atoms are given")
    return {c.edge() for v, contacts in near.items() for c in contacts if (c.second, c.shift) in chosen[v]}


def _chosen(near: dict[int, list[Contact]]) -> dict[int, Choice] | None:
    """Of each water its neighbours, so that each is one of its neighbours' neighbours; None where there is no way."""
    choices = {v: _tetrahedra(contacts) for v, contacts in near.items()}
    chosen: dict[int, Choice] = {}
    steps = [0]

    def fits(v: int, choice: Choice) -> bool:
        return all(((v, negate(cell)) in chosen[w]) == ((w, cell) in choice)
                   for w, cell in ((c.second, c.shift) for c in near[v]) if w in chosen) and all(
                       (v, negate(cell)) in choice for w, cell in choice if w == v)

    order = _connected_order(near)
    place, tried = 0, [0] * (len(order) + 1)
    while 0 <= place < len(order):
        steps[0] += 1
        v = order[place]
        chosen.pop(v, None)
        fitting = next((k for k in range(tried[place], len(choices[v])) if fits(v, choices[v][k])), None)
        if fitting is None or steps[0] > MOST_STEPS:
            place -= 1
            continue
        chosen[v] = choices[v][fitting]
        tried[place] = fitting + 1
        place += 1
        tried[place] = 0
    return chosen if place == len(order) else None


def _connected_order(near: dict[int, list[Contact]]) -> list[int]:
    """The waters, each after one of its neighbours where there is one."""
    order: list[int] = []
    seen: set[int] = set()
    for start in sorted(near):
        reached = [] if start in seen else [start]
        seen.add(start)
        for v in reached:
            following = sorted({c.second for c in near[v]} - seen)
            seen.update(following)
            reached += following
        order += reached
    return order


def _tetrahedra(contacts: list[Contact]) -> list[Choice]:
    """The sets of four contacts that are nearest to a tetrahedron; all contacts where there are no more than four."""
    if len(contacts) <= BONDS:
        return [frozenset((c.second, c.shift) for c in contacts)]
    units = np.array([c.step / c.length for c in contacts])
    away = (units @ units.T - COSINE) ** 2
    sums = {four: sum(away[i, j] for i, j in combinations(four, 2))
            for four in combinations(range(len(contacts)), BONDS)}
    least = min(sums.values())
    return [frozenset((contacts[k].second, contacts[k].shift) for k in four)
            for four, total in sums.items() if total <= least + ALIKE]
