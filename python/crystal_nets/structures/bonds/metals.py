"""Two metals beside anions: where they are joined, and where that is in doubt.

A contact that no anion bridges, and that is as long as a single bond, is one, as Ga-Ga in GaSe and Hg-Hg in calomel.
One that is bridged may be short because of the bridge, as Cu-Cu in carboxylates: it is left out, and told where it is
shorter than the radii and than the edge of a regular octahedron of these anions."""

from __future__ import annotations

from collections import defaultdict
from dataclasses import dataclass

import gemmi
import numpy as np

from .contacts import Contact, radius
from .lengths import single_bond
from ..atoms.crystal import Crystal
from ..atoms.elements import is_metal
from ...lattice import Vector, subtract

ABOVE_SINGLE = 0.10  # angstrom: the longest bond of two metals
EDGE = 1.42          # times the bonds to common anions: the diagonal of their square in rock salt is 1.414
TOUCHING = 1.10      # times the sum of the radii
METAL_RICH = 2.5     # metals for each other atom: Fe3C and Ni3P are built as Co3B and Ni3B are
IONIC_GROUPS = frozenset("Li Na K Rb Cs Fr Be Mg Ca Sr Ba Ra".split())


@dataclass(frozen=True)
class MetalPairs:
    """The bonds of two metals, and doubts about those that are left out."""

    bonds: list[Contact]
    doubts: set[str]


def metal_pairs(crystal: Crystal, polar: list[Contact]) -> MetalPairs:
    """Judges the contacts of two metals by their bonds to anions, which are given from both ends."""
    elements = [atom.site.element for atom in crystal.atoms]
    radii = np.array([max(radius(e), single_bond(e, e) / 2) if may_be_joined(e) else -9.0 for e in elements])
    if np.count_nonzero(radii > 0) < 1:
        return MetalPairs([], set())
    anions = _anions_of_metals(polar, elements)
    bonds, doubts = [], set()
    for c in crystal.contacts(2 * radii.max() + ABOVE_SINGLE,
                              lambda u, v, length: length <= radii[u] + radii[v] + ABOVE_SINGLE):
        bridges = _common(anions, c)
        one, other = elements[c.first], elements[c.second]
        if not bridges and c.length <= single_bond(one, other) + ABOVE_SINGLE:
            bonds.append(c)
        elif c.length < radius(one) + radius(other) and (not bridges or c.length < EDGE * float(np.mean(bridges))):
            doubts.add(f"{'-'.join(sorted((one, other)))} {c.length:.2f} left out, shorter than the radii")
    return MetalPairs(bonds, doubts)


def is_metal_rich(crystal: Crystal) -> bool:
    """Whether metals that touch each other outnumber the other atoms, as in carbides and phosphides of iron."""
    elements = [atom.site.element for atom in crystal.atoms]
    metals = {v for v, e in enumerate(elements) if is_metal(e) or e == "Si"}
    others = len(elements) - len(metals)
    if not others or len(metals) < METAL_RICH * others or "H" in elements:
        return False
    radii = np.array([radius(e) if may_be_joined(e) or e == "Si" else -9.0 for e in elements])
    touching = {c.first for c in crystal.contacts(
        2 * TOUCHING * radii.max(), lambda u, v, length: length <= TOUCHING * (radii[u] + radii[v]))
                } if radii.max() > 0 else set()
    return touching >= metals


def may_be_joined(element: str) -> bool:
    """Whether a metal is joined to others beside anions, and to lone pairs beside oxygens: those of groups 1 and 2, the
    lanthanides and the actinides are not."""
    number = gemmi.Element(element).atomic_number
    return is_metal(element) and element not in IONIC_GROUPS and not 57 <= number <= 71 and number < 89


def _anions_of_metals(polar: list[Contact], elements: list[str]) -> dict[int, dict[tuple[int, Vector], float]]:
    """Of each metal its anions, with their cells, and how far they are."""
    anions: dict[int, dict[tuple[int, Vector], float]] = defaultdict(dict)
    for c in polar:
        if is_metal(elements[c.first]):
            anions[c.first][c.second, c.shift] = c.length
    return anions


def _common(anions: dict[int, dict[tuple[int, Vector], float]], contact: Contact) -> list[float]:
    """The lengths of the bonds of the two atoms of a contact to the anions that both have."""
    of_other = anions[contact.second]
    found = []
    for (anion, cell), length in anions[contact.first].items():
        other = of_other.get((anion, subtract(cell, contact.shift)))
        found += [] if other is None else [length, other]
    return found
