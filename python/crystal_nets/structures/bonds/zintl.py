"""Zintl phases, clathrates, borides and silicides: cations beside a part whose atoms have their valences among themselves.

An atom of the p block with e valence electrons makes 8 - e bonds, and one less for each electron that a cation gives
(E. Zintl, Angew. Chem. 52 (1939) 1; W. Klemm, Proc. Chem. Soc. (1958) 329): SrSi2, Na8Si46, Ba8Ga16Ge30, NaTl. Zinc,
cadmium and mercury have two electrons, as in CaZn2Sb2. In flat sheets a bond stands for more than one pair: NaGaSn has
three bonds for four. Borides and silicides of other metals have such parts, too, by which nets are named: ths by ThSi2,
crb by CrB4, cab by CaB6 and LaB6."""

from __future__ import annotations

from collections import Counter

import numpy as np

from .contacts import radius
from .metals import IONIC_GROUPS
from .shells import COVALENT
from ..atoms.crystal import MOSTLY_THERE, Crystal
from ...graph import Edge

OF_GROUP_1 = frozenset("Li Na K Rb Cs Fr".split())
# the electrons that a cation gives, and those that an atom of the p block has
GIVEN = {**dict.fromkeys(OF_GROUP_1, 1), **dict.fromkeys(IONIC_GROUPS - OF_GROUP_1, 2), "Eu": 2, "Yb": 2}
OF_THREE = dict.fromkeys("Sc Y La Ce Pr Nd Pm Sm Gd Tb Dy Ho Er Tm Lu".split(), 3)
ELECTRONS = {**dict.fromkeys("Zn Cd Hg".split(), 2), **dict.fromkeys("B Al Ga In Tl".split(), 3),
             **dict.fromkeys("Si Ge Sn Pb".split(), 4), "Sb": 5, "Bi": 5}
METALLOIDS = frozenset(("B", "Si", "Ge"))
LONGEST = 0.35     # angstrom above the sum of the radii: Tl-Tl in NaTl
LONGER = 0.55      # the same, of bonds that are in doubt: Al-Al in SrAl2
DIFFERENCE = 0.12  # of the bonds: Na8Si46 and Ba8Si46 have more electrons than their bonds ask for
MOST_BONDS = 5     # of one atom, as in CaB6: more are those of a packing
MULTIPLE = 0.25    # of the bonds, if some stand for more than one pair


def zintl_bonds(crystal: Crystal, lacking: float = DIFFERENCE, longest: float = LONGEST) -> set[Edge]:
    """The bonds of the p block, if they are as many as its electrons and those of the cations ask for, or fewer by such a
    share; else none. The longest is in angstrom above the sum of the radii."""
    elements = [atom.site.element for atom in crystal.atoms]
    given = _given(crystal)
    kinds = {element for atom in crystal.atoms for element in atom.content}
    if not kinds & set(given) or not kinds & set(ELECTRONS) or not kinds <= {*given, *ELECTRONS}:
        return set()
    bonds = _bonds_among(crystal, frozenset(ELECTRONS), longest)
    count: Counter[int] = Counter(v for bond in bonds for v in (bond.u, bond.v))
    asked = sum(part * (8 - ELECTRONS[e] if e in ELECTRONS else -given[e])
                for atom in crystal.atoms for e, part in atom.content.items())
    is_there = all(atom.occupancy >= MOSTLY_THERE or atom.site.element in given for atom in crystal.atoms)
    is_like_asked = (asked > 0 and max(count.values(), default=0) <= MOST_BONDS
                     and 1 - lacking <= sum(count.values()) / asked <= 1 + DIFFERENCE)
    return bonds if is_there and is_like_asked and all(count[v] for v, e in enumerate(elements) if e in ELECTRONS) else set()


def metalloid_bonds(crystal: Crystal) -> set[Edge]:
    """The bonds among boron, silicon and germanium of a boride or silicide, whatever its metals are."""
    return _bonds_among(crystal, METALLOIDS, COVALENT)


def may_be_cation(element: str) -> bool:
    """Whether it gives its electrons to the p block: groups 1 to 3 and the lanthanides."""
    return element in GIVEN or element in OF_THREE


def cations_of(crystal: Crystal) -> list[str]:
    """The elements that give electrons."""
    return sorted({atom.site.element for atom in crystal.atoms} & set(_given(crystal)))


def _given(crystal: Crystal) -> dict[str, int]:
    """The electrons that cations give: those with three beside boron alone, as in LaB6, since their other compounds with
    the p block are packings."""
    others = {element for atom in crystal.atoms for element in atom.content} - set(GIVEN) - set(OF_THREE)
    return {**GIVEN, **OF_THREE} if others == {"B"} else GIVEN


def _bonds_among(crystal: Crystal, kinds: frozenset[str], longest: float) -> set[Edge]:
    """The bonds among the atoms of some elements, up to so much above the sum of their radii."""
    radii = np.array([radius(atom.site.element) if atom.site.element in kinds else -9.0 for atom in crystal.atoms])
    if radii.max(initial=-9.0) < 0:
        return set()
    near = crystal.contacts(2 * radii.max() + longest, lambda u, v, length: length <= radii[u] + radii[v] + longest)
    return {c.edge() for c in near}
