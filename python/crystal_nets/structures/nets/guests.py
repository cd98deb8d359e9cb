"""Guests: cations that a framework holds in its cages and between its layers, and that are no part of its net.

They are found by the structure, for all elements of a site alike. A site is weak where its bonds have a mean valence
of at most 0.30 (as K in 12 and Na in 6 oxygens), or where it has eight or more anions, and bonds much weaker than
those of another metal (as Y in garnets). The charge of a cation over its number of anions is L. Pauling's strength
(J. Am. Chem. Soc. 51 (1929) 1010). Weak sites go, the weakest first, as long as what is left is a net in space;
those with a mean valence up to 0.16 also where layers are left, as in micas. A site stays where it has as many anions
as other cations and is a tetrahedron or an octahedron, or is as large as theirs, as Li in LiAlO2 and LiCoO2.

That is a choice, and if the other one gives a net, too, it is a doubt. So it is if weak cations hold rods together, or
molecules of other metals, as in CsNiCl3, Na2SiO3 and Cs2SnBr6; if a cation with a lone pair may be a guest, as in BiFeO3;
if a phosphide or arsenide is a Zintl phase, as CaZn2As2; and if tetrahedra alone make a framework, whose cages hold the
other metals, as in genthelvite."""

from __future__ import annotations

from collections import Counter, defaultdict
from dataclasses import dataclass, field
from itertools import combinations
from math import hypot

import numpy as np

from ...graph import QuotientGraph
from ...provenance import DOUBT, LEFT_OUT, Note
from ..atoms.crystal import MOSTLY_THERE, Crystal
from ..atoms.elements import is_metal, makes_anions
from ..bonds.valences import valence
from ..bonds.zintl import GIVEN
from .readings import described, dimension_of

WEAK = 0.30         # the greatest mean valence of the bonds of a guest
WEAK_OF_ONE = 0.34  # of one with a single charge: three bonds share it
VERY_WEAK = 0.16    # of one without which layers are left
WEAKEST = 0.13      # below it a site is not as others are, however regular: K in the osmate KOs2O6
HELD = 0.17         # of one that may hold molecules together: a single charge over six anions
LARGE = 8           # anions of a large site
WEAKER = 0.75       # times the strongest other metal: a large site with weaker bonds is a guest, too
LARGE_UNSURE = 7    # anions: a site that stays, and is reported if the rest is a net without it
OVER_CHARGE = 2.0   # times the usual charge: a sum of valences beyond it is that of another one, as of Tl3+
OTHER_VALENCE = 5.0  # times: sites of one element whose bonds are so much stronger are of another valence
AS_LARGE = 1.15     # times the bonds of another cation with as many anions: such a site is of the framework
STRAIGHT = 20.0     # degrees that the angles of a regular polyhedron differ at most
CHARGES = {**dict.fromkeys("Li Na K Rb Cs Ag Tl".split(), 1), **dict.fromkeys("Be Mg Ca Sr Ba".split(), 2)}
OF_TWO_VALENCES = frozenset(("Tl",))
REGULAR = {4: (109.47,), 6: (90.0, 180.0)}
LONE_PAIRS = frozenset("Tl Pb Bi Sn Sb".split())  # cations whose sites are lopsided, and long bonds weak
PNICTOGENS = frozenset(("P", "As"))
BOROHYDRIDE = 3  # hydrogens of a boron that is an anion's


@dataclass
class SiteBonds:
    """The images of one site, and their bonds to anions."""

    label: str
    elements: tuple[str, ...]
    atoms: list[int] = field(default_factory=list)
    valence: float = 0.0    # mean of the bonds
    strength: float = 0.0   # the same, and at most the charge over the number of anions
    length: float = 0.0     # mean of the bonds, in angstrom
    anions: int = 0
    is_regular: bool = False

    @property
    def is_weak(self) -> bool:
        return self.strength <= (WEAK_OF_ONE if all(CHARGES.get(e) == 1 for e in self.elements) else WEAK)

    @property
    def told(self) -> str:
        return "/".join(self.elements)


def without_guests(crystal: Crystal, net: QuotientGraph, kept: list[int], notes: list[Note]) -> QuotientGraph:
    """The net of the atoms that are kept, without guests; what was left out, and the other choice, come to the notes.
    The vertices of the net are the atoms of the crystal."""
    whole = net.part(kept)
    sites = sorted(_sites(crystal, net, set(kept)), key=lambda site: (site.strength, site.label))
    strongest = max((site.strength for site in sites), default=0.0)
    is_organic, is_pnictide = _is_organic(crystal, kept), _is_pnictide(crystal, kept)
    left, removed, unsure, holding = set(kept), list[SiteBonds](), list[SiteBonds](), list[SiteBonds]()
    dimension = dimension_of(whole)
    for group in _groups(sites):
        is_guest = _is_guest(group, sites, strongest, is_organic)
        is_sparse = all(crystal.atoms[v].occupancy < MOSTLY_THERE for site in group for v in site.atoms)
        may_be_guest = is_guest or _is_unsure(group, is_pnictide)
        if not may_be_guest and not is_sparse:
            continue
        others = left - {v for site in group for v in site.atoms}
        rest = dimension_of(net.part(sorted(others)))
        if (is_guest and (rest == 3 or (rest == 2 and group[0].strength <= VERY_WEAK))) or (may_be_guest and is_sparse and rest >= 2):
            left = others
            removed += group
        elif rest >= 2:
            unsure += group
        elif is_guest and not holding and (rest == 1 or (
                group[0].strength <= HELD and _has_other_metals(net, others, crystal))):
            holding += group
    result = net.part(sorted(left))
    if removed:
        ions = Counter(crystal.atoms[v].site.element for site in removed for v in site.atoms)
        told = " ".join(f"{element} {count}" for element, count in sorted(ions.items()))
        notes.append(Note(LEFT_OUT, "left out as counter-ions: " + told))
        if dimension >= 2:
            notes.append(Note(DOUBT, f"with {_told(removed)} the net is {described(whole)} (--keep-ions)"))
    if unsure:
        atoms = {v for site in unsure for v in site.atoms}
        rest_of = described(net.part(sorted(left - atoms)))
        elements = sorted({element for site in unsure for element in site.elements})
        notes.append(Note(DOUBT, f"without {_told(unsure)} the rest is {rest_of} (--leave-out {','.join(elements)})"
                          if _are_all(crystal, left, atoms) else f"without {_labels(crystal, atoms)} the rest is {rest_of}"))
    notes += _doubt_without(crystal, net, left, {v for site in holding for v in site.atoms})
    notes += [doubt for doubt in _doubt_of_cages(crystal, net, left, sites) if doubt not in notes]
    return result


def _doubt_without(crystal: Crystal, net: QuotientGraph, left: set[int], atoms: set[int]) -> list[Note]:
    """The doubt that some cations are no part of the net, with what is left without them."""
    if not atoms:
        return []
    elements = sorted({crystal.atoms[v].site.element for v in atoms})
    rest = described(net.part(sorted(left - atoms)))
    return [Note(DOUBT, f"without {' and '.join(elements)} the rest is {rest} (--leave-out {','.join(elements)})"
                 if _are_all(crystal, left, atoms) else f"without {_labels(crystal, atoms)} the rest is {rest}")]


def _are_all(crystal: Crystal, left: set[int], atoms: set[int]) -> bool:
    """Whether no other atom that is left has an element of these, so that it can be left out by its element."""
    return not {crystal.atoms[v].site.element for v in atoms} & {crystal.atoms[v].site.element for v in left - atoms}


def _labels(crystal: Crystal, atoms: set[int]) -> str:
    return " and ".join(sorted({crystal.atoms[v].site.label for v in atoms}))


def _has_other_metals(net: QuotientGraph, atoms: set[int], crystal: Crystal) -> bool:
    """Whether some of the atoms are metals with bonds to others of them."""
    arcs = net.arcs()
    return any(is_metal(crystal.atoms[v].site.element) and any(w in atoms for w, _ in arcs[v]) for v in atoms)


def _doubt_of_cages(crystal: Crystal, net: QuotientGraph, left: set[int], sites: list[SiteBonds]) -> list[Note]:
    """The doubt that metals of the net only stand in the cages of a framework of tetrahedra."""
    elements = [atom.site.element for atom in crystal.atoms]
    framework = _tetrahedra(net, elements, left, sites)
    return _doubt_without(crystal, net, left, {v for v in left - framework if is_metal(elements[v])}) if framework else []


def _tetrahedra(net: QuotientGraph, elements: list[str], left: set[int], sites: list[SiteBonds]) -> set[int]:
    """The atoms of a framework in space of tetrahedra, each of four anions of one element, all of which bridge two; the
    metals with the weakest bonds are left aside as far as needed. None if there is no such framework."""
    arcs = net.arcs()
    around = {v: [w for w, _ in arcs[v] if w in left] for v in left}
    centres = {v for v in left if len(around[v]) == 4 and len({elements[w] for w in around[v]}) == 1
               and makes_anions(elements[around[v][0]]) and elements[v] != elements[around[v][0]]}
    none: list[SiteBonds] = []
    for group in [none, *_groups(sites)]:
        centres -= {v for site in group for v in site.atoms}
        bridges = {w for v in centres for w in around[v]}
        if centres and all(sum(v in centres for v in around[w]) == 2 for w in bridges):
            return centres | bridges if dimension_of(net.part(sorted(centres | bridges))) == 3 else set()
    return set()


def tetrahedral_atoms(net: QuotientGraph, elements: list[str]) -> set[int]:
    """The atoms other than H with four oxygens each, and these oxygens: what a zeolite is made of."""
    arcs = net.arcs()
    centres = {v for v, element in enumerate(elements) if element not in ("O", "H")
               and sum(elements[w] == "O" for w, _ in arcs[v]) == 4}
    return centres | {w for v in centres for w, _ in arcs[v] if elements[w] == "O"}


def _told(sites: list[SiteBonds]) -> str:
    return " and ".join(dict.fromkeys(site.told for site in sites))


def _is_organic(crystal: Crystal, kept: list[int]) -> bool:
    elements = {crystal.atoms[v].site.element for v in kept}
    return "C" in elements and ("H" in elements or "N" in elements)


def _groups(sites: list[SiteBonds]) -> list[list[SiteBonds]]:
    """The sites of the same elements together, by their mean strength. Those of two valences, as In+ and In3+ in InTe, are
    two groups."""
    groups: list[list[SiteBonds]] = []
    last: dict[tuple[str, ...], list[SiteBonds]] = {}
    for site in sorted(sites, key=lambda site: site.valence):
        group = last.get(site.elements)
        if group is None or site.valence > OTHER_VALENCE * group[-1].valence:
            group = last[site.elements] = []
            groups.append(group)
        group.append(site)
    return sorted(groups, key=lambda group: (sum(site.strength for site in group) / len(group), group[0].label))


def _is_guest(group: list[SiteBonds], sites: list[SiteBonds], strongest: float, is_organic: bool) -> bool:
    inside = set(map(id, group))
    longest: dict[int, float] = {}  # of the other sites, by their numbers of anions
    for site in sites:
        if id(site) not in inside:
            longest[site.anions] = max(site.length, longest.get(site.anions, 0.0))

    def is_as_others(site: SiteBonds) -> bool:
        if site.strength < WEAKEST:
            return False
        has_others = site.anions in longest and (site.is_regular or site.length <= AS_LARGE * longest[site.anions])
        return has_others or (site.is_regular and site.anions == 4)

    def is_weak(site: SiteBonds) -> bool:
        if is_as_others(site):
            return False
        is_large = not is_organic and site.anions >= LARGE and site.strength <= WEAKER * strongest
        return site.is_weak or is_large

    return any(map(is_weak, group)) and all(is_weak(site) or site.is_weak for site in group)


def _is_pnictide(crystal: Crystal, kept: list[int]) -> bool:
    """Whether phosphorus and arsenic alone are anions: such compounds are Zintl phases at times, as CaZn2As2."""
    elements = {crystal.atoms[v].site.element for v in kept}
    return PNICTOGENS.issuperset(element for element in elements if makes_anions(element))


def _is_unsure(group: list[SiteBonds], is_pnictide: bool) -> bool:
    """Whether a group that stays may be one of guests all the same."""
    return all(site.is_weak or site.anions >= LARGE_UNSURE or (LONE_PAIRS.issuperset(site.elements) and not site.is_regular)
               or (is_pnictide and set(GIVEN).issuperset(site.elements)) for site in group)


def _sites(crystal: Crystal, net: QuotientGraph, kept: set[int]) -> list[SiteBonds]:
    """The sites of metals with bonds to anions, of which other atoms have bonds, too; silicon and the like are none."""
    arcs = net.arcs()
    elements = [atom.site.element for atom in crystal.atoms]
    found: dict[str, SiteBonds] = {}
    steps: dict[str, list[list[np.ndarray]]] = defaultdict(list)
    valences: dict[str, list[float]] = defaultdict(list)
    if not any(makes_anions(elements[v]) for v in kept):
        return []
    borohydrides = {v for v in kept if elements[v] == "B" and sum(elements[w] == "H" for w, _ in arcs[v]) >= BOROHYDRIDE}
    for v in sorted(kept):
        if not is_metal(elements[v]):
            continue
        atom = crystal.atoms[v]
        site = found.setdefault(atom.site.label, SiteBonds(atom.site.label, tuple(sorted(atom.content))))
        site.atoms.append(v)
        near = [(w, s) for w, s in arcs[v] if w in kept and (makes_anions(elements[w]) or w in borohydrides)]
        bonds = [(crystal.atoms[w].place + np.array(s) @ crystal.cell - atom.place, elements[w]) for w, s in near]
        steps[site.label].append([step for step, _ in bonds])
        valences[site.label] += [_mean_valence(atom.content, anion, hypot(*step))
                                 for step, anion in bonds]
        of_framework = [_is_of_framework(w, v, arcs, elements) for w, _ in near]
        site.anions = max(site.anions, len(bonds))
        site.is_regular = bool(bonds) and all(of_framework) and _is_regular([step for step, _ in bonds])
    for label, site in found.items():
        if site.anions:
            charge = max((CHARGES.get(element, 9) for element in site.elements), default=9)
            site.valence = float(np.mean(valences[label]))
            is_other = OF_TWO_VALENCES.issuperset(site.elements) and site.valence * site.anions > OVER_CHARGE * charge
            site.strength = site.valence if is_other else min(site.valence, charge / site.anions)
            site.length = float(np.mean([hypot(*step) for bonds in steps[label] for step in bonds]))
    return [site for site in found.values() if site.anions]


def _mean_valence(content: dict[str, float], anion: str, length: float) -> float:
    """The valence of a bond of a site, by what shares it."""
    metals = {element: part for element, part in content.items() if is_metal(element)}
    return sum(part * valence(element, anion, length) for element, part in metals.items()) / sum(metals.values())


def _is_of_framework(anion: int, guest: int, arcs: list[list[tuple[int, tuple[int, ...]]]],
                     elements: list[str]) -> bool:
    """Whether an anion has bonds to atoms of other elements than the guest."""
    return any(elements[w] not in (elements[guest], "H") for w, _ in arcs[anion])


def _is_regular(steps: list[np.ndarray]) -> bool:
    """Whether the bonds make a tetrahedron or an octahedron."""
    angles = REGULAR.get(len(steps))
    if angles is None:
        return False
    units = [step / np.linalg.norm(step) for step in steps]
    found = [np.degrees(np.arccos(np.clip(float(a @ b), -1, 1))) for a, b in combinations(units, 2)]
    return all(min(abs(angle - ideal) for ideal in angles) <= STRAIGHT for angle in found)
