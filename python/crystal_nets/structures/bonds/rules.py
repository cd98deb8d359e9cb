"""Which atoms of a crystal are joined, and across which cells."""

from __future__ import annotations

from collections import Counter, defaultdict
from collections.abc import Iterable
from dataclasses import dataclass
from functools import lru_cache

import numpy as np

from .contacts import TOO_NEAR, Contact, Wanted, radius
from ..atoms.crystal import FULL, Crystal
from ..atoms.elements import is_metal, makes_anions
from .hydrogen import hydrogen_bridges
from .ices import hydrate_bonds, ice_bonds, is_ice
from .lengths import SHARE, shortest_of_metal, shortest_of_nonmetals
from .metals import is_metal_rich, may_be_joined, metal_pairs
from .shells import COVALENT, ROUNDING, STRETCHED, shell_bonds
from ...graph import Edge
from ...lattice import add

Lengths = dict[frozenset[str], float]  # of a pair of elements, the longest bond in angstrom

INTERMETALLIC = "intermetallic"  # the mode in which all contacts count, by the gaps between them

POLAR = 0.50      # angstrom above the sum of the radii: the longest bond of a metal and a nonmetal
NEARLY = 1.10     # times the shortest from the same atom to the same element
AS_STRONG = 1.25  # times the shortest of the metal to any element, each over the sum of the radii
FARTHEST = 0.95   # angstrom above the sum of the radii: contacts of metals that are looked at, as Ge-I 3.45 beside 2.77
CLOSE = 0.05      # from one of these bounds, or less: told as a doubt
# Two oxygens or fluorines that are not joined are at least so far from each other, in angstrom: it
# is 2.14 in nitrates, and 2.16 in carbon tetrafluoride. Those that are nearer are reported as a doubt.
LEAST_APART = 2.10
NEVER_NEAR = frozenset(("O", "F"))
MOST_NEIGHBOURS = {"C": 4, "N": 4}  # nonmetals other than hydrogen and boron
LEAST_OXYGENS = {"Si": 4, "Ge": 3, "Al": 4, "Ti": 4, "Zr": 4}  # around atoms of oxides
# Middles of anions with a lone pair, and how many neighbours they have at most beside it: nitro groups are joined by N,
# sulfites, sulfinates and phosphites by S and P.
WITH_LONE_PAIR = {"N": 2, "P": 3, "As": 3, "S": 3, "Se": 3, "Te": 3}
# Of two atoms of one nonmetal that each have two bonds to other elements, the lengths in angstrom
# that their bonds have: superoxide and peroxide, disulphide, diphosphide and so on (A. F. Wells,
# Structural Inorganic Chemistry, 1984). B and C make bonds of all lengths, and are not listed.
BETWEEN_ANIONS = {"O": ((1.22, 1.35), (1.40, 1.60)), "S": ((1.85, 2.30),), "Se": ((2.10, 2.65),),
                  "Te": ((2.50, 3.10),), "N": ((1.05, 1.52),), "P": ((1.95, 2.45),), "As": ((2.15, 2.70),),
                  "Si": ((2.20, 2.50),), "Ge": ((2.30, 2.65),), "F": (), "Cl": (), "Br": (), "I": ((2.60, 3.10),)}


def find_bonds(crystal: Crystal, hydrogen_bonds: bool, lengths: Lengths, doubts: list[str],
               mode: str = "") -> set[Edge]:
    """The bonds by the rule that fits the elements of the crystal, or by that of a mode, but of the pairs that have
    a length, all up to it; lengths that are close to a bound are reported as doubts."""
    if mode == INTERMETALLIC:
        bonds = shell_bonds(crystal, doubts)
    elif is_ice(crystal):
        bonds = ice_bonds(crystal, doubts)
    elif is_metal_rich(crystal):
        doubts.append("metals outnumber the others so far that it is taken as an intermetallic")
        metals = frozenset(filter(is_metal, (atom.site.element for atom in crystal.atoms)))
        bonds = radius_bonds(crystal, []) | shell_bonds(crystal, doubts, metals)
    elif _has_shells(crystal):
        bonds = shell_bonds(crystal, doubts)
    else:
        bonds = radius_bonds(crystal, doubts)
        bonds |= hydrogen_bridges(crystal) if hydrogen_bonds else hydrate_bonds(crystal, bonds, doubts)
    bonds = with_lengths(crystal, bonds, lengths) if lengths else bonds
    doubts += _too_many(crystal, bonds) + _too_few(crystal, bonds)
    return bonds


def are_by_radii(crystal: Crystal) -> bool:
    """Whether the bonds of a crystal are judged by the sums of radii, and not by the shells of metals or of waters."""
    return not is_ice(crystal) and not is_metal_rich(crystal) and not _has_shells(crystal)


def _too_many(crystal: Crystal, bonds: set[Edge]) -> list[str]:
    """The doubts about full carbons and nitrogens with more neighbours than they have in any molecule, as where a group
    has another origin. Hydrogens, boron of carboranes and metals do not count."""
    elements = [atom.site.element if atom.occupancy >= FULL else "" for atom in crystal.atoms]
    counts = Counter(one for bond in bonds for one, other in ((bond.u, bond.v), (bond.v, bond.u))
                     if elements[one] in MOST_NEIGHBOURS and elements[other] not in ("", "H", "B")
                     and not is_metal(elements[other]))
    return sorted({f"{elements[v]} with {count} neighbours, more than it can have" for v, count in counts.items()
                   if count > MOST_NEIGHBOURS[elements[v]]})


def _too_few(crystal: Crystal, bonds: set[Edge]) -> list[str]:
    """The doubts about full atoms with oxygens alone around them, and fewer of these than in any compound, as by coordinates
    of another setting."""
    elements = [atom.site.element if atom.occupancy >= FULL else "" for atom in crystal.atoms]
    around: dict[int, list[str]] = defaultdict(list)
    for bond in bonds:
        around[bond.u].append(crystal.atoms[bond.v].site.element)
        around[bond.v].append(crystal.atoms[bond.u].site.element)
    return sorted({f"{element} with {len(around[v])} neighbours, fewer than it has" for v, element in enumerate(elements)
                   if len(around[v]) < LEAST_OXYGENS.get(element, 0) and set(around[v]) == {"O"}})


def _has_shells(crystal: Crystal) -> bool:
    """Whether all contacts count, by the gaps between them: in elements, and in compounds of metals where nothing
    makes anions. Boron and silicon make none there, as in Nb3Si, which is as Nb3Sn."""
    elements = {atom.site.element for atom in crystal.atoms}
    if len(elements) == 1:
        return not any(atom.site.hydrogens for atom in crystal.atoms)
    return any(map(is_metal, elements)) and not any(map(makes_anions, elements))


def with_lengths(crystal: Crystal, bonds: set[Edge], lengths: Lengths) -> set[Edge]:
    """The bonds, but of the pairs that have a length, all contacts up to it."""
    def pair(u: int, v: int) -> frozenset[str]:
        return frozenset((crystal.atoms[u].site.element, crystal.atoms[v].site.element))

    near = crystal.contacts(max(lengths.values()) + 0.001)
    return ({bond for bond in bonds if pair(bond.u, bond.v) not in lengths}
            | {c.edge() for c in near if c.length <= lengths.get(pair(c.first, c.second), 0.0)})


@dataclass(frozen=True)
class Judged:
    """The contacts of a crystal, judged by the sums of covalent radii.

    covalent  the bonds of two nonmetals
    polar     a metal and a nonmetal that may be joined, from both ends
    taken     those of them that are bonds
    excess    of each contact its length above the sum of the radii, in angstrom
    over_strongest  of each polar contact its length over the strongest of its metal, each over the sum of the radii
    doubts    lengths that are close to a bound, and short ones that are none"""

    covalent: list[Contact]
    polar: list[Contact]
    taken: list[Contact]
    excess: dict[Contact, float]
    over_strongest: dict[Contact, float]
    doubts: tuple[str, ...]


@lru_cache(maxsize=1)
def judged_contacts(crystal: Crystal) -> Judged:
    """The contacts of two nonmetals, and of a metal and a nonmetal, with those of them that are bonds. They are judged once for
    the bonds and for other readings of them."""
    doubts: list[str] = []
    elements = [atom.site.element for atom in crystal.atoms]
    excess = {c: c.length - radius(elements[c.first]) - radius(elements[c.second])
              for c in crystal.contacts(_reach(set(elements)), _may_be_bonds(elements))}
    covalent = [c for c, more in excess.items()
                if more <= COVALENT and _are_covalent(elements[c.first], elements[c.second])]
    closed = _anion_centres(covalent, elements) | _bound_hydrogens(covalent, elements)
    by_pair = _by_lone_pair(covalent, elements, excess)
    polar = [c for c in excess if is_metal(elements[c.first]) != is_metal(elements[c.second])
             and (not {c.first, c.second} & closed or c.edge() in by_pair)]
    polar = _without_beside(polar, covalent, elements, excess, doubts)
    shortest, over_strongest = _shortest(polar, elements), _over_strongest(polar, elements, excess)

    def is_taken(c: Contact, tighter: float = 0.0) -> bool:
        """Whether it is a bond, if all bounds are tighter by so much: one that is long has to be about as short as others
        of its elements, and not much weaker than the strongest of its metal. A nitrate beside two pyridines is not
        bonded to silver at 2.8 angstrom, though no oxygen is nearer."""
        more = excess[c] + tighter
        return more <= POLAR or (more <= STRETCHED and over_strongest[c] + tighter <= AS_STRONG
                                 and c.length / shortest[c.first, elements[c.second]] + tighter <= NEARLY)

    taken = list(filter(is_taken, polar))
    covalent = _without_between_anions(covalent, taken, elements, doubts)
    edges = {c.edge() for c in taken}
    doubts += sorted({f"{elements[c.first]}-{elements[c.second]} {c.length:.2f} "
                      + ("taken" if c.edge() in edges else "left out")
                      for c in polar if is_metal(elements[c.first]) and is_taken(c, CLOSE) != is_taken(c, -CLOSE)})
    return Judged(covalent, polar, taken, excess, over_strongest, tuple(doubts))


def radius_bonds(crystal: Crystal, doubts: list[str]) -> set[Edge]:
    """Bonds by the sums of covalent radii: nonmetal to nonmetal, and metal to nonmetal."""
    judged = judged_contacts(crystal)
    doubts += judged.doubts
    pairs = metal_pairs(crystal, judged.taken)
    doubts += sorted(pairs.doubts | _too_short(crystal, judged.covalent, judged.taken)
                     | _too_near(crystal, (c for c, more in judged.excess.items() if more > COVALENT)))
    return {c.edge() for c in judged.covalent + judged.taken + pairs.bonds}


def _too_short(crystal: Crystal, covalent: list[Contact], polar: list[Contact]) -> set[str]:
    """The doubts about bonds that are shorter than any that is known of these elements and neighbours."""
    elements = [atom.site.element for atom in crystal.atoms]
    around: dict[int, list[float]] = defaultdict(list)
    for c in covalent + polar:
        around[c.first].append(c.length)

    def beside(v: int, length: float) -> int:
        """How many other bonds of an atom are about as short."""
        return sum(other <= SHARE * length for other in around[v]) - 1

    short = {c for c in covalent if "H" not in (elements[c.first], elements[c.second])
             and c.length < shortest_of_nonmetals(elements[c.first], elements[c.second],
                                                  beside(c.first, c.length), beside(c.second, c.length))}
    short |= {c for c in polar if is_metal(elements[c.first]) and elements[c.second] != "H" and c.length
              < shortest_of_metal(elements[c.first], elements[c.second], beside(c.second, c.length))}
    return {f"{'-'.join(sorted((elements[c.first], elements[c.second])))} {c.length:.2f} taken, too short for a bond"
            for c in short}


def _too_near(crystal: Crystal, contacts: Iterable[Contact]) -> set[str]:
    """The doubts about full oxygens and fluorines that are too far from each other for a bond, and
    too near for none."""
    elements = [atom.site.element for atom in crystal.atoms]
    is_full = [atom.occupancy >= FULL for atom in crystal.atoms]
    return {f"{'-'.join(sorted((elements[c.first], elements[c.second])))} {c.length:.2f} left out, too near for no bond"
            for c in contacts if c.length < LEAST_APART and {elements[c.first], elements[c.second]} <= NEVER_NEAR
            and is_full[c.first] and is_full[c.second]}


def _may_be_bonds(elements: list[str]) -> Wanted:
    """Which contacts may be bonds, or close to a bound: not of two metals, nor too near, nor too far.
    So are oxygens that are too near for no bond."""
    radii = np.array([radius(element) for element in elements])
    metals = np.array([is_metal(element) for element in elements], dtype=int)
    most = np.array([COVALENT, FARTHEST, -np.inf])  # above the radii, by how many of the two are metals
    least = np.array([LEAST_APART if element in NEVER_NEAR else 0.0 for element in elements])

    def are_wanted(first: np.ndarray, second: np.ndarray, length: np.ndarray) -> np.ndarray:
        sums = radii[first] + radii[second]
        may_be = length - sums <= most[metals[first] + metals[second]] + ROUNDING
        return (length > TOO_NEAR * sums) & (may_be | (length < np.minimum(least[first], least[second])))

    return are_wanted


def _without_beside(polar: list[Contact], covalent: list[Contact], elements: list[str],
                    excess: dict[Contact, float], doubts: list[str]) -> list[Contact]:
    """The contacts without those of a metal and a carbon beside an atom on that metal, as in
    pyrazine: a nonmetal other than C, H and B that is bonded to the carbon and joined to the metal.
    Cyclopentadienyls, carbonyls and cyanides have none. One that is short all the same is reported."""
    joined = {(c.first, c.second, c.shift) for c in polar
              if excess[c] <= POLAR and elements[c.second] not in ("C", "H", "B")}
    beside: dict[int, list[Contact]] = defaultdict(list)
    for c in covalent:
        if elements[c.first] == "C" and elements[c.second] not in ("C", "H", "B"):
            beside[c.first].append(c)

    def is_beside(c: Contact) -> bool:
        """Whether the second atom, a carbon, has a neighbour on the first, a metal."""
        return elements[c.second] == "C" and any(
            (c.first, near.second, add(c.shift, near.shift)) in joined for near in beside[c.second])

    left_out = {c.edge() for c in polar if is_beside(c)}
    doubts += sorted({f"{elements[c.first]}-C {c.length:.2f} left out, beside another bond of that metal"
                      for c in polar if is_beside(c) and excess[c] <= 0})
    return [c for c in polar if c.edge() not in left_out]


def _without_between_anions(covalent: list[Contact], polar: list[Contact], elements: list[str],
                            doubts: list[str]) -> list[Contact]:
    """The bonds without those of two atoms of one nonmetal which both have two bonds to other
    elements, where the length is not that of such a bond. Oxygens that both have two bonds to
    other nonmetals, as in silicates, have none."""
    others = Counter(c.first for c in covalent + polar if elements[c.first] != elements[c.second])
    nonmetals = Counter(c.first for c in covalent if elements[c.first] != elements[c.second])

    def is_none(c: Contact) -> bool:
        element = elements[c.first]
        if element != elements[c.second] or element not in BETWEEN_ANIONS:
            return False
        if min(others[c.first], others[c.second]) < 2:
            return False
        is_full = element == "O" and min(nonmetals[c.first], nonmetals[c.second]) >= 2
        return is_full or not any(low <= c.length <= high for low, high in BETWEEN_ANIONS[element])

    left_out = {c for c in covalent if is_none(c)}
    doubts += sorted({f"{elements[c.first]}-{elements[c.first]} {c.length:.2f} left out, between two anions"
                      for c in left_out})
    return [c for c in covalent if c not in left_out]


def _over_strongest(polar: list[Contact], elements: list[str], excess: dict[Contact, float]) -> dict[Contact, float]:
    """Of each contact its length over that of the strongest of its metal, each over the sum of the radii."""
    over_radii = {c: c.length / (c.length - excess[c]) for c in polar}
    metal = {c: c.first if is_metal(elements[c.first]) else c.second for c in polar}
    strongest: dict[int, float] = {}
    for c in polar:
        strongest[metal[c]] = min(over_radii[c], strongest.get(metal[c], over_radii[c]))
    return {c: over_radii[c] / strongest[metal[c]] for c in polar}


def _reach(elements: set[str]) -> float:
    """How long a bond between two of the elements may be."""
    metals = [radius(e) for e in elements if is_metal(e)]
    others = [radius(e) for e in elements if not is_metal(e)]
    least = LEAST_APART if elements & NEVER_NEAR else 0.0
    return max(max(metals, default=0.0) + max(others) + FARTHEST, 2 * max(others) + COVALENT, least)


def _are_covalent(one: str, other: str) -> bool:
    return not is_metal(one) and not is_metal(other) and not one == other == "H"


def _anion_centres(covalent: list[Contact], elements: list[str]) -> set[int]:
    """Nonmetals with two or more oxygens or fluorines, as S in a sulfate: no metal is joined."""
    count = Counter(c.first for c in covalent
                    if elements[c.second] in ("O", "F") and elements[c.first] not in ("O", "F"))
    return {atom for atom, number in count.items() if number > 1}


def _by_lone_pair(covalent: list[Contact], elements: list[str], excess: dict[Contact, float]) -> set[Edge]:
    """The bonds of a metal to the middle of an anion, at a lone pair that it has: the metal is nearer to it than to all
    its neighbours, as it is not to a nitrite that holds it by two oxygens."""
    around: dict[int, list[Contact]] = defaultdict(list)
    for c in covalent:
        around[c.first].append(c)

    def has_pair(c: Contact) -> bool:
        near = around[c.first]
        return (0 < len(near) <= WITH_LONE_PAIR.get(elements[c.first], 0) and may_be_joined(elements[c.second])
                and excess[c] <= COVALENT and all(np.linalg.norm(c.step - other.step) > c.length for other in near))

    return {c.edge() for c in excess if has_pair(c)}


def _bound_hydrogens(covalent: list[Contact], elements: list[str]) -> set[int]:
    return {c.first for c in covalent if elements[c.first] == "H"}


def _shortest(polar: list[Contact], elements: list[str]) -> dict[tuple[int, str], float]:
    """The shortest contact of an atom to an element."""
    shortest: dict[tuple[int, str], float] = {}
    for c in polar:
        at = c.first, elements[c.second]
        shortest[at] = min(c.length, shortest.get(at, c.length))
    return shortest
