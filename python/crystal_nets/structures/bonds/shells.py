"""Elements and intermetallics: each atom and its nearest shell, up to the first gap in its distances."""

from __future__ import annotations

from .contacts import Contact, radius
from .lengths import shortest_in_shell, shortest_of_nonmetals
from ..atoms.crystal import Crystal
from ..atoms.elements import is_metal
from ...graph import Edge

SHELL_GAP = 1.13    # times the length before: the step that ends a shell
SHELL_CLOSE = 0.02  # from that step, or less: told as a doubt
COVALENT = 0.30     # angstrom above the sum of the radii: the longest bond of two nonmetals
LONG = 0.50         # angstrom above the radii: neighbours in a nonmetal that are farther are reported as a doubt
FAR = 1.3           # times the sum of the radii: a metal whose nearest is farther is reported; it is 1.20 in lead
STRETCHED = 0.80    # angstrom above the radii: the longest bond of a metal and a nonmetal, as Pb-O in cubic perovskites
ROUNDING = 1e-6     # angstrom
P_BLOCK = frozenset("Ga In Tl Ge Sn Pb Sb Bi".split())  # metals ..
LEAST_NEIGHBOURS = 3  # .. that have so many in their shells
SOFT = frozenset("Li Na K Rb Cs Fr Ca Sr Ba Ra".split())


def shell_bonds(crystal: Crystal, doubts: list[str], among: frozenset[str] = frozenset()) -> set[Edge]:
    """Each atom and its nearest shell, among the atoms of some elements where these are given; two nonmetals up to the
    sum of their radii, too, as in graphdiyne, whose triple bonds are much shorter than its others."""
    elements = [atom.site.element for atom in crystal.atoms]
    bonds, close = set(), set()
    for near in _contacts_by_atom(crystal, {v for v, e in enumerate(elements) if not among or e in among}):
        lengths = [c.length for c in near]
        end = _end_of_shell(elements, near)
        taken = [c for k, c in enumerate(near) if k < end or _is_covalent(elements, c)]
        bonds |= {c.edge() for c in taken}
        close |= {f"{end} neighbours up to {lengths[end - 1]:.2f}, {other} up to {lengths[other - 1]:.2f}"
                  for other in {first_gap(lengths, -SHELL_CLOSE), first_gap(lengths, SHELL_CLOSE)} - {end}
                  if other > len(taken) or len(taken) == end}
        close |= _too_long(elements, near[0], near[end - 1]) | _too_short(elements, near[0], end)
    doubts += sorted(close)
    return bonds


def _end_of_shell(elements: list[str], near: list[Contact]) -> int:
    """How many of an atom's contacts are of its shell. A metal of the p block with two neighbours has those of the next
    step, too, if they are no longer than bonds, as Sb in CoSb3 has its pairs."""
    lengths = [c.length for c in near]
    end = first_gap(lengths)
    if end >= LEAST_NEIGHBOURS or end == len(near) or elements[near[0].first] not in P_BLOCK:
        return end
    following = end + first_gap(lengths[end:])
    last = near[following - 1]
    return following if last.length <= radius(elements[last.first]) + radius(elements[last.second]) + COVALENT else end


def _is_covalent(elements: list[str], contact: Contact) -> bool:
    one, other = elements[contact.first], elements[contact.second]
    return not is_metal(one) and not is_metal(other) and contact.length <= radius(one) + radius(other) + COVALENT


def _too_long(elements: list[str], nearest: Contact, farthest: Contact) -> set[str]:
    """The doubts that two nonmetals of a shell are farther from each other than bonds are long, and that a metal touches
    no atom: then others are not listed, as where a file has the metals of a compound alone."""
    found = set()
    for contact in (nearest, farthest):
        one, other = sorted((elements[contact.first], elements[contact.second]))
        radii = radius(one) + radius(other)
        is_metallic = is_metal(one) or is_metal(other)
        most = max(FAR * radii, radii + STRETCHED) if is_metallic else radii + LONG
        is_long = contact.length > most and (contact is nearest or not is_metallic)
        found |= {f"{one}-{other} {contact.length:.2f} taken, longer than a bond"} if is_long else set()
    return found


def _too_short(elements: list[str], contact: Contact, neighbours: int) -> set[str]:
    """The doubt that two atoms are nearer than any bond. Metals of groups 1 and 2 are pressed together much."""
    one, other = elements[contact.first], elements[contact.second]
    least = (0.0 if one in SOFT and other in SOFT else shortest_in_shell(one, other) if is_metal(one) or is_metal(other)
             else shortest_of_nonmetals(one, other, neighbours - 1, neighbours - 1))
    pair = "-".join(sorted((one, other)))
    return {f"{pair} {contact.length:.2f} taken, too short for a bond"} if contact.length < least else set()


def _contacts_by_atom(crystal: Crystal, atoms: set[int]) -> list[list[Contact]]:
    """Of each of these atoms its contacts to them by length, up to 1.6 times its nearest at least."""
    reach = 3.0
    while True:
        by_atom: dict[int, list[Contact]] = {v: [] for v in sorted(atoms)}
        for contact in crystal.contacts(reach):
            if contact.first in atoms and contact.second in atoms:
                by_atom[contact.first].append(contact)
        for near in by_atom.values():
            near.sort(key=lambda c: c.length)
        if all(near and 1.6 * near[0].length <= reach for near in by_atom.values()):
            return list(by_atom.values())
        reach *= 1.5


def first_gap(lengths: list[float], more: float = 0.0) -> int:
    """How many of the rising lengths stand before the first great step."""
    steps = range(1, len(lengths))
    return next((k for k in steps if lengths[k] > (SHELL_GAP + more) * lengths[k - 1]), len(lengths))
