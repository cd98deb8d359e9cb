"""Disorder: of atoms that are alternatives one set is taken, as if it were full.

The alternatives are, in this order, groups of an assembly, by numbers or letters; the images of a
group with a negative number, as SHELXL writes what is disordered about a symmetry element; and
partly occupied atoms that no molecule could have at once, as a ring that is there in two ways."""

from __future__ import annotations

from collections import defaultdict
from collections.abc import Iterable
from dataclasses import replace

from ..bonds.contacts import Contact, radius
from ..bonds.lengths import shortest_of_nonmetals
from .crystal import FULL, Atom, Crystal
from .elements import is_metal
from ...lattice import Vector, subtract
from ...provenance import DISORDER, Note, shorten

SAME_PLACE = 0.3   # angstrom: atoms that are nearer share one place
ONE_REGION = 3.0   # angstrom: atoms of groups that are nearer are alternatives of one region
COVALENT = 0.30    # angstrom above the sum of the radii: images of a group that are nearer exclude each other
BONDED = 0.15      # angstrom above the sum of the radii: atoms of one molecule
ANGLE = 2.0        # angstrom: two atoms that are not bonded and nearer than this have no room at a third
MOST_PARTS = 0.9   # the occupancies of alternatives add up to this at least
ALIKE = 0.02       # occupancies that differ by less are one


def resolve_disorder(crystal: Crystal) -> None:
    """Leaves of all alternatives one, and tells in one note what was taken."""
    if all(site.occupancy >= FULL and not site.group for site in {id(a.site): a.site for a in crystal.atoms}.values()):
        return
    told = [*_resolve_groups(crystal), *_resolve_images(crystal), *_resolve_overlaps(crystal)]
    if told:
        crystal.notes.append(Note(DISORDER, "disorder: " + "; ".join(told)))


def _keep(crystal: Crystal, dropped: set[int], filled: set[int]) -> None:
    """The crystal without the dropped atoms, and with the filled ones as full."""
    for v in filled - dropped:
        atom = crystal.atoms[v]
        atom.site = replace(atom.site, occupancy=1.0)
        atom.content = {atom.site.element: 1.0}
    crystal.atoms = [atom for v, atom in enumerate(crystal.atoms) if v not in dropped]


# Groups by numbers and letters

def _resolve_groups(crystal: Crystal) -> list[str]:
    """Of the groups in a region of an assembly the one with the greatest mean occupancy."""
    grouped = [v for v, atom in enumerate(crystal.atoms) if atom.site.group and not atom.site.is_about_symmetry]
    if len({crystal.atoms[v].site.group for v in grouped}) < 2:
        return []
    dropped: set[int] = set()
    filled: set[int] = set()
    told: dict[str, list[str]] = {}
    for region in _regions(crystal, grouped):
        by_group: dict[str, list[int]] = defaultdict(list)
        for v in region:
            by_group[crystal.atoms[v].site.group].append(v)
        if len(by_group) > 1:
            taken = max(sorted(by_group, key=_order), key=lambda group: round(_mean(crystal, by_group[group]), 3))
            filled.update(by_group[taken])
            dropped.update(v for v in region if crystal.atoms[v].site.group != taken)
            told.setdefault(taken, []).extend(_labels(crystal, set(region) - set(by_group[taken])))
    _keep(crystal, dropped, filled)
    return [f"group {group} is taken, and left out are " + shorten(" ".join(dict.fromkeys(labels)))
            for group, labels in told.items()]


def _order(group: str) -> tuple[int, str]:
    return (int(group), "") if group.isdigit() and group.isascii() else (0, group)


def _mean(crystal: Crystal, group: list[int]) -> float:
    return sum(crystal.atoms[v].occupancy for v in group) / len(group)


def _labels(crystal: Crystal, atoms: Iterable[int]) -> list[str]:
    return list(dict.fromkeys(crystal.atoms[v].site.label for v in sorted(atoms)))


def _regions(crystal: Crystal, grouped: list[int]) -> list[list[int]]:
    """The atoms of groups by regions: the sites of one assembly that are near each other."""
    sites = {id(crystal.atoms[v].site): crystal.atoms[v].site for v in grouped}
    region = {key: key for key in sites}

    def root(key: int) -> int:
        while region[key] != key:
            key = region[key]
        return key

    for c in crystal.contacts(ONE_REGION):
        one, other = crystal.atoms[c.first].site, crystal.atoms[c.second].site
        if id(one) in region and id(other) in region and one.assembly == other.assembly:
            region[root(id(one))] = root(id(other))
    by_root: dict[int, list[int]] = defaultdict(list)
    for v in grouped:
        by_root[root(id(crystal.atoms[v].site))].append(v)
    return list(by_root.values())


# Images of a group about a symmetry element

def _resolve_images(crystal: Crystal) -> list[str]:
    """Of the images of a negative group, as many as have room beside each other."""
    atoms = crystal.atoms
    names = sorted({(a.site.assembly, a.site.group) for a in atoms if a.site.is_about_symmetry})
    dropped, filled, told = set(), set(), []
    for name in names:
        members = {v for v, a in enumerate(atoms) if (a.site.assembly, a.site.group) == name}
        excluded: dict[int, set[int]] = defaultdict(set)
        for c in crystal.contacts(_reach(atoms[v] for v in members)) if members else []:
            if {c.first, c.second} <= members and _exclude(atoms[c.first], atoms[c.second], c.length):
                for image in atoms[c.first].images:
                    excluded[image].update(atoms[c.second].images)
        images = sorted({image for v in members for image in atoms[v].images})
        taken: set[int] = set()
        for image in images:
            if not excluded[image] & taken:
                taken.add(image)
        if len(taken) < len(images):
            dropped |= {v for v in members if not taken & set(atoms[v].images)}
            filled |= members
            told.append(f"of {len(images)} images of group {name[1]} {len(taken)} taken")
    _keep(crystal, dropped, filled)
    return told


def _reach(atoms: Iterable[Atom]) -> float:
    return 2 * max(radius(atom.site.element) for atom in atoms) + COVALENT


def _exclude(one: Atom, other: Atom, length: float) -> bool:
    """Whether two atoms of different images are nearer than a bond, which they have not."""
    is_near = length < radius(one.site.element) + radius(other.site.element) + COVALENT
    return is_near and not set(one.images) & set(other.images)


# Partly occupied atoms that exclude each other

def _resolve_overlaps(crystal: Crystal) -> list[str]:
    """Of partly occupied nonmetals that overlap a set that a molecule can have."""
    atoms = crystal.atoms
    partial = {v for v, a in enumerate(atoms)
               if a.occupancy < FULL and a.site.element != "H" and not is_metal(a.site.element)}
    if not partial:
        return []
    near = [c for c in crystal.contacts(ANGLE) if c.length > SAME_PLACE
            and "H" not in (atoms[c.first].site.element, atoms[c.second].site.element)]
    excluded, bonded = _overlaps_and_bonds(atoms, partial, near)
    excluded = {v: others for v, others in excluded.items()
                if atoms[v].occupancy + sum(atoms[w].occupancy for w in others) >= MOST_PARTS}
    taken, dropped = _one_set(atoms, excluded, bonded)
    filled = {v for v in _spread(taken & set(excluded), bonded, atoms) if v not in dropped}
    labels = _labels(crystal, dropped)
    _keep(crystal, dropped, filled)
    return [f"of overlapping atoms, partly occupied, {len(dropped)} are left out, of {shorten(' '.join(labels))}"
            ] if dropped else []


def _overlaps_and_bonds(atoms: list[Atom], partial: set[int], near: list[Contact]
                        ) -> tuple[dict[int, set[int]], dict[int, set[int]]]:
    """Of each partly occupied atom those that it cannot be beside, and those that it is bonded to. Two
    that are near each other and bonded to one atom are alternatives, since molecules have few rings of
    three."""
    longest = {c: radius(atoms[c.first].site.element) + radius(atoms[c.second].site.element) + BONDED for c in near}
    around: dict[int, set[tuple[int, Vector]]] = defaultdict(set)
    for c in near:
        if _shortest(atoms, c) <= c.length <= longest[c]:
            around[c.first].add((c.second, c.shift))
    beside = {v: sum(not is_metal(atoms[w].site.element) for w, _ in others) - 1 for v, others in around.items()}
    excluded: dict[int, set[int]] = defaultdict(set)
    bonded: dict[int, set[int]] = defaultdict(set)
    for c in near:
        if c.first in partial and c.second in partial and c.first != c.second:
            has_common = any((w, subtract(s, c.shift)) in around[c.second] for w, s in around[c.first])
            if has_common or not _shortest(atoms, c, beside) <= c.length <= longest[c]:
                excluded[c.first].add(c.second)
            else:
                bonded[c.first].add(c.second)
    return excluded, bonded


def _shortest(atoms: list[Atom], contact: Contact, beside: dict[int, int] | None = None) -> float:
    """The shortest bond that the two atoms of a contact can have, by their elements and by their other neighbours:
    a carbon with two others has no triple bond."""
    one, other = contact.first, contact.second
    return shortest_of_nonmetals(atoms[one].site.element, atoms[other].site.element,
                                 (beside or {}).get(one, 0), (beside or {}).get(other, 0))


def _one_set(atoms: list[Atom], excluded: dict[int, set[int]], bonded: dict[int, set[int]]
             ) -> tuple[set[int], set[int]]:
    """The atoms that are taken and dropped: one molecule after the other, from its fullest atom,
    and what it excludes is dropped with all that is bonded to that alone."""
    taken: set[int] = set()
    dropped: set[int] = set()
    for seed in sorted(excluded, key=lambda v: (-atoms[v].occupancy, atoms[v].images[0], v)):
        if seed in taken or seed in dropped:
            continue
        molecule = [seed]
        for v in molecule:
            taken.add(v)
            dropped |= excluded.get(v, set()) - taken
            molecule += sorted((w for w in bonded[v] if w not in dropped and w not in taken and w not in molecule),
                               key=lambda w: (atoms[w].images[0] != atoms[seed].images[0], w))
        dropped |= _spread(dropped, bonded, atoms) - taken
    return taken - dropped, dropped


def _spread(start: set[int], bonded: dict[int, set[int]], atoms: list[Atom]) -> set[int]:
    """The atoms with all that they are bonded to, as far as the occupancies are alike."""
    reached = sorted(start)
    for v in reached:
        reached += [w for w in sorted(bonded[v]) if w not in reached
                    and abs(atoms[w].occupancy - atoms[v].occupancy) < ALIKE]
    return set(reached)
