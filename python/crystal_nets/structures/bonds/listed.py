"""Bonds that a file lists, as _geom_bond, and what differs between them and those by the rules."""

from __future__ import annotations

from collections.abc import Iterable

from ..atoms.crystal import Crystal
from ...graph import Edge
from ...refusal import Refused

BY_RULES, BY_FILE, BY_BOTH = "rules", "file", "both"
WAYS = (BY_RULES, BY_FILE, BY_BOTH)
NEAR = 0.02  # angstrom, between a length that is listed and that of a contact


def listed_bonds(crystal: Crystal) -> set[Edge]:
    """The contacts of the atoms, by their labels, that are as long as a bond which the file lists for them. The listed
    symmetry codes are not needed for that, and are often wrong. Raises Refused where the file lists none."""
    if not crystal.listed_bonds:
        raise Refused("the file lists no bonds with lengths (_geom_bond_distance)")
    lengths: dict[frozenset[str], list[float]] = {}
    for one, other, length in crystal.listed_bonds:
        lengths.setdefault(frozenset((one, other)), []).append(length)
    longest = max(length for _, _, length in crystal.listed_bonds)
    return {c.edge() for c in crystal.contacts(longest + NEAR)
            if any(abs(length - c.length) <= NEAR for length in lengths.get(_labels(crystal, c.first, c.second), ()))}


def differences(crystal: Crystal, by_rules: set[Edge], by_file: set[Edge]) -> list[str]:
    """The doubts about bonds that one of the two ways has alone."""
    return [*_told(crystal, by_rules - by_file, "taken, and not listed in the file"),
            *_told(crystal, by_file - by_rules, "left out, and listed in the file")]


def _told(crystal: Crystal, edges: Iterable[Edge], what: str) -> list[str]:
    ends = [(crystal.atoms[one.u].site, crystal.atoms[one.v].site) for one in edges]
    pairs = {"-".join(sorted(site.label for site in sites)) for sites in ends
             if not any(site.element == "H" for site in sites)}
    return [f"{pair} {what}" for pair in sorted(pairs)]


def _labels(crystal: Crystal, one: int, other: int) -> frozenset[str]:
    return frozenset((crystal.atoms[one].site.label, crystal.atoms[other].site.label))
