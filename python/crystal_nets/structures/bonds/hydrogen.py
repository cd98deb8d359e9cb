"""Hydrogen bonds that the file's hydrogen atoms show, as edges from donor to acceptor."""

from __future__ import annotations

from collections import defaultdict
from itertools import combinations

import numpy as np

from .contacts import Contact
from ..atoms.crystal import Crystal
from ...graph import Edge, edge
from ...lattice import subtract

ACCEPTORS = frozenset(("N", "O", "F"))
LONGEST_DONOR = 1.5     # angstrom, from H to the nearer end
LONGEST_ACCEPTOR = 2.4  # angstrom, from H to the farther end
LEAST_ANGLE = 140.0     # degrees at H


def hydrogen_bridges(crystal: Crystal) -> set[Edge]:
    """An edge for each X-H..Y that is nearly straight."""
    elements = [atom.site.element for atom in crystal.atoms]
    around: dict[int, list[Contact]] = defaultdict(list)
    for c in crystal.contacts(LONGEST_ACCEPTOR):
        if elements[c.first] == "H" and elements[c.second] in ACCEPTORS:
            around[c.first].append(c)
    return {edge(a.second, b.second, subtract(b.shift, a.shift))
            for near in around.values() for a, b in combinations(near, 2) if _is_bridge(a, b)}


def _is_bridge(a: Contact, b: Contact) -> bool:
    cosine = float(np.dot(a.step, b.step)) / (a.length * b.length)
    return min(a.length, b.length) <= LONGEST_DONOR and cosine <= np.cos(np.radians(LEAST_ANGLE))
