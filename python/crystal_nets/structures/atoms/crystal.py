"""A crystal: the atoms of one primitive cell, with what must be reported of them."""

from __future__ import annotations

from dataclasses import dataclass, field, replace

import numpy as np

from ..bonds.contacts import Contact, Wanted, contacts
from ...provenance import DOUBT, Note

FULL = 0.99  # an occupancy from here on counts as full
MOSTLY_THERE = 0.65  # the occupancy from which an atom of a net counts as full, and that is reported as a doubt


@dataclass(frozen=True)
class Site:
    """An atom as the file lists it."""

    label: str
    element: str
    place: np.ndarray  # in fractions of the cell of the file
    occupancy: float
    hydrogens: float = 0.0  # that the atom has and the file does not list
    assembly: str = ""  # of disorder: the place that the alternatives are for
    group: str = ""     # of disorder: the alternative that the atom belongs to

    @property
    def is_about_symmetry(self) -> bool:
        """Whether the alternatives are the images of the group, as a negative number says."""
        return self.group.startswith("-")


@dataclass
class Atom:
    """An atom of the primitive cell."""

    site: Site
    place: np.ndarray  # in angstrom
    name: str          # the label, and the number of the image where there are several
    content: dict[str, float]  # the elements that share the place, with their occupancies
    images: tuple[int, ...] = (0,)  # the operations that carry the site to this place

    @property
    def occupancy(self) -> float:
        return min(1.0, sum(self.content.values()))


@dataclass(frozen=True)
class Operations:
    """The operations of a space group, one for each coset of the translations of its lattice. In fractions of the primitive
    cell, as rows, each carries a place x to x turn + step.

    turns  n x 3 x 3, whole numbers
    steps  n x 3"""

    turns: np.ndarray
    steps: np.ndarray


@dataclass(eq=False)
class Crystal:
    name: str
    cell: np.ndarray   # rows: the primitive basis, in angstrom
    atoms: list[Atom]
    notes: list[Note] = field(default_factory=list)
    listed: dict[str, float] = field(default_factory=dict)  # the elements before disorder is resolved
    formula: dict[str, float] = field(default_factory=dict)  # as the file gives it
    listed_bonds: list[tuple[str, str, float]] = field(default_factory=list)  # two labels, and the length in angstrom
    clash: str = ""    # labels of different full atoms in one place
    doubled: str = ""  # full atoms of one element in one place, farther from each other than repeats are
    misfit: str = ""   # why the atoms of the cell cannot be right
    near: dict[tuple[int, int], str] = field(default_factory=dict)  # atoms that are nearer than any bond
    shortage: str = ""  # of what the formula has more, where that is all that does not fit
    operations: Operations | None = None  # None where the structure was given without symmetry

    def noted_doubt(self, text: str) -> Crystal:
        """The crystal with a doubt in its notes, where there is one."""
        self.notes += [Note(DOUBT, text)] if text else []
        return self

    def without(self, atoms: set[int]) -> Crystal:
        """The crystal of the other atoms, with the same notes."""
        return replace(self, atoms=[atom for v, atom in enumerate(self.atoms) if v not in atoms], near={}, misfit="")

    def contacts(self, reach: float, wanted: Wanted | None = None) -> list[Contact]:
        return contacts(self.cell, np.array([atom.place for atom in self.atoms]), reach, wanted)
