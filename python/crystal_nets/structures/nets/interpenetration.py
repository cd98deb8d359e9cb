"""The class of interpenetrating nets: by which operations the nets of one array are carried into each other.

The definitions are those of V. A. Blatov, L. Carlucci, G. Ciani and D. M. Proserpio, CrystEngComm 6 (2004) 378, and of
I. A. Baburin, V. A. Blatov, L. Carlucci, G. Ciani and D. M. Proserpio, J. Solid State Chem. 178 (2005) 2452. Z nets alike
are one array if the space group G of the structure carries each of them into each other one. T is the lattice of the
translations of G, and L that of those which carry one net to itself; L is of finite index in T.

- Zt is how many nets the translations carry one net into: the index of L in T. T is normal in G, so that it is one number.
- Zn is how many families there are of nets that translations carry into each other. Z = Zt Zn.
- Class I: Zn = 1, translations carry all nets into each other. If one vector generates all of them, it is a full
  interpenetration vector and the class is Ia: T/L is cyclic. Else each vector is a partial one: Ib.
- Class II: Zt = 1, other operations alone do. If one operation with its powers generates all, it is a full
  interpenetration symmetry element: IIa. Else IIb.
- Class III: Zt and Zn are both greater than 1. If one operation with its powers carries the families into each other, the
  class is IIIa, else IIIb.

Translations come first: where they suffice, it is class I, whatever other operations do the same. So it is of cuprite, whose
two nets both the lattice and inversions carry into each other. If translations of the given cell suffice, class and letter
are those of each space group that has these translations: T/L acts on the nets without fixed ones, and so does T'/L' of a
finer lattice T', which it then is. Other classes depend on the space group, and are told only where the file gives one."""

from __future__ import annotations

from collections.abc import Iterator
from dataclasses import dataclass
from math import gcd

import numpy as np
from scipy.spatial import cKDTree

from ...graph import Edge, edge
from ...lattice import adjugate
from ...provenance import DISORDER, Interpenetration
from ..atoms.crystal import Crystal
from .pieces import Piece

SAME_PLACE = 0.3  # angstrom, between the image of an atom and the atom that it is
WHOLE = 1e-6      # of the coordinates of whole vectors in a basis of whole vectors
OF_CELL = "of the given cell, as no symmetry is given"
NO_SYMMETRY = "no symmetry is given by which they could be carried into each other"
NOT_CARRIED = "no operations of the space group that is given carry all of them into each other"


def interpenetration_of(crystal: Crystal, pieces: list[Piece]) -> Interpenetration | None:
    """How nets alike in space, with all translates of each, are carried into each other; None where there is one net, or
    where they are not in space."""
    families, translates = len(pieces), pieces[0].copies
    if pieces[0].dimension != 3 or families * translates == 1:
        return None
    has_symmetry = crystal.operations is not None and len(crystal.operations.turns) > 1
    if families == 1:
        symbol = "Ia" if is_cyclic(pieces[0]) else "Ib"
        return Interpenetration(translates, translates, 1, symbol, "" if has_symmetry else OF_CELL)
    if not has_symmetry:
        return Interpenetration(families * translates, translates, 0, "", NO_SYMMETRY)
    carried = set(_Array(crystal, pieces).carried())
    if len(_orbit(0, carried)) < families:
        return Interpenetration(families * translates, translates, 0, "", NOT_CARRIED)
    letter = "a" if any(len(_orbit(0, {images})) == families for images in carried) else "b"
    return Interpenetration(families * translates, translates, families, ("II" if translates == 1 else "III") + letter)


def is_cyclic(piece: Piece) -> bool:
    """Whether one translation of the crystal generates all translates of a net: its lattice has a cyclic quotient if and
    only if the minors of its basis with two rows have no common factor (H. J. S. Smith, Phil. Trans. R. Soc. 151 (1861) 293)."""
    return gcd(*(part for row in adjugate(piece.basis) for part in row)) == 1


def _orbit(start: int, permutations: set[tuple[int, ...]]) -> set[int]:
    """What the permutations carry one number to, one after the other."""
    reached = [start]
    for k in reached:
        reached += {images[k] for images in permutations} - set(reached)
    return set(reached)


@dataclass(frozen=True)
class _Image:
    """What an operation makes of the atoms of the pieces: the atom in whose place each of them comes, or -1, and its cell,
    counted from that in which the piece has it."""

    atom: np.ndarray
    cell: np.ndarray
    turn: np.ndarray


class _Array:
    """The atoms of pieces of one crystal, piece by piece, in fractions of its cell."""

    def __init__(self, crystal: Crystal, pieces: list[Piece]) -> None:
        assert crystal.operations is not None
        by_name = {atom.name: atom for atom in crystal.atoms}
        atoms = [by_name[str(name)] for piece in pieces for name in piece.net.vertices]
        self.operations, self.cell, self.pieces = crystal.operations, crystal.cell, pieces
        self.lengths = np.linalg.norm(crystal.cell, axis=1)
        self.fractions = np.array([atom.place for atom in atoms]) @ np.linalg.inv(crystal.cell)
        self.cells = np.array([cell for piece in pieces for cell in piece.cells])
        self.elements = np.array([atom.site.element for atom in atoms])
        sizes = [len(piece.net.vertices) for piece in pieces]
        self.owner = np.repeat(np.arange(len(pieces)), sizes)
        self.starts = np.cumsum([0, *sizes])
        self.tree = cKDTree(self._wrapped(self.fractions), boxsize=self.lengths)
        self.known = {bond for k, piece in enumerate(pieces) for bond in self._bonds(k, piece)}
        # an alternative that was left out of one net may stand in another one
        self.may_lack = any(note.kind == DISORDER for note in crystal.notes)

    def carried(self) -> Iterator[tuple[int, ...]]:
        """For each operation that carries every piece to a translate of a piece, the pieces that they come to."""
        for turn, step in zip(self.operations.turns, self.operations.steps):
            image = self._image(turn, step)
            targets = [self._target(image, k) for k in range(len(self.pieces))]
            if sorted(targets) == list(range(len(targets))):
                yield tuple(targets)

    def _bonds(self, k: int, piece: Piece) -> Iterator[Edge]:
        """The bonds of a piece, over its own lattice, by the numbers of its atoms in the array."""
        return (Edge(u + self.starts[k], v + self.starts[k], shift) for u, v, shift in piece.net.edges)

    def _wrapped(self, fractions: np.ndarray) -> np.ndarray:
        """Places in the cell along its edges, in angstrom."""
        within = fractions % 1.0
        within[within > 1.0 - 1e-12] = 0.0
        return within * self.lengths

    def _image(self, turn: np.ndarray, step: np.ndarray) -> _Image:
        moved = (self.fractions + self.cells) @ turn + step
        _, nearest = self.tree.query(self._wrapped(moved))
        rest = moved - self.fractions[nearest]
        cells = np.rint(rest)
        is_there = np.linalg.norm((rest - cells) @ self.cell, axis=1) < SAME_PLACE
        is_there &= self.elements[nearest] == self.elements
        return _Image(np.where(is_there, nearest, -1), cells.astype(int) - self.cells[nearest], turn)

    def _target(self, image: _Image, k: int) -> int:
        """The piece that a piece is carried to, atom by atom and bond by bond, or -1."""
        own = slice(self.starts[k], self.starts[k + 1])
        is_there = image.atom[own] >= 0
        atoms, cells = image.atom[own][is_there], image.cell[own][is_there]
        if not len(atoms) or not (is_there.all() or self.may_lack) or len(set(atoms.tolist())) < len(atoms):
            return -1
        target = int(self.owner[atoms[0]])
        if (self.owner[atoms] != target).any() or _coordinates(cells - cells[0], self.pieces[target]) is None:
            return -1
        return target if self._keeps_bonds(image, k, target) else -1

    def _keeps_bonds(self, image: _Image, k: int, target: int) -> bool:
        """Whether each bond of a piece, both of whose ends have images, is carried to a bond."""
        ends = [(u, v, shift) for u, v, shift in self._bonds(k, self.pieces[k]) if min(image.atom[u], image.atom[v]) >= 0]
        if not ends:
            return False
        tails, heads = np.array([one[:2] for one in ends]).T
        shifts = np.array([one[2] for one in ends]) @ np.array(self.pieces[k].basis) @ image.turn
        moved = _coordinates(image.cell[heads] + shifts - image.cell[tails], self.pieces[target])
        return moved is not None and all(edge(u, v, tuple(shift)) in self.known for u, v, shift in zip(
            image.atom[tails].tolist(), image.atom[heads].tolist(), moved.tolist()))


def _coordinates(vectors: np.ndarray, piece: Piece) -> np.ndarray | None:
    """Of whole vectors, one in each row, those in the basis of a piece; None where one is not in its lattice."""
    found = vectors @ np.linalg.inv(np.array(piece.basis))
    whole = np.rint(found)
    return whole.astype(int) if np.abs(found - whole).max(initial=0.0) < WHOLE else None
