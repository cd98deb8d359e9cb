"""The cell that a chemist would draw: the smallest whose axes the symmetries of the net permute.

The lattice alone does not tell it. In the standard realization the lattices of GIS, cds or sra
are cubic or hexagonal by accident, and more symmetric than their nets."""

from __future__ import annotations

import math
from collections.abc import Callable, Iterator
from functools import cache
from itertools import combinations, product

import numpy as np

from .metric import short_basis
from .symmetry import NEAR, system_of

Row = tuple[int, ...]
REACH = 3  # axes are sums of at most so many times each vector of a short basis
FEW = 12   # of the short axes that are tried for cells without high symmetry


def drawn_cell(gram: np.ndarray, turns: list[np.ndarray]) -> tuple[np.ndarray, str]:
    """Rows of a right-handed cell in the primitive basis, and the word for its shape."""
    word = system_of(turns)
    start = short_basis(gram)
    rows = start
    if word not in ("triclinic", "oblique"):
        found = list(Axes(gram, turns, start).cells(word))
        if found:
            rows = np.array(min((_volume(cell), _length(cell, gram), cell) for cell in found)[2])
        else:
            word += ", primitive cell"
    if word == "hexagonal" and rows[0] @ gram @ rows[1] > 0:
        rows[1] = -rows[1]
    if np.linalg.det(rows) < 0:
        rows[-1] = -rows[-1]
    return rows, word


def _volume(rows: list[Row]) -> int:
    return abs(round(np.linalg.det(np.array(rows))))


def _length(rows: list[Row], gram: np.ndarray) -> float:
    return round(sum(float(np.array(row) @ gram @ np.array(row)) for row in rows), 6)


@cache
def _short_factors(dimension: int) -> np.ndarray:
    """Small whole numbers without a common divisor, in rows: of two opposite rows one."""
    rows = product(range(-REACH, REACH + 1), repeat=dimension)
    return np.array([row for row in rows if math.gcd(*row) == 1 and next(x for x in row if x) > 0])


def _direction(row: list[int]) -> Row:
    """One of a row and its opposite."""
    return max(tuple(row), tuple(-part for part in row))


class Axes:
    """The short directions of a lattice, in orbits under a group of turns."""

    def __init__(self, gram: np.ndarray, turns: list[np.ndarray], start: np.ndarray) -> None:
        self.gram, self.turns = gram, turns
        rows = _short_factors(len(gram)) @ start
        lengths = np.einsum("ij,jk,ik->i", rows, gram, rows).round(6)
        seen: set[Row] = set()
        self.orbits: list[list[Row]] = []
        for _, row in sorted(zip(lengths.tolist(), map(_direction, rows.tolist()))):
            if row not in seen:
                self.orbits.append(sorted(set(map(_direction, (np.array(row) @ np.array(turns)).tolist()))))
                seen.update(self.orbits[-1])

    def orbits_of(self, *sizes: int) -> list[list[Row]]:
        return [orbit for orbit in self.orbits if len(orbit) in sizes]

    def are_right(self, one: Row, other: Row) -> bool:
        return abs(np.array(one) @ self.gram @ np.array(other)) < NEAR * self.gram.max()

    def cells(self, word: str) -> Iterator[list[Row]]:
        """The cells whose axes the turns permute, of those that a system asks for."""
        in_space = len(self.gram) == 3
        choices = {"cubic": self._alike(3, 3), "square": self._alike(2, 2), "monoclinic": self._monoclinic,
                   "tetragonal": self._with_one_axis(2), "rectangular": self._right_angled,
                   "orthorhombic": self._right_angled,
                   "hexagonal": self._with_one_axis(3) if in_space else self._alike(3, 2)}
        return (cell for cell in choices[word]() if _volume(cell))

    def _alike(self, size: int, count: int) -> Callable[[], Iterator[list[Row]]]:
        """Axes of one orbit."""
        def cells() -> Iterator[list[Row]]:
            for orbit in self.orbits_of(size):
                if count < size or all(self.are_right(*pair) for pair in combinations(orbit, 2)):
                    yield orbit[:count]
        return cells

    def _with_one_axis(self, size: int) -> Callable[[], Iterator[list[Row]]]:
        """Two axes of one orbit, of two or three, and one axis by itself at right angles to them.
        The turn of order 3 or 4 joins the two, whatever else there is."""
        def cells() -> Iterator[list[Row]]:
            for ring in self.orbits_of(size):
                for single, in self.orbits_of(1):
                    if all(self.are_right(single, row) for row in ring):
                        yield [ring[0], ring[1], single]
        return cells

    def _right_angled(self) -> Iterator[list[Row]]:
        singles = [orbit[0] for orbit in self.orbits_of(1)][:FEW]
        for rows in combinations(singles, len(self.gram)):
            if all(self.are_right(*pair) for pair in combinations(rows, 2)):
                yield list(rows)

    def _monoclinic(self) -> Iterator[list[Row]]:
        """The axis of the turn by 180 degrees, and two short ones at right angles to it."""
        signs = [round(np.linalg.det(turn)) for turn in self.turns]
        half_turn = next(turn * sign for turn, sign in zip(self.turns, signs) if round(np.trace(turn)) * sign == -1)
        singles = [orbit[0] for orbit in self.orbits_of(1)]
        axis = next(row for row in singles if tuple((np.array(row) @ half_turn).tolist()) == row)
        plane = [row for row in singles if self.are_right(row, axis)][:FEW]
        for one, other in combinations(plane, 2):
            yield [one, other, axis]
