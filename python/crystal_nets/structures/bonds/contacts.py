"""Contacts of atoms up to a reach, and the radii that bonds are judged by."""

from __future__ import annotations

from collections.abc import Callable
from dataclasses import dataclass
from functools import cache

import gemmi
import numpy as np
from scipy.spatial import cKDTree

from ...graph import Edge, edge
from ...lattice import Vector
from ...refusal import Refused

# Times the sum of the radii: two atoms nearer than this are no bond, but an error or halves.
TOO_NEAR = 0.55
SAME = 0.001  # angstrom: an atom and itself
EXCHANGED = {"Lu": 1.87, "Hf": 1.75}  # radii that gemmi 0.5 has the other way round
MOST_IMAGES = 4_000_000  # that are looked at: only a cell that is no crystal's needs more


Wanted = Callable[[np.ndarray, np.ndarray, np.ndarray], np.ndarray]  # firsts, seconds and lengths to truths


@dataclass(eq=False, slots=True)
class Contact:
    """Two atoms, the cell of the second, the step from the first to it, its length."""

    first: int
    second: int
    shift: Vector
    step: np.ndarray
    length: float

    def edge(self) -> Edge:
        return edge(self.first, self.second, self.shift)


@cache
def radius(element: str) -> float:
    """The covalent radius of B. Cordero and others, Dalton Trans. (2008) 2832, in angstrom: of carbon that in rings, of Mn,
    Fe and Co those of low spin."""
    return EXCHANGED.get(element) or gemmi.Element(element).covalent_r


def contacts(cell: np.ndarray, places: np.ndarray, reach: float, wanted: Wanted | None = None) -> list[Contact]:
    """All contacts up to the reach, or those of them that are wanted, each from both of its ends. The
    rows of the cell are its edges; it and the places are in angstrom, and the places within the cell."""
    numbers, shifts, images = _images_near(cell, places, reach)
    pairs = cKDTree(places).sparse_distance_matrix(cKDTree(images), reach, output_type="ndarray")
    is_kept = pairs["v"] > SAME
    if wanted:
        is_kept &= wanted(pairs["i"], numbers[pairs["j"]], pairs["v"])
    pairs = pairs[is_kept]
    pairs = pairs[np.lexsort((pairs["j"], pairs["i"]))]
    steps = images[pairs["j"]] - places[pairs["i"]]
    return [Contact(first, second, tuple(shift), step, length) for first, second, shift, step, length
            in zip(pairs["i"].tolist(), numbers[pairs["j"]].tolist(), shifts[pairs["j"]].tolist(),
                   steps, pairs["v"].tolist())]


def _images_near(cell: np.ndarray, places: np.ndarray, reach: float) -> tuple[np.ndarray, ...]:
    """The images of the places that are in the cell or not farther from it than the reach:
    the number of each, its cell, and where it is."""
    inverse = np.linalg.inv(cell)
    fractions = places @ inverse
    margin = reach * np.linalg.norm(inverse, axis=0)
    cells = np.prod(2 * np.ceil(margin) + 1)
    if cells * len(places) > MOST_IMAGES:
        raise Refused("the cell is too flat, or has too many atoms")
    numbers, shifts = np.arange(len(places)), np.zeros((len(places), 3), dtype=int)
    for axis in range(3):
        steps = np.arange(-np.ceil(margin[axis]), np.ceil(margin[axis]) + 1, dtype=int)
        moved = fractions[numbers, axis, None] + steps
        which, step = np.nonzero((moved >= -margin[axis] - SAME) & (moved <= 1 + margin[axis] + SAME))
        numbers, shifts = numbers[which], shifts[which]
        shifts[:, axis] = steps[step]
    return numbers, shifts, places[numbers] + shifts @ cell
