"""The crystal of atoms that another program holds: a cell, elements and places, without a file and without symmetry."""

from __future__ import annotations

from typing import Any

import numpy as np

from ..atoms.crystal import Atom, Crystal, Site
from ..atoms.elements import element_of
from ..atoms.places import name_apart, take_once
from ...refusal import Refused
from ..atoms.sanity import judge

ROOM = 20.0         # angstrom, beside atoms along an axis without periodicity: no bond is as long
MOST_ATOMS = 20_000


def crystal_of_atoms(name: str, cell: np.ndarray, contents: list[dict[str, float]], places: np.ndarray) -> Crystal:
    """The crystal of atoms.

    cell      3 x 3, rows: the basis, in angstrom
    contents  for each atom its elements with their occupancies
    places    n x 3, in angstrom"""
    cell, places = np.array(cell, float), np.array(places, float).reshape(-1, 3)
    _check(cell, contents, places)
    fractions = places @ np.linalg.inv(cell)
    fractions -= np.floor(fractions + 1e-6)
    crystal = Crystal(name, cell, [])
    for k, (content, fraction) in enumerate(zip(contents, fractions), start=1):
        elements = {element_of(symbol, symbol, {}): part for symbol, part in content.items()}
        element = max(elements, key=lambda symbol: elements[symbol])
        site = Site(f"{element}{k}", element, fraction, min(1.0, sum(elements.values())))
        crystal.atoms.append(Atom(site, fraction @ cell, site.label, elements))
        crystal.listed[element] = crystal.listed.get(element, 0.0) + site.occupancy
    take_once(crystal)
    name_apart(crystal)
    judge(crystal, {})
    return crystal


def crystal_of_pymatgen(structure: Any, name: str) -> Crystal:
    """The crystal of a `pymatgen` structure; a site may have several elements with their occupancies."""
    contents = [{str(getattr(species, "symbol", species)): float(part) for species, part in site.species.items()}
                for site in structure]
    return crystal_of_atoms(name, structure.lattice.matrix, contents, structure.cart_coords)


def _check(cell: np.ndarray, contents: list[dict[str, float]], places: np.ndarray) -> None:
    """Raises Refused where these are no atoms of a crystal."""
    if cell.shape != (3, 3) or not np.all(np.isfinite(cell)) or abs(np.linalg.det(cell)) < 0.1:
        raise Refused("no unit cell")
    if not len(places):
        raise Refused("no atoms")
    if len(places) > MOST_ATOMS:
        raise Refused(f"more than {MOST_ATOMS} atoms")
    if len(places) != len(contents) or not np.all(np.isfinite(places)):
        raise Refused("an atom has no place")
    if not all(contents):
        raise Refused("an atom has no element")


def bounded_cell(cell: np.ndarray, places: np.ndarray, periodic: np.ndarray) -> tuple[np.ndarray, np.ndarray]:
    """A cell and places, in angstrom, for a structure that repeats along some axes alone: along the others the cell is
    so long that images of the atoms do not meet."""
    cell, places = np.array(cell, float), np.array(places, float).reshape(-1, 3)
    if all(periodic) or not len(places) or not np.all(np.isfinite(places)):
        return cell, places
    kept = cell[np.array(periodic, bool)]
    _, sizes, directions = np.linalg.svd(kept.reshape(-1, 3), full_matrices=True)
    across = directions[int((sizes > 1e-6).sum()):]
    spans = np.ptp(places @ across.T, axis=0) + ROOM
    return np.vstack((kept, across * spans[:, None])), places
