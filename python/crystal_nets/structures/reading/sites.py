"""The atoms as a file lists them. Of the columns of _atom_site in the CIF core dictionary these
matter: the label, the type symbol, the three fractions, the occupancy, the calculation flag, the
attached hydrogens, the assembly and the group of disorder."""

from __future__ import annotations

import re
from collections.abc import Callable, Iterable, Iterator
from contextlib import suppress
from itertools import product, repeat
from math import isfinite, nan

import gemmi
import numpy as np

from ..atoms.crystal import Site
from ..atoms.elements import element_of, is_ambiguous
from ...provenance import DOUBT, LEFT_OUT, Note, shorten
from ...refusal import Refused

FARTHEST = 1000.0  # in edges of the cell, an atom from the origin
DUMMY = "dum"      # the calculation flag of a place that has no atom
COLUMNS = ["fract_x", "fract_y", "fract_z", "?label", "?type_symbol", "?occupancy", "?calc_flag",
           "?attached_hydrogens", "?disorder_assembly", "?disorder_group"]
CARTESIAN_COLUMNS = ["Cartn_x", "Cartn_y", "Cartn_z", "?label_atom_id", *COLUMNS[4:]]  # of mmCIF, in angstrom
MATRIX_TAGS = ("_atom_sites_fract_transf_matrix[{}][{}]", "_atom_sites_fract_tran_matrix_{}{}")
VECTOR_TAGS = ("_atom_sites_fract_transf_vector[{}]", "_atom_sites_fract_tran_vector_{}")
MOST_STRAIN = 0.05    # of the matrix of the file from that of its cell
MOST_OCCUPIED = 1.05  # an occupancy above it is a number of another kind, as one in percent
NO_VALUE = ("?", ".", "")
NUMBER = re.compile(r"([-+]?(?:\d+\.?\d*|\.\d+)(?:[eE][-+]?\d+)?)(?:\(\d+\.?\d*\))?$")
FRACTION = re.compile(r"([-+]?\d+)/(\d+)$")


def read_sites(block: gemmi.cif.Block, cell: gemmi.UnitCell, formula: dict[str, float],
               notes: list[Note]) -> list[Site]:
    """The sites that have a place and are occupied; notes on the others."""
    sites, dummies, absent, more, ambiguous = [], [], [], [], []
    is_cartesian = not block.find_values("_atom_site_fract_x")
    to_fractions = _to_fractions(block, cell) if is_cartesian else list
    for x, y, z, label, symbol, occupancy, flag, hydrogens, assembly, group in _rows(block):
        label = label or symbol
        if flag.lower() == DUMMY:
            dummies.append(label)
            continue
        place = [number_of(text, label) for text in (x, y, z)]
        place = to_fractions(place)
        if any(abs(part) > FARTHEST for part in place):
            raise Refused(f"the coordinates of {label} are no fractions of the cell")
        part = number_of(occupancy, label, absent=1.0)
        if not all(map(isfinite, place)) or part <= 0:
            absent.append(label)
            continue
        more += [f"{label} {occupancy}"] * (part > MOST_OCCUPIED)
        ambiguous += [f"{label} as {element_of(symbol, label, formula)}"] * is_ambiguous(symbol, label, formula)
        sites.append(Site(label, element_of(symbol, label, formula), np.array(place), part,
                          number_of(hydrogens, label, absent=0.0), _group(assembly), _group(group)))
    if dummies:
        notes.append(Note(LEFT_OUT, "left out, dummy atoms: " + shorten(" ".join(dummies))))
    if absent:
        notes.append(Note(LEFT_OUT, "left out, without a place or not occupied: " + shorten(" ".join(absent))))
    if more:
        notes.append(Note(DOUBT, "occupancies above 1, taken as full: " + shorten(" ".join(more))))
    if ambiguous:
        notes.append(Note(DOUBT, "labels read as elements without a symbol or a formula: " + shorten(", ".join(ambiguous))))
    if not sites:
        raise Refused("no atoms")
    return sites


def _to_fractions(block: gemmi.cif.Block, cell: gemmi.UnitCell) -> Callable[[list[float]], list[float]]:
    """From places in angstrom to fractions of the cell, by the matrix and the vector of the file, where it has them."""
    matrix = np.reshape(_values(block, MATRIX_TAGS, product("123", repeat=2)), (3, 3))
    vector = np.nan_to_num(_values(block, VECTOR_TAGS, product("123", repeat=1)))
    if not np.all(np.isfinite(matrix)):
        return lambda place: cell.fractionalize(gemmi.Position(*place)).tolist()
    edges = np.array(cell.orthogonalization_matrix.tolist())
    if not np.allclose((matrix @ matrix.T) @ (edges.T @ edges), np.eye(3), atol=MOST_STRAIN):
        raise Refused("the matrix from places to fractions is not that of the cell")
    return lambda place: (matrix @ place + vector).tolist()


def _rows(block: gemmi.cif.Block) -> Iterator[tuple[str, ...]]:
    """The values of each atom, in the order of COLUMNS; of a column that is not there, empty texts."""
    columns = COLUMNS if block.find_values("_atom_site_fract_x") else CARTESIAN_COLUMNS
    table = block.find("_atom_site_", columns)
    return zip(*(map(gemmi.cif.as_string, table.column(k)) if table.has_column(k) else repeat("", len(table))
                 for k in range(len(COLUMNS))))


def read_bonds(block: gemmi.cif.Block) -> list[tuple[str, str, float]]:
    """The bonds that the file lists, by the labels of two atoms and their length; those without a length count not."""
    table = block.find("_geom_bond_", ["atom_site_label_1", "atom_site_label_2", "distance"])
    found = []
    for one, other, length in table:
        with suppress(Refused):
            number = number_of(gemmi.cif.as_string(length), "a bond")
            found.append((gemmi.cif.as_string(one), gemmi.cif.as_string(other), number))
    return [bond for bond in found if isfinite(bond[2])]


def number_of(text: str, what: str, absent: float = nan) -> float:
    """A number of CIF, with or without its uncertainty, or a fraction as 1/3; raises Refused
    where the text is another."""
    if text in NO_VALUE:
        return absent
    if found := NUMBER.match(text):
        return float(found[1])
    if (found := FRACTION.match(text)) and int(found[2]) > 0:
        return int(found[1]) / int(found[2])
    raise Refused(f"{text[:20]!r} of {what} is no number")


def _values(block: gemmi.cif.Block, forms: tuple[str, ...], places: Iterable[tuple[str, ...]]) -> list[float]:
    """The numbers that tags of one of several forms have, with the place of each in it; nan where there is none."""
    return [number_of(text_of(block, tuple(form.format(*at) for form in forms)), forms[0]) for at in places]


def text_of(block: gemmi.cif.Block, tags: tuple[str, ...]) -> str:
    """The first value that one of the tags has, without quotes; or an empty text."""
    for tag in tags:
        for value in block.find_values(tag):
            text = gemmi.cif.as_string(value).strip()
            if text not in NO_VALUE:
                return text
    return ""


def _group(text: str) -> str:
    """The name of a group or an assembly of disorder; none is an empty text."""
    return "" if text in (*NO_VALUE, "0") else text
