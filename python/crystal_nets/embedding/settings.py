"""The group of a net in its usual setting: of a net in space by spglib, and of a layer one of the 17 plane groups.

Either is compared with the symmetries of the net, operation by operation, and with its lattice. It is computed in
floating-point numbers and not proved."""

from __future__ import annotations

from collections.abc import Iterator
from dataclasses import dataclass
from functools import cache
from itertools import product

import numpy as np

from .cell import drawn_cell
from .metric import short_basis
from .placed import Placed, into_cell, marks
from .symmetry import Symmetry, vertex_orbits

NEAR = 1e-6           # in edges of the cell: equal up to rounding
SYMPREC = 1e-4        # of spglib, in mean lengths of edges
ALONG_EDGES = (0.3, 0.23, 0.41, 0.37)  # where an edge is marked, seen from each of its ends
HALL_NUMBERS = range(1, 531)
FEWEST = 24           # parts of a cell edge: each translation of a group in a usual cell is so many parts of it
# the greater numbers of the eleven pairs of groups that are mirror images of each other. A net has no hand
SECOND_OF_PAIRS = (78, 95, 96, 145, 153, 154, 170, 172, 179, 181, 213)


class NoEmbedding(Exception):
    """The net has no embedding that this package can find, for the reason that it is made with."""


@dataclass(frozen=True, eq=False)
class Setting:
    """A group in a usual cell: rows x go to x @ turns[k] + moves[k], centrings included.

    name    as Fd-3m:2, or p6mm
    number  of the International Tables: of the 230 space groups, or of the 17 plane groups
    hall    the Hall symbol; empty in the plane"""

    name: str
    number: int
    hall: str
    turns: np.ndarray    # (n, d, d)
    moves: np.ndarray    # (n, d)

    def images(self, places: np.ndarray) -> np.ndarray:
        """The images of a place (d,), or of places (m, d), under each operation: (n, d), or (n, m, d)."""
        moves = self.moves if places.ndim == 1 else self.moves[:, None, :]
        images: np.ndarray = places @ self.turns + moves
        return images

    @property
    def centrings(self) -> np.ndarray:
        """The translations of the group in the cell, 0 among them."""
        moves: np.ndarray = self.moves[np.abs(self.turns - np.eye(self.turns.shape[1])).max(axis=(1, 2)) < NEAR]
        return moves


@dataclass(frozen=True, eq=False)
class UsualCell:
    """A group, and its cell: rows in the primitive basis, and the origin in fractions of the cell."""

    setting: Setting
    rows: np.ndarray
    origin: np.ndarray


def usual_cell(net: Placed, gram: np.ndarray, found: list[Symmetry]) -> UsualCell:
    """The group of a net with these symmetries, in its usual cell. NoEmbedding if none is that of the net."""
    return (_in_plane if net.dimension == 2 else _in_space)(net, gram, found)


def gap_of(one: np.ndarray, other: np.ndarray) -> np.ndarray:
    """The least differences of places up to translations of the cell."""
    step: np.ndarray = one - other
    return step - np.rint(step)


def _in_space(net: Placed, gram: np.ndarray, found: list[Symmetry]) -> UsualCell:
    """The usual cell of a net in space. The basis that spglib gets is reduced, since it names groups on skewed ones wrongly."""
    import spglib  # here, since pictures do without it

    short = short_basis(gram)
    lattice, to_short = np.linalg.cholesky(short @ gram @ short.T), np.linalg.inv(short)
    for part in ALONG_EDGES:
        points, kinds = _marked(net, found, part)
        atoms = lattice, into_cell(points @ to_short), kinds
        data = spglib.get_symmetry_dataset(atoms, SYMPREC)
        if data is None or len(data["rotations"]) != len(found):
            continue
        hall_number = _usual(data["number"])
        data = spglib.get_symmetry_dataset(atoms, SYMPREC, hall_number=hall_number)
        setting = _setting(hall_number)
        cell = np.linalg.inv(np.rint(data["transformation_matrix"] * FEWEST) / FEWEST).T @ short
        origin = _exact_origin(cell, -data["origin_shift"], found, setting)
        if origin is not None:
            return UsualCell(setting, cell, origin)
    raise NoEmbedding("spglib finds no group that is that of the net")


def _marked(net: Placed, found: list[Symmetry], part: float) -> tuple[np.ndarray, list[int]]:
    """The classes, and a point on each edge near each of its ends, with numbers for what is in one orbit: so that no
    more symmetries are found than the net has."""
    tails, _, vectors = net.arcs()
    kinds = vertex_orbits(found)
    points = np.vstack([net.places, net.places[tails] + part * vectors])
    return points, [k + 1 for k in kinds] + [len(kinds) + 1 + kinds[tail] for tail in tails]


@cache
def _usual(number: int) -> int:
    """The number in Hall's table of the usual setting of a space group: the second origin, or hexagonal axes."""
    import spglib

    settings = [k for k in HALL_NUMBERS if spglib.get_spacegroup_type(k)["number"] == number]
    return next((k for k in settings if spglib.get_spacegroup_type(k)["choice"] in ("2", "H")), settings[0])


@cache
def _setting(hall_number: int) -> Setting:
    import spglib

    kind = spglib.get_spacegroup_type(hall_number)
    operations = spglib.get_symmetry_from_database(hall_number)
    choice = kind["choice"] if kind["choice"] in ("2", "H") else ""
    name = kind["international_short"].replace("_", "") + (f":{choice}" if choice else "")
    return Setting(name, kind["number"], kind["hall_symbol"], np.swapaxes(operations["rotations"], 1, 2).astype(float),
                   np.rint(operations["translations"] * FEWEST) / FEWEST)


def _exact_origin(cell: np.ndarray, origin: np.ndarray, found: list[Symmetry], setting: Setting) -> np.ndarray | None:
    """The origin near to the given one, in fractions of the cell, from which the symmetries of the net are the
    operations of the setting up to rounding; None if they are not."""
    rows, gaps = [], []
    for turn, move in _in_cell(cell, found):
        image = move + origin @ turn - origin
        same = [m for t, m in zip(setting.turns, setting.moves) if np.abs(t - turn).max() < NEAR]
        if not same:
            return None
        gap = min((gap_of(m, image) for m in same), key=lambda g: float(np.abs(g).max()))
        rows.append((turn - np.eye(len(cell))).T)
        gaps.append(gap)
    step = np.linalg.lstsq(np.vstack(rows), np.concatenate(gaps), rcond=None)[0]
    moved: np.ndarray = origin + step
    return moved if _fits(cell, moved, found, setting) else None


def _in_cell(cell: np.ndarray, found: list[Symmetry]) -> Iterator[tuple[np.ndarray, np.ndarray]]:
    """The symmetries in fractions of a cell, without its centrings."""
    to_cell = np.linalg.inv(cell)
    for symmetry in found:
        yield cell @ symmetry.turn @ to_cell, symmetry.move @ to_cell


def _fits(cell: np.ndarray, origin: np.ndarray, found: list[Symmetry], setting: Setting) -> bool:
    """Whether the symmetries, seen from an origin, are the operations of a setting up to rounding: the translations of
    the setting are the lattice, and each symmetry is an operation of it."""
    if len(found) * round(abs(np.linalg.det(cell))) != len(setting.turns) or not _has_lattice(cell, setting):
        return False
    for turn, move in _in_cell(cell, found):
        same = np.abs(setting.turns - turn).max(axis=(1, 2)) < NEAR
        gaps = gap_of(setting.moves[same], move + origin @ turn - origin)
        if not same.any() or np.abs(gaps).max(axis=1).min() > NEAR:
            return False
    return True


def _has_lattice(cell: np.ndarray, setting: Setting) -> bool:
    """Whether the translations of the setting in the cell are those of the primitive lattice."""
    shifts = setting.centrings @ cell
    return len(shifts) == round(abs(np.linalg.det(cell))) and bool(np.abs(shifts - np.rint(shifts)).max() < NEAR)


def _in_plane(net: Placed, gram: np.ndarray, found: list[Symmetry]) -> UsualCell:
    """The usual cell of a layer, by trying each plane group with as many operations, cell and origin."""
    drawn = drawn_cell(gram, [symmetry.turn for symmetry in found])[0].astype(float)
    for cell in (drawn, np.array([drawn[1], -drawn[0]]), np.eye(2)):
        points = np.vstack([_fixed_points(cell, found), net.places @ np.linalg.inv(cell)])
        points = points[np.sort(np.unique(marks(into_cell(points)), axis=0, return_index=True)[1])]
        for setting in _plane_settings():
            for origin in points:
                if _fits(cell, origin, found, setting):
                    return UsualCell(setting, cell, origin)
    raise NoEmbedding("no plane group is that of the net")


def _fixed_points(cell: np.ndarray, found: list[Symmetry]) -> np.ndarray:
    """Points that symmetries fix, or that their glide lines pass through."""
    shifts = np.array(list(product((0.0, 1.0, 0.5), repeat=2)))
    points = [(move + shifts) @ np.linalg.pinv(np.eye(2) - turn) for turn, move in _in_cell(cell, found)]
    return np.vstack([*points, np.zeros((1, 2))])


@cache
def _plane_settings() -> list[Setting]:
    """The 17 plane groups."""
    from ..blocks.operations import affine, closure, identity
    from ..blocks.plane_groups import TABLE

    settings = []
    for number, names, _, generators in TABLE:
        operations = closure([affine(text) for text in generators] + [identity(2)])
        turns = np.array([np.array(op.rotation, dtype=float).T for op in operations])
        moves = np.array([np.array(op.translation, dtype=float) for op in operations])
        settings.append(Setting(names.split()[0], number, "", turns, moves))
    return settings
