"""Space groups and plane groups in a primitive basis, by all names that files have for them."""

from __future__ import annotations

import math
import re
from collections.abc import Iterable
from dataclasses import dataclass
from difflib import get_close_matches
from functools import cache, cached_property

import gemmi
import numpy as np
from ..lattice import staircase

from .operations import Affine, affine, closure, identity
from .plane_groups import BY_NAME

DEFAULTS = ("2", "H", "", "1", "R")  # where a name does not say: the second origin, hexagonal axes
SUFFIXES = {"S": "1", "Z": "2", "H": "H", "R": "R"}  # as in Fd-3mS and R-3mH
WITH_OLD_SPELLING = (*range(200, 207), *range(221, 231))  # Pa3 for Pa-3, Im3m for Im-3m
GLIDE = "([abcdemn])"
FULL = (  # full symbols, and the short ones: planes without the axes that stand across them
    (rf"(?i)([PABCFI])21?/{GLIDE}21?/{GLIDE}21?/{GLIDE}", r"\1\2\3\4"),
    (rf"(?i)([PI])([46][1-5]?/[abcdmn])21?/{GLIDE}(?:21?/)?{GLIDE}", r"\1\2\3\4"),
    (r"(?i)([PR])-3(1?)2/([mc])(1?)", r"\1-3\2\3\4"),
    (rf"(?i)([PFI])(?:[24][1-3]?)/{GLIDE}-3(?:2/{GLIDE})?", r"\1\2-3\3"),
)
MOST_STRAIN = 0.01  # of the products of cell edges, between a cell and its image
LONGEST_NAME = 80


class UnknownGroup(ValueError):
    """No group has this name."""


@dataclass(frozen=True, eq=False)
class Group:
    """The operations of a group in units of a primitive basis, one for each coset of its translations. A row x goes to
    x @ rotations[k] + translations[k] / denominator."""

    name: str
    rotations: np.ndarray     # (n, d, d), whole
    translations: np.ndarray  # (n, d), whole
    denominator: int
    basis: np.ndarray         # (d, d), rows: the primitive basis in fractions of the cell

    @property
    def dimension(self) -> int:
        return len(self.basis)

    @cached_property
    def to_basis(self) -> np.ndarray:
        """From fractions of the cell to units of the basis: whole numbers."""
        return np.rint(np.linalg.inv(self.basis))

    @cached_property
    def moves(self) -> np.ndarray:
        """The translations as floating-point numbers."""
        return self.translations / self.denominator

    def strain(self, gram: np.ndarray) -> float:
        """How far the operations are from keeping the products of the cell's edges, (d, d), as a fraction of them."""
        metric = self.basis @ gram @ self.basis.T
        turned = self.rotations @ metric @ np.swapaxes(self.rotations, 1, 2)
        scale = np.sqrt(np.outer(np.diag(metric), np.diag(metric)))
        return float(np.max(np.abs(turned - metric) / scale))

    @property
    def has_one_shape(self) -> bool:
        """Whether all cells with its symmetry have one shape, as cubic ones have."""
        shape = self.metric(np.eye(self.dimension))
        trials = [np.outer(row, row) for row in np.eye(self.dimension)]
        trials += [np.ones((self.dimension, self.dimension)) * 0.3 + np.diag(np.arange(1.0, self.dimension + 1))]
        others = [self.metric(trial) for trial in trials]
        return all(np.allclose(other / np.trace(other), shape / np.trace(shape)) for other in others)

    def metric(self, gram: np.ndarray) -> np.ndarray:
        """The products of the primitive basis, made to have the symmetry exactly."""
        metric = self.basis @ gram @ self.basis.T
        return (self.rotations @ metric @ np.swapaxes(self.rotations, 1, 2)).mean(axis=0)


@cache
def group_by_name(text: str, dimension: int) -> Group:
    """The group of a Hermann-Mauguin name, a Hall symbol or a number; raises UnknownGroup."""
    if dimension == 2:
        found = BY_NAME.get("".join(text.split()).lower())
        if found is None:
            raise UnknownGroup(f"no plane group is {text[:LONGEST_NAME]!r}{_nearest(text, BY_NAME)}")
        return group_of_operations([affine(part) for part in found[1]], 2, found[0])
    space_group = find_space_group(text)
    if space_group is not None:
        return _group_of_gemmi(space_group.operations(), space_group.xhm())
    if not text.isascii() or len(text) > LONGEST_NAME:
        raise UnknownGroup(f"no space group is {text[:LONGEST_NAME]!r}")
    try:
        hall = re.sub(r"(?i)^hall\s*:?", "", text).strip()
        return _group_of_gemmi(gemmi.symops_from_hall(hall), f"Hall {hall}")
    except (RuntimeError, ValueError) as error:
        raise UnknownGroup(f"no space group is {text[:LONGEST_NAME]!r}{_nearest(text, _table())}") from error


def _nearest(text: str, names: Iterable[str]) -> str:
    """What may be meant by a name that no group has, for behind a reason; empty if none is near."""
    found = get_close_matches("".join(text[:LONGEST_NAME].split()).lower(), [name for name in names if not name.isdigit()], 3, 0.6)
    return f"; names that are near are {', '.join(found)}" if found else ""


def find_space_group(text: str) -> gemmi.SpaceGroup | None:
    """The setting that a name or number means, or None. The table is gemmi's."""
    name = re.sub(r"[\s_]|\((?=\d)|(?<=\d)\)", "", text)
    name, _, extension = name.partition(":")
    if len(text) > LONGEST_NAME or not name.isascii():
        return None
    found = _settings(name) or _settings(short_name(name))
    if not found and not extension and name[-1:] in SUFFIXES:
        extension = SUFFIXES[name[-1]]
        found = [group for group in _settings(short_name(name[:-1])) if _extension(group)]
    wanted = (extension.upper(),) if extension else DEFAULTS
    for one in wanted:
        for group in found:
            if _extension(group) == one:
                return group
    return None


def short_name(name: str) -> str:
    """The short symbol of a full Hermann-Mauguin symbol without blanks, as Fd-3m of F41/d-32/m; else the name."""
    for form, short in FULL:
        if re.fullmatch(form, name):
            return re.sub(form, short, name)
    return name


def _extension(group: gemmi.SpaceGroup) -> str:
    return group.ext.replace("\0", "")


def _settings(name: str) -> list[gemmi.SpaceGroup]:
    """The settings with a name without blanks, which differ by origin and axes alone."""
    table = _table()
    found = table.get(name.lower())
    if not found and len(name) > 1:  # other spellings, as with the e of double glide planes
        group = gemmi.find_spacegroup_by_name(name)
        found = table.get(group.hm.replace(" ", "").lower()) if group else None
    return found or []


@cache
def _table() -> dict[str, list[gemmi.SpaceGroup]]:
    """All settings by their names in small letters without blanks, and by the numbers of their groups."""
    table: dict[str, list[gemmi.SpaceGroup]] = {}
    for group in gemmi.spacegroup_table():
        names = {group.hm.replace(" ", "").lower()}
        if not _extension(group):
            names.add(group.short_name().lower())
        if group.number in WITH_OLD_SPELLING:
            names |= {name.replace("-3", "3") for name in names}
        if group.is_reference_setting() or _extension(group):
            names.add(str(group.number))
        for name in names:
            table.setdefault(name, []).append(group)
    return table


def settings_of(number: int) -> list[gemmi.SpaceGroup]:
    """All settings of one space group."""
    return [group for group in gemmi.spacegroup_table() if group.number == number]


def _group_of_gemmi(operations: gemmi.GroupOps, name: str) -> Group:
    den = gemmi.Op.DEN
    rotations = [np.array(op.rot) // den for op in operations.sym_ops]
    translations = [np.array(op.tran) for op in operations.sym_ops]
    return _group(name, rotations, translations, [tuple(c) for c in operations.cen_ops], den)


def group_of_operations(generators: Iterable[Affine], dimension: int, name: str = "operations") -> Group:
    """The group that operations generate; ValueError where they generate none."""
    operations = closure([*generators, identity(dimension)])
    den = math.lcm(*(t.denominator for op in operations for t in op.translation))
    rotations, translations, centrings = [], [], []
    seen = set()
    for op in operations:
        whole = [int(t * den) for t in op.translation]
        if op.rotation == identity(dimension).rotation:
            centrings.append(whole)
        if op.rotation not in seen:
            seen.add(op.rotation)
            rotations.append(np.array([[int(x) for x in row] for row in op.rotation]))
            translations.append(np.array(whole))
    return _group(name, rotations, translations, centrings, den)


def _group(name: str, rotations: list[np.ndarray], translations: list[np.ndarray],
           centrings: Iterable[Iterable[int]], den: int) -> Group:
    """A group of columns in fractions of the cell as one of rows in units of a primitive basis."""
    dimension = len(rotations[0])
    units = [tuple(den * int(i == j) for j in range(dimension)) for i in range(dimension)]
    rows = np.array(staircase([*units, *(tuple(int(x) for x in c) for c in centrings)]), dtype=float) / den
    inverse = np.rint(np.linalg.inv(rows))
    turns = np.array([np.rint(rows @ rotation.T @ inverse) for rotation in rotations]).astype(int)
    moves = np.array([np.rint(translation @ inverse) for translation in translations]).astype(int)
    return Group(name, turns, moves % den, den, rows)
