"""The symmetry operations of a CIF block, and the primitive lattice that they give."""

from __future__ import annotations

import re
from collections.abc import Iterator
from contextlib import suppress
from dataclasses import dataclass
from fractions import Fraction

import gemmi
import numpy as np

from ...lattice import staircase
from ...refusal import Refused
from ..atoms.crystal import Operations
from .document import is_magnetic
from .names import group_of_name
from .sites import NO_VALUE, text_of

OPERATION_TAGS = ("_space_group_symop_operation_xyz", "_symmetry_equiv_pos_as_xyz")
HALL_TAGS = ("_space_group_name_Hall", "_symmetry_space_group_name_Hall")
NAME_TAGS = ("_space_group_name_H-M_alt", "_symmetry_space_group_name_H-M", "_space_group_name_H-M_full",
             "_space_group_name_H-M", "_symmetry_space_group_name_H-M_alt", "_space_group_name_H-M_ref")
NUMBER_TAGS = ("_space_group_IT_number", "_symmetry_Int_Tables_number")
OTHER_TAGS = ("_space_group_name_Schoenflies", "_space_group_crystal_system", "_symmetry_cell_setting")  # not read
TRICLINIC = 2  # the last number of a group whose other settings nobody takes
NOT_GIVEN = "no symmetry given: P 1"
DECIMAL = re.compile(r"\d*\.\d+")
OF_FRACTION = 0.001     # between a decimal of an operation and the fraction that it means
ORIGINS = (":1", ":2")  # how the table of groups names the two, where there are two


@dataclass(frozen=True)
class Symmetry:
    """The operations of a space group, without the translations of its lattice, and that."""

    rotations: np.ndarray     # one 3 x 3 matrix for each coset of the translations
    translations: np.ndarray  # one vector for each, in fractions of the cell
    lattice: np.ndarray       # rows: a primitive basis, in fractions of the cell
    source: str               # what the file gave
    has_origin: bool = True   # whether it is certain which origin of the group is meant
    order: int = 1            # of the group, with the translations within the cell
    number: int = 0           # of the type of the group; 0 where it is in no setting of the table
    setting: str = ""         # the name that the table has for these operations; empty where it has none

    def in_lattice(self) -> Operations:
        """The operations in fractions of the primitive cell."""
        to_lattice = np.linalg.inv(self.lattice)
        turns = np.rint(self.lattice @ self.rotations.transpose(0, 2, 1) @ to_lattice)
        return Operations(turns, self.translations @ to_lattice)


def read_symmetry(block: gemmi.cif.Block, cell: gemmi.UnitCell) -> Symmetry:
    """Explicit operations before a Hall symbol, before a name, before a number."""
    listed = [gemmi.cif.as_string(v) for tag in OPERATION_TAGS for v in block.find_values(tag) if v not in NO_VALUE]
    listed = listed or _magnetic_operations(block)
    if listed:
        return _symmetry(_listed_group(listed), "operations")
    named = named_symmetry(block, cell)
    if named:
        return named
    if is_magnetic(block):
        raise Refused("a magnetic structure without operations: such files are not read")
    name, number = _name_of(block) or text_of(block, HALL_TAGS), text_of(block, NUMBER_TAGS)
    if name or number not in ("", "1"):
        raise Refused(f"space group {name or number} is not known")
    return _symmetry(gemmi.GroupOps([gemmi.Op("x,y,z")]), "number P 1" if number else NOT_GIVEN)


def doubt_of_symmetry(block: gemmi.cif.Block, cell: gemmi.UnitCell, taken: Symmetry) -> str:
    """What is to be reported where a file gives no symmetry that is read, or names several groups."""
    if taken.source == NOT_GIVEN:
        others = [f"{tag} {text}" for tag in OTHER_TAGS if (text := text_of(block, (tag,)))]
        return "no symmetry is given, and P 1 is taken" + (f": {', '.join(others)} is not read" if others else "")
    if taken.source == "operations":
        return ""
    for other in _named_symmetries(block, cell):
        is_exact = other.has_origin and not other.source.startswith("number")
        if taken.number and (other.number != taken.number or (is_exact and other.setting != taken.setting)):
            return (f"the file gives {taken.source}, which is taken, and {other.source}, which is another group or "
                    "setting")
    return ""


def _magnetic_operations(block: gemmi.cif.Block) -> list[str]:
    """The operations of a magnetic group and of its lattice, each followed by the other, without what they do to
    moments: they are those of the average structure."""
    found = []
    for tag in ("operation", "centering"):
        values = block.find_values(f"_space_group_symop_magn_{tag}_xyz")
        texts = [gemmi.cif.as_string(value).rpartition(",")[0] for value in values]
        found.append(texts or ["x,y,z"])
    if found == [["x,y,z"], ["x,y,z"]]:
        return []
    try:
        return [(gemmi.Op(centring) * gemmi.Op(operation)).wrap().triplet()
                for operation in found[0] for centring in found[1]]
    except (RuntimeError, ValueError) as error:
        raise Refused(f"symmetry operations: {error}") from error


def named_symmetry(block: gemmi.cif.Block, cell: gemmi.UnitCell) -> Symmetry | None:
    """The operations of the group that a Hall symbol, a name or a number gives, whatever is listed."""
    return next(_named_symmetries(block, cell), None)


def _named_symmetries(block: gemmi.cif.Block, cell: gemmi.UnitCell) -> Iterator[Symmetry]:
    """The operations by the Hall symbol, by the name and by the number, as far as they are known."""
    hall = text_of(block, HALL_TAGS)
    if hall:
        with suppress(RuntimeError, ValueError):  # the name may be better
            yield _symmetry(gemmi.symops_from_hall(hall), f"Hall symbol {hall}")
    for what, text in (("name", _name_of(block)), ("number", _name_of_number(text_of(block, NUMBER_TAGS)))):
        named = group_of_name(text, cell) if text else None
        if named:
            yield _symmetry(named.group.operations(), f"{what} {named.group.xhm()}", named.is_origin_given)


def other_settings(taken: Symmetry) -> list[Symmetry]:
    """The settings of a group that is given by its number alone, but for the one that is taken, with both origins."""
    if not taken.source.startswith("number") or taken.number <= TRICLINIC:
        return []
    own = taken.setting.partition(":")[0]
    return [_symmetry(group.operations(), group.xhm()) for group in gemmi.spacegroup_table()
            if group.number == taken.number and group.hm != own]


def both_origins(block: gemmi.cif.Block, cell: gemmi.UnitCell) -> list[Symmetry]:
    """The group of the name or number with each of its two origins, where the table has two."""
    named = group_of_name(_name_of(block) or _name_of_number(text_of(block, NUMBER_TAGS)), cell)
    groups = [gemmi.find_spacegroup_by_name(named.without_origin + origin, cell.alpha, cell.gamma)
              for origin in ORIGINS] if named else []
    return [_symmetry(group.operations(), group.xhm()) for group in groups if group]


def _name_of(block: gemmi.cif.Block) -> str:
    return text_of(block, NAME_TAGS).split("{")[0].strip()


def _name_of_number(number: str) -> str:
    """The Hermann-Mauguin name of a number other than 1."""
    is_number = number.isascii() and number.isdigit() and len(number) < 4 and 1 < int(number) <= 230
    return gemmi.find_spacegroup_by_number(int(number)).hm if is_number else ""


def _symmetry(group: gemmi.GroupOps, source: str, has_origin: bool = True) -> Symmetry:
    den = gemmi.Op.DEN
    operations = group.sym_ops
    rotations = np.array([op.rot for op in operations], dtype=float) / den
    translations = np.array([op.tran for op in operations], dtype=float) / den
    units = [tuple(den * (i == j) for j in range(3)) for i in range(3)]
    rows = staircase(units + [tuple(c) for c in group.cen_ops])
    setting = gemmi.find_spacegroup_by_ops(group)
    return Symmetry(rotations, translations, np.array(rows, dtype=float) / den, source, has_origin, len(group),
                    *((setting.number, setting.xhm()) if setting else (0, "")))


def _listed_group(listed: list[str]) -> gemmi.GroupOps:
    """The group of the operations, if they are one. What is listed twice counts once."""
    try:
        operations = list(dict.fromkeys(gemmi.Op(DECIMAL.sub(_as_fraction, text)).wrap() for text in listed))
        group = gemmi.GroupOps(operations)
        group.add_missing_elements()
    except (RuntimeError, ValueError) as error:
        raise Refused(f"symmetry operations: {error}") from error
    if len(group) != len(operations):
        raise Refused(f"the {len(operations)} symmetry operations are no group")
    return group


def _as_fraction(found: re.Match[str]) -> str:
    """The fraction that a decimal of an operation means, as 2/3 for 0.66667; the decimal itself,
    where it means none that a space group has."""
    value = float(found[0])
    fraction = Fraction(round(value * gemmi.Op.DEN), gemmi.Op.DEN)
    return f"{fraction.numerator}/{fraction.denominator}" if abs(value - fraction) < OF_FRACTION else found[0]
