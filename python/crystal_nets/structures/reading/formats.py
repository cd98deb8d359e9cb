"""Structure files of all formats: CIF, mmCIF and magnetic CIF by gemmi; POSCAR and CONTCAR of VASP, and extended XYZ with a
lattice, by ase; the JSON of a structure by pymatgen. Of a trajectory the last structure is read."""

from __future__ import annotations

from collections.abc import Callable
from dataclasses import dataclass
from functools import partial
from io import StringIO
from pathlib import PurePath
from typing import Any

from ...errors import NotANet, PackageMissing, lacking
from ...formats import JSON, POSCAR, Format, format_of
from ...kinds import kind_of
from ...other_forms import structure_of_json
from ...provenance import DROPPED, Note
from ...refusal import Refused
from ..atoms.crystal import Crystal
from .document import blocks_of, text_of_file
from .given import bounded_cell, crystal_of_atoms, crystal_of_pymatgen
from .poscar import as_ase_reads
from .structure import read_crystal


@dataclass(frozen=True)
class Structure:
    """A structure of a file, by its name; the notes on it are there also where it is refused."""

    name: str
    block: str         # of a CIF, as it names it; empty in other files
    notes: list[Note]
    crystal: Callable[[], Crystal]


def structures_of(content: bytes, file: str, stem: str) -> list[Structure]:
    """The structures of a file. Raises Refused where it has none."""
    form = format_of(content, file)
    notes: list[Note] = []
    if form is JSON:
        return [Structure(stem, "", notes, partial(_crystal_of_json, content, stem))]
    if form.of_ase:
        return [Structure(stem, "", notes, partial(_crystal_by_ase, content, form, stem, notes))]
    try:
        blocks = blocks_of(content, stem)
    except Refused as reason:
        kind = kind_of(content, PurePath(file).name)
        raise Refused(f"it is {kind}" if kind else str(reason)) from reason
    return [Structure(block.name, block.cif.name, block.notes, partial(read_crystal, block)) for block in blocks]


def _crystal_of_json(content: bytes, name: str) -> Crystal:
    try:
        return crystal_of_pymatgen(structure_of_json(content), name)
    except NotANet as reason:
        raise Refused(str(reason)) from None


def _crystal_by_ase(content: bytes, form: Format, name: str, notes: list[Note]) -> Crystal:
    try:
        from ase.io import read
    except ModuleNotFoundError as missing:
        advice = lacking(missing, f"apt-get install {form.package}")
        raise PackageMissing(f"a file {form.of_ase} is read by ase: {advice}") from None
    text = text_of_file(content)
    if form is POSCAR:
        text = as_ase_reads(text, notes)
    else:
        _check_rows(text)
    try:
        frames: list[Any] = read(StringIO(text), index=":", format=form.of_ase)
        atoms = frames[-1]
        cell, places = bounded_cell(atoms.cell.array, atoms.get_positions(), atoms.pbc)
        symbols = atoms.get_chemical_symbols()
    except MemoryError:
        raise
    except Exception as fault:  # of ase, in many kinds
        raise Refused(f"no {form.of_ase} file that ase reads: {_told_fault(fault)}") from None
    if len(frames) > 1:
        notes.append(Note(DROPPED, f"the last of {len(frames)} structures is read"))
    if not any(atoms.pbc):
        raise Refused("there is no lattice: the atoms are no crystal")
    crystal = crystal_of_atoms(name, cell, [{symbol: 1.0} for symbol in symbols], places)
    crystal.notes += notes
    return crystal


def _check_rows(text: str) -> None:
    """Raises Refused where an XYZ file counts more atoms than it has rows: ase would look for all of them, however many."""
    lines = text.split("\n")
    at = 0
    while at < len(lines):
        try:
            count = int(lines[at])
        except ValueError:
            return  # ase tells of it
        rows = sum(bool(line.strip()) for line in lines[at + 2:at + 2 + max(0, count)])
        if count > rows:
            raise Refused(f"no XYZ file: {count} atoms are counted in line {at + 1}, and {rows} rows are there")
        at += max(0, count) + 2
        while at < len(lines) and lines[at].lstrip().startswith("VEC"):
            at += 1


def _told_fault(fault: Exception) -> str:
    """What went wrong in ase, in words; of the kinds that tell nothing by themselves, what they come from."""
    if isinstance(fault, KeyError):
        return f"{fault} is no element and no column of it"
    if isinstance(fault, (IndexError, StopIteration)) or "StopIteration" in str(fault):
        return "it is cut, or has another form"
    return f"{type(fault).__name__} {fault}"
