"""The formats of the files that are read, in one table, and which of them a file has: by its name, or by a mark in its text.

A structure or nets of another format are refused by what reads them, with what the file is (`kinds`)."""

from __future__ import annotations

import re
from collections.abc import Callable
from dataclasses import dataclass, field
from pathlib import PurePath

from .kinds import BY_NAME, PACKED, is_of_other_kind

NUMBER = r"[-+]?(?:\d+\.?\d*|\.\d+)(?:[eEdD][-+]?\d+)?"  # as Fortran writes it
CELL = re.compile(rf"[^\n]*\n[ \t]*{NUMBER}[ \t]*\n(?:[ \t]*{NUMBER}(?:[ \t]+{NUMBER}){{2}}[^\n]*\n){{3}}".encode())
TAGS = re.compile(rb"(?im)^[ \t]*(?:data_|_cell_|_atom_site_)")
KEYWORDS = re.compile(rb"(?im)^[ \t]*(?:(?:PERIODIC_GRAPH|CRYSTAL|NET|TILING)[ \t\r]*(?:#|$)|key[ \t]+\d)")
HEAD = 4096  # bytes in which the cell of a POSCAR stands
# The names of POSCAR files, as POSCAR_01, CONTCAR.relaxed and quartz_POSCAR, and the endings of what is named after one.
POSCAR_NAME = re.compile(r"(?i)(?:.*[._-])?(?:poscar|contcar)(?:[._-].*)?")
NO_POSCAR = frozenset((*BY_NAME, *PACKED, *(f".{ending}" for ending in (
    "py sh pl m r c f f90 txt md log out in err dat csv tsv yaml yml toml json xml htm html pdf png jpg jpeg svg eps tar bak "
    "swp cif mcif mmcif xyz extxyz cgd arc net maps rows archive index").split())))


@dataclass(frozen=True)
class Format:
    """A format of files.

    name          as messages have it
    endings       of the names of its files, without that of gzip
    package       of Debian that reads it
    has_mark      whether a text without such a name is one, by what stands in it
    of_ase        what ase calls it; empty where something else reads it
    is_structure  whether its files are structures, and not nets"""

    name: str
    endings: tuple[str, ...]
    package: str
    has_mark: Callable[[bytes], bool] = field(repr=False, default=lambda content: False)
    of_ase: str = ""
    is_structure: bool = True


def _is_json_of_structure(content: bytes) -> bool:
    return content[:64].lstrip()[:1] == b"{" and b'"lattice"' in content and b'"sites"' in content


def _begins_as_poscar(content: bytes) -> bool:
    """By the first five lines: a comment, a scale and a cell."""
    return CELL.match(content[:HEAD].replace(b"\r\n", b"\n")) is not None


JSON = Format("JSON of a pymatgen Structure", (), "python3-pymatgen", _is_json_of_structure)
CIF = Format("CIF", (".cif", ".mcif", ".mmcif"), "python3-gemmi", lambda content: TAGS.search(content) is not None)
POSCAR = Format("POSCAR", (".vasp", ".poscar", ".contcar"), "python3-ase", _begins_as_poscar, "vasp")
XYZ = Format("extended XYZ", (".xyz", ".extxyz"), "python3-ase", of_ase="extxyz")
NETS = Format("nets", (".cgd", ".arc"), "python3-gemmi", lambda content: KEYWORDS.search(content) is not None, is_structure=False)
ARCHIVE = Format("archive of net_tool", (), "", lambda content: content.startswith(b"net_archive "), is_structure=False)
FORMATS = (JSON, CIF, POSCAR, XYZ, NETS, ARCHIVE)
BY_ENDING = {ending: form for form in FORMATS for ending in form.endings}
SUFFIXES = tuple(ending for form in FORMATS for ending in form.endings)  # of the files of a folder
STRUCTURE_SUFFIXES = tuple(ending for form in FORMATS if form.is_structure for ending in form.endings)


def format_of(content: bytes, file: str) -> Format:
    """The format of a file. The JSON of a structure and an archive are known by their texts, whatever their names are, and
    others by their names; if these say nothing, by a mark. What is a structure of another kind by its name is given to the reader of CIF files,
    which says what it is, and all that is left to that of nets."""
    found = JSON if JSON.has_mark(content) else ARCHIVE if ARCHIVE.has_mark(content) else format_of_name(file)
    found = found or next((form for form in (POSCAR, CIF) if form.has_mark(content)), None)
    return found or (CIF if is_of_other_kind(file) and not NETS.has_mark(content) else NETS)


def holds_structure(content: bytes, file: str) -> bool:
    """Whether a file is a structure, and not one of nets."""
    return format_of(content, file).is_structure


def format_of_name(file: str) -> Format | None:
    """The format that the name of a file says, packed by gzip or not; None if it says none."""
    last = file.rfind(".")
    if last > 0 and file[last - 1] not in "./" and (found := BY_ENDING.get(file[last:])):
        return found  # the plain case, since the plan of a large folder asks for each name three times
    name = file[file.rfind("/") + 1:].lower().removesuffix(".gz")  # what os.path has takes most of the time of a large folder
    dot = name.rfind(".")
    suffix = name[dot:] if dot > 0 and name[:dot].strip(".") else ""
    if found := BY_ENDING.get(suffix):
        return found
    return POSCAR if suffix not in NO_POSCAR and POSCAR_NAME.fullmatch(name) else None


def is_known(file: str) -> bool:
    """Whether a file of this name is read among those of a folder."""
    return format_of_name(file) is not None


def is_structure_file(file: str) -> bool:
    """Whether a file of this name is one of a structure."""
    form = format_of_name(file)
    return form is not None and form.is_structure


def is_passed_over(name: str, endings: tuple[str, ...]) -> bool:
    """Whether a file of a folder is a structure by its name, in a kind or a packing that is not read. The endings are
    those that are read."""
    ending = PurePath(name.lower().removesuffix(".gz")).suffix
    inner = name[:-len(ending)] if ending in PACKED else ""
    return ending in BY_NAME or inner.lower().endswith(endings) or format_of_name(inner) is POSCAR


def stem_of(name: str) -> str:
    """A name without its ending; that of POSCAR.2 stays, as it is no ending of a format."""
    path = PurePath(name)
    is_ending = path.suffix.lower() in STRUCTURE_SUFFIXES or format_of_name(path.name) is not POSCAR
    return path.stem if is_ending else path.name
