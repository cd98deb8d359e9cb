"""What a file is that has no net, by its first bytes and by its name; and structures of kinds that are not read."""

from __future__ import annotations

from collections.abc import Sequence
from pathlib import PurePath

NOT_READ = "which is not read: make a CIF of it"
XML = "XML"  # of which the name may tell more, as of a CML file
OTHERS = ((b"%PDF", "a PDF"), (b"\x89PNG", "a picture (PNG)"), (b"\xff\xd8\xff", "a picture (JPEG)"),
          (b"GIF8", "a picture (GIF)"),
          (b"PK\x03\x04", "a ZIP archive, or a file of an office program: unpack it first"),
          (b"BZh", "a file packed by bzip2: unpack it first"), (b"\xfd7zXZ", "a file packed by xz: unpack it first"),
          (b"\x28\xb5\x2f\xfd", "a file packed by zstd: unpack it first"),
          (b"\x1f\x9d", "a file packed by compress: unpack it first"), (b"7z\xbc\xaf", "a 7z archive: unpack it first"),
          (b"\x7fELF", "a program"), (b"<!doctype html", "a page (HTML)"), (b"<html", "a page (HTML)"), (b"<?xml", XML),
          (b"<svg", "a picture (SVG)"), (b"net_maps ", "a text of maps"), (b"net_archive ", "an archive of net_tool"),
          (b"HEADER    ", "a PDB file, which has no unit cell's symmetry as a CIF has: make a CIF of it"),
          (b"CRYST1 ", f"a PDB file, {NOT_READ}"), (b"TITL ", f"a file of SHELX, {NOT_READ}"),
          (b"&control", f"an input of Quantum ESPRESSO, {NOT_READ}"), (b"@<TRIPOS>", f"a mol2 file, {NOT_READ}"),
          (b"{", "JSON, and no structure of pymatgen"))
# Structures that are not read, by the endings of their names.
BY_NAME = {".pdb": "a PDB file", ".ent": "a PDB file", ".res": "a file of SHELX", ".ins": "a file of SHELX",
           ".gro": "a file of GROMACS", ".cssr": "a CSSR file", ".xsf": "a file of XCrySDen", ".axsf": "a file of XCrySDen",
           ".cml": "a CML file", ".mol": "a molfile", ".sdf": "a molfile", ".mol2": "a mol2 file", ".gin": "an input of GULP",
           ".car": "a file of Materials Studio", ".xsd": "a file of Materials Studio", ".xtl": "an xtl file",
           ".cell": "an input of CASTEP", ".gen": "a file of DFTB+", ".fdf": "an input of SIESTA", ".cube": "a cube file"}
PACKED = (".xz", ".bz2", ".zip", ".zst", ".z", ".7z")
MOST_SHOWN = 3


def kind_of(content: bytes, name: str = "") -> str:
    """What a file is that has no net, as far as its first bytes or its name tell; empty where they do not."""
    begin = content[:64].lstrip().lower()
    found = next((kind for mark, kind in OTHERS if begin.startswith(mark.lower())), "")
    by_name = BY_NAME.get(_ending(name), "")
    return f"{by_name}, {NOT_READ}" if by_name and found in ("", XML) else found


def is_of_other_kind(name: str) -> bool:
    """Whether a name is that of a structure of a kind that is not read."""
    return _ending(name) in BY_NAME


def told_passed_over(names: Sequence[str], count: int = 0) -> str:
    """The line on files of a folder that are passed over, of which there are so many, if not these alone; empty if there are
    none."""
    others = (count or len(names)) - MOST_SHOWN
    more = f" and {others} more" if others > 0 else ""
    return f"passed over, of kinds that are not read: {' '.join(names[:MOST_SHOWN])}{more}" if names else ""


def _ending(name: str) -> str:
    return PurePath(name.lower().removesuffix(".gz")).suffix
