"""POSCAR texts of VASP, made such that ase reads what VASP does: one positive scale, elements by their symbols alone,
and as many rows as atoms are counted."""

from __future__ import annotations

import re

import numpy as np

from ...formats import NUMBER
from ...provenance import DOUBT, DROPPED, Note
from ...refusal import Refused

FORTRAN = re.compile(r"(?<=[\d.])[dD](?=[-+]?\d)")  # of the exponent of a number of double precision
SYMBOL = re.compile(r"[A-Z][a-z]?(?![a-z])")
LATTICE = slice(2, 5)  # the lines of the cell
CONFIGURATION = re.compile(r"(?i)[ \t]*(?:direct|cartesian)[ \t]+configuration[ \t]*=")
FURTHER = re.compile(rf"(?m)^[ \t]*{NUMBER}[ \t]*\n(?:[ \t]*{NUMBER}(?:[ \t]+{NUMBER}){{2}}[ \t]*\n){{3}}"
                     r"[ \t]*[A-Z][a-z]?\b[^\n]*\n[ \t]*\d+(?:[ \t]+\d+)*[ \t]*$")
MODE = re.compile(r"[ \t]*([sScCkK])")


def as_ase_reads(text: str, notes: list[Note]) -> str:
    """The text with one positive scale and plain symbols; raises Refused where it has another form. It is reported where
    the elements stand in the comment alone."""
    lines = text.split("\n")
    if len(lines) < 8:
        raise Refused("no POSCAR: it ends before its atoms")
    lines[LATTICE] = [FORTRAN.sub("e", line) for line in lines[LATTICE]]
    lines[1] = f"{_scale(lines[1], lines[LATTICE]):.12g}"
    counts_at = 5 if lines[5].split()[:1] and lines[5].split()[0].isdecimal() else 6
    counts = _counts(lines[counts_at])
    if counts_at == 6:
        lines[5] = " ".join(_symbols(lines[5], len(counts)))
    else:
        told = f"no line has the elements, and those of the first are taken: {lines[0].strip()[:60]}"
        notes.append(Note(DOUBT, told))
    others = _others_behind(lines[counts_at + 1 + sum(counts):])
    if others:
        notes.append(Note(DROPPED, f"the first of {1 + others} structures is read"))
    return "\n".join([*lines[:counts_at + 1], *_atoms(lines[counts_at + 1:], sum(counts))])


def _others_behind(lines: list[str]) -> int:
    """How many structures follow the first: the configurations of an XDATCAR, or further texts with a cell, elements and
    numbers of atoms, which what a CONTCAR has of velocities is not."""
    configurations = sum(CONFIGURATION.match(line) is not None for line in lines)
    return configurations or len(FURTHER.findall("\n".join(lines)))


def _numbers(text: str) -> list[float]:
    """The numbers that a line begins with."""
    found = []
    for word in text.split():
        try:
            found.append(float(FORTRAN.sub("e", word)))
        except ValueError:
            break
    return found


def _scale(line: str, lattice: list[str]) -> float:
    """The factor of all lengths; a negative number is the volume of the cell."""
    scales = _numbers(line)
    if len(scales) != 1 and (len(scales) != 3 or len(set(scales)) > 1 or scales[0] < 0):
        raise Refused(f"no POSCAR with one scale: {line.strip()[:40]!r}")
    if scales[0] > 0:
        return scales[0]
    rows = [_numbers(row)[:3] for row in lattice]
    if any(len(row) != 3 for row in rows) or not abs(np.linalg.det(rows)) > 0:
        raise Refused("no unit cell")
    return float((-scales[0] / abs(np.linalg.det(rows))) ** (1 / 3))


def _counts(line: str) -> list[int]:
    """How many atoms there are of each element, up to a word that is no number."""
    words = line.partition("!")[0].partition("#")[0].split()
    if not words or not all(word.isascii() and word.isdecimal() and len(word) < 7 for word in words):
        raise Refused(f"no POSCAR with numbers of atoms: {line.strip()[:40]!r}")
    return [int(word) for word in words]


def _symbols(line: str, count: int) -> list[str]:
    """The elements without what names their potentials, as Si of Si_GW and of Si/1f2e."""
    words = line.partition("!")[0].partition("#")[0].split()
    found = [SYMBOL.match(word) for word in words]
    if len(words) != count or not all(found):
        raise Refused(f"no POSCAR with {count} elements: {line.strip()[:60]!r}")
    return [symbol[0] for symbol in found if symbol]


def _atoms(lines: list[str], count: int) -> list[str]:
    """The lines of the modes and the rows of the atoms; Refused where they are not as many as are counted."""
    at = 0
    modes: list[str] = []
    while at < 2 and at < len(lines) and (not modes or modes[0][:1] in "sS"):
        found = MODE.match(lines[at])
        modes.append(lines[at].lstrip() if found else lines[at] or "Direct")
        at += 1
    rows = [FORTRAN.sub("e", line) for line in lines[at:at + count]]
    found_rows = sum(len(_numbers(row)) >= 3 for row in rows)
    if found_rows < count or any(len(_numbers(line)) >= 3 for line in lines[at + count:at + count + 1]):
        more = "more" if found_rows == count else f"{found_rows}"
        raise Refused(f"no POSCAR: {count} atoms are counted, and {more} rows are there")
    return [*modes, *rows, ""]
