"""Whether the atoms of a cell can be right: many files are not."""

from __future__ import annotations

import gemmi
import numpy as np

from ..bonds.contacts import TOO_NEAR, radius
from .crystal import FULL, Crystal
from ...refusal import Refused
from ..reading.symmetry import Symmetry

MOST_STRAIN = 0.05  # of the products of edges, between a cell and its image
MOST_MISFIT = 1.2   # between the proportions of a cell and of its formula
OF_SOLVENTS = frozenset("C N O S F Cl Br I P B".split())  # and of ions that are disordered as they are


def check_metric(symmetry: Symmetry, cell: gemmi.UnitCell) -> None:
    """Raises Refused where an operation does not keep the lengths and angles of the cell."""
    if not keeps_metric(symmetry, cell):
        raise Refused("the cell has not the symmetry that is given")


def keeps_metric(symmetry: Symmetry, cell: gemmi.UnitCell) -> bool:
    """Whether all operations keep the lengths and angles of the cell."""
    edges = np.array(cell.orthogonalization_matrix.tolist()).T
    metric = edges @ edges.T
    turned = np.swapaxes(symmetry.rotations, 1, 2) @ metric @ symmetry.rotations
    scale = np.sqrt(np.outer(np.diag(metric), np.diag(metric)))
    return bool(np.max(np.abs(turned - metric) / scale) <= MOST_STRAIN)


def judge(crystal: Crystal, formula: dict[str, float]) -> None:
    """Notes why the atoms of the cell cannot be right, and where they are only fewer than the formula has."""
    crystal.near = _too_near(crystal)
    near = next(iter(crystal.near.values()), "")
    proportions = "" if crystal.clash or near else _other_proportions(crystal, formula)
    crystal.shortage = _shortage(crystal, formula) if proportions else ""
    clash = f"different full atoms in one place: {crystal.clash}" if crystal.clash else ""
    crystal.misfit = clash or near or proportions or _lost(crystal, formula)
    crystal.noted_doubt(_doubt_of_doubled(crystal, formula))


def _lost(crystal: Crystal, formula: dict[str, float]) -> str:
    """Which atoms are near each other without being repeats, where the formula has both: the cell lacks one of them."""
    is_lost = crystal.doubled and _fits(crystal.listed, formula) and not _fits(_counts(crystal), formula)
    return f"{crystal.doubled}, and the formula has both" if is_lost else ""


def _doubt_of_doubled(crystal: Crystal, formula: dict[str, float]) -> str:
    """What is to be reported of atoms that are near each other without being repeats, unless the formula has them once."""
    has_once = _fits(_counts(crystal), formula) and not _fits(crystal.listed, formula)
    return f"{crystal.doubled}, and taken as one atom" if crystal.doubled and not crystal.misfit and not has_once else ""


def _too_near(crystal: Crystal) -> dict[tuple[int, int], str]:
    """The pairs of full atoms, hydrogen aside, that are nearer than any bond, with what is reported of them."""
    atoms = crystal.atoms
    radii = np.array([radius(atom.site.element) for atom in atoms])
    near = crystal.contacts(2 * TOO_NEAR * radii.max(),
                            lambda u, v, length: length < TOO_NEAR * (radii[u] + radii[v]))
    return {(c.first, c.second): f"{atoms[c.first].name} and {atoms[c.second].name} are {c.length:.2f} angstrom apart"
            for c in near if all(a.site.element != "H" and a.occupancy >= FULL for a in (atoms[c.first], atoms[c.second]))}


def _other_proportions(crystal: Crystal, formula: dict[str, float]) -> str:
    """What the cell has, where the formula has the elements in other proportions. The atoms are
    counted as they are listed, and with repeats once; either may be what the formula means."""
    counts = _counts(crystal)
    if _fits(counts, formula) or _fits(crystal.listed, formula):
        return ""
    found = " ".join(f"{e}{counts[e]:g}" for e in counts)
    wanted = " ".join(f"{e}{formula[e]:g}" for e in formula)
    return f"the cell has {found}, the formula {wanted}"


def _counts(crystal: Crystal) -> dict[str, float]:
    counts: dict[str, float] = {}
    for atom in crystal.atoms:
        for element, part in atom.content.items():
            counts[element] = counts.get(element, 0.0) + part
    return counts


def _ratios(counts: dict[str, float], formula: dict[str, float]) -> dict[str, float]:
    return {e: counts[e] / formula[e] for e in counts if e != "H" and formula.get(e, 0.0) > 0}


def _fits(counts: dict[str, float], formula: dict[str, float]) -> bool:
    ratios = _ratios(counts, formula).values()
    return len(ratios) < 2 or max(ratios) <= MOST_MISFIT * min(ratios)


def _shortage(crystal: Crystal, formula: dict[str, float]) -> str:
    """Which elements of solvents and small ions the formula has more of than the cell, where all others agree: pores
    whose contents were not modelled (A. L. Spek, Acta Cryst. C71 (2015) 9, on SQUEEZE)."""
    if not any("C" in (atom.site.element, *atom.content) for atom in crystal.atoms):
        return ""
    for counts in (_counts(crystal), crystal.listed):
        ratios = _ratios(counts, formula)
        of_frame = [ratio for element, ratio in ratios.items() if element not in OF_SOLVENTS] or [max(ratios.values())]
        if max(of_frame) <= MOST_MISFIT * min(of_frame) and max(ratios.values()) <= MOST_MISFIT * min(of_frame):
            less = sorted(element for element, ratio in ratios.items() if MOST_MISFIT * ratio < min(of_frame))
            return f"less {' and '.join(less)} than the formula has: solvent or ions that are not modelled"
    return ""
