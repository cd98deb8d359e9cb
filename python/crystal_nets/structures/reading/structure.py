"""The crystal of a block of a CIF file."""

from __future__ import annotations

from collections.abc import Callable
from contextlib import suppress

import gemmi
import numpy as np

from ..atoms.crystal import Crystal, Site
from ..atoms.disorder import resolve_disorder
from .document import Block, check_block
from ..atoms.elements import elements_of_formula
from ..atoms.formula import Expected
from ...provenance import DOUBT, SYMMETRY, Note
from ..atoms.places import images_of, name_apart, take_once
from ...refusal import Refused
from ..atoms.sanity import check_metric, judge, keeps_metric
from .sites import number_of, read_bonds, read_sites, text_of
from .symmetry import Symmetry, both_origins, doubt_of_symmetry, named_symmetry, other_settings, read_symmetry

LONGEST_EDGE = 1000.0  # angstrom, of a unit cell
MOST_ATOMS = 20_000    # of a primitive cell
OTHER_VOLUME = 0.01    # of the volume: by more the one that is stated is another
TURN = 10.0            # degrees: a cell that is turned so much strains the operations that keep its angle
CELL_TAGS = ("length_a", "length_b", "length_c", "angle_alpha", "angle_beta", "angle_gamma")
ABSENT = {"angle_alpha": 90.0, "angle_beta": 90.0, "angle_gamma": 90.0}  # as the dictionary has it


def read_crystal(block: Block) -> Crystal:
    """The crystal of a block. Where its atoms cannot be right, or its group has two origins and
    the file does not tell which, the origin is the one with which they fit. The notes of a block
    that is refused stay in it."""
    check_block(block)
    cell = _read_cell(block.cif)
    formula = elements_of_formula(text_of(block.cif, ("_chemical_formula_sum",)))
    expected = Expected(formula, _formulas_of(block.cif))
    sites = read_sites(block.cif, cell, formula, block.notes)
    bonds_of_file = read_bonds(block.cif)
    symmetry = read_symmetry(block.cif, cell)
    check_metric(symmetry, cell)

    def crystal_with(symmetry: Symmetry) -> Crystal:
        crystal = _expand(block, sites, symmetry, cell)
        crystal.formula = formula
        crystal.listed_bonds = bonds_of_file
        judge(crystal, formula)
        return crystal

    crystal = crystal_with(symmetry)
    if symmetry.source == "operations":
        crystal = _with_named_group(block, cell, crystal, symmetry, expected, crystal_with)
    elif not symmetry.has_origin or crystal.misfit:
        crystal = _with_an_origin(block, cell, crystal, symmetry, crystal_with)
    if crystal.misfit and symmetry.source == "operations":
        crystal = _with_an_origin(block, cell, crystal, symmetry, crystal_with)
    if symmetry.has_origin and not crystal.misfit and expected.doubt_of(_in_cell(crystal, cell)):
        crystal = _with_origin_of_z(block, cell, crystal, expected, crystal_with)
    if crystal.shortage:
        crystal.misfit = ""
        crystal.noted_doubt(crystal.shortage)
    lacking = expected.misfit_of_anions(crystal.listed) or expected.misfit_of_cations(crystal.listed)
    crystal.misfit = crystal.misfit or lacking
    crystal.noted_doubt("" if lacking else expected.doubt_of_elements(crystal.listed))
    crystal.noted_doubt(doubt_of_symmetry(block.cif, cell, symmetry) or _doubt_of_setting(symmetry, cell))
    crystal.noted_doubt(_doubt_of_angles(block.cif, cell, symmetry))
    crystal.noted_doubt(_doubt_of_volume(block.cif, cell))
    counts = _in_cell(crystal, cell)
    return crystal.noted_doubt(expected.doubt_of(counts) or expected.doubt_of_some(counts))


def _with_an_origin(block: Block, cell: gemmi.UnitCell, crystal: Crystal, symmetry: Symmetry,
                    crystal_with: Callable[[Symmetry], Crystal]) -> Crystal:
    """The crystal with the origin of its group with which the atoms fit, where one does."""
    others = {other.source: crystal_with(other) for other in both_origins(block.cif, cell)}
    fitting = {source: other for source, other in others.items() if not other.misfit}
    if not symmetry.has_origin:
        return _with_fewest_atoms(fitting) or crystal
    for source, other in fitting.items():
        return other.noted_doubt(f"the coordinates fit {source}, not the symmetry that is given")
    return crystal


def _with_origin_of_z(block: Block, cell: gemmi.UnitCell, crystal: Crystal, expected: Expected,
                      crystal_with: Callable[[Symmetry], Crystal]) -> Crystal:
    """The crystal with the origin of its group with which it has as many atoms as Z says, where one has: atoms on symmetry
    elements of one origin are on none, or on others, of the other one."""
    for origin in both_origins(block.cif, cell):
        other = crystal_with(origin)
        if not other.misfit and expected.fits(_in_cell(other, cell)):
            return other.noted_doubt(f"Z fits {origin.source}, not the symmetry that is given")
    return crystal


def _with_named_group(block: Block, cell: gemmi.UnitCell, crystal: Crystal, listed: Symmetry, expected: Expected,
                      crystal_with: Callable[[Symmetry], Crystal]) -> Crystal:
    """The crystal by the operations that are listed, or by the group that is named, where the list is too short for it:
    a name is short, and a list is cut. What Z says decides, else the group that is named."""
    named = named_symmetry(block.cif, cell)
    if named is None or (named.order == listed.order and 0 in (named.number, listed.number)):
        return crystal
    told = f"{listed.order} operations are listed, and {named.source.partition(' ')[2]} has {named.order}"
    if named.order == listed.order:
        is_other = named.number != listed.number
        return crystal.noted_doubt("the operations are not those of the group that is named" if is_other else "")
    if named.order < listed.order:
        return crystal if named.order == 1 or expected.fits(_in_cell(crystal, cell)) else crystal.noted_doubt(told)
    origins = [named] if named.has_origin else both_origins(block.cif, cell)
    others = [crystal_with(origin) for origin in origins if keeps_metric(origin, cell)]
    if any(_atoms_by_volume(other) == _atoms_by_volume(crystal) for other in others):
        return crystal  # all atoms are listed
    fitting = [other for other in others if not other.misfit]
    if expected.fits(_in_cell(crystal, cell)) or not fitting:
        return crystal.noted_doubt(told + ": they are taken" + (", as Z fits" if fitting else ""))
    other = min(fitting, key=lambda one: (not expected.fits(_in_cell(one, cell)), len(one.atoms)))
    return other.noted_doubt(told + ": the group is taken")


def _doubt_of_setting(symmetry: Symmetry, cell: gemmi.UnitCell) -> str:
    """What is to be reported where a group is given by its number alone, and the cell fits several of its settings."""
    others = [other for other in other_settings(symmetry) if keeps_metric(other, cell)]
    return f"the setting is in doubt: {symmetry.source} is taken, and {others[0].source} fits too" if others else ""


def _doubt_of_angles(block: gemmi.cif.Block, cell: gemmi.UnitCell, symmetry: Symmetry) -> str:
    """What is to be reported where angles are absent that the symmetry leaves open."""
    lengths, angles = (cell.a, cell.b, cell.c), [cell.alpha, cell.beta, cell.gamma]
    absent = [tag for tag in ABSENT if not text_of(block, (f"_cell_{tag}",))]
    turned = [gemmi.UnitCell(*lengths, *(angle + TURN * (other == tag) for angle, other in zip(angles, ABSENT)))
              for tag in absent]
    is_open = [tag[6:] for tag, other in zip(absent, turned) if keeps_metric(symmetry, other)]
    return f"no value of {' and '.join(is_open)} is given: 90 degrees are taken" if is_open else ""


def _doubt_of_volume(block: gemmi.cif.Block, cell: gemmi.UnitCell) -> str:
    """What is to be reported where the volume that is stated is not that of the cell: one of its lengths or angles is wrong,
    or not in angstrom or degrees."""
    with suppress(Refused):
        stated = number_of(text_of(block, ("_cell_volume",)), "_cell_volume")
        if stated > 0 and abs(stated - cell.volume) > OTHER_VOLUME * cell.volume:
            return f"the cell has a volume of {cell.volume:.1f}, and {stated:.1f} is stated"
    return ""


def _atoms_by_volume(crystal: Crystal) -> float:
    return round(len(crystal.atoms) / abs(float(np.linalg.det(crystal.cell))), 6)


def _in_cell(crystal: Crystal, cell: gemmi.UnitCell) -> dict[str, float]:
    """The atoms of the cell of the file, by their elements."""
    times = round(cell.volume / abs(float(np.linalg.det(crystal.cell))))
    return {element: times * count for element, count in crystal.listed.items()}


def _formulas_of(block: gemmi.cif.Block) -> float:
    text = text_of(block, ("_cell_formula_units_Z",))
    try:
        return max(0.0, number_of(text, "Z", absent=0.0))
    except Refused:
        return 0.0


def _with_fewest_atoms(by_origin: dict[str, Crystal]) -> Crystal | None:
    """Of two origins the one with fewer atoms, since with the right one atoms are on symmetry
    elements. It is reported that there is a choice."""
    if not by_origin:
        return None
    source, crystal = min(by_origin.items(), key=lambda pair: len(pair[1].atoms))
    counts = {len(other.atoms) for other in by_origin.values()}
    if len(by_origin) > 1:
        reason = "as it gives fewer atoms" if len(counts) > 1 else "but both give as many atoms"
        crystal.notes.append(Note(DOUBT, f"the origin is in doubt: {source} is taken, {reason}"))
    return crystal


def _read_cell(block: gemmi.cif.Block) -> gemmi.UnitCell:
    """Raises Refused where the numbers are no cell of a crystal."""
    values = [number_of(text_of(block, (f"_cell_{tag}",)), f"_cell_{tag}", absent=ABSENT.get(tag, np.nan))
              for tag in CELL_TAGS]
    if not np.all(np.isfinite(values)) or min(values) <= 0 or max(values[:3]) > LONGEST_EDGE:
        raise Refused("no unit cell")
    cell = gemmi.UnitCell(*values)
    if not cell.is_crystal() or not cell.volume > 0.1:
        raise Refused("no unit cell")
    return cell


def _expand(block: Block, sites: list[Site], symmetry: Symmetry, cell: gemmi.UnitCell) -> Crystal:
    """The crystal of the sites and all their images, with one of the alternatives of disorder,
    and those in one place taken as one atom."""
    if len(sites) > MOST_ATOMS:
        raise Refused(f"more than {MOST_ATOMS} atoms in a primitive cell")
    to_angstrom = np.array(cell.orthogonalization_matrix.tolist()).T
    crystal = Crystal(block.name, symmetry.lattice @ to_angstrom, [], list(block.notes), operations=symmetry.in_lattice())
    if symmetry.source != "operations":
        crystal.notes.append(Note(SYMMETRY, f"symmetry from {symmetry.source}"))
    for site, images in zip(sites, images_of(sites, symmetry, crystal.cell)):
        crystal.atoms += images
        crystal.listed[site.element] = crystal.listed.get(site.element, 0.0) + len(images) * min(1.0, site.occupancy)
        if len(crystal.atoms) > MOST_ATOMS:
            raise Refused(f"more than {MOST_ATOMS} atoms in a primitive cell")
    resolve_disorder(crystal)
    take_once(crystal)
    name_apart(crystal)
    return crystal
