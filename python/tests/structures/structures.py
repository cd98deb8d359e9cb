"""Crystal structures by their published cells and coordinates, and files of them in several
presentations: as published, by the name of the space group alone, and all atoms of another cell
without symmetry."""

from __future__ import annotations

import random
from dataclasses import dataclass

import gemmi
import numpy as np


@dataclass(frozen=True)
class Structure:
    name: str
    group: str           # H-M name, with the origin choice where there are two
    cell: tuple          # a, b, c in angstrom, alpha, beta, gamma in degrees
    sites: tuple         # label, element, x, y, z, and the occupancy where it is not 1
    nets: tuple          # the names of the nets that it has
    words: tuple = ()    # for cif2cgd


def cubic(a: float) -> tuple:
    return a, a, a, 90, 90, 90


def tetragonal(a: float, c: float) -> tuple:
    return a, a, c, 90, 90, 90


def hexagonal(a: float, c: float) -> tuple:
    return a, a, c, 90, 90, 120


STRUCTURES = (
    Structure("diamond", "F d -3 m:2", cubic(3.567), (("C1", "C", 1 / 8, 1 / 8, 1 / 8),), ("dia",)),
    Structure("lonsdaleite", "P 63/m m c", hexagonal(2.52, 4.12), (("C1", "C", 1 / 3, 2 / 3, 0.0625),), ("lon",)),
    Structure("graphite", "P 63/m m c", hexagonal(2.464, 6.711),
              (("C1", "C", 0, 0, 1 / 4), ("C2", "C", 1 / 3, 2 / 3, 1 / 4)), ("hcb",)),
    Structure("quartz", "P 32 2 1", hexagonal(4.9137, 5.4047),
              (("Si1", "Si", 0.4697, 0, 2 / 3), ("O1", "O", 0.4133, 0.2672, 0.7855)), ("qtz",)),
    Structure("cristobalite", "P 41 21 2", tetragonal(4.9717, 6.9222),
              (("Si1", "Si", 0.3003, 0.3003, 0), ("O1", "O", 0.2392, 0.1044, 0.1787)), ("dia",)),
    Structure("rutile", "P 42/m n m", tetragonal(4.5937, 2.9587),
              (("Ti1", "Ti", 0, 0, 0), ("O1", "O", 0.3053, 0.3053, 0)), ("rtl",)),
    Structure("rock salt", "F m -3 m", cubic(5.6402),
              (("Na1", "Na", 0, 0, 0), ("Cl1", "Cl", 1 / 2, 1 / 2, 1 / 2)), ("pcu",)),
    Structure("fluorite", "F m -3 m", cubic(5.463),
              (("Ca1", "Ca", 0, 0, 0), ("F1", "F", 1 / 4, 1 / 4, 1 / 4)), ("flu",)),
    Structure("ice Ih", "P 63/m m c", hexagonal(4.4975, 7.3224),
              (("O1", "O", 1 / 3, 2 / 3, 0.0622), ("H1", "H", 1 / 3, 2 / 3, 0.1974, 0.5),
               ("H2", "H", 0.4551, 0.9102, 0.0176, 0.5)), ("lon",)),
    Structure("ice VI", "P 42/n m c:1", tetragonal(6.27, 5.79),
              (("O1", "O", 0, 0.276, 0.382), ("O2", "O", 0, 0, 0)), ("EDI",)),
    Structure("ice VII", "P n -3 m:2", cubic(3.3501),
              (("O1", "O", 1 / 4, 1 / 4, 1 / 4), ("D1", "D", 0.4157, 0.4157, 0.4157, 0.5)), ("dia",)),
    Structure("cuprite", "P n -3 m:2", cubic(4.2696),
              (("O1", "O", 1 / 4, 1 / 4, 1 / 4), ("Cu1", "Cu", 0, 0, 0)), ("dia",)),
    Structure("SOD", "I m -3 m", cubic(8.965),
              (("T1", "Si", 1 / 4, 1 / 2, 0), ("O1", "O", 0.3522, 0.3522, 0)), ("sod",)),
    Structure("LTA", "P m -3 m", cubic(11.919),
              (("T1", "Si", 0, 0.1823, 0.3684), ("O1", "O", 0, 0.2122, 0.5),
               ("O2", "O", 0.1103, 0.1103, 0.3384), ("O3", "O", 0, 0.2967, 0.2967)), ("LTA",)),
    Structure("FAU", "F d -3 m:2", cubic(24.345),
              (("T1", "Si", 0.9469, 0.1251, 0.0364), ("O1", "O", 0.8958, 0.1042, 0),
               ("O2", "O", 0.9669, 0.0762, 0.0762), ("O3", "O", 0.9966, 0.1429, 0.9966),
               ("O4", "O", 0.9283, 0.1770, 0.0730)), ("FAU",)),
    Structure("MOF-5", "F m -3 m", cubic(25.832),
              (("Zn1", "Zn", 0.2935, 0.2065, 0.2065), ("O1", "O", 1 / 4, 1 / 4, 1 / 4),
               ("O2", "O", 0.2805, 0.1340, 0.2195), ("C1", "C", 1 / 4, 0.1115, 1 / 4),
               ("C2", "C", 1 / 4, 0.0540, 1 / 4), ("C3", "C", 0.2825, 0.0269, 0.2175),
               ("H1", "H", 0.3047, 0.0447, 0.1953)), ("pcu",), ("--clusters",)),
    # the coordinates of the next two are those of ideal rings and carboxylates in the published cells
    Structure("HKUST-1", "F m -3 m", cubic(26.343),
              (("Cu1", "Cu", 0.2853, 0.2147, 0), ("O1", "O", 0.2410, 0.1820, 0.0488),
               ("C1", "C", 0.2019, 0.2019, 0.0680), ("C2", "C", 0.1788, 0.1788, 0.1142),
               ("C3", "C", 0.1358, 0.1358, 0.2004), ("H1", "H", 0.1190, 0.1190, 0.2339)), ("tbo",), ("--clusters",)),
    Structure("UiO-66", "F m -3 m", cubic(20.7004),
              (("Zr1", "Zr", 0, 0, 0.1186), ("O1", "O", 0.0600, 0.0600, 0.0600), ("O2", "O", 0, 0.0940, 0.1734),
               ("C1", "C", 0, 0.1510, 0.1510), ("C2", "C", 0, 0.2031, 0.2031), ("C3", "C", 0, 0.2674, 0.1851),
               ("H1", "H", 0, 0.2810, 0.1390)), ("fcu",), ("--clusters",)),
)


def presentations(structure: Structure) -> dict[str, str]:
    """The CIF texts of a structure, by what sort of presentation they are."""
    group = gemmi.find_spacegroup_by_name(structure.group)
    operations = [op.triplet() for op in group.operations()]
    return {"published": cif_text(structure.cell, structure.sites, operations=operations),
            "name": cif_text(structure.cell, structure.sites, name=group.xhm()),
            "plain": _without_symmetry(structure, group.operations())}


def _without_symmetry(structure: Structure, group: gemmi.GroupOps) -> str:
    """All atoms, in a skew basis with other axes and another origin; of small cells, two of them."""
    chance = random.Random(structure.name)
    cell = gemmi.UnitCell(*structure.cell)
    edges = np.array(cell.orthogonalization_matrix.tolist()).T
    atoms = [(site, place) for site in structure.sites for place in images_of(site, group, edges)]
    times = 2 if len(atoms) < 300 else 1
    basis = np.array([[0, 1, 0], [1, 1, 0], [0, chance.choice((-1, 0, 1)), times]])
    moved = np.array([chance.random() for _ in range(3)])
    sites = []
    for k, (site, place) in enumerate(atoms):
        for n in range(times):
            fraction = (place + moved + np.array([0, 0, n])) @ np.linalg.inv(basis)
            sites.append((f"{site[1]}{k}x{n}", site[1], *(fraction - np.floor(fraction)), *site[5:]))
    chance.shuffle(sites)
    return cif_text(lengths_and_angles(basis @ edges), sites, operations=["x,y,z"])


def images_of(site: tuple, group: gemmi.GroupOps, edges: np.ndarray) -> list[np.ndarray]:
    """The images of a site in the cell, each once."""
    kept: list[np.ndarray] = []
    for op in group:
        place = np.array(op.apply_to_xyz(list(site[2:5])))
        steps = [(place - other) - np.round(place - other) for other in kept]
        if all(np.linalg.norm(step @ edges) > 0.1 for step in steps):
            kept.append(place)
    return kept


def lengths_and_angles(edges: np.ndarray) -> list[float]:
    lengths = np.linalg.norm(edges, axis=1)
    cosines = [edges[i] @ edges[j] / lengths[i] / lengths[j] for i, j in ((1, 2), (0, 2), (0, 1))]
    return [*lengths, *np.degrees(np.arccos(cosines))]


def cif_text(cell, sites, operations=(), name="") -> str:
    """A CIF file of one block."""
    tags = ("length_a", "length_b", "length_c", "angle_alpha", "angle_beta", "angle_gamma")
    lines = ["data_global"] + [f"_cell_{tag} {value:.5f}" for tag, value in zip(tags, cell)]
    lines += [f"_symmetry_space_group_name_H-M '{name}'"] if name else []
    if operations:
        lines += ["loop_", "_symmetry_equiv_pos_as_xyz"] + [f"'{op}'" for op in operations]
    lines += ["loop_", "_atom_site_label", "_atom_site_type_symbol", "_atom_site_fract_x", "_atom_site_fract_y",
              "_atom_site_fract_z", "_atom_site_occupancy"]
    for label, element, x, y, z, *occupancy in sites:
        lines.append(f"{label} {element} {x:.6f} {y:.6f} {z:.6f} {(occupancy or [1])[0]}")
    return "\n".join(lines) + "\n"
