"""Building units with their usual bond lengths, in angstrom: metal clusters with their carboxylates,
rings, porphyrins, linkers."""

from __future__ import annotations

from itertools import product

import numpy as np
from assembly import BOND, Unit

RING = 1.39
Atoms = list[tuple[str, tuple]]


def unit(atoms: Atoms, ends: list[int], bond: float = BOND) -> Unit:
    return Unit([element for element, _ in atoms], np.array([place for _, place in atoms], dtype=float), ends, bond)


def atom(element: str, count: int, bond: float = BOND) -> Unit:
    """One atom that is joined to so many others, at a bond length."""
    return unit([(element, (0, 0, 0))], [0] * count, bond)


def imidazolate() -> Unit:
    """Its two nitrogens on a line."""
    return unit([("N", (0, 0, 0)), ("N", (2.19, 0, 0)), ("C", (1.095, 0.72, 0)), ("C", (0.42, -1.28, 0)),
                 ("C", (1.77, -1.28, 0)), ("H", (1.095, 1.8, 0)), ("H", (-0.3, -2.05, 0)), ("H", (2.5, -2.05, 0))], [0, 1])


def pyrazine() -> Unit:
    atoms = ring_atoms((RING, 0, 0), (1, 0, 0), (0, 1, 0), "NCCCCN")
    return unit(atoms, [0, 5])


def cyanide() -> Unit:
    return unit([("C", (0, 0, 0)), ("N", (1.15, 0, 0))], [0, 1])


def formate() -> Unit:
    """Its two oxygens on a line."""
    return unit([("O", (0, 0, 0)), ("O", (2.24, 0, 0)), ("C", (1.12, 0.55, 0)), ("H", (1.12, 1.65, 0))], [0, 1])


def oxalate() -> Unit:
    """Its ends are the carbons, each between two oxygens that bind one metal."""
    atoms: Atoms = [("C", (0, 0, 0)), ("C", (1.56, 0, 0))]
    atoms += [("O", (x, s * 1.12, 0)) for x in (-0.52, 2.08) for s in (1, -1)]
    return unit(atoms, [0, 1])


def squarate() -> Unit:
    """C4O4, its four ends the oxygens."""
    turns = [np.pi * k / 2 for k in range(4)]
    atoms: Atoms = [("C", (1.04 * np.cos(t), 1.04 * np.sin(t), 0)) for t in turns]
    atoms += [("O", (2.29 * np.cos(t), 2.29 * np.sin(t), 0)) for t in turns]
    return unit(atoms, [4, 5, 6, 7])


def carboxylates(atoms: Atoms, directions: list, along_oxygen: float, along_carbon: float, sideways: list) -> list[int]:
    """Adds carboxylates: their oxygens on both sides of a direction, their carbon on it."""
    ends = []
    for direction, side in zip(directions, sideways):
        direction, side = np.array(direction, dtype=float), np.array(side, dtype=float)
        direction /= np.linalg.norm(direction)
        side *= 1.12 / np.linalg.norm(side)
        atoms += [("O", tuple(along_oxygen * direction + side)), ("O", tuple(along_oxygen * direction - side))]
        ends.append(len(atoms))
        atoms.append(("C", tuple(along_carbon * direction)))
    return ends


def paddlewheel(metal: str = "Cu", cap: str = "") -> Unit:
    """Two metals along z, four carboxylates; a cap is an atom on each metal, as of water."""
    atoms: Atoms = [(metal, (0, 0, 1.32)), (metal, (0, 0, -1.32))]
    atoms += [(cap, (0, 0, 3.5)), (cap, (0, 0, -3.5))] if cap else []
    ends = carboxylates(atoms, [(1, 0, 0), (0, 1, 0), (-1, 0, 0), (0, -1, 0)], 1.96, 2.53, [(0, 0, 1)] * 4)
    return unit(atoms, ends)


def zinc_oxide() -> Unit:
    """Zn4O with six carboxylates, as in MOF-5."""
    r = 1.94 / 3 ** 0.5
    atoms: Atoms = [("O", (0, 0, 0))] + [("Zn", (r * x, r * y, r * x * y)) for x, y in product((1, -1), repeat=2)]
    axes = [(1, 0, 0), (-1, 0, 0), (0, 1, 0), (0, -1, 0), (0, 0, 1), (0, 0, -1)]
    sides = [(0, 1, 1), (0, 1, -1), (1, 0, 1), (1, 0, -1), (1, 1, 0), (1, -1, 0)]
    return unit(atoms, carboxylates(atoms, axes, 3.0, 3.56, sides))


TWELVE = [tuple(np.roll((0, x, y), k)) for k in range(3) for x, y in product((1, -1), repeat=2)]
EIGHT = [d for d in TWELVE if d[2] != 0]                   # all but those of one belt
HEXAGON = [d for d in TWELVE if sum(d) == 0]               # those of a plane
ANTIPRISM = [d for d in TWELVE if abs(sum(d)) == 2]        # three above and three below


def zirconium_oxide(directions: list = TWELVE) -> Unit:
    """Zr6O8 with carboxylates in some of its twelve directions, and oxygen of water in the others."""
    atoms: Atoms = [("Zr", tuple(2.46 * s * np.eye(3)[k])) for k in range(3) for s in (1, -1)]
    atoms += [("O", tuple(1.24 * np.array(corner))) for corner in product((1, -1), repeat=3)]
    ends = []
    for direction in TWELVE:
        x, y = (k for k in range(3) if direction[k])
        for first, second in ((1.95, 3.59), (3.59, 1.95)):
            place = np.zeros(3)
            place[x], place[y] = first * direction[x], second * direction[y]
            atoms.append(("O", tuple(place)))
        if direction in directions:
            ends.append(len(atoms))
            atoms.append(("C", tuple(3.13 * np.array(direction))))
    return unit(atoms, ends)


def trimer(metal: str = "Cr") -> Unit:
    """M3O with six carboxylates at the corners of a trigonal prism, and water."""
    atoms: Atoms = [("O", (0, 0, 0))]
    for k in range(3):
        out = np.array([np.cos(2 * np.pi * k / 3), np.sin(2 * np.pi * k / 3), 0])
        atoms += [(metal, tuple(1.95 * out)), ("O", tuple(4.0 * out))]
    ends = []
    for k, up in product(range(3), (1, -1)):
        turn = 2 * np.pi * (k + 0.5) / 3
        out, side = np.array([np.cos(turn), np.sin(turn), 0]), np.array([-np.sin(turn), np.cos(turn), 0])
        for sign in (1, -1):
            atoms.append(("O", tuple(2.075 * out + 1.12 * sign * side + (0, 0, 1.6 * up))))
        ends.append(len(atoms))
        atoms.append(("C", tuple(2.39 * out + (0, 0, 2.06 * up))))
    return unit(atoms, ends)


def ring_atoms(middle, axis, side, elements: str = "CCCCCC", hydrogens: str = "ortho meta") -> Atoms:
    """A ring of six with two opposite atoms on an axis; the first is at its start, the last at its end.
    Hydrogens are on the four others."""
    middle, axis, side = (np.array(v, dtype=float) for v in (middle, axis, side))
    places = [-RING * axis] + [RING * (s * axis / 2 + t * 3 ** 0.5 / 2 * side) for s, t in ((-1, 1), (-1, -1), (1, 1), (1, -1))]
    places.append(RING * axis)
    atoms = [(element, tuple(middle + place)) for element, place in zip(elements, places)]
    if hydrogens:
        atoms += [("H", tuple(middle + place * (1 + 1.08 / RING))) for place in places[1:5]]
    return atoms


def phenylenes(count: int = 1) -> Unit:
    """Rings in a row: 1,4-phenylene, biphenylene and so on."""
    atoms: Atoms = []
    at = 0.0
    for k in range(count):
        atoms += ring_atoms((at + RING, 0, 0), (1, 0, 0), (0, 1, 0) if k % 2 else (0, 0.8, 0.6))
        last = len(atoms) - 5
        at += 2 * RING + BOND
    return unit(atoms, [0, last])


def ethyne() -> Unit:
    return unit([("C", (0, 0, 0)), ("C", (1.2, 0, 0))], [0, 1])


def imine() -> Unit:
    """N=CH-C6H4-CH=N."""
    atoms: Atoms = [("N", (0, 0, 0)), ("C", (1.28, 0, 0))]
    atoms += ring_atoms((1.28 + 1.46 + RING, 0, 0), (1, 0, 0), (0, 1, 0))
    at = 1.28 + 2 * 1.46 + 2 * RING
    atoms += [("C", (at, 0, 0)), ("N", (at + 1.28, 0, 0))]
    return unit(atoms, [0, len(atoms) - 1])


def three_arms(middle: str = "CCCCCC", arms: int = 0) -> Unit:
    """A ring with three arms of rings; the elements of the ring stand in turn, those with arms first."""
    atoms: Atoms = []
    ends = []
    for k in range(6):
        turn = np.pi * k / 3
        atoms.append((middle[k], (RING * np.cos(turn), RING * np.sin(turn), 0)))
        if k % 2 and middle[k] == "C":
            atoms.append(("H", (2.47 * np.cos(turn), 2.47 * np.sin(turn), 0)))
    for k in range(3):
        turn = 2 * np.pi * k / 3
        out, side = np.array([np.cos(turn), np.sin(turn), 0]), np.array([-np.sin(turn), np.cos(turn), 0])
        last = next(n for n, (_, place) in enumerate(atoms) if np.allclose(place, RING * out))
        for arm in range(arms):
            last = len(atoms) + 5
            atoms += ring_atoms((RING + BOND + RING + arm * (2 * RING + BOND)) * out, out, 0.8 * side + 0.6 * np.eye(3)[2])
        ends.append(last)
    return unit(atoms, ends)


def boroxine() -> Unit:
    return three_arms("BOBOBO")


def hexaoxytriphenylene() -> Unit:
    """Triphenylene with three boronate esters; the ends are the borons."""
    atoms: Atoms = []
    ends = []
    for k in range(3):
        turn = 2 * np.pi * k / 3
        out, side = np.array([np.cos(turn), np.sin(turn), 0]), np.array([-np.sin(turn), np.cos(turn), 0])
        for x, y, element in ((1.23, 0.71, "C"), (2.44, 1.40, "C"), (3.65, 0.70, "C"), (4.95, 1.13, "O"), (2.44, 2.48, "H")):
            atoms += [(element, tuple(x * out + s * y * side)) for s in (1, -1)]
        ends.append(len(atoms))
        atoms.append(("B", tuple(5.72 * out)))
    return unit(atoms, ends)


TETRAHEDRON = np.array([(1, 1, 1), (1, -1, -1), (-1, 1, -1), (-1, -1, 1)]) / 3 ** 0.5


def tetraphenylmethane(rings: int = 1) -> Unit:
    atoms: Atoms = [("C", (0, 0, 0))]
    ends = []
    for out in TETRAHEDRON:
        side = np.cross(out, (0.3, 0.5, 0.8))
        side /= np.linalg.norm(side)
        last = 0
        for k in range(rings):
            last = len(atoms) + 5
            atoms += ring_atoms((1.53 + RING + k * (2 * RING + BOND)) * out, out, side)
        ends.append(last)
    return unit(atoms, ends)


def adamantane() -> Unit:
    """With its ends at the four tertiary carbons."""
    atoms: Atoms = [("C", tuple(1.54 * out)) for out in TETRAHEDRON]
    atoms += [("C", tuple(1.78 * s * np.eye(3)[k])) for k in range(3) for s in (1, -1)]
    return unit(atoms, [0, 1, 2, 3])


def porphyrin(metal: str = "Zn", arms: int = 1) -> Unit:
    """A porphyrin with four phenyl rings; with arms 0 the ends are its meso carbons."""
    atoms: Atoms = [(metal, (0, 0, 0))] if metal else []
    ends = []
    for k in range(4):
        turn = np.pi * (k + 0.5) / 2
        p, q = np.array([np.cos(turn), np.sin(turn), 0]), np.array([-np.sin(turn), np.cos(turn), 0])
        atoms.append(("N", tuple(2.05 * p)))
        for x, y, element in ((2.86, 1.10, "C"), (4.22, 0.68, "C"), (5.0, 1.4, "H")):
            atoms += [(element, tuple(x * p + s * y * q)) for s in (1, -1)]
    for k in range(4):
        out = np.array([np.cos(np.pi * k / 2), np.sin(np.pi * k / 2), 0])
        last = len(atoms)
        atoms.append(("C", tuple(3.43 * out)))
        if arms:
            last = len(atoms) + 5
            atoms += ring_atoms((3.43 + BOND + RING) * out, out, (0, 0, 1))
        ends.append(last)
    return unit(atoms, ends)


def pyrene(arms: int = 1) -> Unit:
    """Pyrene with phenyl rings in the places 1, 3, 6 and 8."""
    core = [(0.0, 0.7), (0.0, -0.7), (1.23, 1.42), (1.23, -1.42), (-1.23, 1.42), (-1.23, -1.42), (2.44, 0.68), (2.44, -0.68),
            (-2.44, 0.68), (-2.44, -0.68), (1.22, 2.83), (-1.22, 2.83), (1.22, -2.83), (-1.22, -2.83), (0, 3.52), (0, -3.52)]
    atoms: Atoms = [("C", (x, y, 0)) for x, y in core]
    atoms += [("H", (s * 3.37, t * 1.2, 0)) for s in (1, -1) for t in (1, -1)] + [("H", (0, t * 4.6, 0)) for t in (1, -1)]
    ends = []
    for k in (10, 11, 12, 13):
        x, y = core[k]
        out = np.array([np.sign(x) * 3 ** 0.5 / 2, np.sign(y) / 2, 0])
        last = len(atoms) + 5
        atoms += ring_atoms(np.array([x, y, 0]) + (BOND + RING) * out, out, (0, 0, 1))
        ends.append(last)
    return unit(atoms, ends)
