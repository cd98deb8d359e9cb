"""Frameworks from ideal geometry: building units at the vertices of a net, linkers along its edges.

The vertices of a net of the archive are placed at the means of their neighbours. Each gets a unit,
turned so that its ends point along the edges; then the cell and all atoms are relaxed until the
bonds have their usual lengths. Lengths are in angstrom."""

from __future__ import annotations

from dataclasses import dataclass, field
from itertools import permutations

import numpy as np
from odd_cells import Edge
from scipy.optimize import linear_sum_assignment, minimize
from scipy.spatial import cKDTree


from crystal_nets.structures.bonds.contacts import contacts  # noqa: E402

BOND = 1.49    # between two rings, or a ring and a carboxylate
NEAR = 2.7     # pairs of a unit that are nearer keep their distance
LEAST = 2.2    # other pairs are not nearer
LEAST_OF_HYDROGEN = 1.7
Places = tuple[np.ndarray, np.ndarray]  # of vertices, in fractions of a cell, and its edges as rows, of any length


@dataclass
class Unit:
    """Atoms around a centre, and the atoms by which it is joined to others."""

    elements: list[str]
    places: np.ndarray
    ends: list[int]
    bond: float = BOND  # to what is joined to it

    def turned(self, turn: np.ndarray) -> np.ndarray:
        return self.places @ turn.T


@dataclass
class Assembly:
    """Atoms of a cell, with the pairs whose distances are wanted."""

    lattice: np.ndarray
    elements: list[str] = field(default_factory=list)
    places: list[np.ndarray] = field(default_factory=list)
    pairs: list[tuple[int, int, tuple[int, ...], float]] = field(default_factory=list)

    def add(self, unit: Unit, places: np.ndarray) -> list[int]:
        first = len(self.elements)
        self.elements += unit.elements
        self.places += list(places)
        for i, j in cKDTree(unit.places).query_pairs(NEAR):
            self.pairs.append((first + i, first + j, (0, 0, 0), float(np.linalg.norm(unit.places[i] - unit.places[j]))))
        return [first + end for end in unit.ends]

    def join(self, u: int, v: int, shift: tuple[int, ...], length: float = BOND) -> None:
        self.pairs.append((u, v, shift, length))

    def with_most_room(self, part: Unit, start: np.ndarray, step: np.ndarray) -> np.ndarray:
        """The places of a linker between two ends, turned about its axis to be far from all others."""
        one, other = (part.places[end] for end in part.ends)
        best = (-1.0, part.places)
        for angle in np.arange(0, 2 * np.pi, np.pi / 6):
            about = np.array([[1, 0, 0], [0, np.cos(angle), -np.sin(angle)], [0, np.sin(angle), np.cos(angle)]])
            turn = frame(step) @ about @ frame(other - one).T
            places = (part.places - (one + other) / 2) @ turn.T + start + step / 2
            steps = (places[:, None] - np.array(self.places)[None]) @ np.linalg.inv(self.lattice)
            room = float(np.sort(np.linalg.norm((steps - np.round(steps)) @ self.lattice, axis=2).min(axis=1))[2:].sum())
            if room > best[0] + 1e-6:
                best = (room, places)
        return best[1]

    def relax(self, is_crowded: bool) -> None:
        """Moves the atoms, and strains the cell, until the wanted distances are there, and in crowded
        frameworks atoms that are not joined are not near."""
        kept: dict[tuple, float] = {}
        self._relax(kept)
        for _ in range(4 if is_crowded else 0):
            near = self._too_near()
            if not near:
                break
            kept.update(near)
            self._relax(kept)

    def _too_near(self) -> dict[tuple, float]:
        """Pairs of atoms that are not of one unit, nor joined, and how far they should be."""
        joined = {(a, b, s) for a, b, s, _ in self.pairs} | {(b, a, tuple(-x for x in s)) for a, b, s, _ in self.pairs}
        fractions = np.array(self.places) @ np.linalg.inv(self.lattice)
        cells = np.floor(fractions).astype(int)
        found = {}
        for c in contacts(self.lattice, (fractions - cells) @ self.lattice, LEAST):
            shift = tuple(int(x) for x in np.array(c.shift) - cells[c.second] + cells[c.first])
            room = LEAST_OF_HYDROGEN if "H" in (self.elements[c.first], self.elements[c.second]) else LEAST
            if c.length < room and (c.first, c.second, shift) not in joined:
                found[c.first, c.second, shift] = room + 0.3
        return found

    def _relax(self, kept: dict[tuple, float]) -> None:
        count = len(self.elements)
        pairs = [*self.pairs, *((a, b, s, room) for (a, b, s), room in kept.items())]
        first, second = (np.array([pair[k] for pair in pairs]) for k in (0, 1))
        shifts = np.array([pair[2] for pair in pairs], dtype=float)
        lengths = np.array([pair[3] for pair in pairs])
        is_push = np.arange(len(pairs)) >= len(self.pairs)
        start = np.array(self.places) @ np.linalg.inv(self.lattice)

        def energy(values: np.ndarray) -> tuple[float, np.ndarray]:
            lattice = values[:9].reshape(3, 3)
            fractions = values[9:].reshape(count, 3)
            steps = fractions[second] + shifts - fractions[first]
            vectors = steps @ lattice
            found = np.linalg.norm(vectors, axis=1)
            excess = np.where(is_push & (found > lengths), 0.0, found - lengths)
            pull = (2 * excess / found)[:, None] * vectors
            slope = np.zeros((count, 3))
            np.add.at(slope, second, pull @ lattice.T)
            np.add.at(slope, first, -pull @ lattice.T)
            return float(excess @ excess), np.concatenate(((steps.T @ pull).ravel(), slope.ravel()))

        done = minimize(energy, np.concatenate((self.lattice.ravel(), start.ravel())), jac=True, method="L-BFGS-B",
                        options={"maxiter": 400, "maxfun": 500})
        self.lattice = done.x[:9].reshape(3, 3)
        self.places = list(done.x[9:].reshape(count, 3) @ self.lattice)


def assemble(edges: list[Edge], units: list[Unit], link: list[Unit | None], is_crowded: bool = False,
             start: Places | None = None) -> Assembly:
    """The framework of a net: a unit for each vertex, and for each edge a linker with two ends, or none
    where the units are joined to each other. Where no places to start from are given, they are the
    means of their neighbours."""
    edges = [(u, v, tuple(s) + (0,) * (3 - len(s))) for u, v, s in edges]
    places, lattice = start or placed(edges, len(units))
    arcs = arcs_of(edges, len(units))
    sizes = [np.mean([np.linalg.norm(unit.places[end]) for end in unit.ends]) for unit in units]
    wanted = [sizes[u] + sizes[v] + (bond(units[u], units[v]) if part is None else
                                     bond(units[u], part) + length_of(part) + bond(part, units[v]))
              for (u, v, _), part in zip(edges, link)]
    found = [np.linalg.norm((places[v] + s - places[u]) @ lattice) for u, v, s in edges]
    lattice = lattice * float(np.mean(wanted) / np.mean(found))
    assembly = Assembly(lattice)
    ends: dict[tuple, int] = {}
    for v, unit in enumerate(units):
        steps = np.array([(places[w] + s - places[v]) @ lattice for w, s, _ in arcs[v]])
        turn, order = fitted(unit, steps)
        atoms = assembly.add(unit, unit.turned(turn) + places[v] @ lattice)
        ends.update({(v, arcs[v][k][2]): atoms[end] for k, end in enumerate(order)})
    for number, ((u, v, shift), part) in enumerate(zip(edges, link)):
        one, other = ends[u, (number, 0)], ends[v, (number, 1)]
        if part is None:
            assembly.join(one, other, shift, bond(units[u], units[v]))
            continue
        step = assembly.places[other] + np.array(shift) @ lattice - assembly.places[one]
        near, far = assembly.add(part, assembly.with_most_room(part, assembly.places[one], step))
        assembly.join(one, near, (0, 0, 0), bond(units[u], part))
        assembly.join(far, other, shift, bond(part, units[v]))
    assembly.relax(is_crowded)
    return assembly


def bond(one: Unit, other: Unit) -> float:
    """The length of the bond between two units: the one that is not usual."""
    return one.bond if one.bond != BOND else other.bond


def length_of(part: Unit) -> float:
    return float(np.linalg.norm(part.places[part.ends[1]] - part.places[part.ends[0]]))


def arcs_of(edges: list[Edge], count: int) -> list[list[tuple]]:
    """Of each vertex its neighbours, with their cells, and which edge it is, from which end."""
    arcs: list[list[tuple]] = [[] for _ in range(count)]
    for number, (u, v, s) in enumerate(edges):
        arcs[u].append((v, np.array(s), (number, 0)))
        arcs[v].append((u, -np.array(s), (number, 1)))
    return arcs


def placed(edges: list[Edge], count: int) -> tuple[np.ndarray, np.ndarray]:
    """The barycentric placement, and a lattice in which the edges point alike in all directions."""
    laplacian, sums = np.zeros((count, count)), np.zeros((count, 3))
    for u, v, s in edges:
        laplacian[[u, v], [u, v]] += 1
        laplacian[u, v] -= 1
        laplacian[v, u] -= 1
        sums[u] += s
        sums[v] -= s
    places = np.linalg.lstsq(laplacian, sums, rcond=None)[0]
    vectors = np.array([places[v] + s - places[u] for u, v, s in edges])
    spread = vectors.T @ vectors
    is_flat = spread[2, 2] < 1e-9
    if is_flat:
        spread[2, 2] = 1.0
    lattice = np.linalg.cholesky(np.linalg.inv(spread))
    if is_flat:
        lattice[2] *= np.linalg.norm(lattice[0])
    return places, lattice


def frame(axis: np.ndarray) -> np.ndarray:
    """Columns: a direction, and two perpendicular to it."""
    one = axis / np.linalg.norm(axis)
    other = np.eye(3)[np.argmin(np.abs(one))]
    two = np.cross(one, other)
    two /= np.linalg.norm(two)
    return np.column_stack((one, two, np.cross(one, two)))


def fitted(unit: Unit, steps: np.ndarray) -> tuple[np.ndarray, list[int]]:
    """The turn that brings the ends of a unit closest to the directions of the steps, and for each
    step the number of its end."""
    if len(unit.elements) == 1:  # an atom points in all directions
        return np.eye(3), [0] * len(steps)
    ends = unit.places[unit.ends]
    ends = ends / np.linalg.norm(ends, axis=1)[:, None]
    steps = steps / np.linalg.norm(steps, axis=1)[:, None]
    best = (np.inf, np.eye(3), list(range(len(ends))))
    second = min(range(1, len(steps)), key=lambda k: abs(steps[0] @ steps[k])) if len(steps) > 1 else 0
    for i, j in permutations(range(len(ends)), 2):
        if abs(abs(ends[i] @ ends[j]) - abs(steps[0] @ steps[second])) > 0.6:
            continue
        for sign in (1, -1):  # of the normal, where all ends are in one plane
            turn = kabsch(np.array([ends[i], ends[j], sign * np.cross(ends[i], ends[j])]),
                          np.array([steps[0], steps[second], np.cross(steps[0], steps[second])]))
            for _ in range(2):
                rows, columns = linear_sum_assignment(-(steps @ (ends @ turn.T).T))
                turn = kabsch(ends[columns], steps[rows])
            rest = float(np.sum((ends[columns] @ turn.T - steps) ** 2))
            if rest < best[0] - 1e-9:
                best = (rest, turn, columns.tolist())
    return best[1], best[2]


def kabsch(source: np.ndarray, target: np.ndarray) -> np.ndarray:
    """The rotation that brings vectors closest to others."""
    u, _, v = np.linalg.svd(target.T @ source)
    return u @ np.diag([1, 1, np.sign(np.linalg.det(u @ v))]) @ v
