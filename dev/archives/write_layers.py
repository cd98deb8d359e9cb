#!/usr/bin/python3
"""Writes the nets of the layers of layers.txt as blocks PERIODIC_GRAPH.

    write_layers.py > part.cgd

Each layer stands there with its cell, its atoms and how far bonded atoms are from each other. Its net is written with all atoms as
vertices, and once more as structure files are read: atoms with one neighbour are left out, and those with two become edges, again
and again. The second is left out if nothing changes or nothing is left of the layer."""

from __future__ import annotations

import sys
from collections.abc import Iterator
from dataclasses import dataclass
from itertools import product
from math import sqrt
from pathlib import Path

HERE = Path(__file__).resolve().parent
SITES = {"A": (0.0, 0.0), "B": (1 / 3, 2 / 3), "C": (2 / 3, 1 / 3)}  # of a hexagonal cell
REACH = 2       # cells in which neighbours are looked for
SHORTEST = 0.5  # angstrom
WITHOUT_ENDS = "{} [ends left out, bridges as edges]"
Shift = tuple[int, int]
Edge = tuple[int, int, Shift]


@dataclass(frozen=True)
class Atom:
    """An element, the place in units of the cell, and the height in angstrom."""

    element: str
    x: float
    y: float
    z: float


@dataclass(frozen=True)
class Layer:
    """A layer of layers.txt.

    cell   two rows in angstrom
    bonds  of two elements the least and the greatest distance of bonded atoms"""

    name: str
    cell: tuple[tuple[float, float], tuple[float, float]]
    atoms: tuple[Atom, ...]
    bonds: dict[frozenset[str], tuple[float, float]]

    def distance(self, one: Atom, other: Atom, shift: Shift) -> float:
        (ax, ay), (bx, by) = self.cell
        u, v = other.x + shift[0] - one.x, other.y + shift[1] - one.y
        return sqrt((u * ax + v * bx) ** 2 + (u * ay + v * by) ** 2 + (other.z - one.z) ** 2)

    def edges(self) -> set[Edge]:
        """The bonds, each once."""
        found: set[Edge] = set()
        for (i, one), (k, other) in product(enumerate(self.atoms), repeat=2):
            least, most = self.bonds.get(frozenset((one.element, other.element)), (0.0, 0.0))
            for shift in product(range(-REACH, REACH + 1), repeat=2):
                if (i, (0, 0)) < (k, shift) and max(least, SHORTEST) < self.distance(one, other, shift) < most and i <= k:
                    found.add((i, k, shift))
        return found


def layers(text: str) -> Iterator[Layer]:
    """The layers of a text: four lines each, with an empty one between them."""
    for part in text.split("\n\n"):
        lines = [line.split(" ", 1) for line in part.splitlines() if line and not line.startswith("#")]
        if lines:
            values = dict((word, rest) for word, rest in lines)
            yield Layer(values["layer"], _cell(values["cell"]), tuple(map(_atom, values["atoms"].split("; "))),
                        dict(map(_bond, values["bonds"].split("; "))))


def _cell(text: str) -> tuple[tuple[float, float], tuple[float, float]]:
    """`hexagonal A` or `rectangular A B`."""
    kind, *numbers = text.split()
    if kind == "hexagonal":
        a = float(numbers[0])
        return (a, 0.0), (-a / 2, a * sqrt(3) / 2)
    a, b = map(float, numbers)
    return (a, 0.0), (0.0, b)


def _atom(text: str) -> Atom:
    """`ELEMENT SITE Z` with a letter, or `ELEMENT X Y Z`."""
    element, *place, z = text.split()
    x, y = SITES[place[0]] if len(place) == 1 else map(float, place)
    return Atom(element, x, y, float(z))


def _bond(text: str) -> tuple[frozenset[str], tuple[float, float]]:
    """`ELEMENT-ELEMENT MOST`, or with the least distance before."""
    pair, *numbers = text.split()
    return frozenset(pair.split("-")), (float(numbers[0]) if len(numbers) == 2 else 0.0, float(numbers[-1]))


def without_ends(edges: set[Edge]) -> set[Edge]:
    """The net without atoms that have one neighbour, and with edges for those that have two."""
    near: dict[int, set[tuple[int, Shift]]] = {}
    for u, v, shift in edges:
        near.setdefault(u, set()).add((v, shift))
        near.setdefault(v, set()).add((u, _back(shift)))
    while True:
        u = next((u for u, row in near.items() if len(row) == 1), None)
        if u is None:
            u = next((u for u, row in near.items() if len(row) == 2 and all(v != u for v, _ in row)), None)
        if u is None:
            break
        row = near.pop(u)
        for v, shift in row:
            near[v].discard((u, _back(shift)))
        if len(row) == 2:
            (v, shift), (w, other) = row
            joined = other[0] - shift[0], other[1] - shift[1]
            if v != w or any(joined):
                near[v].add((w, joined))
                near[w].add((v, _back(joined)))
    return {(u, v, shift) for u, row in near.items() for v, shift in row if (u, (0, 0)) < (v, shift) and u <= v}


def _back(shift: Shift) -> Shift:
    return -shift[0], -shift[1]


def block(name: str, edges: set[Edge], atoms: tuple[Atom, ...]) -> str:
    rows = [f'"{atoms[u].element}{u + 1}" "{atoms[v].element}{v + 1}" {s} {t}' for u, v, (s, t) in sorted(edges)]
    return "\n".join(["PERIODIC_GRAPH", f'NAME "{name}"', "EDGES", *rows, "END", ""])


def blocks(text: str) -> Iterator[str]:
    for layer in layers(text):
        edges = layer.edges()
        yield block(layer.name, edges, layer.atoms)
        rest = without_ends(edges)
        if rest and rest != edges:
            yield block(WITHOUT_ENDS.format(layer.name), rest, layer.atoms)


def main() -> int:
    if len(sys.argv) > 1:
        print(__doc__)
        return 0 if sys.argv[1:] in (["-h"], ["--help"]) else 2
    sys.stdout.writelines(blocks((HERE / "layers.txt").read_text()))
    return 0


if __name__ == "__main__":
    sys.exit(main())
