"""Nets in odd cells, for tests: the same nets, but in cells several times too large, skew bases,
with vertices far from the origin, other numbers and rows in any order."""

from __future__ import annotations

import random
from functools import cache
from itertools import product
from pathlib import Path

Edge = tuple[int, int, tuple[int, ...]]


def edges_of_archive(archive: Path) -> dict[str, list[Edge]]:
    """The nets of an archive by their names."""
    nets: dict[str, list[Edge]] = {}
    for line in archive.read_text(encoding="utf-8").splitlines():
        if line.startswith("entry "):
            edges = nets.setdefault(line[7:-1], [])
        elif line.startswith("edge "):
            u, v, *shift = map(int, line.split()[1:])
            edges.append((u - 1, v - 1, tuple(shift)))
    return nets


def block(name: str, edges: list[Edge]) -> str:
    rows = [f"{u + 1} {v + 1} {' '.join(map(str, shift))}" for u, v, shift in edges]
    return "\n".join(["PERIODIC_GRAPH", f'NAME "{name}"', "EDGES", *rows, "END", ""])


def in_odd_cell(edges: list[Edge], chance: random.Random, most: int = 4) -> list[Edge]:
    """The net with these edges, in a cell up to so many times as large."""
    dimension = len(edges[0][2])
    edges = in_larger_cell(edges, chance.choice(small_lattices(dimension, most)))
    basis = unimodular(dimension, chance)
    count = 1 + max(max(u, v) for u, v, _ in edges)
    moved = [[chance.randint(-3, 3) for _ in range(dimension)] for _ in range(count)]
    number = list(range(count))
    chance.shuffle(number)
    odd = []
    for u, v, shift in edges:
        shift = tuple(s + b - a for s, a, b in zip(shift, moved[u], moved[v]))
        shift = tuple(sum(s * row[k] for s, row in zip(shift, basis)) for k in range(dimension))
        odd.append((number[u], number[v], shift) if chance.random() < 0.5
                   else (number[v], number[u], tuple(-s for s in shift)))
    chance.shuffle(odd)
    return odd


@cache
def small_lattices(dimension: int, most: int) -> list[list[list[int]]]:
    """Staircase bases of lattices whose cells are up to so many times as large."""
    lattices = []
    for diagonal in product(range(1, most + 1), repeat=dimension):
        size = 1
        for number in diagonal:
            size *= number
        if size <= most:
            above = [(i, j) for i in range(dimension) for j in range(i + 1, dimension)]
            for parts in product(*(range(diagonal[j]) for _, j in above)):
                rows = [[diagonal[i] if i == j else 0 for j in range(dimension)] for i in range(dimension)]
                for (i, j), part in zip(above, parts):
                    rows[i][j] = part
                lattices.append(rows)
    return lattices


def in_larger_cell(edges: list[Edge], lattice: list[list[int]]) -> list[Edge]:
    """The same net over the lattice of the rows: each vertex once for each cell in the larger one."""
    def split(vector):
        """The cell in the larger one, and which of the larger cells: vector = cell + whole."""
        rest, whole = list(vector), []
        for i, row in enumerate(lattice):
            times = rest[i] // row[i]
            rest = [x - times * y for x, y in zip(rest, row)]
            whole.append(times)
        return tuple(rest), tuple(whole)

    cells = list(product(*(range(row[k]) for k, row in enumerate(lattice))))
    number = {cell: k for k, cell in enumerate(cells)}
    larger = []
    for u, v, shift in edges:
        for cell in cells:
            end, whole = split([c + s for c, s in zip(cell, shift)])
            larger.append((u * len(cells) + number[cell], v * len(cells) + number[end], whole))
    return larger


def unimodular(dimension: int, chance: random.Random) -> list[list[int]]:
    """A basis of all whole vectors, a little skew."""
    rows = [[int(i == j) for j in range(dimension)] for i in range(dimension)]
    for _ in range(4):
        (i, j), sign = chance.sample(range(dimension), 2), chance.choice((-1, 1))
        rows[i] = [x + sign * y for x, y in zip(rows[i], rows[j])]
    return rows


def text_of_odd_nets(archives: list[Path], count: int, seed: int, most_vertices: int = 24) -> tuple[str, list[str]]:
    """A file of so many blocks in odd cells, each named `NUMBER`, and of each block the net it is."""
    chance = random.Random(seed)
    nets = {name: edges for archive in archives for name, edges in edges_of_archive(archive).items()
            if max(max(u, v) for u, v, _ in edges) < most_vertices}
    names = sorted(nets)
    truth = [chance.choice(names) for _ in range(count)]
    blocks = [block(str(k + 1), in_odd_cell(nets[name], chance)) for k, name in enumerate(truth)]
    return "".join(blocks), truth
