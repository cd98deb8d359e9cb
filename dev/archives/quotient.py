"""Nets as quotient graphs, and their barycentric placements.

Source: O. Delgado-Friedrichs, M. O'Keeffe, Acta Cryst. A59 (2003) 351."""

from __future__ import annotations

from dataclasses import dataclass, field
from operator import add

import numpy as np

Arc = tuple[int, tuple[int, ...]]  # the vertex that it leads to, and the cell of that


@dataclass
class Net:
    """A quotient graph: edges u, v and the cell of v, each in one of its two ways."""

    count: int
    edges: set[tuple] = field(default_factory=set)

    def join(self, u: int, v: int, shift) -> None:
        shift = tuple(int(x) for x in shift)
        back = tuple(-x for x in shift)
        self.edges.add(min((u, v, shift), (v, u, back)) if u != v else (u, v, max(shift, back)))

    @property
    def dimension(self) -> int:
        return len(next(iter(self.edges))[2])

    def arcs(self) -> list[list[Arc]]:
        arcs: list[list[Arc]] = [[] for _ in range(self.count)]
        for u, v, shift in sorted(self.edges):
            arcs[u].append((v, shift))
            arcs[v].append((u, tuple(-x for x in shift)))
        return arcs

    def shells(self, vertex: int, count: int = 8) -> tuple[int, ...]:
        """The first members of the coordination sequence of a vertex."""
        arcs = self.arcs()
        before: set[Arc] = set()
        shell, sizes = {(vertex, (0,) * self.dimension)}, []
        for _ in range(count):
            ends = {(w, tuple(map(add, cell, shift))) for v, cell in shell for w, shift in arcs[v]}
            before, shell = shell, ends - shell - before
            sizes.append(len(shell))
        return tuple(sizes)

    def places(self) -> np.ndarray:
        """The barycentric placement, with vertex 0 at the origin."""
        laplacian = np.zeros((self.count, self.count))
        sums = np.zeros((self.count, self.dimension))
        for u, v, shift in self.edges:
            if u == v:
                continue
            laplacian[[u, v], [u, v]] += 1
            laplacian[u, v] -= 1
            laplacian[v, u] -= 1
            sums[u] += shift
            sums[v] -= shift
        laplacian[0] = 0
        laplacian[0, 0] = 1
        sums[0] = 0
        return np.linalg.solve(laplacian, sums)

    def cell(self) -> np.ndarray:
        """Rows: a cell in which the edges, on the whole, point alike in all directions."""
        places = self.places()
        vectors = np.array([places[v] + shift - places[u] for u, v, shift in self.edges])
        return np.linalg.cholesky(np.linalg.inv(vectors.T @ vectors))


def text_of(name: str, net: Net) -> str:
    rows = [f"{u + 1} {v + 1} {' '.join(map(str, shift))}" for u, v, shift in sorted(net.edges)]
    return "\n".join(["PERIODIC_GRAPH", f'NAME "{name}"', "EDGES", *rows, "END", ""])
