"""The structure beside its net: the atoms of some cells with the net laid over them, as viewer.js paints it."""

from __future__ import annotations

from collections import defaultdict
from collections.abc import Iterable
from dataclasses import dataclass, field
from itertools import combinations, product
from pathlib import PurePath
from typing import Any

import numpy as np

from ..errors import CrystalNetsError
from ..graph import Edge
from ..lattice import Vector, add
from ..net import Net
from ..options import checked_options
from ..pictures.text import printable
from ..reading import nets_of_cif, unpacked
from ..refusal import Refused
from ..structures.bonds.contacts import radius
from ..structures.nets.laid_out import LaidOut, laid_out
from ..structures.reading.formats import structures_of
from .colours import colour_of

FEW_ATOMS, MANY_ATOMS, MOST_ATOMS = 120, 1_000, 4_000  # cells are added up to the first; past the second they stay primitive
EDGE = 0.02          # beyond the borders of the cells that are shown, in fractions
STUB = 0.3           # how much is shown of an edge that leaves
BALL = 0.3           # radius of an atom, in covalent radii
NET_BALL = 0.07      # radius of a vertex, in lengths of edges
LEAST_BALL = 0.3     # in angstrom
DIGITS = 3
MOST_TIMES = 4       # of the primitive cell
PER_DOUBLING, PER_LENGTH = 0.45, 0.65  # what a doubling, and one more length of edges, has to save in cosines
ONE_LENGTH = 1.01    # times: lengths that differ by less are one
TINY = 1e-4          # of equals the cell with the shorter edges
FARTHEST = 2         # steps along an edge of the given cell, to find the upright one
TILT = np.radians([(17, 11), (0, 25)])  # of the frame, about the upright and upwards: in space, and of layers
MOST_CELLS = 6       # along an axis
Spot = tuple[int, Vector]  # a vertex or an atom, in a cell of its piece
NO_ATOMS = "the atoms of this net are not drawn"


class NotDrawn(CrystalNetsError):
    """Why the atoms of a net are not drawn."""


@dataclass(frozen=True)
class Region:
    """The cells that are shown, and how many of them along each axis.

    cell    rows: the edges, in angstrom
    counts  3 whole numbers"""

    cell: np.ndarray
    counts: np.ndarray

    @property
    def corners(self) -> np.ndarray:
        return np.array(list(product((0, 1), repeat=3))) * self.counts @ self.cell

    def fractions(self, places: np.ndarray) -> np.ndarray:
        found: np.ndarray = places @ np.linalg.inv(self.cell)
        return found

    def inside(self, places: np.ndarray, bound: np.ndarray) -> list[int]:
        """The numbers of those places that are in the region, up to its borders, along those axes that bound it."""
        fractions = self.fractions(places)
        shown = ((fractions > -EDGE) & (fractions < self.counts + EDGE)) | ~bound
        return [int(k) for k in np.flatnonzero(shown.all(axis=1))]

    def bound_of(self, piece: LaidOut) -> np.ndarray:
        """Which of its axes bound what is shown of a piece: a layer may stand at any height."""
        bound: np.ndarray = np.abs(self.fractions(piece.lattice)).max(axis=0) > EDGE
        return bound

    def shifts(self, piece: LaidOut) -> list[tuple[int, ...]]:
        """The cells of a piece that may be seen."""
        corners = np.array(list(product(*((-1.5, float(count) + 1.5) for count in self.counts)))) @ self.cell
        inverse = np.linalg.pinv(piece.lattice)
        reach = np.vstack([(corners - place) @ inverse for place in piece.vertices])
        low, high = np.floor(reach.min(axis=0)).astype(int), np.ceil(reach.max(axis=0)).astype(int)
        return list(product(*(range(a, b + 1) for a, b in zip(low.tolist(), high.tolist()))))


@dataclass
class Window:
    """What is shown of all pieces."""

    vertices: list[np.ndarray] = field(default_factory=list)
    kinds: list[int] = field(default_factory=list)
    numbers: list[int] = field(default_factory=list)  # of each vertex that is shown its number in the net
    edges: list[tuple[int, int]] = field(default_factory=list)
    leaving: list[tuple[int, np.ndarray]] = field(default_factory=list)
    atoms: list[np.ndarray] = field(default_factory=list)
    elements: list[str] = field(default_factory=list)
    belongs: list[int] = field(default_factory=list)  # of each atom the number of its vertex in the net, or -1
    bonds: list[tuple[int, int]] = field(default_factory=list)

    def add(self, piece: LaidOut, offset: np.ndarray, region: Region, kinds: list[int]) -> None:
        """Adds what is shown of one copy of a piece."""
        middles, bound = _middles(piece), region.bound_of(piece)
        vertices: dict[Spot, int] = {}
        atoms: dict[Spot, int] = {}
        for shift in region.shifts(piece):
            way = np.array(shift) @ piece.lattice + offset
            for v in region.inside(piece.vertices + way, bound):
                vertices[v, shift] = len(self.vertices)
                self._add_vertex(v, piece.vertices[v] + way, kinds[v])
            units = set(region.inside(middles + way, bound))
            for k in (k for k, unit in enumerate(piece.unit) if unit in units):
                atoms[k, shift] = len(self.atoms)
                self._add_atom(piece.elements[k], piece.places[k] + way, piece.vertex[piece.unit[k]])
        self.bonds += _joined(piece.bonds, atoms)
        self.edges += _joined(piece.edges, vertices)
        self.leaving += [(number, self.vertices[number] + STUB * _way(piece, edge))
                         for number, edge in _leaving(piece.edges, vertices)]

    def _add_vertex(self, number: int, place: np.ndarray, kind: int) -> None:
        self.vertices.append(place)
        self.kinds.append(kind)
        self.numbers.append(number)

    def _add_atom(self, element: str, place: np.ndarray, vertex: int) -> None:
        self.atoms.append(place)
        self.elements.append(element)
        self.belongs.append(vertex)


def atoms(name: str, content: bytes, options: dict[str, Any], block: bytes) -> dict[str, Any]:
    """The picture of the net with this block, among those of a structure file, and what its vertices stand for."""
    content, name = unpacked(content, name)
    wanted = checked_options(options)
    try:
        structures = structures_of(content, name, PurePath(name).stem)
    except Refused as reason:
        raise NotDrawn(f"{NO_ATOMS}: {reason}") from None
    for structure in structures:
        net = _net_with(nets_of_cif(content, options, name), block, structure.block)
        if net is None:
            continue
        try:
            crystal = structure.crystal()
            return _told(net, crystal.cell, laid_out(crystal, wanted, net))
        except Refused as reason:
            raise NotDrawn(f"{NO_ATOMS}: {reason}") from None
    raise NotDrawn(NO_ATOMS)


def _net_with(nets: list[Net], block: bytes, part: str) -> Net | None:
    """The net with this text, of this block of its file."""
    return next((net for net in nets if net.block == block and net.provenance.block == part), None)


def _told(net: Net, cell: np.ndarray, pieces: list[LaidOut]) -> dict[str, Any]:
    """What `atoms` answers of one net. NotDrawn if more atoms are shown than the page paints."""
    if net.dimension == 2:
        region = _region(cell_of_layer(pieces[0].lattice, cell), pieces)
    else:
        upright = upright_cell(cell)
        region = _region(upright if _atoms_in(upright, pieces) <= MANY_ATOMS else cell, pieces)
    copies = [(piece, offset) for piece in pieces for offset in piece.copies]
    kinds, window = _kinds(net), Window()
    for number, (piece, offset) in enumerate(copies):
        window.add(piece, offset, region, [number] * len(kinds) if len(copies) > 1 else kinds)
    if len(window.atoms) > MOST_ATOMS:
        raise NotDrawn(f"{NO_ATOMS}: they are more than {MOST_ATOMS:,}")
    units = [{"vertex": k, "text": printable(str(unit))} for k, unit in enumerate(net.units)]
    return {"picture": _picture(window, region, len(copies) > 1, net), "units": units}


def _kinds(net: Net) -> list[int]:
    """Of each vertex its colour: one for each formula."""
    formulas = list(dict.fromkeys(unit.formula for unit in net.units))
    of_label = {unit.vertex: formulas.index(unit.formula) for unit in net.units}
    return [of_label.get(str(vertex), 0) for vertex in net.graph.vertices]


def _region(cell: np.ndarray, pieces: list[LaidOut]) -> Region:
    """Cells up to FEW_ATOMS: the shortest way grows first. Of layers one cell across."""
    lengths, atoms = np.linalg.norm(cell, axis=1), _atoms_in(cell, pieces)
    along = np.array([True, True, any(len(piece.lattice) == 3 for piece in pieces)])
    counts = np.ones(3, int)
    while True:
        grown = counts.copy()
        grown[int(np.argmin(np.where(along, counts * lengths, np.inf)))] += 1
        if atoms * grown.prod() > FEW_ATOMS or grown.max() > MOST_CELLS:
            return Region(cell, counts)
        counts = grown


def _atoms_in(cell: np.ndarray, pieces: list[LaidOut]) -> float:
    """How many atoms a cell has; of layers its first two edges count."""
    return sum(len(piece.places) * len(piece.copies) * _size(cell[:len(piece.lattice)]) / _size(piece.lattice)
               for piece in pieces)


def _size(rows: np.ndarray) -> float:
    """The volume of a cell, or the area of that of a layer."""
    return float(np.sqrt(abs(np.linalg.det(rows @ rows.T))))


def cell_of_layer(lattice: np.ndarray, cell: np.ndarray) -> np.ndarray:
    """The shortest steps of a layer (C. F. Gauss), and of the edges of the crystal's cell the one that leads farthest across.
    Rows are the edges."""
    one, other = lattice
    while True:
        if one @ one > other @ other:
            one, other = other, one
        times = round(float(one @ other / (one @ one)))
        if not times:
            break
        other = other - times * one
    heights = np.abs(cell @ np.cross(one, other))
    return np.vstack((one, other, cell[int(np.argmax(heights))]))


def _joined(edges: Iterable[Edge], shown: dict[Spot, int]) -> list[tuple[int, int]]:
    """The edges between what is shown, by the numbers there."""
    of_tail = _by_tail(edges)
    found = ((number, shown.get((edge.v, add(shift, edge.shift)))) for (k, shift), number in shown.items() for edge in of_tail[k])
    return [(one, other) for one, other in found if other is not None]


def _leaving(edges: tuple[Edge, ...], shown: dict[Spot, int]) -> list[tuple[int, Edge]]:
    """The edges that lead from what is shown to what is not, each seen from the number of its shown end."""
    of_tail = _by_tail([*edges, *(edge.reversed() for edge in edges)])
    return [(number, edge) for (k, shift), number in shown.items() for edge in of_tail[k]
            if (edge.v, add(shift, edge.shift)) not in shown]


def _by_tail(edges: Iterable[Edge]) -> defaultdict[int, list[Edge]]:
    found: defaultdict[int, list[Edge]] = defaultdict(list)
    for edge in edges:
        found[edge.u].append(edge)
    return found


def _way(piece: LaidOut, edge: Edge) -> np.ndarray:
    """Along an edge of the net, in angstrom."""
    way: np.ndarray = piece.vertices[edge.v] + np.array(edge.shift) @ piece.lattice - piece.vertices[edge.u]
    return way


def _middles(piece: LaidOut) -> np.ndarray:
    """The middle of each building unit: of those that are vertices the place of the vertex."""
    unit = np.array(piece.unit)
    found = np.full((len(piece.vertex), 3), np.inf)
    for number, vertex in enumerate(piece.vertex):
        members = piece.places[unit == number]
        if vertex >= 0:
            found[number] = piece.vertices[vertex]
        elif len(members):
            found[number] = members.mean(axis=0)
    return found


def _picture(window: Window, region: Region, is_woven: bool, net: Net) -> dict[str, Any]:
    corners = region.corners
    shown = np.array(window.atoms + window.vertices or list(corners))
    middle = (shown.max(axis=0) + shown.min(axis=0)) / 2
    ends = _rows([end for _, end in window.leaving], middle)
    places = _rows(corners, middle)
    outline = [(places[i], places[j]) for i, j in combinations(range(len(places)), 2) if bin(i ^ j).count("1") == 1]
    return {"name": printable(net.name), "summary": f"{len(window.atoms)} atoms and {len(window.vertices)} vertices of the net",
            "frame": np.round(_frame(region.cell, net.dimension), DIGITS).tolist(), "vertices": _rows(window.vertices, middle),
            "kinds": window.kinds, "edges": window.edges, "outline": outline if net.dimension == 3 else [],
            "isWoven": is_woven, "leaving": [[number, *end] for (number, _), end in zip(window.leaving, ends)],
            "ball": round(max(LEAST_BALL, NET_BALL * _usual_length(window)), DIGITS),
            "atoms": {"places": _rows(window.atoms, middle), "colours": list(map(colour_of, window.elements)),
                      "radii": [round(BALL * radius(element), DIGITS) for element in window.elements],
                      "vertex": window.belongs, "ofPoint": window.numbers, "bonds": window.bonds}}


def _rows(places: Any, middle: np.ndarray) -> list[list[float]]:
    """Places from the middle on."""
    rows: list[list[float]] = np.round(np.array(places).reshape(-1, 3) - middle, DIGITS).tolist()
    return rows


def _usual_length(window: Window) -> float:
    """Of the edges that are shown whole."""
    lengths = [float(np.linalg.norm(window.vertices[i] - window.vertices[j])) for i, j in window.edges]
    return float(np.median(lengths)) if lengths else 0.0


def upright_cell(cell: np.ndarray) -> np.ndarray:
    """Of the cells with the same translations and a small multiple of the volume one whose angles are near right ones, as
    the cubic one of a face-centred lattice. Rows are the edges."""
    steps = np.array([step for step in product(range(-FARTHEST, FARTHEST + 1), repeat=3) if step > (0, 0, 0)])
    triples = np.array(list(combinations(range(len(steps)), 3)))
    times = np.abs(np.rint(np.linalg.det(steps[triples]))).astype(int)
    triples, times = triples[(times > 0) & (times <= MOST_TIMES)], times[(times > 0) & (times <= MOST_TIMES)]
    ways = steps @ cell
    lengths = np.linalg.norm(ways, axis=1)
    cosines = np.abs((ways / lengths[:, None]) @ (ways / lengths[:, None]).T)
    first, second, third = triples.T
    scores = (cosines[first, second] + cosines[first, third] + cosines[second, third] + PER_DOUBLING * np.log2(times)
              + PER_LENGTH * _different(lengths[triples]) + TINY * lengths[triples].sum(axis=1))
    best: np.ndarray = ways[triples[int(np.argmin(scores))]]
    return best if np.linalg.det(best) > 0 else -best


def _different(lengths: np.ndarray) -> np.ndarray:
    """How many different lengths each row of three has, up to a hundredth."""
    in_order = np.sort(lengths, axis=1)
    found: np.ndarray = 1 + (in_order[:, 1:] > ONE_LENGTH * in_order[:, :-1]).sum(axis=1)
    return found


def _frame(cell: np.ndarray, dimension: int) -> np.ndarray:
    """Rows: to the right, up, towards the reader. Nearly along the first axis; of a layer from above, tilted."""
    front, up = (cell[0], cell[2]) if dimension == 3 else (np.cross(cell[0], cell[1]), cell[1])
    front = front / np.linalg.norm(front)
    up = up - up @ front * front
    up = up / np.linalg.norm(up)
    right = np.cross(up, front)
    yaw, pitch = TILT[0 if dimension == 3 else 1]
    aside = front * np.cos(yaw) + right * np.sin(yaw)
    return np.array([right * np.cos(yaw) - front * np.sin(yaw), up * np.cos(pitch) - aside * np.sin(pitch),
                     aside * np.cos(pitch) + up * np.sin(pitch)])
