"""Interwoven nets in one picture, each copy in a colour of its own.

The copies of one part are carried to each other by translations of the cell that was given: their places beside each
other are exact. Of two parts the graph does not tell how they stand to each other, nor does the block of one net of
several in a structure file. They are set as far apart as they go, and that is reported."""

from __future__ import annotations

from dataclasses import dataclass
from itertools import product
from typing import Any

import numpy as np

from ..errors import CrystalNetsError
from ..graph import Edge, QuotientGraph
from ..lattice import Vector
from ..net import Net
from ..embedding.metric import standard_gram
from ..pictures.page import card_of
from ..embedding.placed import Placed
from ..pictures.shape import Shape
from ..pictures.text import printable
from ..pictures.view import view_of
from ..program import run
from ..structures.nets.pieces import Piece, pieces_of
from ..texts.net_text import NetReport, nets_of_report

MOST_VERTICES = 400  # of all copies together
MOST_COPIES = 8      # of one net of a structure file
UNITS: list[Vector] = [(1, 0, 0), (0, 1, 0), (0, 0, 1)]
STEPS = 12           # along an axis, of the offsets that are tried
MOST_PAIRS = 16_000  # of vertices, for which offsets are tried
EXACT = "Each copy has a colour. Translations of the cell carry the copies to each other."
FREE = ("Each copy has a colour. How the parts stand to each other the net does not tell: here they are as far apart as "
        "they go.")
OF_FILE = ("Each copy has a colour. How the copies stand to each other is told by the file alone: here they are as far "
           "apart as they go.")


@dataclass(frozen=True)
class Woven:
    """A picture of interpenetrating nets: what the page draws from, and what is to be known of it."""

    picture: dict[str, Any]
    told: str


def woven(net: Net) -> Woven | None:
    """The picture of a net that falls into pieces; None where they are no nets in space over one lattice, or too many."""
    if net.dimension != 3:
        return None
    parts = pieces_of(net.graph.canonical())
    lattices = {tuple(part.basis) for part in parts}
    copies = sum(part.copies for part in parts)
    if len(lattices) != 1 or any(part.dimension != 3 for part in parts) or copies < 2:
        return None
    if is_too_much([part.copies * len(part.net.vertices) for part in parts]):
        return None
    placed = [places for part in parts if (places := places_of(part)) is not None]
    if len(placed) < len(parts):
        return None
    return _drawn(net, parts, placed, EXACT if len(parts) == 1 else FREE)


def is_too_much(sizes: list[int]) -> bool:
    """Whether parts of so many vertices are more than are drawn, or than offsets are tried for."""
    return sum(sizes) > MOST_VERTICES or (len(sizes) > 2 and sum(sizes) * max(sizes) > MOST_PAIRS)


def places_of(part: Piece) -> np.ndarray | None:
    """The places of the vertices of a part in its own cell, n rows of 3; None where it has no key."""
    rows = [(u + 1, v + 1, shift) for u, v, shift in part.net.edges]
    try:
        _, told = run("identify", Net(rows).block, "-")
    except CrystalNetsError:
        return None
    report = next(nets_of_report(told.splitlines(keepends=True)))
    if not report.key:
        return None
    at = {int(word) - 1: np.array(place, float) / report.scale for word, place in report.positions}
    return np.array([at[k] for k in range(len(part.net.vertices))])


def woven_copies(net: Net, placed: Placed, copies: int) -> Woven | None:
    """The picture of so many copies of a net in space, as a structure file may have them."""
    if placed.dimension != 3 or not 2 <= copies <= MOST_COPIES or is_too_much([len(placed.places)] * copies):
        return None
    graph = QuotientGraph.of(range(1, len(placed.places) + 1), placed.edges)
    part = Piece(graph, 3, 1, UNITS, [])
    return _drawn(net, [part] * copies, [placed.places] * copies, OF_FILE)


def _drawn(net: Net, parts: list[Piece], placed: list[np.ndarray], told: str) -> Woven:
    union, copy_of = _union(parts, placed)
    shape = Shape(union)
    degrees = ", ".join(map(str, shape.degrees))
    shape.kind = copy_of
    view = view_of(shape)
    label = printable(net.name) or "interpenetrating nets"
    card = card_of(NetReport(1, 1, label.encode()), view)
    card |= {"isWoven": True, "summary": f"{len(set(copy_of))} interpenetrating copies, {degrees}-connected, {shape.system} cell"}
    return Woven(card, told)


def _union(parts: list[Piece], placed: list[np.ndarray]) -> tuple[Placed, list[int]]:
    """All copies of all parts over one lattice, and of each vertex its copy."""
    places: list[np.ndarray] = []
    edges: list[Edge] = []
    copy_of: list[int] = []
    gram = _gram(parts, placed)
    for part, at in zip(parts, placed):
        offset = _farthest(np.vstack(places), at, gram) if places else np.zeros(3)
        for shift in cosets(part.basis):
            first, copy = len(copy_of), len(set(copy_of))
            places.append(at + offset + shift)
            edges += _beside(part, first)
            copy_of += [copy] * len(at)
    return Placed(np.vstack(places), edges), copy_of


def _gram(parts: list[Piece], placed: list[np.ndarray]) -> np.ndarray:
    """The metric of the lattice in the standard realization of all parts."""
    first, places = 0, []
    edges: list[Edge] = []
    for part, at in zip(parts, placed):
        edges += _beside(part, first)
        places.append(at)
        first += len(at)
    return standard_gram(Placed(np.vstack(places), edges))


def _beside(part: Piece, first: int) -> list[Edge]:
    """The edges of a part whose vertices are numbered from the first on."""
    return [Edge(u + first, v + first, shift) for u, v, shift in part.net.edges]


def cosets(basis: list[Vector]) -> list[np.ndarray]:
    """The translations of the crystal up to those of a part, in units of the cell of the part."""
    to_part = np.linalg.inv(np.array(basis, float))
    pivots = [row[k] for k, row in enumerate(basis)]
    return [np.array(steps, float) @ to_part for steps in product(*map(range, pivots))]


def _farthest(there: np.ndarray, at: np.ndarray, gram: np.ndarray) -> np.ndarray:
    """The offset of a part with which it is farthest from those that are there, in units of the cell."""
    if len(there) * len(at) > MOST_PAIRS:
        return np.full(3, 0.5)
    apart = at[:, None, :] - there[None, :, :]
    best, farthest = np.full(3, 0.5), -1.0
    for steps in product(range(STEPS), repeat=3):
        gaps = apart + np.array(steps) / STEPS
        gaps -= np.rint(gaps)
        nearest = float(np.einsum("abi,ij,abj->ab", gaps, gram, gaps).min())
        if nearest > farthest + 1e-9:
            best, farthest = np.array(steps) / STEPS, nearest
    return best
