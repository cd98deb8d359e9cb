"""The operations that the program lists of a net, as this package computes with them, and the symbols of their groups."""

from __future__ import annotations

from collections.abc import Sequence
from functools import cached_property

import numpy as np

from ..graph import Edge, QuotientGraph
from ..texts.report_lines import Row
from ..texts.symmetry_text import SymmetryReport

from .metric import short_basis, standard_gram
from .placed import Placed, into_cell, marks
from .settings import SECOND_OF_PAIRS, NoEmbedding, UsualCell, usual_cell
from .symmetry import Symmetry, symmetries

# of the ten point groups of the plane, by how many operations there are and whether some are reflections
OF_PLANE = {(1, False): "1", (2, False): "2", (2, True): "m", (4, True): "2mm", (4, False): "4", (8, True): "4mm",
            (3, False): "3", (6, True): "3m", (6, False): "6", (12, True): "6mm"}


class GroupSymbols:
    """The symbols of the group of a net and of its stabilizers. They are looked up in floating-point numbers, on a reduced
    basis, and not proved."""

    def __init__(self, report: SymmetryReport) -> None:
        self.report = report

    @cached_property
    def usual(self) -> UsualCell:
        """NoEmbedding if no group of the tables is that of the net."""
        net, found = listed(self.report)
        usual = _usual(net, found)
        if net.dimension == 3 and usual.setting.number in SECOND_OF_PAIRS:
            mirrored = [Symmetry(one.turn, -one.move, one.to) for one in found]
            return _usual(net.mirrored(), mirrored)
        return usual

    @property
    def group(self) -> tuple[int, str] | None:
        """Number and symbol, without the setting; None if no group of the tables is found that is that of the net."""
        try:
            setting = self.usual.setting
        except NoEmbedding:
            return None
        return setting.number, setting.name.partition(":")[0]

    def point_group(self, matrices: Sequence[Sequence[Sequence[int]]]) -> str:
        """The symbol of a group of matrices of whole numbers."""
        if self.report.dimension == 2:
            return OF_PLANE[len(matrices), any(a * d - b * c < 0 for (a, b), (c, d) in matrices)]
        import spglib  # here, since layers do without it

        symbol: str = spglib.get_pointgroup(np.array(matrices))[0]
        return symbol.strip()


def listed(report: SymmetryReport) -> tuple[Placed, list[Symmetry]]:
    """The net with its symmetries, in a short basis of its lattice."""
    places = np.array(report.places, float) / report.denominator
    net = Placed(places, [Edge(u - 1, v - 1, tuple(shift)) for u, v, *shift in report.edges])
    rows = short_basis(standard_gram(net))
    return net.in_basis(rows), [_in_basis(one, rows) for one in _operations(report, net, np.zeros(report.dimension))]


def symmetries_of(net: Placed, gram: np.ndarray) -> list[Symmetry]:
    """All symmetries of a placed net, as the program lists them. Where it lists none, since it is not there or the net is past
    its limits, they are found here in floating-point numbers."""
    from ..symmetries import symmetry_if_told  # here, since it takes its symbols from this module

    found = symmetry_if_told(QuotientGraph(tuple(range(1, len(net.places) + 1)), tuple(net.edges), net.dimension))
    if found is None:
        return symmetries(net, gram)
    return _operations(found.report, net, net.places[net.edges[0].u])


def _operations(report: SymmetryReport, net: Placed, origin: np.ndarray) -> list[Symmetry]:
    """The operations of a report on the places of a net in the same basis. The report has vertex 1 in the origin, and that
    stands here."""
    found = []
    for row in report.operations:
        turn, move = _matrix(row, report), np.array(row[report.dimension ** 2:], float) / report.denominator
        move = move + origin - origin @ turn
        found.append(Symmetry(turn, move, _images(net.places, turn, move)))
    return found


def _matrix(row: Row, report: SymmetryReport) -> np.ndarray:
    """The matrix of an operation for places that are rows."""
    d = report.dimension
    return np.array(row[:d * d]).reshape(d, d).T


def _in_basis(one: Symmetry, rows: np.ndarray) -> Symmetry:
    to_rows = np.linalg.inv(rows)
    return Symmetry(np.rint(rows @ one.turn @ to_rows).astype(int), one.move @ to_rows, one.to)


def _images(places: np.ndarray, turn: np.ndarray, move: np.ndarray) -> np.ndarray:
    """Of each class the number from 0 on of the one that it goes to."""
    number = {tuple(mark): k for k, mark in enumerate(marks(into_cell(places)).tolist())}
    return np.array([number[tuple(mark)] for mark in marks(into_cell(places @ turn + move)).tolist()])


def _usual(net: Placed, found: list[Symmetry]) -> UsualCell:
    return usual_cell(net, standard_gram(net), found)
