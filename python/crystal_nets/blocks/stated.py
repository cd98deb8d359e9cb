"""What a block states of its net: coordination sequences and TD10, compared with those of its edges."""

from __future__ import annotations

import re
from collections.abc import Iterable

from ..graph import QuotientGraph
from ..provenance import DOUBT, Note
from ..refusal import Refused
from ..structures.nets.simplification import each_sequence, sequences_of

from .tokens import SEQUENCES, TD10, Row, number_of, shown

MOST_SHELLS = 12  # of a coordination sequence, that are compared
OF_TD10 = 10      # shells
ROUNDING = 0.51   # of TD10, which is given as a whole number


def check_stated(rows: Iterable[Row], graph: QuotientGraph) -> list[Note]:
    """Compares coordination sequences and TD10 with those of the net. Refused by the row of a sequence that no vertex has;
    a doubt, if TD10 is another one, since it is counted in several ways."""
    given = list(rows)
    _check_sequences([row for row in given if row.keyword == SEQUENCES], graph)
    return [doubt for row in given if row.keyword == TD10 for doubt in _doubts_of_td10(row, graph)]


def _check_sequences(rows: list[Row], graph: QuotientGraph) -> None:
    left = [(row, stated) for row in rows if (stated := _sequence_of(row))]
    for sequence in each_sequence(graph, MOST_SHELLS) if left else ():
        left = [(row, stated) for row, stated in left if stated != sequence[:len(stated)]]
        if not left:
            return
    if left:
        raise left[0][0].refused(f"no vertex has the coordination sequence {shown(left[0][0].text)}")


def _sequence_of(row: Row) -> tuple[int, ...]:
    """The numbers of a row, behind the name of a vertex where one stands there."""
    tokens = row.tokens[1:] if row.tokens[0].is_quoted or not re.fullmatch("[0-9]{1,9}", row.tokens[0].text) else row.tokens
    if not all(re.fullmatch("[0-9]{1,9}", token.text) for token in tokens):
        raise Refused(f"{shown(row.text)} is no coordination sequence", row.line)
    return tuple(int(token.text) for token in tokens[:MOST_SHELLS])


def _doubts_of_td10(row: Row, graph: QuotientGraph) -> list[Note]:
    """TD10 is the mean number of vertices in the first ten shells around a vertex, with that vertex or without it."""
    stated = number_of(row.tokens[0].text)
    sums = [sum(sequence) for sequence in sequences_of(graph, OF_TD10)]
    mean = sum(sums) / len(sums)
    if stated is not None and mean - ROUNDING <= stated <= mean + 1 + ROUNDING:
        return []
    return [Note(DOUBT, f"line {row.line}: TD10 is stated as {shown(row.text)[1:-1]}, and that of the net is {mean + 1:.0f}")]
