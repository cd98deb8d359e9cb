"""A net on a larger cell, or on another basis."""

from __future__ import annotations

import operator
import re
from collections.abc import Iterable
from dataclasses import dataclass
from typing import Any, Unpack

from .asking import KINDS, single
from .errors import NotANet
from .lattice import determinant
from .limits import bounded, in_time
from .net import Net
from .options import StructureOptions
from .outcome import ACCEPTED, Outcome, outcome_of
from .program import reading_report, run
from .reading import want_one_block
from .texts.net_text import GREATEST_SHIFT

COVERED = re.compile(rb"cover refused (\d+) ([A-Za-z]+)(?: (count|value)=(-?\d+))?")


@dataclass(frozen=True)
class Cover:
    """A net on another cell.

    net      on the new cell: its vertices are numbers, (u - 1)·index + k for the kth image of the vertex u; None where
             it is refused
    outcome  `accepted`, or why not, as `refused 3 CoverVertices`
    index    as many cells of the net go into the new one

    Proved: what comes out is isomorphic to the net that the program read."""

    net: Net | None
    outcome: Outcome
    index: int


@bounded
def cover(source: Any, cell: Iterable[Iterable[int]], *, timeout: float | None = None,
          **options: Unpack[StructureOptions]) -> Cover:
    """A net on a cell of given rows, 2 x 2 or 3 x 3 whole numbers from -500 to 500, in lattice steps. After `timeout`
    seconds ProgramTimedOut is raised.

    >>> cover([(1, 1, (1, 0)), (1, 1, (0, 1))], [(2, 0), (0, 1)]).net.edges
    ((1, 1, (0, 1)), (1, 2, (-1, 0)), (1, 2, (0, 0)), (2, 2, (0, 1)))"""
    rows = _rows_of(cell)
    return in_time(lambda: _cover(single(source, options), rows))


def _cover(net: Net, rows: list[list[int]]) -> Cover:
    _, told = run("cover", net.block, "-", "--cell=" + ",".join(str(part) for row in rows for part in row))
    index = abs(determinant(rows))
    if told.startswith(b"PERIODIC_GRAPH"):
        with reading_report("cover"):
            want_one_block(told)
            return Cover(Net._of(told, net.name, net.provenance), ACCEPTED, index)
    with reading_report("cover"):
        return Cover(None, _outcome(told.splitlines()), index)


def _rows_of(cell: Iterable[Iterable[int]]) -> list[list[int]]:
    try:
        rows = [[operator.index(part) for part in row] for row in cell]
    except TypeError as fault:
        raise NotANet(f"a cell has rows of whole numbers: {fault}") from None
    if len(rows) not in (2, 3) or any(len(row) != len(rows) for row in rows):
        raise NotANet("a cell has 2 x 2 or 3 x 3 numbers")
    if max(abs(part) for row in rows for part in row) > GREATEST_SHIFT:
        raise NotANet(f"the numbers of a cell are from -{GREATEST_SHIFT} to {GREATEST_SHIFT}")
    return rows


def _outcome(lines: list[bytes]) -> Outcome:
    line = lines[-1]
    found = COVERED.fullmatch(line)
    if found is None:
        outcome = outcome_of(line, int(lines[0].split(b" ", 4)[3]) - 1)
        if outcome.kind not in KINDS:
            raise ValueError(f"{line[:60]!r} may not stand there")
        return outcome
    values = {found[3].decode(): int(found[4])} if found[3] else {}
    return Outcome("refused", int(found[1]), found[2].decode(), dict(values), line.decode())
