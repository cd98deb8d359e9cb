"""A second opinion on an answer, which has no code in common with the program."""

from __future__ import annotations

import re

from .answers import Answer, By
from .graph import Edge, QuotientGraph
from .wide.certificate import GRAPHS, holds
from .wide.exact_key import exact_key
from .wide.placed import NotFound


def check(answer: Answer) -> bool | None:
    """Whether a key that is computed here anew is that of the answer. It is computed in whole numbers of any size, from the
    definition in docs/FORMATS.md alone. It is not proved, and takes a second for a net of 100 vertices.

    Of a net that has a key on a smaller cell alone, the certificate is checked as well: its graphs are the rows that
    `net_tool cover` prints of the two blocks. Of a net that is named by verified maps, all graphs of the certificate are to
    have one key. None is given where there is nothing to compare: no key, and no certificate; or two neighbours of a vertex
    stand in one place.

    >>> from crystal_nets import keys
    >>> answer, = keys([Net([(1, 1, (1, 0)), (1, 1, (0, 1))])])
    >>> check(answer)
    True"""
    try:
        if answer.accepted:
            return exact_key(answer.net.graph.canonical()) == answer.key
        if answer.by is By.SMALLER_CELL and answer.small:
            blocks = [answer.net.block, answer.small.net.block]
            return (exact_key(answer.net.graph.canonical()) == answer.small.key
                    and holds(answer.certificate, blocks, answer.dimension))
        if answer.by is By.VERIFIED_MAP:
            return len({exact_key(graph) for graph in _graphs_of(answer.certificate)}) == 1
    except NotFound:
        pass
    return None


def _graphs_of(certificate: str) -> list[QuotientGraph]:
    """The graphs of a text of maps."""
    found = []
    for text in GRAPHS.findall(certificate):
        head, *rows = ([int(word) for word in re.findall(r"-?\d+", line)] for line in text.splitlines())
        edges = tuple(Edge(u - 1, v - 1, tuple(shift)) for u, v, *shift in rows)
        found.append(QuotientGraph(tuple(range(1, head[1] + 1)), edges, head[0]))
    return found
