"""The names of a net that the program refuses a key, and by what they are certain.

A refusal may hang on the cell. So the net is looked at on the lattice of all its translations first: it may have a key there. Else
maps are looked for to those nets of the archives that have its invariant. Each answer counts only with a certificate."""

from __future__ import annotations

from collections.abc import Callable, Iterable
from functools import cached_property
from itertools import islice
from typing import Protocol

from ..answers import Answer, By, Naming
from ..errors import NotANet, ProgramFailed, in_words
from ..graph import QuotientGraph
from ..net import Net
from ..outcome import Outcome
from .archive import block_of
from .certificate import ReadNet, as_read, certificate, is_read
from .matching import find_map
from .placed import NotFound, PlacedNet
from .primitive import PrimitiveNet, primitive_net

ASKED = {("refused", number) for number in (4, 5, 6, 7)} | {("malformed", 8), ("malformed", 9)}
MOST_VERTICES, MOST_EDGES = 2_000, 8_000  # of a net that is looked at, though the program does not read it
MOST_CANDIDATES = 100  # nets of the archives with one index, which are tried
Ask = Callable[[Net], Answer]  # what the program answers to a net


class Archives(Protocol):
    """Where names are looked up: an `Archive`, or several of them."""

    def names(self, key: str) -> tuple[str, ...]:
        """The names of the nets with this key."""

    def wide_blocks(self, index: str) -> Iterable[bytes]:
        """The blocks of the nets without a key that may be a net with this index."""


def is_asked(outcome: Outcome) -> bool:
    """Whether there may be names for a net with this outcome."""
    return (outcome.kind, outcome.number) in ASKED


def naming_of(answer: Answer, archive: Archives | None, ask: Ask) -> Naming:
    """What is found of a net that has no key. Whatever keeps the search from its end is noted, and the answer stays."""
    try:
        return _Search(answer, archive, ask).naming()
    except (NotFound, NotANet, ProgramFailed, OSError) as reason:
        return Naming(note=in_words(reason))


class _Search:
    """The search for one net.

    read   the net as the program reads it; None where its cell is too large for that
    graph  the net as it is searched for"""

    def __init__(self, answer: Answer, archive: Archives | None, ask: Ask) -> None:
        self.archive, self.ask, self.outcome = archive, ask, answer.outcome
        self.read = as_read(answer.net.block, answer.dimension) if answer.outcome.kind == "refused" else None
        self.graph = self.read.graph if self.read else _graph_of_large_cell(answer.net)
        self.placed = PlacedNet(self.graph)

    @cached_property
    def small(self) -> PrimitiveNet:
        return primitive_net(self.placed)

    def naming(self) -> Naming:
        return self._by_smaller_cell() or self._by_maps() or Naming(
            index=self.placed.index, note="no archive of nets without a key was found to have it")

    def _by_smaller_cell(self) -> Naming | None:
        """By the key that the net has on the smaller cell, if it has one."""
        if not self.placed.is_stable or not is_read(self.small.graph):
            return None
        small = self.small
        net = Net.from_block(block_of(small.graph))
        answer = self.ask(net)
        if not answer.accepted:
            return None
        names = self.archive.names(answer.key) if self.archive else ()
        if self.read is None:
            return Naming(names, By.UNPROVED_CELL, "", self.placed.index, answer)
        read = _as_written(small.graph, net)
        done = certificate(self.read, [(read, small.map)])
        return Naming(names, By.SMALLER_CELL, done.text, self.placed.index, answer) if done.text else None

    def _by_maps(self) -> Naming | None:
        """By maps to the nets of the archives, of the net, or of its smaller cell where the program does not read its own."""
        if self.archive is None:
            return None
        first = self.read
        if first is None and is_read(self.small.graph):
            first = _as_written(self.small.graph, Net.from_block(block_of(self.small.graph)))
        if first is None:
            return None
        placed = self.placed if self.read else PlacedNet(first.graph, self.placed.prime)
        maps = []
        for block in islice(self.archive.wide_blocks(self.placed.index), MOST_CANDIDATES):
            other = as_read(block, placed.dimension)
            found = find_map(placed, PlacedNet(other.graph, placed.prime)).map if other else None
            if other and found:
                maps.append((other, found))
        if not maps:
            return None
        done = certificate(first, maps)
        names = dict.fromkeys(other.name for (other, _), is_taken in zip(maps, done.taken) if is_taken and other.name)
        by = By.VERIFIED_MAP if self.read else By.UNPROVED_CELL
        return Naming(tuple(names), by, done.text, self.placed.index) if names else None


def _as_written(graph: QuotientGraph, net: Net) -> ReadNet:
    """How the program reads a block that was made of a graph here. NotFound where it reads another graph."""
    read = as_read(net.block, graph.dimension)
    if read is None or read.graph.edges != graph.edges:
        raise NotFound("the program reads another net than was written")
    return read


def _graph_of_large_cell(net: Net) -> QuotientGraph:
    """The graph of a cell that the program does not read, as it is read here. NotFound where it is too large to be looked at,
    and NotANet where it is none."""
    graph = net.graph.canonical()
    if len(graph.vertices) > MOST_VERTICES or len(graph.edges) > MOST_EDGES:
        raise NotFound(f"a cell of more than {MOST_VERTICES:,} vertices or {MOST_EDGES:,} edges is not looked at")
    if graph.fault:
        raise NotANet(graph.fault)
    return graph
