"""Names of nets by their coordination sequences, from the archives beside the package.

Two nets may have the same sequences, and nothing here asks the program. So such a name is a hint that a doubt gives, and the
name of no net that is written."""

from __future__ import annotations

import re
from collections.abc import Iterator
from functools import cache
from pathlib import Path
from typing import NamedTuple

from ...graph import QuotientGraph
from ...symbols import symbol_of
from ...texts.net_text import MOST_SHELLS
from .simplification import each_sequence

ROWS = re.compile(rb'^(?:entry "([^"\n]+)"|graph ([23]) .*|shells \d+ ([\d ]+)|(end))$', re.MULTILINE)
FIRST_SHELLS = 4  # by which most nets are told apart: ten take long to count
Sequence = tuple[int, ...]


class KnownNet(NamedTuple):
    """A net of an archive: its symbol, or else its name, and the coordination sequences of its vertices."""

    name: str
    dimension: int
    sequences: frozenset[Sequence]


def known_name(net: QuotientGraph) -> str:
    """The name of the first net of the archives that has the sequences of this one, ten shells of each; empty if none has."""
    begun = next(each_sequence(net, FIRST_SHELLS), ())
    left = [known for known in _known_nets() if known.dimension == net.dimension
            and any(sequence[:FIRST_SHELLS] == begun for sequence in known.sequences)]
    found: set[Sequence] = set()
    for sequence in each_sequence(net, MOST_SHELLS) if left else ():
        if sequence not in found:
            left = [known for known in left if sequence in known.sequences]
            found.add(sequence)
        if not left:
            return ""
    return next((known.name for known in left if known.sequences == found), "")


@cache
def _known_nets() -> tuple[KnownNet, ...]:
    """The nets of all archives that can be read; one that cannot names nothing here."""
    from ...archive import default_files
    found: list[KnownNet] = []
    for path in default_files():
        if path.suffix == ".archive":
            try:
                found += _nets_of(path)
            except OSError:
                continue
    return tuple(found)


def _nets_of(path: Path) -> Iterator[KnownNet]:
    """The nets of an archive, by those of its rows alone that are asked for: to read it whole takes several times as long."""
    name, dimension, sequences = "", 0, set[Sequence]()
    for entry, graph, shells, end in ROWS.findall(path.read_bytes()):
        if entry:
            name, sequences = entry.decode(errors="replace"), set()
        elif graph:
            dimension = int(graph)
        elif shells:
            sequences.add(tuple(map(int, shells.split())))
        elif end:
            yield KnownNet(symbol_of(name) or name, dimension, frozenset(sequences))
