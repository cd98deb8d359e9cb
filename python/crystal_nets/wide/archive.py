"""Archives of nets without a key: blocks PERIODIC_GRAPH in a file STEM.cgd, and beside it STEM.index.

The index is trusted with nothing. A line of it that is wrong can hide a name, and gives no wrong one: a name is reported only where
`verify` has taken a map to the block that has this name."""

from __future__ import annotations

import hashlib
from collections.abc import Iterable, Iterator
from pathlib import Path
from typing import NamedTuple

from ..errors import NotANet, NotAnArchive
from ..files import write_whole
from ..graph import QuotientGraph
from ..net import Net
from ..texts.graph_text import text_of_graph, written_name
from .certificate import as_read, certificate, is_read
from .placed import NotFound, PlacedNet
from .primitive import primitive_net

HEAD = "wide_index 2 "
OLD_HEAD = "wide_index 1 "
SUFFIX = ".index"


class Entry(NamedTuple):
    """Where a block stands in its file, and the name that the index has of it."""

    offset: int
    length: int
    name: str


class WideArchive:
    """The nets of STEM.cgd by their invariants, as STEM.index has them. Blocks are read when they are asked for.

    NotAnArchive where the index is none, or of another file; OSError where one of the two cannot be read."""

    def __init__(self, index: Path) -> None:
        self.path = index.with_suffix(".cgd")
        self.entries: dict[str, list[Entry]] = {}
        lines = index.read_bytes().decode(errors="surrogateescape").split("\n")
        if lines[0].startswith(OLD_HEAD):
            raise NotAnArchive(f"{index} has the form wide_index 1 of former releases; net_tool archive index makes it anew of {self.path}")
        if not lines[0].startswith(HEAD) or lines[-1]:
            raise NotAnArchive(f"{index} is no index of nets without a key, or is cut")
        content = self.path.read_bytes()
        if lines[0] != _head(content):
            raise NotAnArchive(f"{index} is not that of {self.path}, which has changed since; net_tool archive index makes it anew")
        try:
            for line in lines[1:-1]:
                invariant, offset, length, name = line.split("\t")
                entry = Entry(int(offset), int(length), name)
                if not 0 <= entry.offset < entry.offset + entry.length <= len(content):
                    raise ValueError
                self.entries.setdefault(invariant, []).append(entry)
        except ValueError:
            raise NotAnArchive(f"{index}: {line[:60]!r} is no line of an index") from None

    def blocks(self, invariant: str) -> Iterator[bytes]:
        """The blocks of the nets that may have this invariant."""
        for entry in self.entries.get(invariant, ()):
            yield self._block(entry)

    def nets(self) -> Iterator[tuple[str, Net]]:
        """All nets, under the names of the index, in the order of the file."""
        for entry in sorted(entry for entries in self.entries.values() for entry in entries):
            yield entry.name, Net.from_block(self._block(entry), entry.name)

    def names(self) -> Iterator[str]:
        """The names of the index, in the order of the file."""
        return (entry.name for entry in sorted(entry for entries in self.entries.values() for entry in entries))

    def net(self, name: str) -> Net | None:
        """The net that the index has under a name."""
        found = [entry for entries in self.entries.values() for entry in entries if entry.name == name]
        return Net.from_block(self._block(min(found)), name) if found else None

    def _block(self, entry: Entry) -> bytes:
        with open(self.path, "rb") as file:
            file.seek(entry.offset)
            return file.read(entry.length)


def write_wide_archive(path: Path, nets: Iterable[Net]) -> list[tuple[str, str]]:
    """Writes STEM.cgd and its index, of a path without an ending; gives the names of those nets that cannot be there, each with
    the reason. The block of a net is that of its smallest cell that was found, on a short basis, to which `verify` has taken
    a map; or of the cell that it has."""
    content, lines, left_out = b"", [], []
    for net in nets:
        try:
            block, invariant = _entry_of(net)
        except (NotANet, NotFound) as reason:
            left_out.append((net.name, str(reason)))
            continue
        lines.append(f"{invariant}\t{len(content)}\t{len(block)}\t{written_name(net.name)}\n")
        content += block
    write_whole(path.with_name(path.name + ".cgd"), content)
    index = _head(content) + "\n" + "".join(lines)
    write_whole(path.with_name(path.name + SUFFIX), index.encode(errors="surrogateescape"))
    return left_out


def _entry_of(net: Net) -> tuple[bytes, str]:
    """The block of a net, and its invariant. NotFound where it has none."""
    read = as_read(net.block, net.dimension)
    if read is None:
        raise NotFound("the program reads no net in it")
    placed = PlacedNet(read.graph)
    small = primitive_net(placed)
    block = block_of(small.graph, net.name)
    small_read = as_read(block, net.dimension) if is_read(small.graph) else None
    if small_read and all(certificate(read, [(small_read, small.map)]).taken):
        return block, placed.index
    return block_of(read.graph, net.name), placed.index


def block_of(graph: QuotientGraph, name: str = "") -> bytes:
    """A block PERIODIC_GRAPH. Where each vertex but the first has a neighbour before it, the program numbers the vertices of
    the block as they are here."""
    rows = tuple(sorted(graph.edges, key=lambda one: (max(one.u, one.v), one)))
    return text_of_graph(QuotientGraph(graph.vertices, rows, graph.dimension, written_name(name)))


def _head(content: bytes) -> str:
    return HEAD + hashlib.sha256(content).hexdigest()
