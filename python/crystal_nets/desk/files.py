"""From a file to its nets. Blocks are parted, and read when they are asked for."""

from __future__ import annotations

from dataclasses import dataclass, field
from io import BytesIO
from pathlib import PurePosixPath
from typing import Any

from ..errors import NotANet
from ..formats import holds_structure
from ..kinds import kind_of
from ..net import Net
from ..reading import net_of_chunk, read, unpacked
from ..texts.net_text import chunk_at, chunks_of

MOST_NETS = 20_000  # of a file; net_tool table takes more
MOST_BYTES = 64 * 2**20  # of a file, unpacked
FITTING = "fitting"  # the convention that fits the file
LONGEST_NAME = 120  # letters of a name that are shown


@dataclass(frozen=True)
class Unread:
    """A block as its text has it, and the line of the file that it begins at."""

    line: int
    text: bytes

    def net(self) -> Net:
        """The net of the block, or why it gives none."""
        try:
            return net_of_chunk(chunk_at(self.line, self.text))
        except NotANet as reason:  # a text of another kind
            return Net.refused(str(reason))


@dataclass
class Found:
    """The nets of a file, MOST_NETS at most, how many it has, and whether they are read from a structure."""

    nets: list[Net | Unread] = field(default_factory=list)
    total: int = 0
    is_structure: bool = False


def shown_name(name: str) -> str:
    """The last part of a file's name, as it is shown and as nets are called. It is never a path that is opened."""
    last = PurePosixPath(name.replace("\\", "/")).name
    plain = "".join(c if c.isprintable() else "_" for c in last).strip()
    stem, dot, ending = plain.rpartition(".")
    if len(plain) > LONGEST_NAME:
        plain = stem[:LONGEST_NAME - 10] + dot + ending[:8] if stem else plain[:LONGEST_NAME]
    return plain or "file"


def nets_of_file(name: str, content: bytes, options: dict[str, Any]) -> Found:
    """The nets of a file. NotANet where there are none at all."""
    content, name = unpacked(content, name, MOST_BYTES)
    if not content.strip():
        raise NotANet("the file is empty")
    if holds_structure(content, name):
        nets = read(content, name=name, **fitting(options))
        found = Found([*nets[:MOST_NETS]], len(nets), is_structure=True)
    elif kind := kind_of(content, name):
        raise NotANet(f"it is {kind}")
    else:
        found = _of_blocks(content)
    if not found.total:
        raise NotANet("no net was found in it")
    return found


def fitting(options: dict[str, Any]) -> dict[str, Any]:
    """The options without a convention where it is to fit the file: that is what is taken where none is named."""
    return {name: value for name, value in options.items() if (name, value) != ("convention", FITTING)}


def _of_blocks(content: bytes) -> Found:
    """The blocks as they stand; what is past MOST_NETS is counted alone."""
    found = Found()
    for chunk in chunks_of(BytesIO(content)):
        if not chunk.opening_line:
            continue
        if found.total < MOST_NETS:
            found.nets.append(Unread(chunk.opening_line, b"".join(chunk.block_lines)))
        found.total += 1
    return found
