"""Long files of nets in parts of some blocks each: what a process is given, and what it reads by itself."""

from __future__ import annotations

import hashlib
import os
from collections.abc import Iterable, Iterator
from io import BytesIO
from typing import NamedTuple

from .errors import NotANet, PackageMissing
from .files import GZIP, encoding_of
from .formats import holds_structure
from .net import Net
from .reading import net_of_chunk
from .texts.net_text import Chunk, chunks_of

BEGINNING = 65_536  # bytes by which a file without a known ending is reported


class Part(NamedTuple):
    """Some blocks of a file that follow each other.

    offset        of its first byte
    lines_before  lines of the file before it
    after_item    whether an item of key lines stands before it
    blocks        how many it has
    sum           of its bytes, by which it is known that they are still the same"""

    offset: int
    length: int
    lines_before: int
    after_item: bool
    blocks: int
    sum: str


class FilePart(NamedTuple):
    """A part of a file of this path."""

    path: str
    part: Part

    def nets(self) -> list[Net]:
        """Its nets, which know the lines of the whole file. OSError if the file cannot be read, and NotANet if it is no
        longer the same."""
        with open(self.path, "rb") as file:
            file.seek(self.part.offset)
            content = file.read(self.part.length)
        if sum_of(content) != self.part.sum:
            raise NotANet(f"{self.path} was changed since its parts were reported")
        return [net.of_provenance(net.provenance.read_from(self.path))
                for net in map(net_or_refusal, chunks_of_part(content, self.part.lines_before, self.part.after_item))]


def sum_of(content: bytes) -> str:
    """16 digits of the SHA-256."""
    return hashlib.sha256(content).hexdigest()[:16]


class WholeFile(NamedTuple):
    """A file that is read as a whole: its length, and a sum of its bytes."""

    length: int
    sum: str


def is_read_whole(path: str) -> WholeFile | None:
    """What a file is that is read as a whole: a structure, or what is packed by gzip or in another encoding. None if its
    blocks can be read in parts."""
    number = os.open(path, os.O_RDONLY | os.O_CLOEXEC)  # a file object takes as long as all else, in a folder of many
    try:
        beginning = os.read(number, BEGINNING)
        is_packed = beginning.startswith(GZIP) or bool(encoding_of(beginning))
        if not is_packed and not holds_structure(beginning, os.path.basename(path)):
            return None
        length, told = len(beginning), hashlib.sha256(beginning)
        while more := os.read(number, 1 << 20) if beginning else b"":
            length += len(more)
            told.update(more)
    except OSError as fault:
        raise OSError(fault.errno, fault.strerror, path) from None
    finally:
        os.close(number)
    return WholeFile(length, told.hexdigest()[:16])


def parts_of(lines: Iterable[bytes], most_blocks: int, most_bytes: int) -> Iterator[Part]:
    """A text in parts of so many blocks and bytes at most, if no block has more. The last one is given even if it is
    empty, so that a text without nets is reported."""
    after_item = following = False
    begin = end = lines_before = lines_read = blocks = 0
    told = hashlib.sha256()
    for chunk in chunks_of(lines):
        if blocks and (blocks == most_blocks or end - begin + chunk.size > most_bytes):
            yield Part(begin, end - begin, lines_before, after_item, blocks, told.hexdigest()[:16])
            begin, lines_before, blocks, after_item, told = end, lines_read, 0, following, hashlib.sha256()
        told.update(b"".join(chunk.lines))
        end += chunk.size
        lines_read += len(chunk.lines)
        blocks += chunk.opening_line > 0
        following = chunk.is_item
    yield Part(begin, end - begin, lines_before, after_item, blocks, told.hexdigest()[:16])


def chunks_of_part(content: bytes, lines_before: int, after_item: bool) -> Iterator[Chunk]:
    """The blocks of a part of a text; the lines that open them are counted in the whole text."""
    for chunk in chunks_of(BytesIO(content), after_item):
        if chunk.opening_line:
            chunk.first_line += lines_before
            chunk.opening_line += lines_before
            yield chunk


def net_or_refusal(chunk: Chunk) -> Net:
    """The net of a block; or why it gives none, as a text of another kind that begins there."""
    try:
        return net_of_chunk(chunk)
    except (NotANet, PackageMissing) as reason:
        return refused_at(chunk, str(reason))


def refused_at(chunk: Chunk, reason: str) -> Net:
    """What stands for the net of a block that gives none."""
    refused = Net.refused(reason)
    return refused.of_provenance(refused.provenance.at_line(chunk.opening_line))
