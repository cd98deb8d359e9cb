"""What there is to do: the files of a source, in pieces that one process does at a time.

The file of a plan has a line for each piece, an index of these lines, by which a task reads its own lines alone, a line for
the settings, and a last one with sums."""

from __future__ import annotations

import errno
import hashlib
import json
import os
from collections.abc import Iterable, Iterator, Sequence
from dataclasses import dataclass, field
from functools import cached_property
from pathlib import Path
from typing import Any, NamedTuple, NotRequired, TypedDict, overload

from ..file_parts import is_read_whole, parts_of, sum_of
from .source import Failed, SourceAway, changed, files_of, path_from, state_of

FORM = "net_table 6"
MOST_BLOCKS = 1_000      # of a piece: few enough that little is lost if a run breaks off
MOST_LISTED = 40         # blocks of a piece, if what databases list is computed of each
MOST_BYTES = 4_000_000
MOST_STRUCTURES = 40     # files, which take longer than blocks
ENTRY = 34               # bytes of a line of the index
FOOTER = 70              # and of the line after it
GONE = (errno.ENOENT, errno.ELOOP, errno.ENOTDIR, errno.ENAMETOOLONG)  # of a file that is not there

WHOLE, BLOCKS, AFTER_ITEM = "whole", "blocks", "blocks after an item"
UNSEEN = "unseen"  # a file that could not be read when it was planned; it is read as a whole


class Settings(TypedDict):
    """What the rows of a plan depend on, as JSON has it.

    source    as it was given, from the folder `at`
    options   of structures, by their names in `StructureOptions`
    seconds   for each net; None without a limit
    topology  whether what databases list is asked for
    command   `key` or `identify`
    state     of the source: a sum of the names, sizes and times of its files"""

    source: str
    at: str
    options: dict[str, Any]
    seconds: int | None
    topology: bool
    command: str
    state: NotRequired[str]


def has_topology(settings: Settings) -> bool:
    """Whether what databases list is asked for."""
    return bool(settings.get("topology"))


class Portion(NamedTuple):
    """What a piece has of a file. Of a structure, and of what is packed by gzip or in another encoding, it is all; of a text so
    many bytes from an offset on, and whether an item of key lines stands before them. The sum, and the size of the file, tell
    whether they are the bytes that were planned."""

    path: str
    offset: int
    length: int
    lines_before: int
    kind: str  # WHOLE, BLOCKS, AFTER_ITEM or UNSEEN
    sum: str
    size: int

    def read(self, at: str) -> bytes | OSError:
        """The bytes, of a path that is given from a folder; or the fault of a file that is no longer there, though its
        folder is. SourceAway if they cannot be read now, Failed if they are others than was planned."""
        try:
            with open(os.path.join(at, self.path), "rb") as file:
                size = os.fstat(file.fileno()).st_size
                file.seek(self.offset)
                content = file.read() if self.is_whole else file.read(self.length)
        except OSError as fault:
            if fault.errno in GONE and os.path.isdir(os.path.dirname(os.path.join(at, self.path))):
                return fault
            raise SourceAway.of(fault) from None
        if self.kind != UNSEEN and (size != self.size or sum_of(content) != self.sum):
            raise Failed(f"{self.path} was changed since it was planned; take another folder")
        return content

    @property
    def is_whole(self) -> bool:
        """Whether it is a file that is read as a whole."""
        return self.kind in (WHOLE, UNSEEN)


@dataclass(frozen=True)
class Piece:
    """What one process does at a time: portions of files, with which settings and by what; the mark is that of the plan."""

    portions: list[Portion]
    settings: Settings
    mark: str
    made: str = ""


@dataclass
class Plan:
    """The settings, and the portions of each piece in their order. It does not change once its mark was asked for.

    made  sums of the tools and the program that make its rows; empty if they are not known"""

    settings: Settings
    pieces: Sequence[list[Portion]] = field(default_factory=list)
    made: str = ""

    @cached_property
    def mark(self) -> str:
        """16 digits of the SHA-256 of all but what makes it: rows of another plan are not taken for those of this one."""
        return self.pieces.mark if isinstance(self.pieces, PiecesOfFile) else _written(self).mark

    def piece(self, number: int) -> Piece:
        """The piece with this number, counted from 1."""
        return Piece(self.pieces[number - 1], self.settings, self.mark, self.made)

    @property
    def has_structures(self) -> bool:
        """Whether a file is read as a whole, as structures are."""
        if isinstance(self.pieces, PiecesOfFile):
            return self.pieces.has_structures
        return any(portion.is_whole for piece in self.pieces for portion in piece)

    @property
    def content(self) -> bytes:
        """What a file of the plan has."""
        return b"".join(_written(self).lines)


@dataclass
class _Text:
    """The lines of the file of a plan, and its mark."""

    lines: list[bytes]
    mark: str


def _written(plan: Plan) -> _Text:
    writer = PlanWriter()
    lines = [*map(writer.line_of, plan.pieces), writer.end(plan.settings, plan.made)]
    return _Text(lines, writer.mark)


class PlanWriter:
    """Makes the lines of a plan, one piece after the other."""

    def __init__(self) -> None:
        self._index: list[bytes] = []
        self._offset = 0
        self._has_structures = False
        self.mark = ""

    def line_of(self, piece: list[Portion]) -> bytes:
        line = json.dumps(piece).encode() + b"\n"
        self._index.append(b"%016x %s\n" % (self._offset, sum_of(line).encode()))
        self._offset += len(line)
        self._has_structures |= any(portion.is_whole for portion in piece)
        return line

    def end(self, settings: Settings, made: str) -> bytes:
        """The index, the settings, and a line that says where the index begins and has the sums."""
        index, kind = b"".join(self._index), b"s" if self._has_structures else b"n"
        head = json.dumps({"form": FORM, "made": made, **settings}, sort_keys=True).encode() + b"\n"
        self.mark = _mark_of(settings, index)
        footer = b"%016x %016x %s %s" % (self._offset, len(self._index), kind, self.mark.encode())
        return index + head + footer + b" " + sum_of(index + head + footer).encode() + b"\n"


def _mark_of(settings: Settings, index: bytes) -> str:
    return sum_of(json.dumps(settings, sort_keys=True).encode() + index)


def write_plan(path: Path, settings: Settings, made: str, pieces: Iterable[list[Portion]]) -> None:
    """Writes a plan as its pieces come; it comes to its place once it is whole. The settings may be completed meanwhile."""
    writer, part = PlanWriter(), path.with_name(path.name + ".part")
    try:
        with open(part, "wb") as file:
            file.writelines(map(writer.line_of, pieces))
            file.write(writer.end(settings, made))
        part.replace(path)
    except BaseException:
        part.unlink(missing_ok=True)
        raise


class PiecesOfFile(Sequence[list[Portion]]):
    """The pieces of a plan in a file, each of which is read when it is asked for."""

    def __init__(self, path: Path, index: bytes, mark: str, has_structures: bool) -> None:
        self.path, self.lines, self.mark, self.has_structures = path, index, mark, has_structures
        self._file = os.open(path, os.O_RDONLY | os.O_CLOEXEC)

    def __del__(self) -> None:
        os.close(self._file)

    def __len__(self) -> int:
        return max(0, len(self.lines) // ENTRY - 1)

    @overload
    def __getitem__(self, place: int) -> list[Portion]: ...
    @overload
    def __getitem__(self, place: slice) -> list[list[Portion]]: ...
    def __getitem__(self, place: int | slice) -> list[Portion] | list[list[Portion]]:
        if isinstance(place, slice):
            return [self[k] for k in range(*place.indices(len(self)))]
        if not 0 <= place < len(self):
            raise IndexError(place)
        begin, of_line = self._entry(place)
        line = os.pread(self._file, self._entry(place + 1)[0] - begin, begin)  # it moves no offset of a fork
        if sum_of(line) != of_line:
            raise Failed(f"{self.path} was changed; take another folder")
        return [Portion(*portion) for portion in json.loads(line)]

    def _entry(self, place: int) -> tuple[int, str]:
        offset, of_line = self.lines[place * ENTRY:(place + 1) * ENTRY].decode().split()
        return int(offset, 16), of_line

    def __eq__(self, other: object) -> bool:
        return isinstance(other, Sequence) and list(self) == list(other)


def read_plan(path: Path) -> Plan:
    """The plan of a file, whose pieces are read when they are asked for. Failed if it is none, or not what was written."""
    try:
        return _read_plan(path)
    except (ValueError, TypeError, KeyError, AttributeError, IndexError, RecursionError):
        raise Failed(f"{path} is no plan of net_tool table, or was changed; take another folder") from None


def _read_plan(path: Path) -> Plan:
    with open(path, "rb") as file:
        size = os.path.getsize(path)
        file.seek(max(0, size - FOOTER))
        footer = file.read()
        begin, count, kind, mark, of_all = footer.decode("ascii").removesuffix("\n").split(" ")
        file.seek(int(begin, 16))
        index = file.read(ENTRY * int(count, 16))
        head = file.read(size - FOOTER - file.tell())
    if not footer.endswith(b"\n") or sum_of(index + head + footer[:footer.rindex(b" ")]) != of_all:
        raise ValueError
    settings = json.loads(head)
    form, made = settings.pop("form"), str(settings.pop("made"))
    if form != FORM or _mark_of(settings, index) != mark:
        raise ValueError
    last = b"%016x %s\n" % (int(begin, 16), b"0" * 16)
    return Plan(settings, PiecesOfFile(path, index + last, mark, kind == "s"), made)


def check_source(plan: Plan) -> None:
    """Failed if the source is not the one that was planned, SourceAway if a folder of it cannot be read. What was touched
    alone, or copied, is read and compared. A file that cannot be read, or is gone, is for the piece that has it."""
    at, source = plan.settings["at"], Path(plan.settings["source"])
    try:
        if state_of(files_of(source, at), at) == plan.settings["state"]:
            return
        _check_each(plan, list(files_of(source, at)), at)
    except OSError as fault:
        raise SourceAway.of(fault) from None


def _check_each(plan: Plan, files: list[str], at: str) -> None:
    """The same of a source of which something differs, file by file."""
    last = {portion.path: portion for piece in plan.pieces for portion in piece}  # of each file
    for file in files:
        portion = last.get(file)
        if portion is None:
            raise Failed(f"{file} was changed since, or is new; take another folder")
        try:
            if portion.kind != UNSEEN and changed(portion.size, file, at):
                raise Failed(f"{file} was changed since, or is new; take another folder")
        except OSError:  # which the piece that has it tells
            continue
    for piece in plan.pieces:
        for portion in piece:
            _check_bytes(portion, at)


def _check_bytes(portion: Portion, at: str) -> None:
    """Failed if the bytes are others; what cannot be read now is for the piece that has it."""
    try:
        portion.read(at)
    except SourceAway:
        pass


def pieces_of(files: Iterable[str], settings: Settings) -> Iterator[list[Portion]]:
    """The pieces of these files, each as large as one may be."""
    piece: list[Portion] = []
    structures = blocks = size = 0
    most_blocks = min(MOST_BLOCKS, MOST_LISTED) if has_topology(settings) else MOST_BLOCKS
    for portion, count in portions_of(files, settings.get("at", ""), most_blocks):
        if piece and (structures + portion.is_whole > MOST_STRUCTURES or blocks + count > most_blocks
                      or size + portion.length > MOST_BYTES):
            yield piece
            piece, structures, blocks, size = [], 0, 0, 0
        piece.append(portion)
        structures, blocks, size = structures + portion.is_whole, blocks + count, size + portion.length
    if piece:
        yield piece


def plan_of(files: Iterable[str], settings: Settings, made: str = "") -> Plan:
    """The plan for these files, held as a whole."""
    return Plan(settings, list(pieces_of(files, settings)), made)


def portions_of(files: Iterable[str], at: str, most_blocks: int) -> Iterator[tuple[Portion, int]]:
    """The portions of the files, with so many blocks at most, and how many blocks each has; what is read as a whole counts
    as none. A file that cannot be read has one that is read later."""
    for file in files:
        try:
            yield from _portions_of(file, path_from(file, at), most_blocks)
        except OSError:
            yield Portion(file, 0, 0, 0, UNSEEN, "", 0), 0


def _portions_of(file: str, path: str, most_blocks: int) -> Iterator[tuple[Portion, int]]:
    if content := is_read_whole(path):
        yield Portion(file, 0, content.length, 0, WHOLE, content.sum, content.length), 0
        return
    with open(path, "rb") as lines:
        size = os.fstat(lines.fileno()).st_size
        for part in parts_of(lines, most_blocks, MOST_BYTES):
            kind = AFTER_ITEM if part.after_item else BLOCKS
            yield Portion(file, part.offset, part.length, part.lines_before, kind, part.sum, size), part.blocks
