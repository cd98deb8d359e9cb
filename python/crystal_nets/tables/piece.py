"""The rows of one piece, kept in a file with a sum of its content, so that a file that is cut is known."""

from __future__ import annotations

import hashlib
import os
from collections.abc import Callable, Iterable, Iterator, Mapping
from functools import partial
from pathlib import Path
from typing import NamedTuple

from ..answers import Answer, short_outcome
from ..asking import answered_in_time, identify_all, keys
from ..errors import NotANet, PackageMissing, ProgramTimedOut
from ..file_parts import chunks_of_part, refused_at
from ..files import write_whole
from ..limits import in_time, within
from ..net import Net
from ..outcome import stopped
from ..reading import net_of_chunk, nets_of_file
from ..texts.net_text import Chunk
from .columns import OF_A_PIECE, escaped, joined, line_of
from .listed import NOTHING, listed
from .plan import AFTER_ITEM, FORM, Piece, Plan, Portion, Settings, has_topology
from .source import SourceAway

COMPLETE, LACKING, GONE = "complete", "lacks", "gone"  # whether all of a piece was read


def path_of(folder: Path, number: int) -> Path:
    return folder / f"{number:06}.rows"


class Read(NamedTuple):
    """What is read of a portion of a file.

    missed   why a part of it is not read: a package is missing; empty if none is
    is_gone  whether the file is no longer there"""

    nets: list[Net]
    missed: str = ""
    is_gone: bool = False


class Made(NamedTuple):
    """What is to be reported of a piece, a line for each file: those that lack a package, and those that are gone."""

    lacking: list[str]
    gone: list[str]


def make_rows(path: Path, piece: Piece) -> Made:
    """Writes the rows of a piece."""
    settings = piece.settings
    reads = [(portion.path, read_in_time(portion, settings)) for portion in piece.portions]
    answers = _answers([net for _, read in reads for net in read.nets], settings)
    sources = [path for path, read in reads for _ in read.nets]
    made = Made([f"{path}: {read.missed}" for path, read in reads if read.missed],
                [f"{path}: {read.nets[0].refusal}" for path, read in reads if read.is_gone])
    content = b"".join(_row(source, answer, _topology_of(answer, settings))
                       for source, answer in zip(sources, answers, strict=True))
    kind = LACKING if made.lacking else GONE if made.gone else COMPLETE
    write_whole(path, with_head(piece.mark, content, piece.made, kind))
    return made


def _topology_of(answer: Answer, settings: Settings) -> tuple[str, ...]:
    """The fields of what databases list, if it is asked for; they are empty when the seconds of the net are over."""
    if not has_topology(settings):
        return NOTHING
    try:
        with within(settings["seconds"]):
            return listed(answer)
    except ProgramTimedOut:
        return NOTHING


def _answers(nets: list[Net], settings: Settings) -> list[Answer]:
    """The answers; that to a net which takes more than its seconds is stopped."""
    def ask(some: list[Net]) -> Iterable[Answer]:
        return identify_all(some, archive=None) if settings["command"] == "identify" else keys(some)

    return answered_in_time(ask, nets, settings["seconds"])


def rows_of(folder: Path, plan: Plan, number: int, is_final: bool = False) -> list[bytes] | None:
    """The rows of a piece, each with its line feed; None if they are not there, or not whole, of another plan, or made by
    other tools. If final ones are asked for, it is None also if a package was missing for some, or a file was gone."""
    try:
        content = path_of(folder, number).read_bytes()
    except FileNotFoundError:
        return None
    head, _, rows = content.partition(b"\n")
    heads = [_head(plan.mark, rows, plan.made, kind) for kind in ((COMPLETE,) if is_final else (COMPLETE, LACKING, GONE))]
    return rows.splitlines(keepends=True) if head + b"\n" in heads else None


def was_gone(folder: Path, number: int) -> bool:
    """Whether a file of a piece was gone when its rows were made."""
    try:
        with open(path_of(folder, number), "rb") as rows:
            return GONE.encode() in rows.readline().split()
    except OSError:
        return False


def with_head(mark: str, rows: bytes, made: str = "", kind: str = "complete") -> bytes:
    """The rows as a file of them has them, under a plan's mark, by what they are made, whether they are all that there is,
    and a sum."""
    return _head(mark, rows, made, kind) + rows


def _head(mark: str, rows: bytes, made: str, kind: str) -> bytes:
    return f"{FORM} {mark} {made or '-'} {kind} {hashlib.sha256(rows).hexdigest()}\n".encode()


def read_in_time(portion: Portion, settings: Settings) -> Read:
    """The nets of a portion. What is in no form is a refusal in its place, and so is what needs a package that is missing.
    When the seconds of a net are over, each block is read by itself, and one that takes longer alone is a refusal too."""
    content = portion.read(settings["at"])
    if isinstance(content, OSError):
        if portion.path == settings["source"]:
            raise SourceAway.of(content)
        return Read([Net.refused(f"it is not there: {content.strerror}")], is_gone=True)
    units = list(_units_of(portion, content, settings))
    found = _all_in_time(units, settings["seconds"])
    if not found.nets and portion.offset == 0:
        return Read([Net.refused("there is no net in it")])
    return found


def _all_in_time(units: list[Callable[[], Read]], seconds: float | None) -> Read:
    try:
        with within(seconds):
            return in_time(partial(_joined, units))
    except ProgramTimedOut:
        assert seconds is not None
        if len(units) == 1:
            return Read([Net.refused(str(stopped(seconds)))])
        half = len(units) // 2
        return _joined([partial(_all_in_time, some, seconds) for some in (units[:half], units[half:])])


def _joined(units: Iterable[Callable[[], Read]]) -> Read:
    reads = [read() for read in units]
    return Read([net for read in reads for net in read.nets], next((read.missed for read in reads if read.missed), ""))


def _units_of(portion: Portion, content: bytes, settings: Settings) -> Iterator[Callable[[], Read]]:
    """What is read by itself: a file as a whole, or a block of a portion."""
    if portion.is_whole:
        options = {**settings["options"], "leave_out": frozenset(settings["options"].get("leave_out", ()))}
        yield partial(_read_whole, content, os.path.basename(portion.path), options)
        return
    for chunk in chunks_of_part(content, portion.lines_before, portion.kind == AFTER_ITEM):
        yield partial(_read_block, chunk)


def _read_whole(content: bytes, file: str, options: Mapping[str, object]) -> Read:
    try:
        return Read(nets_of_file(content, file, options))
    except (NotANet, PackageMissing) as reason:  # it is damaged, or a text of another kind begins there
        return Read([Net.refused(str(reason))], str(reason) if isinstance(reason, PackageMissing) else "")


def _read_block(chunk: Chunk) -> Read:
    try:
        return Read([net_of_chunk(chunk)])
    except (NotANet, PackageMissing) as reason:  # a text of another kind begins there
        return Read([refused_at(chunk, str(reason))], str(reason) if isinstance(reason, PackageMissing) else "")


def _row(source: str, answer: Answer, of_topology: tuple[str, ...]) -> bytes:
    """The row of an answer, with the fields of its topology. Of a net that is looked for in archives of nets without a key it
    has the block."""
    sizes = (answer.net.provenance.line, answer.dimension, answer.vertices, answer.edges, answer.classes, answer.denominator)
    copies = str(answer.copies) if answer.vertices else ""
    at, dimension, vertices, edges, classes, scale = (str(size or "") for size in sizes)
    sequences = ";".join(" ".join(map(str, sequence)) for sequence in sorted(set(answer.sequences)))
    reason = "" if answer.accepted else str(answer.outcome)
    small_key = answer.small.key if answer.small else ""
    block = answer.net.block.decode(errors="surrogateescape") if answer.index and not small_key else ""
    fields = (escaped(source), at, escaped(answer.name), short_outcome(answer.outcome), dimension, vertices, edges, classes,
              scale, copies, answer.key, sequences, *_of_reading(answer.net), escaped(reason), str(answer.by), answer.index,
              small_key, escaped(answer.certificate), escaped(block), *of_topology)
    assert len(fields) == len(OF_A_PIECE)
    return line_of(fields)


def _of_reading(net: Net) -> tuple[str, ...]:
    """How the net was read, in the order of OF_READING: doubts and what was left out stand apart from the other notes."""
    provenance = net.provenance
    return (provenance.convention, joined(provenance.doubts), joined(provenance.left_out),
            joined(tuple(map(str, provenance.components))), joined(provenance.remarks))
