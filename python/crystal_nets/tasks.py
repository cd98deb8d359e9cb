"""What a worker does, in whatever process and on whatever machine: it reads some sources, asks the program, and gives back
answers. Names of keys are looked up by the caller; those of nets without a key are found here, where the search is."""

from __future__ import annotations

import os
from collections.abc import Iterable, Mapping
from dataclasses import dataclass, replace
from functools import cache, partial
from itertools import islice
from pathlib import Path
from typing import Any, Literal, NamedTuple

from .answers import COLUMNS, Answer, row_of
from .archive import Archive, default_files
from .asking import answered_in_time, identify_all, keys
from .errors import NotANet, PackageMissing, ProgramTimedOut, in_words
from .file_parts import FilePart
from .files import content_of_file
from .limits import in_time, within
from .net import Net
from .options import StructureOptions
from .outcome import failed, stopped
from .reading import nets_of_file, read
from .symbols import symbols_of
from .wide.archive import SUFFIX, WideArchive

Want = Literal["answers", "keys", "rows"]
Row = dict[str, Any]
Done = list[Answer | Row]  # of the nets of one source
ROW = ("source", *COLUMNS, "small_key")
NOT_SENT = Net.refused("it was not sent back")  # stands for a net that the caller has


class FolderFile(NamedTuple):
    """A file of a folder that was given as a source."""

    path: str


class Source(NamedTuple):
    """What is read, and its place among the sources; empty where there is one."""

    given: Any
    place: str = ""

    @property
    def name(self) -> str:
        """What it is called where nothing of it could be read."""
        given = self.given
        path = given.path if isinstance(given, (FilePart, FolderFile)) else given
        is_path = isinstance(path, os.PathLike) or (isinstance(path, str) and "\n" not in path)
        return os.path.basename(os.fsdecode(path)) if is_path else given.name if isinstance(given, Net) else ""


@dataclass(frozen=True)
class Asked:
    """What is asked of all sources.

    want     `answers` as of `identify`, `keys` as of `keys`, or `rows`, the columns of a table
    maps     whether nets without a key are looked for all the same
    wide     the archives of nets without a key, by the paths of their indices; None for those that the worker finds
    timeout  seconds for what is asked at once, and in the end for each net
    options  of structures"""

    want: Want
    maps: bool
    wide: tuple[str, ...] | None
    timeout: float | None
    options: StructureOptions


def done_of(sources: list[Source], asked: Asked) -> list[Done]:
    """The answers to the nets of each source, in their order. When the time is over, each half is asked by itself."""
    try:
        with within(asked.timeout):
            return in_time(partial(_done_of, sources, asked))
    except ProgramTimedOut:
        if len(sources) == 1:
            return [_done_one_by_one(sources[0], asked)]
        half = len(sources) // 2
        return done_of(sources[:half], asked) + done_of(sources[half:], asked)


def _done_of(sources: list[Source], asked: Asked) -> list[Done]:
    nets = [nets_of_source(source, asked.options) for source in sources]
    answers = iter(_ask([net for some in nets for net in some], asked))
    return [_told(source, list(islice(answers, len(some))), asked) for source, some in zip(sources, nets)]


def _done_one_by_one(source: Source, asked: Asked) -> Done:
    """The answers to a source whose nets take too long together; each that takes too long alone is stopped."""
    assert asked.timeout is not None
    if isinstance(source.given, Net):
        return _told(source, [Answer(source.given, stopped(asked.timeout), notes=source.given.notes)], asked)
    try:
        with within(asked.timeout):
            nets = in_time(partial(nets_of_source, source, asked.options))
    except ProgramTimedOut:
        outcome = stopped(asked.timeout)
        return _told(source, [Answer(_not_read(source, str(outcome)), outcome)], asked)
    return _told(source, answered_in_time(partial(_ask, asked=asked), nets, asked.timeout), asked)


def _ask(nets: list[Net], asked: Asked) -> Iterable[Answer]:
    ask = keys if asked.want == "keys" else identify_all
    return ask(nets, wide_of(asked.wide), maps=asked.maps)


def _told(source: Source, answers: list[Answer], asked: Asked) -> Done:
    """The answers as they are sent back, without what the caller has."""
    if asked.want == "rows":
        return [row_as_sent(answer) for answer in answers]
    return [replace(answer, net=NOT_SENT) for answer in answers] if isinstance(source.given, Net) else list(answers)


def not_done(source: Source, asked: Asked, tries: int, reason: str) -> Done:
    """What stands for a source whose work failed each time."""
    net = source.given if isinstance(source.given, Net) else _not_read(source, reason)
    return _told(source, [Answer(net, failed(tries, reason), notes=net.notes)], asked)


def nets_of_source(source: Source, options: StructureOptions) -> list[Net]:
    """The nets of a source; one with the reason if it cannot be read. Each knows the place of its source."""
    try:
        nets = _read(source.given, options)
    except (NotANet, PackageMissing, OSError) as reason:
        nets = [_not_read(source, in_words(reason))]
    return [net.of_provenance(net.provenance.read_from(source=source.place)) for net in nets]


def _not_read(source: Source, reason: str) -> Net:
    net = Net.refused(reason, source.name)
    return net.of_provenance(net.provenance.read_from(source=source.place))


def _read(given: Any, options: StructureOptions) -> list[Net]:
    if isinstance(given, FilePart):
        return given.nets()
    if isinstance(given, FolderFile):
        nets = nets_of_file(content_of_file(given.path), os.path.basename(given.path), options)
        return [net.of_provenance(net.provenance.read_from(given.path)) for net in nets]
    return read(given, **options)


def wide_paths(archive: Archive | None) -> tuple[str, ...]:
    """The indices of the archives of nets without a key of an archive."""
    return archive.wide_indices if archive else ()


def wide_of(paths: tuple[str, ...] | None) -> Archive | None:
    """The archives of nets without a key alone; those that are found here, if none are named."""
    found = tuple(str(path) for path in default_files() if path.suffix == SUFFIX) if paths is None else paths
    return _loaded(found) if found else None


@cache
def _loaded(paths: tuple[str, ...]) -> Archive:
    return Archive((), [WideArchive(Path(path)) for path in paths])


def as_answered(done: Done, source: Source, archive: Archive | None) -> Done:
    """What was sent back, with the net that the caller has, and with the names of its key."""
    return [_row_named(one, archive) if isinstance(one, dict) else _answer_named(one, source, archive) for one in done]


def _answer_named(answer: Answer, source: Source, archive: Archive | None) -> Answer:
    if isinstance(source.given, Net):
        net = source.given.of_provenance(source.given.provenance.read_from(source=source.place))
        answer = replace(answer, net=net)
    if archive is None:
        return answer
    if answer.accepted:
        return replace(answer, names=archive.names(answer.key))
    if answer.small is None:
        return answer
    names = archive.names(answer.small.key)
    naming = replace(answer.naming, names=names, small=replace(answer.small, names=names))
    return replace(answer, names=names, naming=naming)


def row_as_sent(answer: Answer) -> Row:
    """The columns of `to_pandas` beside the source, and the key of the smaller cell, if the net has one there alone."""
    values = (answer.net.provenance.source, *row_of(answer), answer.small.key if answer.small else "")
    return dict(zip(ROW, values, strict=True))


def _row_named(row: Row, archive: Archive | None) -> Row:
    key = row["key"] or row["small_key"]
    if archive is None or not key:
        return row
    names = archive.names(key)
    return {**row, "names": "; ".join(names), "symbol": next(iter(symbols_of(names)), "")}


def options_known(options: Mapping[str, object]) -> str:
    """The options as a journal has them."""
    return repr(sorted((name, sorted(map(str, value)) if isinstance(value, (set, frozenset)) else str(value))
                       for name, value in options.items()))
