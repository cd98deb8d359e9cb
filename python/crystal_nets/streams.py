"""Answers as they come, of more nets than are to be held at once, by the processes of this machine or by any executor."""

from __future__ import annotations

import os
from collections import deque
from collections.abc import Iterable, Iterator, Sized
from concurrent.futures import BrokenExecutor, Executor, Future
from contextlib import ExitStack, suppress
from importlib import import_module
from itertools import chain
from pathlib import Path
from typing import Any, Literal, Unpack, overload

from .answers import Answer
from .apart import forked
from .archive import Archive
from .asking import DEFAULT, Archives, archive_of
from .errors import NotAnArchive, NotAnOption, ProgramFailed, ProgramNotFound, ProgramTimedOut
from .file_parts import FilePart, is_read_whole, parts_of
from .formats import is_known, is_structure_file
from .journal import Journal
from .net import Net
from .options import StructureOptions, check_options, processes_of
from .reading import read
from .sources import has_several, is_work
from .tasks import Asked, Done, FolderFile, Row, Source, Want, as_answered, done_of, not_done, wide_of, wide_paths
from .texts.net_text import MOST_BYTES

PIECE = 64    # sources that a process of this machine is given at once
LIGHT = 4     # nets, which take less time, that count as one of them
AHEAD = 2     # tasks for each of them
MOST_OF_TASK = 1 << 22  # bytes of the sources of a task that are held in memory
SMALL_FILE = 1 << 20    # bytes of a file of nets that is a source by itself among others
Numbered = tuple[int, Source]


@overload
def identify_each(sources: Any, archive: Archives = DEFAULT, processes: int | None = 1, progress: bool = False, *,
                  executor: Executor | None = None, want: Literal["answers", "keys"] = "answers", size: int = 128,
                  ahead: int = 16, retries: int = 2, journal: str | os.PathLike[str] | None = None, maps: bool = True,
                  timeout: float | None = None, **options: Unpack[StructureOptions]) -> Iterator[Answer]: ...
@overload
def identify_each(sources: Any, archive: Archives = DEFAULT, processes: int | None = 1, progress: bool = False, *,
                  executor: Executor | None = None, want: Literal["rows"], size: int = 128, ahead: int = 16,
                  retries: int = 2, journal: str | os.PathLike[str] | None = None, maps: bool = True,
                  timeout: float | None = None, **options: Unpack[StructureOptions]) -> Iterator[Row]: ...
def identify_each(sources: Any, archive: Archives = DEFAULT, processes: int | None = 1, progress: bool = False, *,
                  executor: Executor | None = None, want: Want = "answers", size: int = 128, ahead: int = 16,
                  retries: int = 2, journal: str | os.PathLike[str] | None = None, maps: bool = True,
                  timeout: float | None = None, **options: Unpack[StructureOptions]) -> Iterator[Any]:
    """The answers to the nets of a source, or of many, in their order, as they come. Sources are taken when there is room for
    them. A source that cannot be read is answered as `unreadable`.

    sources    as of `identify_all`: an iterable of sources, or one source; a long file of nets is read in parts
    processes  of this machine that read and ask, if there is no executor; as many as processors, if None. When the answers
               are no longer asked for, they end at once. Each is given 64 files or 256 nets at most, and two such tasks are taken ahead
    progress   shows how many nets are done, by tqdm if that is there
    executor   does the tasks in place of such processes: a `ProcessPoolExecutor`, `client.get_executor()` of
               `dask.distributed`, an `MPIPoolExecutor` of `mpi4py.futures`. Its workers have this package, the program and
               the files of the sources, under the same paths
    want       `answers`; `keys`, as `keys` gives them, which takes less time; or `rows`: dicts of the columns of `to_pandas`,
               with `source` and `small_key`
    size       sources, or nets of a long file, of a task of an executor
    ahead      tasks that an executor has at most: so many are held
    retries    how often a task that fails is tried again. Then each half is tried by itself, and one source that fails
               alone is answered as `stopped`. An executor that is broken or was shut down is raised as BrokenExecutor
    journal    a file that keeps what was done: the same call with it goes on from there
    maps       whether nets without a key are looked for all the same
    timeout    seconds for a task; when they are over, each half is asked by itself, and a net that takes longer alone is
               answered as `stopped`

    >>> squares = (Net([(1, 1, (1, k)), (1, 1, (0, 1))]) for k in range(1, 4))
    >>> [answer.primitive.vertices for answer in identify_each(squares, archive=None)]
    [1, 1, 1]"""
    check_options(options)
    count = processes_of(processes)
    if timeout is not None and not timeout > 0:
        raise ValueError(f"timeout is {timeout}, and not more than 0")
    if want not in ("answers", "keys", "rows"):
        raise ValueError(f"want is {want!r}, and not answers, keys or rows")
    for word, number, least in (("size", size, 1), ("ahead", ahead, 1), ("retries", retries, 0)):
        if isinstance(number, bool) or not isinstance(number, int) or number < least:
            raise ValueError(f"{word} is {number!r}, and not a whole number from {least} on")
    if hasattr(sources, "read"):  # an open file, which no other process can read
        sources = read(sources, **options)
    known = archive_of(archive)
    asked = Asked(want, maps, None if archive is DEFAULT else wide_paths(known), timeout, options)
    if executor is None:
        size, ahead = PIECE * LIGHT, min(ahead, AHEAD * count)
        wide_of(asked.wide)  # loaded once, and not in each process, as what names are found by
        import_module(".wide.naming", __package__)
    tasks = _tasks(enumerate(_each_source(sources, size)), size, LIGHT if executor is None else 1)
    return _each(tasks, asked, known, executor or count, ahead, retries, journal, _bar(sources) if progress else None)


def _each(tasks: Iterator[list[Numbered]], asked: Asked, archive: Archive | None, workers: Executor | int, ahead: int,
          retries: int, journal: str | os.PathLike[str] | None, bar: Any) -> Iterator[Any]:
    from . import __version__
    with ExitStack() as stack:
        if bar is not None:
            stack.callback(bar.close)
        kept = stack.enter_context(Journal(journal, asked, __version__)) if journal is not None else None
        executor = stack.enter_context(forked(workers)) if isinstance(workers, int) else workers
        for source, done in _Stream(executor, asked, ahead, retries, kept).each(tasks):
            if bar is not None:
                bar.update(len(done))
            yield from as_answered(done, source, archive)


class _Stream:
    """Tasks that an executor does, so many ahead, and what becomes of those that fail."""

    def __init__(self, executor: Executor, asked: Asked, ahead: int, retries: int, journal: Journal | None) -> None:
        self.executor, self.asked, self.ahead, self.retries, self.journal = executor, asked, ahead, retries, journal
        self.waiting: deque[_Task] = deque()

    def each(self, tasks: Iterable[list[Numbered]]) -> Iterator[tuple[Source, Done]]:
        """The sources in their order, each with what was done of it."""
        try:
            for task in tasks:
                self.waiting.append(_Task(self, task))
                if len(self.waiting) >= self.ahead:
                    yield from self.waiting.popleft().results()
            while self.waiting:
                yield from self.waiting.popleft().results()
        except BrokenExecutor:
            for one in self.waiting:
                one.keep_if_done()
            raise
        finally:
            for one in self.waiting:
                one.cancel()

    def submit(self, sources: list[Source]) -> Future[list[Done]]:
        """BrokenExecutor if it takes nothing more, as one that was shut down: no source is to blame for that."""
        try:
            return self.executor.submit(done_of, sources, self.asked)
        except BrokenExecutor:
            raise
        except RuntimeError as fault:
            raise BrokenExecutor(f"the executor takes no more tasks: {fault}") from fault

    def tried(self, sources: list[Source], times: int, reason: Exception) -> list[Done]:
        """What was done of sources whose work failed: as a whole, so many times, then in halves, and last one by one."""
        for _ in range(times):
            try:
                return self.submit(sources).result()
            except Exception as fault:
                reason = _harmless(fault)
        if len(sources) == 1:
            return [not_done(sources[0], self.asked, 1 + self.retries, f"{type(reason).__name__} {reason}".strip())]
        half = len(sources) // 2
        return [one for some in (sources[:half], sources[half:])
                for one in self.tried(some, self.retries + 1 if len(some) == 1 else 1, reason)]


class _Task:
    """Sources that are asked for at once, but for those that the journal has."""

    def __init__(self, stream: _Stream, sources: list[Numbered]) -> None:
        self.stream, self.sources = stream, sources
        journal = stream.journal
        self.known = {place: done for place, source in sources if journal and (done := journal.done(place, source)) is not None}
        self.missing = [(place, source) for place, source in sources if place not in self.known]
        self.future = stream.submit([source for _, source in self.missing]) if self.missing else None

    def results(self) -> Iterator[tuple[Source, Done]]:
        if self.future is not None:
            try:
                found = self.future.result()
            except Exception as fault:
                found = self.stream.tried([source for _, source in self.missing], self.stream.retries, _harmless(fault))
            self._keep(found)
        for place, source in self.sources:
            yield source, self.known.pop(place)

    def _keep(self, found: list[Done]) -> None:
        for (place, source), done in zip(self.missing, found, strict=True):
            self.known[place] = done
            if self.stream.journal:
                self.stream.journal.keep(place, source, done)
        if self.stream.journal:
            self.stream.journal.flush()

    def keep_if_done(self) -> None:
        """Keeps what is done already, behind a task that was not."""
        with suppress(Exception):
            if self.stream.journal and self.future is not None and self.future.done():
                self._keep(self.future.result())

    def cancel(self) -> None:
        if self.future is not None:
            self.future.cancel()


def _harmless(fault: Exception) -> Exception:
    """The fault, if what failed may be tried again. It is raised if the executor is broken, or what was asked is wrong: no
    program, one that gives no report, or a word that is none."""
    is_no_report = isinstance(fault, ProgramFailed) and not isinstance(fault, ProgramTimedOut) and fault.status == 0
    if is_no_report or isinstance(fault, (BrokenExecutor, ProgramNotFound, NotAnOption, NotAnArchive, TypeError)):
        raise fault
    return fault


def _tasks(sources: Iterator[Numbered], size: int, of_file: int) -> Iterator[list[Numbered]]:
    """The sources in tasks of so many nets and bytes at most, where a file or a structure counts as so many nets."""
    task: list[Numbered] = []
    nets = held = 0
    for place, source in sources:
        given = source.given
        count = given.part.blocks if isinstance(given, FilePart) else of_file if is_work(given) else 1
        more = len(given.block) if isinstance(given, Net) else len(given) if isinstance(given, (str, bytes)) else 0
        if task and (nets + count > size or held + more > MOST_OF_TASK):
            yield task
            task, nets, held = [], 0, 0
        task.append((place, _as_sent(source)))
        nets, held = nets + count, held + more
    if task:
        yield task


def _as_sent(source: Source) -> Source:
    """A source without what can be found anew: of a net its block is sent alone."""
    given = source.given
    if isinstance(given, Net) and not given.refusal:
        return source._replace(given=Net._of(given.block, given.name, given.provenance))
    return source


def _each_source(sources: Any, size: int) -> Iterator[Source]:
    """The sources in their order. A folder is its files, and a long file of nets its parts."""
    if not has_several(sources):
        return _of_one(sources, "", size)
    return chain.from_iterable(_of_several(one, str(place), size) for place, one in enumerate(sources))


def _of_several(given: Any, place: str, size: int) -> Iterator[Source]:
    path = _path_of(given)
    try:
        is_long = path is not None and (path.is_dir() or path.stat().st_size > SMALL_FILE)
    except (OSError, ValueError):  # which the answer tells
        is_long = False
    return _of_one(given, place, size) if is_long else iter((Source(given, place),))


def _of_one(given: Any, place: str, size: int) -> Iterator[Source]:
    path = _path_of(given)
    if path is None:
        return iter((Source(given, place),))
    if path.is_dir():
        files = (file for file in sorted(path.iterdir()) if is_known(file.name) and not file.is_dir())
        return (source for file in files for source in _of_file(file, place, size, True))
    path.stat()  # OSError at once, if there is none
    return _of_file(path, place, size, False)


def _of_file(file: Path, place: str, size: int, is_of_folder: bool) -> Iterator[Source]:
    if is_structure_file(file.name) or not file.is_file() or is_read_whole(str(file)):
        yield Source(FolderFile(str(file)) if is_of_folder else str(file), place)
        return
    with open(file, "rb") as lines:
        for part in parts_of(lines, size, MOST_BYTES):
            yield Source(FilePart(str(file), part), place)


def _path_of(given: Any) -> Path | None:
    """The path that a source is; None if it is something else."""
    is_path = isinstance(given, os.PathLike) or (isinstance(given, str) and "\n" not in given and given.strip() != "")
    return Path(given) if is_path and "\0" not in os.fspath(given) else None


def _bar(sources: Any) -> Any:
    """A bar of tqdm; None if that is not there."""
    with suppress(ModuleNotFoundError):
        from tqdm import tqdm
        return tqdm(total=len(sources) if isinstance(sources, Sized) and has_several(sources) else None, unit="net")
    return None
