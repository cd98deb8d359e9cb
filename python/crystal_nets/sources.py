"""The nets of many sources, read in several processes: structures take most of the time of an answer."""

from __future__ import annotations

import multiprocessing
import os
from collections import deque
from collections.abc import Iterable, Iterator, Mapping
from concurrent.futures import Future, ProcessPoolExecutor
from itertools import islice
from typing import Any

from .errors import NotANet, PackageMissing
from .net import Net
from .options import StructureOptions
from .other_forms import is_structure
from .reading import read
from .side_by_side import end_with_parent

AT_ONCE = 4  # sources that a process is given at once
AHEAD = 3    # times so many for each process are taken before their nets are asked for
Read = list[list[Net] | Exception]


def has_several(sources: Any) -> bool:
    """Whether it is an iterable of sources, and no source itself, as a path, a text, a structure or a graph is."""
    return (isinstance(sources, Iterable) and not isinstance(sources, (str, bytes, os.PathLike, Mapping, Net))
            and not hasattr(sources, "read") and not hasattr(sources, "get_scaled_positions") and not hasattr(sources, "frac_coords")
            and not hasattr(sources, "is_directed"))


def each_read(sources: Iterable[Any], options: StructureOptions, processes: int = 1) -> Iterator[list[Net]]:
    """The nets of each source, in their order. NotANet, PackageMissing or OSError, if one cannot be read."""
    for nets in _each(sources, options, processes):
        if isinstance(nets, Exception):
            raise nets
        yield nets


def _each(sources: Iterable[Any], options: StructureOptions, processes: int) -> Iterator[list[Net] | Exception]:
    pieces = _pieces_of(sources)
    if processes == 1:
        for piece in pieces:
            yield from _read_all(piece, options)
        return
    # the processes are forked before any thread of this call begins
    with ProcessPoolExecutor(processes, multiprocessing.get_context("fork"), end_with_parent, (os.getpid(),)) as pool:
        waiting: deque[Future[Read] | Read] = deque()
        try:
            for piece in pieces:
                takes_long = any(map(is_work, piece))
                waiting.append(pool.submit(_read_all, piece, options) if takes_long else _read_all(piece, options))
                if len(waiting) >= AHEAD * processes:
                    yield from _result_of(waiting.popleft())
            while waiting:
                yield from _result_of(waiting.popleft())
        finally:
            pool.shutdown(wait=False, cancel_futures=True)


def _pieces_of(sources: Iterable[Any]) -> Iterator[list[Any]]:
    given = iter(sources)
    while piece := list(islice(given, AT_ONCE)):
        yield piece


def _result_of(read: Future[Read] | Read) -> Read:
    return read.result() if isinstance(read, Future) else read


def _read_all(piece: list[Any], options: StructureOptions) -> Read:
    """What is read of each source, or why it cannot be."""
    found: Read = []
    for source in piece:
        try:
            found.append(read(source, **options))
        except (NotANet, PackageMissing, OSError) as reason:
            found.append(reason)
    return found


def is_work(source: Any) -> bool:
    """Whether a source is a file, a text or a structure, which a process reads; nets and edges are read at once."""
    return (isinstance(source, (str, bytes, os.PathLike)) or hasattr(source, "get_scaled_positions")
            or hasattr(source, "frac_coords") or (isinstance(source, Mapping) and is_structure(source)))
