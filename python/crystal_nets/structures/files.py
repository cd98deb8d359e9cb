"""Which files are read, and what they are named."""

from __future__ import annotations

import os
from collections import Counter
from collections.abc import Callable, Iterable, Iterator
from pathlib import Path, PurePath
from typing import NamedTuple

from ..files import walked
from ..formats import STRUCTURE_SUFFIXES, is_passed_over, is_structure_file, stem_of
from ..kinds import told_passed_over
from .conversion import Source


class Given(NamedTuple):
    """A file that was named, or one that was found in a folder that was."""

    path: str
    is_found: bool


def files_of(arguments: Iterable[str], tell: Callable[[str], object] = lambda line: None) -> Iterator[Given]:
    """The files themselves, and of folders all structure files in them and below, by their names. A folder that cannot
    be read stands among them, since it is reported as a file that cannot be read. Structures of other kinds are reported."""
    for argument in arguments:
        if argument == "-" or not os.path.isdir(argument):
            yield Given(argument, False)
            continue
        away: list[OSError] = []
        passed: list[str] = []
        for folder, names in walked(argument, away.append):
            yield from (Given(os.path.join(folder, name), True) for name in names if is_structure_file(name))
            passed += [name for name in names if is_passed_over(name, STRUCTURE_SUFFIXES)]
        if passed:
            tell(f"{argument}: {told_passed_over(passed)}")
        yield from (Given(os.fsdecode(fault.filename), True) for fault in away)


def sources_of(files: list[Given]) -> list[Source]:
    """The files with their names: those of one stem keep as much of their folders as tells them apart."""
    paths = [Path("stdin" if file.path == "-" else file.path) for file in files]
    stems = [_stem(path) for path in paths]
    return [Source(file.path, _tail(path, n), _tail(stem, n), file.is_found)
            for file, path, stem, n in zip(files, paths, stems, _depths(stems))]


def _stem(path: Path) -> Path:
    """The path without the ending of its name, and without that of gzip before. That of POSCAR.2 stays."""
    plain = path.with_suffix("") if path.suffix.lower() == ".gz" else path
    return plain.with_name(stem_of(plain.name)) if plain.name else plain


def _depths(stems: list[Path]) -> list[int]:
    """Of each path how many of its last parts no other path ends with; all of it, where there is another like it."""
    depth = [1] * len(stems)
    open_ones = list(range(len(stems)))
    while open_ones:
        count = Counter(_tail(stems[k], depth[k]) for k in open_ones)
        open_ones = [k for k in open_ones
                     if count[_tail(stems[k], depth[k])] > 1 and depth[k] < len(stems[k].parts)]
        for k in open_ones:
            depth[k] += 1
    return depth


def _tail(path: PurePath, parts: int) -> str:
    return str(PurePath(*path.parts[-parts:])) if path.parts else ""
