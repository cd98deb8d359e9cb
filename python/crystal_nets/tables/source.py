"""The files of a source, and whether they are still those that were planned."""

from __future__ import annotations

import hashlib
import os
import stat
from collections.abc import Callable, Iterable, Iterator
from pathlib import Path
from typing import NoReturn

from ..errors import in_words
from ..files import walked
from ..formats import SUFFIXES, is_known, is_passed_over
from ..kinds import MOST_SHOWN, told_passed_over


class Failed(Exception):
    """Nothing can be done, for this reason."""


class SourceAway(Exception):
    """A file of the source cannot be read now, for this reason; it may be there again later."""

    @classmethod
    def of(cls, fault: OSError) -> SourceAway:
        return cls(f"{in_words(fault)}; the same command tries again")


def files_of(source: Path, at: str = "", tell: Callable[[str], object] = lambda line: None) -> Iterator[str]:
    """The file, or all files of a folder and below whose endings are known, by their names. The source is given from
    a folder, and so are the files. Structures of other kinds are reported in the end. OSError if a folder cannot be read."""
    top = os.path.join(at, source)
    if not os.path.isdir(top):
        yield str(source)
        return
    passed, count = list[str](), 0
    for folder, names in walked(top, _raise):
        inner = str(source / os.path.relpath(folder, top))
        before = "" if inner == "." else inner.rstrip("/") + "/"
        for name in names:
            if is_known(name):
                yield before + name
            elif is_passed_over(name, SUFFIXES):
                count += 1
                passed += [name] * (count <= MOST_SHOWN)
    if passed:
        tell(f"{source}: {told_passed_over(passed, count)}")


def path_from(file: str, at: str) -> str:
    """The path of a file that is given from a folder. In a large one os.path.join takes as long as opening does."""
    return f"{at}/{file}" if at and not file.startswith("/") else file


def _raise(fault: OSError) -> NoReturn:
    raise fault


class State:
    """A sum of the names, sizes and times of files, which is another one if a file was added, taken away or changed.

    count  how many files there are"""

    def __init__(self) -> None:
        self.count = 0
        self._told = hashlib.sha256()

    def take(self, file: str, path: str) -> None:
        """Failed if it is a pipe or a device, which is not read twice. One that cannot be looked at is counted as such."""
        self.count += 1
        try:
            status = os.stat(path)
        except OSError as fault:
            self._told.update(f"{file}\0{fault.errno}\n".encode(errors="surrogateescape"))
            return
        if not stat.S_ISREG(status.st_mode):
            raise Failed(f"{file} is no file, but a pipe or a device")
        self._told.update(f"{file}\0{status.st_size}\0{status.st_mtime_ns}\n".encode("utf-8", "surrogateescape"))

    @property
    def sum(self) -> str:
        """16 digits."""
        return self._told.hexdigest()[:16]


def state_of(files: Iterable[str], at: str = "") -> str:
    """The sum of the state of these files."""
    state = State()
    for file in files:
        state.take(file, path_from(file, at))
    return state.sum


def changed(size: int, file: str, at: str) -> bool:
    """Whether a file that is there has another size than this one. OSError if it cannot be looked at."""
    return os.stat(os.path.join(at, file)).st_size != size
