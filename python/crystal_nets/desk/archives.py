"""The archives by their files, each with its names or the reason why it is not read."""

from __future__ import annotations

from collections.abc import Iterator
from dataclasses import dataclass
from functools import cache
from pathlib import Path

from ..archive import Archive, default_files
from ..errors import CrystalNetsError
from ..files import content_of_file


@dataclass(frozen=True)
class Shelf:
    """An archive under the stem of its file; the reason stands where it is not read."""

    stem: str
    archive: Archive | None
    reason: str = ""


@cache
def shelves() -> tuple[Shelf, ...]:
    """The archives beside the package, and those of the user. They are loaded once."""
    return tuple(map(_shelf, default_files()))


def _shelf(path: Path) -> Shelf:
    try:
        content_of_file(path, 0)  # a pipe is reported, and not waited for
        return Shelf(path.stem, Archive.load(path))
    except (CrystalNetsError, OSError) as reason:
        return Shelf(path.stem, None, str(reason))


def names_of(key: str) -> list[tuple[str, str]]:
    """The names of exactly the nets with this key, each with the stem of its archive."""
    return [(shelf.stem, name) for shelf in shelves() if shelf.archive for name in shelf.archive.names(key)]


def names_without_key(names: tuple[str, ...]) -> list[tuple[str, str]]:
    """These names of nets without a key, each with the stem of its archive."""
    return [(shelf.stem, name) for shelf in shelves() if shelf.archive for name in names
            if name in shelf.archive.without_key]


class AllShelves:
    """All archives together, for the search for nets without a key."""

    def names(self, key: str) -> tuple[str, ...]:
        return tuple(name for _, name in names_of(key))

    def wide_blocks(self, index: str) -> Iterator[bytes]:
        return (block for shelf in shelves() if shelf.archive for block in shelf.archive.wide_blocks(index))


def told_shelves() -> list[dict]:
    """What the page tells of the archives: stem, number of names, reason."""
    return [{"stem": shelf.stem, "names": len(shelf.archive) if shelf.archive else 0, "reason": shelf.reason}
            for shelf in shelves()]
