"""Lines sorted by the command `sort`, which uses the disk where they are many."""

from __future__ import annotations

import contextlib
import os
import subprocess
from collections.abc import Iterable, Iterator
from pathlib import Path


def sorted_lines(lines: Iterable[bytes], *fields: str) -> Iterator[bytes]:
    """The lines, whose fields are parted by tabs, in the order of these fields, as `sort -k` has them; bytes are
    compared as they are. OSError where `sort` fails."""
    yield from _sorted([], lines, fields)


def merged_lines(files: Iterable[Path], *fields: str) -> Iterator[bytes]:
    """The lines of files that are sorted so each, in that order."""
    names = b"".join(os.fsencode(file) + b"\0" for file in files)
    if names:
        yield from _sorted(["-m", "--files0-from=-"], [names], fields)


def _sorted(words: list[str], given: Iterable[bytes], fields: Iterable[str]) -> Iterator[bytes]:
    keys = [word for field in fields for word in ("-k", field)]
    sorter = subprocess.Popen(["sort", "-t", "\t", *keys, *words], stdin=subprocess.PIPE, stdout=subprocess.PIPE,
                              env={**os.environ, "LC_ALL": "C"})
    assert sorter.stdin and sorter.stdout
    try:
        sorter.stdin.writelines(given)
        sorter.stdin.close()
        yield from sorter.stdout
    except BaseException:
        sorter.kill()
        with contextlib.suppress(BrokenPipeError):
            sorter.stdin.close()
        sorter.wait()
        raise
    sorter.stdout.close()
    if sorter.wait():
        raise OSError(f"sort ended with {sorter.returncode}")
