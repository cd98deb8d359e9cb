"""Damaged texts from a seed, and scripts of python3 that are run on thousands of them.

A script is loaded once. Each run of it is a child of this process, which begins where all modules of the script are
loaded: so it starts in milliseconds, and nothing of it stays."""

from __future__ import annotations

import os
import random
import runpy
import signal
import sys
import traceback
import warnings
from collections.abc import Callable
from dataclasses import dataclass
from pathlib import Path

MOST_SECONDS = 120  # of one run: one that goes on is ended, and has the status -SIGALRM


def mutant(text: bytes, chance: random.Random) -> bytes:
    """The text with one to three faults: cut, lines lost or doubled, bytes changed, parts of lines exchanged."""
    for _ in range(chance.randint(1, 3)):
        lines, at = text.splitlines(keepends=True), chance.randrange(len(text) or 1)
        kind, row = chance.randrange(7), chance.randrange(len(lines) or 1)
        if not lines:
            return text
        if kind == 0:
            text = text[:at]
        elif kind == 1:
            text = text[:at] + bytes((chance.randrange(256),)) + text[at + 1:]
        elif kind == 2:
            text = b"".join(lines[:row] + lines[row + 1:])
        elif kind == 3:
            text = b"".join(lines[:row] + [lines[row], *lines[row:]])
        elif kind == 4:
            text = text[:at] + chance.choice((b" ", b"-", b"9" * 30, b"\n", b"\t", b'"', b"\xff")) + text[at:]
        elif kind == 5:
            other = chance.randrange(len(lines))
            lines[row], lines[other] = lines[other], lines[row]
            text = b"".join(lines)
        else:
            parts = lines[row].split(b" ")
            del parts[chance.randrange(len(parts))]
            text = b"".join(lines[:row] + [b" ".join(parts)] + lines[row + 1:])
    return text


@dataclass
class Done:
    """What a run ended with; the status is negative where a signal ended it."""

    status: int
    stdout: bytes
    stderr: bytes


class Script:
    """A script of python3, run in the folder given as a user runs it there."""

    def __init__(self, path: Path, folder: Path) -> None:
        self.path, self.folder = path, folder
        runpy.run_path(str(path), run_name="loaded")  # its modules are loaded here, and it does nothing

    def run(self, *words: object, stdin: bytes = b"") -> Done:
        streams = [self.folder / f".{name}" for name in ("stdin", "stdout", "stderr")]
        streams[0].write_bytes(stdin)
        sys.stdout.flush()
        child = os.fork()
        if not child:
            os._exit(in_child(lambda: self.main(list(map(str, words)), streams)))
        status = os.waitstatus_to_exitcode(os.waitpid(child, 0)[1])
        return Done(status, streams[1].read_bytes(), streams[2].read_bytes())

    def main(self, words: list[str], streams: list[Path]) -> None:
        """In the child: runs the script with its words and streams."""
        for number, path in enumerate(streams):
            file = os.open(path, os.O_RDONLY if number == 0 else os.O_WRONLY | os.O_CREAT | os.O_TRUNC)
            os.dup2(file, number)
        sys.stdin = open(0, encoding="utf-8", errors="surrogateescape", closefd=False)
        sys.stdout = open(1, "w", encoding="utf-8", closefd=False)
        sys.stderr = open(2, "w", encoding="utf-8", errors="backslashreplace", buffering=1, closefd=False)
        sys.argv = [str(self.path), *words]
        warnings.simplefilter("ignore", ResourceWarning)  # as where a user runs it
        signal.alarm(MOST_SECONDS)
        runpy.run_path(str(self.path), run_name="__main__")


def in_child(work: Callable[[], None]) -> int:
    """The status that python3 ends with where the work is its script."""
    status = 0
    try:
        work()
    except SystemExit as end:
        status = end.code if isinstance(end.code, int) else int(end.code is not None)
        if isinstance(end.code, str):
            print(end.code, file=sys.stderr)
    except BaseException:
        traceback.print_exc()
        status = 1
    for stream in (sys.stdout, sys.stderr):
        stream.flush()
    return status & 255
