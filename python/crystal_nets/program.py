"""The proved program: where it is, and what it answers to texts of nets."""

from __future__ import annotations

import os
import shutil
import subprocess
from collections.abc import Callable, Collection, Iterable, Iterator, Sequence
from concurrent.futures import ThreadPoolExecutor
from contextlib import contextmanager
from contextvars import copy_context
from pathlib import Path
from typing import TypeVar

from .errors import CrystalNetsError, ProgramFailed, ProgramNotFound, ProgramTimedOut
from .limits import LIMIT
from .net import Net
from .side_by_side import first_of_program
from .texts.net_text import MOST_BLOCKS, MOST_BYTES, NoReport

Result = TypeVar("Result")

HERE = Path(__file__).resolve().parent
PLACES = (  # in a wheel; beside the package in the repository, built or released, in an installation and in a Debian package
    HERE / "front/net_tool", HERE / "../../crates/net_tool/out/net_tool", HERE / "../../release/net_tool",
    HERE / "../../../../lib/net_tool/net_tool", HERE / "../../../net_tool/net_tool",
    Path("/usr/local/lib/net_tool/net_tool"), Path("/usr/lib/net_tool/net_tool"))
HOW_TO_BUILD = ("net_tool is not there: in the folder of its repository `./net_tool --prove` proves and builds "
                "it, and `dev/install/install.sh /usr/local` installs it; NET_TOOL names one that is elsewhere")
LONGEST_SCRIPT = 1000  # bytes of the script that pip makes of a command
NOT_KNOWN = 2  # the status of arguments that the program does not know, as of a command that is younger than it
STATUSES = {NOT_KNOWN: "it does not know the arguments", 3: "a file could not be read", 4: "it could not write",
            6: "the text has more than 16,777,216 bytes", 7: "memory was refused", 8: "there are more than 4,096 blocks",
            10: "the archive would be too large", 20: "the runtime failed"}


def find_program() -> str:
    """The path of net_tool: NET_TOOL, or the one of this repository or installation, or `net_tool` on the PATH.
    ProgramNotFound says how it is built."""
    named = os.environ.get("NET_TOOL")
    if named:
        found = shutil.which(named)
        if found is None:
            raise ProgramNotFound(f"NET_TOOL is {named!r}, which is no program; {HOW_TO_BUILD}")
        return found
    for place in PLACES:
        if place.is_file() and os.access(place, os.X_OK):
            return str(place.resolve())
    for folder in os.get_exec_path():
        found = shutil.which("net_tool", path=folder or os.curdir)
        if found and not _is_of_pip(found):
            return found
    raise ProgramNotFound(HOW_TO_BUILD)


def _is_of_pip(path: str) -> bool:
    """Whether a file is the script of pip, which would ask for the program in its turn."""
    try:
        with open(path, "rb") as file:
            return b"from crystal_nets." in file.read(LONGEST_SCRIPT)
    except OSError:  # a program that may be run and not read
        return False


def run(command: str, text: bytes = b"", *words: str, allowed: Iterable[int] = (0, 1),
        files: Collection[int] = ()) -> tuple[int, bytes]:
    """The status and the report of a command on a text, which it reads from standard input. ProgramFailed where the
    status is none of the allowed ones: then there is no report; ProgramTimedOut where the time of `within` is over.

    files  the numbers of open files that the words name as /dev/fd/NUMBER"""
    program, limit = find_program(), LIMIT.get()
    left = limit.left() if limit else None
    try:
        done = subprocess.run([program, command, *words], input=text, stdout=subprocess.PIPE, stderr=subprocess.DEVNULL,
                              timeout=left, preexec_fn=first_of_program(), pass_fds=files)
    except subprocess.TimeoutExpired:
        assert limit
        raise ProgramTimedOut(limit.seconds) from None
    except OSError as fault:
        raise ProgramFailed(f"{program} cannot be run: {fault.strerror}") from fault
    if done.returncode not in allowed:
        reason = STATUSES.get(done.returncode, done.stdout[:200].decode(errors="replace").strip())
        raise ProgramFailed(f"net_tool {command} ended with {done.returncode}: {reason or 'no reason is given'}",
                            done.returncode)
    return done.returncode, done.stdout


@contextmanager
def reading_report(command: str) -> Iterator[None]:
    """ProgramFailed where a report is read that is no report of the command, so that it is of no net_tool."""
    try:
        yield
    except CrystalNetsError:
        raise
    except (NoReport, ValueError, LookupError) as fault:
        raise ProgramFailed(f"net_tool {command} gave another report than docs/FORMATS.md says: {fault}") from fault


def pieces_of(nets: Sequence[Net], most: int) -> Iterator[list[Net]]:
    """The nets in pieces of at most so many, each no longer than the program reads."""
    piece: list[Net] = []
    size = 0
    for net in nets:
        length = len(net.block)
        if piece and (len(piece) >= most or size + length > MOST_BYTES):
            yield piece
            piece, size = [], 0
        piece.append(net)
        size += length
    if piece:
        yield piece


def each_piece(work: Callable[[list[Net]], Result], nets: Sequence[Net], processes: int) -> Iterator[Result]:
    """The work on pieces of the nets, in their order, with so many processes of the program side by side."""
    if processes < 1:
        raise ValueError(f"processes is {processes}, and not 1 or more")
    most = MOST_BLOCKS if processes == 1 else min(MOST_BLOCKS, max(16, -(-len(nets) // (4 * processes))))
    pieces = list(pieces_of(nets, most))
    if processes == 1 or len(pieces) < 2:
        yield from map(work, pieces)
        return
    context = copy_context()  # with the time that is left
    with ThreadPoolExecutor(processes) as pool:  # each thread waits for a process of the program
        yield from pool.map(lambda piece: context.copy().run(work, piece), pieces)
