"""Files: their paths, those of folders, files that are written whole or not at all, and files whose faults name them."""

from __future__ import annotations

import codecs
import contextlib
import errno
import fcntl
import gzip
import io
import os
import stat
import sys
import zlib
from collections.abc import Callable, Iterator
from pathlib import Path
from typing import IO, TYPE_CHECKING, cast

from .errors import CrystalNetsError, NotANet

if TYPE_CHECKING:
    from _typeshed import ReadableBuffer

STANDARD_OUTPUT = "standard output"
GZIP = b"\x1f\x8b"
MARKS = {codecs.BOM_UTF32_LE: "UTF-32", codecs.BOM_UTF32_BE: "UTF-32",  # before those of UTF-16, which begin alike
         codecs.BOM_UTF16_LE: "UTF-16", codecs.BOM_UTF16_BE: "UTF-16"}
WITHOUT_MARK = {b"\1\0\0\0": "UTF-32LE", b"\0\0\0\1": "UTF-32BE", b"\1\0\1\0": "UTF-16LE", b"\0\1\0\1": "UTF-16BE"}
AHEAD = 65_536  # bytes of a file that are read ahead: by these a structure without its ending is reported
NO_FILE = "it is no file, but a pipe, a device or a folder"


def checked_path(path: str | os.PathLike[str], fault: type[CrystalNetsError]) -> Path:
    """The path, if it may be one: no path is empty or has a NUL."""
    if not os.fspath(path):
        raise fault("a path is empty")
    if "\0" in os.fspath(path):
        raise fault(f"{os.fspath(path)!r:.80} has a NUL, which no path has")
    return Path(path)


def walked(top: str | os.PathLike[str], fault: Callable[[OSError], object]) -> Iterator[tuple[str, list[str]]]:
    """A folder and all below it, each before those in it, with the names of its files; both are in the order of their
    names. Links to folders are followed, but for one that leads back to a folder on its own way. Of a folder that cannot
    be read the fault is reported, and what is in it is not given."""
    waiting: list[tuple[str, frozenset[tuple[int, int]]]] = [(os.fspath(top), frozenset())]
    while waiting:
        folder, above = waiting.pop()
        try:
            status = os.stat(folder)
            here = status.st_dev, status.st_ino
            if here in above:
                continue
            with os.scandir(folder) as entries:
                kinds = {entry.name: _is_folder(entry) for entry in entries}
        except OSError as reason:
            fault(reason)
            continue
        yield folder, sorted(name for name, is_folder in kinds.items() if not is_folder)
        inner = sorted((name for name, is_folder in kinds.items() if is_folder), reverse=True)
        waiting += [(os.path.join(folder, name), above | {here}) for name in inner]


def _is_folder(entry: os.DirEntry[str]) -> bool:
    """Whether it is a folder or a link to one; a link that leads nowhere is none."""
    try:
        return entry.is_dir()
    except OSError:
        return False


def content_of_file(path: str | os.PathLike[str], most: int = -1) -> bytes:
    """The content of a file, up to so many bytes where that is no negative number. OSError where it is none: a pipe is
    not waited for, and a device is not read."""
    with open(os.open(path, os.O_RDONLY | os.O_NONBLOCK | os.O_CLOEXEC), "rb") as file:
        if not stat.S_ISREG(os.fstat(file.fileno()).st_mode):
            raise OSError(errno.EINVAL, NO_FILE, os.fspath(path))
        return file.read(most)


def write_whole(path: Path, content: bytes) -> None:
    """Writes a file beside its place, and moves it there once it is whole. Where it cannot be written, nothing is left
    of it. Of several that write it at the same time each writes alone."""
    part = path.with_name(f"{path.name}.part")
    with _alone_on(part) as file:
        try:
            file.truncate(0)
            file.write(content)
            file.flush()
            part.replace(path)
        except BaseException:
            part.unlink(missing_ok=True)
            raise


def number_above_standard(file: IO[bytes]) -> int:
    """A further number of an open file, above those of the standard files: a process that was started without these may
    have the file itself at one of them, where a program has another. Who asks for it closes it."""
    return fcntl.fcntl(file, fcntl.F_DUPFD_CLOEXEC, 3)


@contextlib.contextmanager
def _alone_on(path: Path) -> Iterator[io.BufferedWriter]:
    """A file that no other process writes meanwhile, where its file system knows locks. One that was moved away while
    its lock was waited for is opened anew."""
    while True:
        with io.BufferedWriter(TellingFile(os.fspath(path), str(path), "a")) as file:
            with contextlib.suppress(OSError):
                fcntl.flock(file, fcntl.LOCK_EX)
            if _is_at(file, path):
                yield file
                return


def _is_at(file: io.BufferedWriter, path: Path) -> bool:
    """Whether an open file is the one that stands at a path."""
    try:
        return os.path.samestat(os.fstat(file.fileno()), os.stat(path))
    except FileNotFoundError:
        return False


def encoding_of(beginning: bytes) -> str:
    """UTF-16 or UTF-32, where a text begins so: with a byte order mark, or with NULs as such texts have them, of which the
    order is told too. Empty for all others, which are read as they are."""
    if not beginning.startswith(tuple(MARKS)) and b"\0" not in beginning[:4]:
        return ""
    for mark, name in MARKS.items():
        if beginning.startswith(mark):
            return name
    return WITHOUT_MARK.get(bytes(byte != 0 for byte in beginning[:4]), "")


def in_plain_bytes(content: bytes, what: str) -> bytes:
    """A text in UTF-8 where it has the byte order mark of UTF-16 or UTF-32, and any other as it is. NotANet, which names
    it and how it is turned, where it is none or has no mark."""
    encoding = encoding_of(content)
    if not encoding:
        return content
    if encoding not in MARKS.values():
        raise NotANet(f"{what} is in {encoding}, without a byte order mark; `iconv -f {encoding} -t UTF-8` makes a text of it "
                      "that is read")
    try:
        return content.decode(encoding).encode()
    except UnicodeError as fault:
        raise NotANet(f"{what} begins as {encoding}, and is damaged: {fault}") from None


def told_encoding(beginning: bytes) -> str:
    """For what reads no other encoding: which one it is, behind a reason; nothing where it is none of these."""
    encoding = encoding_of(beginning)
    return f"; it is in {encoding}, and `iconv -f {encoding} -t UTF-8` makes a text that is read" if encoding else ""


@contextlib.contextmanager
def opened_plain(file: str, as_it_is: bool = False) -> Iterator[io.BufferedReader]:
    """The bytes of a file, or of standard input; without gzip and in UTF-8, unless they are wanted as they are. NotANet
    where what is packed is damaged, or is in another encoding that is not read."""
    raw = io.FileIO(0, closefd=False) if file == "-" else io.FileIO(file)
    with io.BufferedReader(raw, AHEAD) as source:
        if as_it_is:
            yield source
        elif not source.peek(len(GZIP)).startswith(GZIP):
            yield _in_plain_bytes(source, file)
        else:
            try:
                with gzip.GzipFile(fileobj=source) as packed:
                    yield _in_plain_bytes(io.BufferedReader(cast(io.RawIOBase, packed), AHEAD), file)
            except (gzip.BadGzipFile, EOFError, zlib.error) as fault:
                raise NotANet(f"{file} is packed by gzip, and damaged: {fault}") from None


def _in_plain_bytes(source: io.BufferedReader, file: str) -> io.BufferedReader:
    """The same bytes in UTF-8; a text in another encoding is read as a whole."""
    if not encoding_of(source.peek(4)):
        return source
    return io.BufferedReader(cast(io.RawIOBase, io.BytesIO(in_plain_bytes(source.read(), file))), AHEAD)


class TellingFile(io.FileIO):
    """A file that is written to, whose name a fault of writing has, as that of a full disk."""

    def __init__(self, file: str | int, told: str, mode: str = "w") -> None:
        super().__init__(file, mode, closefd=not isinstance(file, int))
        self.told = told

    def write(self, content: ReadableBuffer, /) -> int:
        try:
            return super().write(content)
        except OSError as fault:
            raise OSError(fault.errno, fault.strerror, self.told) from None


def telling_text(path: str) -> io.TextIOWrapper:
    """A new text file whose faults name it."""
    return io.TextIOWrapper(io.BufferedWriter(TellingFile(path, path)), encoding="utf-8")


def open_standard_files() -> None:
    """Puts something in the place of a standard file that is closed, so that no other file gets its number, and has
    standard output named by its faults. Names of files go there as the bytes that they are. Reading what was closed, or
    writing to it, fails."""
    for number, mode in ((0, os.O_WRONLY), (1, os.O_RDONLY), (2, os.O_WRONLY)):
        try:
            os.fstat(number)
        except OSError:
            os.dup2(os.open(os.devnull, mode), number)
    sys.stdin = sys.stdin or open(0, closefd=False)
    sys.stderr = sys.stderr or open(2, "w", closefd=False)
    sys.stdout = io.TextIOWrapper(io.BufferedWriter(TellingFile(1, STANDARD_OUTPUT)), encoding="utf-8",
                                  errors="surrogateescape", line_buffering=os.isatty(1))


def give_up_output() -> None:
    """Has what is left of standard output go nowhere, after a fault that was reported."""
    os.dup2(os.open(os.devnull, os.O_WRONLY), 1)
