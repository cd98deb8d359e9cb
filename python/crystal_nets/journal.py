"""A file of what was done of many sources, so that a run that broke off goes on.

The first line has what was asked. Each other line has the place of a source, a sum of the source, a sum of the rest of the
line, and the answers as JSON. A line that is cut or damaged, or of a source that was changed, counts as not there."""

from __future__ import annotations

import fcntl
import hashlib
import io
import json
import os
import pickle
from array import array
from collections.abc import Mapping
from contextlib import suppress
from pathlib import Path
from types import TracebackType
from typing import Any, BinaryIO

from .errors import NotAJournal
from .file_parts import FilePart
from .files import checked_path
from .json_forms import answer_of_fields, fields_of_answer, fields_of_net
from .net import Net
from .tasks import Asked, Done, FolderFile, Source, options_known

FORM = "net_answers 1"


class Journal:
    """What was done of the sources of one call, in a file that one process at a time has."""

    def __init__(self, path: str | os.PathLike[str], asked: Asked, version: str) -> None:
        self.path = checked_path(path, NotAJournal)
        head = {"form": FORM, "version": version, "want": asked.want, "maps": asked.maps, "timeout": asked.timeout,
                "wide": asked.wide, "options": options_known(asked.options)}
        self.file = _alone(self.path)
        self.places = array("Q", [0])  # of each source where its line begins; 0 if there is none
        try:
            self._begin(json.dumps(head, sort_keys=True).encode() + b"\n")
        except BaseException:
            self.file.close()
            raise

    def _begin(self, head: bytes) -> None:
        """Reads what is there; the file of another call is refused. What follows the last whole line is taken away."""
        found = self.file.readline()
        if found != head and (found.endswith(b"\n") or not head.startswith(found)):
            raise NotAJournal(f"{self.path} is no journal of this call: it begins with {found[:200].decode(errors='replace')!r}")
        end = self.file.tell() if found == head else 0
        if not end:
            self._cut(0)
            self.file.write(head)
            self.file.flush()
            return
        for line in self.file:
            if not line.endswith(b"\n"):
                break
            with suppress(ValueError):
                self._note(int(line.split(b"\t", 1)[0]), end)
            end += len(line)
        self._cut(end)

    def _cut(self, end: int) -> None:
        self.file.seek(end)
        self.file.truncate()

    def _note(self, place: int, begin: int) -> None:
        if place >= len(self.places):
            self.places.extend([0] * (place + 1 - len(self.places)))
        self.places[place] = begin

    def __enter__(self) -> Journal:
        return self

    def __exit__(self, kind: type[BaseException] | None, fault: BaseException | None, trace: TracebackType | None) -> None:
        self.file.close()

    def done(self, place: int, source: Source) -> Done | None:
        """What was done of the source in this place, counted from 0; None if nothing is known."""
        begin = self.places[place] if place < len(self.places) else 0
        if not begin:
            return None
        self.file.seek(begin)
        try:
            number, of_source, of_line, content = self.file.readline().rstrip(b"\n").split(b"\t", 3)
            if int(number) == place and of_line.decode() == _sum(content) and of_source.decode() == sum_of_source(source):
                return [_answer_of(fields, source) for fields in json.loads(content)]
        except (ValueError, OSError):
            pass
        return None

    def keep(self, place: int, source: Source, done: Done) -> None:
        """Notes what was done of a source."""
        content = json.dumps([one if isinstance(one, dict) else _fields_of(one, source) for one in done]).encode()
        self.file.seek(0, io.SEEK_END)
        self._note(place, self.file.tell())
        self.file.write(b"%d\t%s\t%s\t%s\n" % (place, sum_of_source(source).encode(), _sum(content).encode(), content))

    def flush(self) -> None:
        self.file.flush()


def _alone(path: Path) -> BinaryIO:
    """The file, made if it is not there. NotAJournal if another process has it."""
    file = open(os.open(path, os.O_RDWR | os.O_CREAT | os.O_CLOEXEC, 0o666), "r+b")
    try:
        fcntl.flock(file, fcntl.LOCK_EX | fcntl.LOCK_NB)
    except BlockingIOError:
        file.close()
        raise NotAJournal(f"{path} is the journal of a call that is at work") from None
    except OSError:  # the file system knows no locks
        pass
    return file


def sum_of_source(source: Source) -> str:
    """A sum that is another one if the source was changed: of a file its path, size and time, and else all of it."""
    given = source.given
    if isinstance(given, Net):
        return _sum(given.block + given.refusal.encode() + given.name.encode(errors="surrogateescape"))
    if isinstance(given, FilePart):
        return _sum(repr(given).encode(errors="surrogateescape"))
    path = given.path if isinstance(given, FolderFile) else given
    if isinstance(path, os.PathLike) or (isinstance(path, str) and "\n" not in path):
        return _sum_of_file(os.fspath(path))
    return _sum(given if isinstance(given, bytes) else pickle.dumps(given, 4))


def _sum_of_file(path: str) -> str:
    told = os.fsdecode(path)
    with suppress(OSError):
        status = os.stat(path)
        told += f"\0{status.st_size}\0{status.st_mtime_ns}"
    return _sum(told.encode(errors="surrogateescape"))


def _sum(content: bytes) -> str:
    return hashlib.sha256(content).hexdigest()[:16]


def _fields_of(answer: Any, source: Source) -> dict[str, Any]:
    """The fields of an answer, without a net that the caller has."""
    return {**fields_of_answer(answer), "net": None} if isinstance(source.given, Net) else fields_of_answer(answer)


def _answer_of(fields: Any, source: Source) -> Any:
    """The answer, or the row; ValueError if it is neither."""
    if not isinstance(fields, Mapping):
        raise ValueError("no answer")
    if "outcome" in fields and not isinstance(fields["outcome"], Mapping):
        return dict(fields)
    net = fields["net"] or fields_of_net(source.given)
    return answer_of_fields({**fields, "net": net})
