"""What is raised. What is true of a net, as that it falls into pieces, is no error: it is a value of an answer."""

from __future__ import annotations

import os
import sys

SYSTEM = "/usr/bin/python3"


def in_words(fault: Exception) -> str:
    """The reason of a fault in one line, as commands tell it: of a file its name and what is wrong with it."""
    if isinstance(fault, OSError) and fault.filename is not None and fault.strerror:
        return f"{fault.filename}: {fault.strerror}"
    return str(fault)


def lacking(missing: ImportError, advice: str) -> str:
    """Which interpreter lacks which module, and what gives it to that of the system."""
    is_system = os.path.realpath(sys.executable) == os.path.realpath(SYSTEM)
    return f"{sys.executable} has no module {missing.name}; {advice}" + ("" if is_system else f" gives it to {SYSTEM}")


def in_one_line(text: str) -> str:
    """A text without line feeds, for what is shown in one line."""
    return " ".join(text.split())


class CrystalNetsError(Exception):
    """Anything that this package raises by itself."""


class NotANet(CrystalNetsError, ValueError):
    """What was given cannot be read as one net, for the reason that it is made with."""


class NotAnOption(CrystalNetsError, ValueError):
    """An option of structures has a value that is none, for the reason that it is made with."""


class NotAnArchive(CrystalNetsError, ValueError):
    """A file is no archive, or the program computes other keys from its edges."""


class NotATable(CrystalNetsError, ValueError):
    """A file is no table of net_tool table, or is cut or damaged, for the reason that it is made with."""


class NotAJournal(CrystalNetsError, ValueError):
    """A file is no journal of this call of `identify_each`, or another call has it."""


class ProgramNotFound(CrystalNetsError, FileNotFoundError):
    """net_tool is not there; the text says how it is built."""


class ProgramFailed(CrystalNetsError, RuntimeError):
    """net_tool gave no answer; `status` is its exit status, negative where a signal ended it."""

    def __init__(self, reason: str, status: int = 0) -> None:
        super().__init__(reason)
        self.status = status


class ProgramTimedOut(ProgramFailed, TimeoutError):
    """There was no answer within `seconds`, the timeout of a call; what worked on it was ended."""

    def __init__(self, seconds: float) -> None:
        super().__init__(f"there was no answer within {seconds:g} seconds, and what worked on it was ended")
        self.seconds = seconds

    def __reduce__(self) -> tuple[type[ProgramTimedOut], tuple[float]]:
        return type(self), (self.seconds,)


class PackageMissing(CrystalNetsError, ImportError):
    """A package of Python is not there; the text has the name of the Debian package."""
