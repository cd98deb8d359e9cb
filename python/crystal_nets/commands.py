"""The subcommands of net_tool that are written in Python: one table of them, and how they are started.

The table commands.tsv has a row for each: its words, its module, the packages of Debian that it needs for whatever it
does but its help, the names under which it was a command of its own, the status if nothing can be done, and what it is
for. The front of net_tool reads it as well, for its help."""

from __future__ import annotations

import difflib
import os
import signal
import sys
from collections.abc import Callable
from functools import cache
from importlib import import_module
from pathlib import Path
from typing import NamedTuple, NoReturn

TABLE = Path(__file__).with_name("commands.tsv")
FRONT = Path(__file__).with_name("front") / "pip.sh"  # in what pip installs
BY_PIP = "net_tool"  # the name under which pip installs all commands
WITH_SMALL_MATRICES = ("convert", "table", "names")  # for which threads would wait for each other
INTERRUPTED = 130  # the status that a shell gives a command that Ctrl-C ends
USAGE = 2
FAILED = 127  # the status that a shell gives if there is no program


class Command(NamedTuple):
    """A subcommand: its words, as `archive make`; its module; packages; its names of before; the status of a failure; what
    it is for."""

    name: str
    module: str
    packages: str
    links: tuple[str, ...]
    failed: int
    purpose: str


@cache
def commands() -> dict[str, Command]:
    """The subcommands by their words."""
    rows = (line.split("\t") for line in TABLE.read_text().splitlines())
    return {name: Command(name, module, packages, tuple(links.split()), int(failed), purpose)
            for name, module, packages, links, failed, purpose in rows}


def command_of(words: list[str]) -> tuple[Command, list[str]] | None:
    """The subcommand that words begin with, and the words behind it; None if there is none."""
    for count in (2, 1):
        found = commands().get(" ".join(words[:count]))
        if found and len(words) >= count:
            return found, words[count:]
    return None


def main() -> NoReturn:
    """Runs the subcommand that the words name, or the one that was a command of the name under which this was started. As
    `net_tool` of pip it hands other words to the program."""
    started = os.path.basename(sys.argv[0])
    linked = next((command for command in commands().values() if started in command.links), None)
    try:
        if linked:
            print(f"{started} is 'net_tool {linked.name}' now", file=sys.stderr)
            run(linked, started, started)
        found = command_of(sys.argv[1:]) or _asked_help(sys.argv[1:])
        if found is None and started == BY_PIP and FRONT.is_file():
            hand_to_program(sys.argv[1:])
        if found is None:
            print(f"net_tool: {_unknown(sys.argv[1:])}", file=sys.stderr)
            sys.exit(USAGE)
        command, sys.argv[1:] = found
        run(command, f"net_tool {command.name}")
    except KeyboardInterrupt:  # before the command has begun
        sys.exit(INTERRUPTED)


def _asked_help(words: list[str]) -> tuple[Command, list[str]] | None:
    """The subcommand that `help` is asked of, with the word that answers it."""
    found = command_of(words[1:]) if words[:1] == ["help"] else None
    return (found[0], ["--help"]) if found else None


def hand_to_program(words: list[str]) -> NoReturn:
    """Goes on as the proved program, with what is said of it on standard error, and its help."""
    from .errors import ProgramNotFound
    from .program import find_program
    try:
        program = find_program()
    except ProgramNotFound as fault:
        if words[:1] not in (["help"], ["-h"], ["--help"], ["--version"]):
            print(f"net_tool: {fault}", file=sys.stderr)
            sys.exit(FAILED)
        program = "net_tool"
    os.execvp("sh", ["sh", str(FRONT), program, *words])


def _unknown(words: list[str]) -> str:
    """What is reported if no subcommand is meant, with those of the same group, or the one that is near."""
    group = [name.split()[1] for name in commands() if words and name.startswith(words[0] + " ")]
    if group:
        return f"{words[0]} is followed by one of {', '.join(group)}"
    near = difflib.get_close_matches(" ".join(words[:1]), list(commands()), 1)
    return f"there is no command {' '.join(words[:1])!r}" + (f"; the nearest is {near[0]}" if near else "")


def run(command: Command, called: str, link: str = "") -> NoReturn:
    """Runs a subcommand with the words of the command line, and ends with its status. It is that of a failure, with a
    reason in one line, if a text has not the form that is asked for, a file cannot be read or written, or memory is
    refused. Ctrl-C ends it at once."""
    if signal.getsignal(signal.SIGINT) == signal.default_int_handler:
        signal.signal(signal.SIGINT, signal.SIG_DFL)
    if command.name in WITH_SMALL_MATRICES:
        os.environ.setdefault("OPENBLAS_NUM_THREADS", "1")
    from . import command_line
    from .errors import CrystalNetsError, in_words
    from .files import give_up_output, open_standard_files
    from .texts.net_text import NoReport
    command_line.CALLED, command_line.LINK = called, link
    open_standard_files()
    try:
        try:
            status: int | str | None = _main_of(command)()
        except SystemExit as ended:
            status = ended.code
        except ModuleNotFoundError as missing:
            status = _lacking(command, missing)
        sys.stdout.flush()
        sys.exit(status)
    except Exception as fault:
        give_up_output()
        is_known = isinstance(fault, (NoReport, CrystalNetsError, OSError))
        print(f"{called}: {in_words(fault) if is_known else _told(fault)}", file=sys.stderr)
        sys.exit(command.failed)


def _told(fault: Exception) -> str:
    """In one line what no command expects: that memory was refused, or a fault of its own."""
    from .errors import in_one_line
    if isinstance(fault, MemoryError):
        return "there is not enough memory"
    return in_one_line(f"it failed: {type(fault).__name__} {fault}")


def _main_of(command: Command) -> Callable[[], int]:
    main: Callable[[], int] = import_module(f".{command.module}", __package__).main
    return main


def _lacking(command: Command, missing: ModuleNotFoundError) -> int:
    """Tells in one line which package of Python a subcommand needs, and gives its status; the fault itself is raised if
    it needs none."""
    if not command.packages:
        raise missing
    from .command_line import called
    from .errors import lacking
    print(f"{called()}: {lacking(missing, f'apt-get install {command.packages}')}", file=sys.stderr)
    return command.failed
