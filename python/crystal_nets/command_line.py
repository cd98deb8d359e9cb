"""The words of a command line, as all commands take them: --help and --version, whole numbers, and the options of
structures that are on or off."""

from __future__ import annotations

import argparse
import re
from collections.abc import Callable

from . import __version__
from .options import SWITCHES


CALLED = "net_tool"  # how the command was called, as `net_tool table`
LINK = ""            # the command of before under whose name it was started; empty if it was not


def called() -> str:
    """How the command was called: what its messages begin with."""
    return CALLED


def parser_of(description: str | None, epilog: str, *, usage: str | None = None,
              is_laid_out: bool = False) -> argparse.ArgumentParser:
    """A parser for the words of a command. Its description and its epilog are filled into lines, or stay as they are where
    they are laid out. `--version` tells the version of all tools, and ends it with 0.

    >>> parser_of("Rows of a report.", "").parse_args([])
    Namespace()"""
    form = argparse.RawDescriptionHelpFormatter if is_laid_out else argparse.HelpFormatter
    parser = argparse.ArgumentParser(prog=CALLED, description=description, epilog=epilog, usage=usage, formatter_class=form)
    parser.add_argument("--version", action="version", version=f"{CALLED} {__version__}",
                        help="show the version and exit")
    return parser


def whole_number(least: int, most: int) -> Callable[[str], int]:
    """A reader of an option's value, a whole number from the least to the most, below a thousand million.

    >>> whole_number(1, 1024)("16")
    16"""
    def number(text: str) -> int:
        if not re.fullmatch(r"[0-9]{1,9}", text) or not least <= int(text) <= most:
            raise argparse.ArgumentTypeError(f"{text[:40]!r} is not a whole number from {least} to {most}")
        return int(text)
    return number


def add_switches(words: argparse._ActionsContainer) -> None:
    """Adds the options of structures that are on or off, as --keep-ions."""
    for name, text in SWITCHES.items():
        words.add_argument("--" + name.replace("_", "-"), action="store_true", help=text)
