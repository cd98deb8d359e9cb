"""Structures and files of nets as blocks PERIODIC_GRAPH: which reader a file is for."""

from __future__ import annotations

import os
import signal
import sys
import tempfile
from collections.abc import Iterator

from . import command_line
from .files import opened_plain
from .formats import ARCHIVE, format_of
from .reading import nets_of_archive, unpacked

KINDS = {"structure": "structures", "nets": "blocks"}
WITH_VALUE = frozenset("--leave-out --bond --convention --mode --bonds --jobs --notes".split())  # options of structures
OF_LINKS = {"cif2cgd": "structure", "cgd2net": "nets"}
HEAD = """usage: net_tool convert [--as structure|nets] [options] FILE..

Writes blocks PERIODIC_GRAPH, which all commands of net_tool read, of structures (CIF, POSCAR, XYZ), of files of nets
(.cgd of Systre, RCSR, ToposPro and EPINET; .arc), or of archives of net_tool. A file is told by its ending, or by what it
begins with; --as sets it. The options are those of the kind, and for archives those of --as nets.

examples: net_tool convert examples/quartz.cif
          net_tool convert examples/embedded.cgd
"""
USAGE = 2


def main() -> int:
    """Runs the reader of structures, or that of nets, with the words that are left."""
    words = sys.argv[1:]
    kind = OF_LINKS.get(command_line.LINK) or _kind_asked(words)
    if kind is None and any(word in ("-h", "--help") for word in words):
        print(HEAD)
        for reader in KINDS:
            print(f"With --as {reader}:\n", flush=True)
            _show_help(reader)
        return 0
    files = _files_among(words)
    kinds = {_kind_of(file) for file in files if os.path.exists(file) or file == "-"} if kind is None else set()
    if len(kinds) > 1:
        print(f"{command_line.called()}: these are structures and nets: convert them apart, or set --as",
              file=sys.stderr)
        return USAGE
    if kinds == {"archive"}:
        return _write_archives()
    sys.argv[1:] = words
    return _main_of(kind or (kinds.pop() if kinds else "nets" if not files else "structure"))


def _write_archives() -> int:
    """Writes the nets of archives as blocks; nothing of one that is damaged. The options are those of nets."""
    from .blocks.command import words
    files = words().files
    signal.signal(signal.SIGPIPE, signal.SIG_DFL)  # a reader that stops, as head, is no fault
    for file in files:
        with opened_plain(file, as_it_is=True) as stream:
            nets = nets_of_archive(*unpacked(stream.read(), file))
        sys.stdout.buffer.writelines(net.block for net in nets)
    return 0


def _kind_asked(words: list[str]) -> str | None:
    """The kind that --as says, which is taken out of the words."""
    for place, word in enumerate(words):
        if word == "--as" or word.startswith("--as="):
            value = word.partition("=")[2] or (words[place + 1] if place + 1 < len(words) else "")
            if value not in KINDS:
                print(f"{command_line.called()}: --as needs structure or nets, and not {value!r:.40}", file=sys.stderr)
                sys.exit(USAGE)
            del words[place:place + 1 + (word == "--as")]
            return value
    return None


def _files_among(words: list[str]) -> list[str]:
    """The words that are files: neither options nor the values of options, as a file of notes that is there already."""
    return [word for before, word in zip(["", *words], words)
            if before not in WITH_VALUE and (word == "-" or not word.startswith("-"))]


def _kind_of(file: str) -> str:
    """Whether a file or a folder is of structures or of nets. Standard input is kept, so that it can be read again."""
    if os.path.isdir(file):
        return "structure"
    if file == "-":
        _keep_input()
    try:
        with opened_plain(file, as_it_is=True) as stream:
            content, name = unpacked(stream.read(), "" if file == "-" else file)
    except (OSError, ValueError):
        return "structure" if not file.endswith((".cgd", ".arc")) else "nets"
    finally:
        if file == "-":
            os.lseek(0, 0, os.SEEK_SET)
    form = format_of(content, name)
    return "archive" if form is ARCHIVE else "structure" if form.is_structure else "nets"


def _keep_input() -> None:
    """Has a file stand in the place of standard input, with what comes from there."""
    with tempfile.TemporaryFile() as kept:
        for part in _parts_of_input():
            kept.write(part)
        kept.flush()
        os.lseek(kept.fileno(), 0, os.SEEK_SET)
        os.dup2(kept.fileno(), 0)


def _parts_of_input() -> Iterator[bytes]:
    while part := os.read(0, 1 << 20):
        yield part


def _main_of(kind: str) -> int:
    if kind == "structure":
        from .structures.command import main as main_of_structures
        return main_of_structures()
    from .blocks.command import main as main_of_nets
    return main_of_nets()


def _show_help(kind: str) -> None:
    sys.argv[1:] = ["--help"]
    try:
        _main_of(kind)
    except SystemExit:
        sys.stdout.flush()
