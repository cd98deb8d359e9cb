"""The names that the nets of files have in archives: one line for each name, with what makes it certain."""

from __future__ import annotations

import argparse
import signal
import sys
from collections.abc import Iterator
from pathlib import Path

from .answers import Answer
from .asking import archive_of
from .command_line import LINK, called, parser_of
from .errors import CrystalNetsError, NotANet, NotAnArchive, in_words
from .files import opened_plain
from .net import Net
from .parts import Component, components, net_of_key
from .provenance import TOLD
from .reading import nets_of_file
from .side_by_side import bind_programs
from .streams import identify_each

DESCRIPTION = """The names that the nets of files have in archives. Each line has, with tabs between them: the number of the
net, its name in the file, a name in the archives, and what makes it certain. That is `key`, which is proved; or, of a
net that has no key in its cell, `key of a smaller cell`, `verified map`, or `unproved cell`, which nothing proves. A
net with several names has several lines, and a net that is in no archive has none."""
EPILOG = """exit status: 0 each net was read and has a key or a name; 1 some has neither, or a file cannot be read, has no
net, or is no archive; 2 usage.
examples: net_tool names examples/quartz.cif
          net_tool names --components examples/interpenetrating.cgd"""
NOTHING, SOME = 0, 1
MOST_TOLD = 20  # nets without a key, of which each is reported


def words() -> argparse.Namespace:
    parser = parser_of(DESCRIPTION, EPILOG, is_laid_out=True)
    if LINK:  # as it was: the archives stand behind the one file
        parser.add_argument("files", nargs=1, metavar="FILE")
        parser.add_argument("archive", nargs="*", metavar="ARCHIVE")
    else:
        parser.add_argument("files", nargs="+", metavar="FILE",
                            help="a structure (CIF, POSCAR, XYZ) or a file of nets (.cgd, .arc), packed by gzip or not; - is "
                            "standard input")
        parser.add_argument("--archive", action="append", default=[], metavar="PATH",
                            help="an archive or a folder of archives, once or several times; those of net_tool and of the "
                            "user, if none is given")
    parser.add_argument("--components", action="store_true",
                        help="name the components of nets that interpenetrate, with how many there are; of structures with the "
                        "class of their interpenetration, too, as IIa")
    return parser.parse_args()


def main() -> int:
    signal.signal(signal.SIGPIPE, signal.SIG_DFL)  # a reader that stops, as head, is no fault
    asked = words()
    bind_programs()
    archive = archive_of(asked.archive) if asked.archive else archive_of(default())
    status = NOTHING
    naming = Naming()
    for file in asked.files:
        nets = _nets_of(file)
        if nets == []:
            print(f"{called()}: {file} has no net", file=sys.stderr)
        if not nets:
            status = SOME
        for answer in identify_each(_parts_of(nets or []) if asked.components else nets or [], archive):
            naming.take(answer)
    return max(status, naming.end())


def default() -> list[Path]:
    """The archives of net_tool and of the user. NotAnArchive, if there is none."""
    from .archive import default_files
    files = default_files()
    if not files:
        raise NotAnArchive("there is no archive")
    return files


def _nets_of(file: str) -> list[Net] | None:
    """The nets of a file, with what is to be reported of them; None if it cannot be read, which is reported."""
    if Path(file).is_dir():
        raise NotANet(f"{file} is a folder; 'net_tool table' makes a table of all nets in it")
    try:
        with opened_plain(file, as_it_is=True) as stream:
            nets = nets_of_file(stream.read(), "" if file == "-" else file, {})
    except (OSError, CrystalNetsError) as reason:
        print(f"{called()}: {in_words(reason)}", file=sys.stderr)
        return None
    for net in nets:
        for kind, text in net.provenance.notes:
            if kind in TOLD and text != net.refusal:
                print(f"{called()}: {file}: {net.name or '?'}: {text}".encode(errors="replace").decode(), file=sys.stderr)
    return nets


def _parts_of(nets: list[Net]) -> Iterator[Net]:
    """The components of each net as nets of their own, named after it."""
    for net in nets:
        parts = () if net.refusal else components(net, archive=None).parts
        for number, part in enumerate(parts, 1):
            if part.key:
                yield net_of_key(part.key).named(f"{net.name or 'net'}, component {number} of {len(parts)}, {_copies(net, part)}")
            else:
                yield Net.refused(f"component {number} of {len(parts)}: {part.outcome}")
        if not parts:
            yield net


def _copies(net: Net, part: Component) -> str:
    """How many there are of a component, and for nets of a structure the class of their interpenetration."""
    woven = net.interpenetration
    of_class = f", class {woven.symbol}" if woven and woven.symbol and woven.copies == part.copies else ""
    return ("1 copy" if part.copies == 1 else f"{part.copies} copies") + of_class


class Naming:
    """Prints the names of answers, and counts those without a key."""

    def __init__(self) -> None:
        self.count = self.without_key = self.without_name = 0

    def take(self, answer: Answer) -> None:
        self.count += 1
        name = answer.name.encode(errors="surrogateescape").decode(errors="replace")
        for found in dict.fromkeys(answer.names):
            print(self.count, name, found, answer.by, sep="\t")
        if not answer.accepted:
            self.without_key += 1
            self.without_name += not answer.names
            if self.without_key <= MOST_TOLD:
                print(f'{called()}: net {self.count} "{name}": {answer.outcome}', file=sys.stderr)

    def end(self) -> int:
        """Tells how many nets have no key; the status."""
        if self.without_key > MOST_TOLD:
            print(f"{called()}: and {self.without_key - MOST_TOLD} more", file=sys.stderr)
        if self.without_key:
            print(f"{called()}: {self.without_key} of {self.count} nets have no key, {self.without_name} of them no name either",
                  file=sys.stderr)
        return SOME if self.without_name else NOTHING
