"""What databases list of the nets of files: a line for each net, with tabs between its fields. These are the file, the
name, the point symbol, the vertex symbols of the kinds of vertices, the topological density TD10, how many kinds of
vertices and of edges there are, and the space group or plane group. Of a net with a key the kinds are proved; all else is
computed beside the program. A net that is not connected,
or takes too long, is reported on standard error, and so are doubts, what a net has not, and what gives no net. A FILE
is of any kind that net_tool table takes."""

from __future__ import annotations

import argparse
import json
import os
import sys
from collections.abc import Iterator
from contextlib import suppress
from pathlib import Path

from ..command_line import called, parser_of
from ..errors import NotANet, PackageMissing, in_words
from ..formats import SUFFIXES, is_passed_over
from ..kinds import told_passed_over
from ..net import Net
from ..progress import Progress
from ..reading import read
from ..tables.columns import escaped
from .listed import Topology, topology_or_reason

HEAD = ("source", "name", "point_symbol", "vertex_symbols", "td10", "transitivity", "space_group")
EPILOG = """exit status: 0 all is reported; 1 something is not; 2 usage.
examples: net_tool topology examples/dia.cgd
          net_tool topology --json examples/quartz.cif"""


def words() -> argparse.Namespace:
    parser = parser_of(__doc__, EPILOG, is_laid_out=True)
    parser.add_argument("files", metavar="FILE", nargs="+", help="nets or structures, or a folder of them")
    parser.add_argument("--json", action="store_true", help="a line of JSON for each net, with each kind of vertex")
    return parser.parse_args()


def main() -> int:
    asked = words()
    missing = 0
    if not asked.json:
        print("\t".join(HEAD))
    tell_passed_over(asked.files)
    with Progress(called(), 0, "nets") as bar:
        for file, net in nets_of(asked.files):
            found = topology_or_reason(net)
            shown = f"{called()}: {file}: {net.name}" if net.name else f"{called()}: {file}"
            bar.tell([f"{shown}: {text}".encode(errors="replace").decode()
                      for text in (*net.provenance.told, *([found] if isinstance(found, str) else []))])
            if isinstance(found, str):
                missing += 1
            else:
                bar.print(json.dumps({"source": file, "name": net.name, **found.to_dict()}) if asked.json
                          else row_of(file, net, found))
            bar.step()
    return int(missing > 0)


def nets_of(files: list[str]) -> Iterator[tuple[str, Net]]:
    """The nets of the files, each with its own; a file that cannot be read, or has none, is a net that says why."""
    for file in files:
        try:
            nets = read(Path(file))
        except (OSError, NotANet, PackageMissing) as fault:
            nets = [Net.refused(in_words(fault).removeprefix(f"{file}: "))]
        yield from ((net.provenance.file or file, net) for net in nets or [Net.refused("it has no net")])


def tell_passed_over(files: list[str]) -> None:
    """Tells the structures of folders that are of kinds that are not read."""
    for folder in filter(os.path.isdir, files):
        with suppress(OSError):  # which is reported as a file that cannot be read
            passed = [name for name in sorted(os.listdir(folder)) if is_passed_over(name, SUFFIXES)]
            if passed:
                print(f"{called()}: {folder}: {told_passed_over(passed)}", file=sys.stderr)


def row_of(file: str, net: Net, found: Topology) -> str:
    symbols = " ".join(kind.vertex_symbol or "-" for kind in found.kinds)
    fields = (file, net.name, found.point_symbol, symbols, f"{float(found.td10):.2f}", found.transitivity,
              found.space_group)
    return "\t".join(map(escaped, fields)).encode(errors="replace").decode()
