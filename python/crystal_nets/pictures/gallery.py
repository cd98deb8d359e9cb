"""A page of pictures for each archive, FOLDER/NAME.html; for those that net_tool archive list lists, if none is given. An
ARCHIVE that is a folder is all archives in it. On a terminal a bar shows how far it is."""

from __future__ import annotations

import argparse
import signal
import sys
from pathlib import Path

from ..command_line import called, parser_of, whole_number
from ..archive import default_files, files_of
from ..wide.archive import SUFFIX
from ..errors import NotAnArchive, ProgramFailed
from ..program import reading_report, run
from ..side_by_side import processors
from ..texts.archive_text import entries_of
from ..texts.graph_text import text_of_graph
from ..texts.net_text import NetReport, nets_of_report

from .command import MOST_JOBS

EPILOG = """exit status: 0 each net is drawn; 1 some net has no picture, or a file is no archive; 2 usage; else that of
net_tool. NET_TOOL is the program; where it is not set, the one of this installation or
repository, or net_tool on the path.
examples: net_tool gallery pages
          net_tool gallery pages archives/layers.archive"""


def words() -> argparse.Namespace:
    parser = parser_of(__doc__, EPILOG, is_laid_out=True)
    parser.add_argument("folder", metavar="FOLDER", type=Path, help="made where it is not there")
    parser.add_argument("archives", metavar="ARCHIVE", nargs="*", type=Path, default=[], help="an archive, or a folder of them")
    parser.add_argument("--jobs", metavar="N", type=whole_number(1, MOST_JOBS), default=processors(),
                        help="processes side by side, as many as processors where it is not given")
    return parser.parse_args()


def main() -> int:
    signal.signal(signal.SIGINT, signal.SIG_DFL)
    asked = words()
    from .drawn import Wanted, draw  # whose packages no help needs
    known = files_of(asked.archives) if asked.archives else default_files()
    files = [file for file in known if file.suffix != SUFFIX]  # nets without a key have no picture
    if not files:
        raise NotAnArchive("there is no archive")
    asked.folder.mkdir(parents=True, exist_ok=True)
    status = 0
    for file in files:
        page = asked.folder / f"{file.name.removesuffix('.archive')}.html"
        try:
            reports = reports_of(file)
        except ProgramFailed as fault:
            print(f"{called()}: {file}: {fault}", file=sys.stderr)
            return fault.status if fault.status > 0 else 1
        status |= draw(reports, Wanted(page=page, title=f"Nets of {file.name}", jobs=asked.jobs))
        print(page, flush=True)
    return status


def reports_of(file: Path) -> list[NetReport]:
    """What the program reports of the nets of an archive, computed from their edges."""
    with open(file, "rb") as lines:
        blocks = [text_of_graph(entry.graph) for entry in entries_of(lines, str(file))]
    if sys.stderr.isatty():
        print(f"{called()}: {file.stem}: placing {len(blocks)} nets", file=sys.stderr)
    _, told = run("identify", b"".join(blocks), "-")
    with reading_report("identify"):
        return list(nets_of_report(told.splitlines(keepends=True)))
