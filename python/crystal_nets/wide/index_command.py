"""An archive of nets without a key: NAME.cgd has the blocks of those nets of the files that the program
refuses a key (4 to 7), each in a primitive cell on a short basis, to which `net_tool verify` has taken a
map; NAME.index tells look-up where they stand. FILE may be NAME.cgd itself: then its index is made anew.
What is left out is reported on standard error."""

from __future__ import annotations

import sys
from pathlib import Path

from ..command_line import called, parser_of
from ..asking import keys
from ..net import Net
from ..reading import read
from ..side_by_side import bind_programs
from .archive import write_wide_archive
from .naming import is_asked

EPILOG = """exit status: 0 all is taken; 1 something is left out; 2 usage.
NET_TOOL is the program; where it is not set, the one of this installation or repository, or net_tool on the path.
examples: net_tool archive index mine archives/layers.cgd
          net_tool archive index ~/.local/share/net_tool/archives/mine mine.cgd"""


def main() -> int:
    parser = parser_of(__doc__, EPILOG, is_laid_out=True)
    parser.add_argument("stem", metavar="NAME", type=Path, help="the path of the archive without .cgd")
    parser.add_argument("files", nargs="+", metavar="FILE", help="files of nets")
    asked = parser.parse_args()
    bind_programs()
    nets, left_out = chosen([net for file in asked.files for net in read(Path(file))])
    for net in nets:
        for text in net.provenance.told:
            print(f"{called()}: {net.name}: {text}".encode(errors="replace").decode(), file=sys.stderr)
    left_out += write_wide_archive(asked.stem, nets)
    for name, reason in left_out:
        print(f"{called()}: {name or 'a net without a name'}: {reason}", file=sys.stderr)
    return int(bool(left_out))


def chosen(nets: list[Net]) -> tuple[list[Net], list[tuple[str, str]]]:
    """The nets without a key, each name once; and the names of the others, with the reasons."""
    taken: dict[str, Net] = {}
    left_out = []
    for answer in keys(nets, maps=False):
        reason = ""
        if answer.accepted:
            reason = "it has a key"
        elif not is_asked(answer.outcome) or answer.outcome.kind != "refused":
            reason = str(answer.outcome)
        elif not answer.name:
            reason = "it has no name"
        elif answer.name in taken:
            reason = "its name stood before"
        if reason:
            left_out.append((answer.name, reason))
        else:
            taken[answer.name] = answer.net
    return list(taken.values()), left_out
