"""The words of net_tool archive make."""

from __future__ import annotations

import argparse
import signal
import sys
from pathlib import Path

from ..command_line import called, parser_of
from ..errors import NotANet, in_words
from ..side_by_side import bind_programs

DESCRIPTION = """Archives of the nets of .cgd and .arc files: NAME.archive, and NAME.2.archive and so on where one
cannot hold them all. What is refused, and why, goes to NAME.refused. Nets that have no key, but a name, are told by
maps: they go to NAME.wide.cgd, with the index NAME.wide.index."""
EPILOG = """exit status: 0 each net is taken; 1 some net is refused; 2 usage; 3 nothing is made.
NET_TOOL is the program; where it is not set, the one of this installation or repository, or net_tool on the path.
examples: net_tool archive make mine examples/dia.cgd examples/srs.cgd
          net_tool archive make mine examples/embedded.cgd"""
FAILED = 3


def words() -> argparse.Namespace:
    parser = parser_of(DESCRIPTION, EPILOG, is_laid_out=True)
    parser.add_argument("stem", metavar="NAME", type=Path, help="the path of the archive without .archive")
    parser.add_argument("files", nargs="+", metavar="FILE", help="a .cgd or .arc file")
    return parser.parse_args()


def main() -> int:
    signal.signal(signal.SIGINT, signal.SIG_DFL)
    asked = words()
    from .collection import Failed, make_archives  # whose packages no help needs
    bind_programs()
    try:
        return make_archives(asked.stem, asked.files)
    except (Failed, NotANet, OSError) as reason:
        print(f"{called()}: {in_words(reason)}", file=sys.stderr)
        return FAILED
