"""The words of the command line, and what is reported of each file."""

from __future__ import annotations

import argparse
import signal
import sys

from ..command_line import parser_of
from ..errors import NotANet
from ..files import STANDARD_OUTPUT, opened_plain
from ..provenance import TOLD

DESCRIPTION = """The nets of .cgd and .arc files for net_tool: writes each block CRYSTAL, NET or TILING, and each
item of key lines, as a block PERIODIC_GRAPH to standard output, and all else as it is. A block
that gives no net stays as a comment, and the reason goes to standard error."""
EPILOG = """exit status: 0 each block was turned; 1 some block was refused, or a file cannot be read; 2 usage.
examples: net_tool convert examples/embedded.cgd
          net_tool convert archives/common.archive | net_tool key"""
DONE, SOME_REFUSED = 0, 1


def words() -> argparse.Namespace:
    parser = parser_of(DESCRIPTION, EPILOG, is_laid_out=True)
    parser.add_argument("files", nargs="*", metavar="FILE", default=["-"],
                        help="a .cgd or .arc file, packed by gzip or not, or - for standard input, which is read where "
                        "none is given")
    parser.add_argument("--quiet", action="store_true", help="tell no more than doubts, what of a block is passed over, and why one "
                        "is refused")
    return parser.parse_args()


def main() -> int:
    signal.signal(signal.SIGPIPE, signal.SIG_DFL)  # a reader that stops, as head, is no fault
    signal.signal(signal.SIGINT, signal.SIG_DFL)
    asked = words()
    return max([convert_file(file, asked.quiet) for file in asked.files])


def convert_file(file: str, is_quiet: bool) -> int:
    """Writes the nets of a file; 1 where some block is refused, or the file cannot be read."""
    from .converter import Converter  # whose packages no help needs

    def tell(text: str, kind: str) -> None:
        if kind in TOLD or not is_quiet:
            sys.stdout.flush()
            print(text.encode(errors="replace").decode(), file=sys.stderr)

    converter = Converter("stdin" if file == "-" else file, sys.stdout.buffer.write, tell)
    try:
        with opened_plain(file) as stream:
            converter.convert(stream)
        sys.stdout.flush()
    except NotANet as fault:
        print(fault, file=sys.stderr)
        return SOME_REFUSED
    except OSError as error:
        if error.filename == STANDARD_OUTPUT:
            raise
        print(f"{file}: not readable: {error.strerror}", file=sys.stderr)
        return SOME_REFUSED
    return SOME_REFUSED if converter.refused else DONE
