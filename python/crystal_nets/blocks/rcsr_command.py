"""The archive of all nets of a file that the Reticular Chemistry Structure Resource or Systre gives, .cgd or .arc:
rcsr.archive, and rcsr.refused of what is left out, with the reasons. Nets without a key, which are found by maps, go to
rcsr.wide.cgd and its index. All come beside the archives of net_tool, where all commands look for archives; if that
folder cannot be written, as in an installation, under the home of the user. The nets of RCSR are no part of net_tool:
who has the file makes the archive."""

from __future__ import annotations

import os
import sys
from pathlib import Path

from ..archive import SHARED, home_of_user
from ..command_line import called, parser_of
from ..errors import NotANet, in_words
from ..side_by_side import bind_programs

EPILOG = """exit status: 0 each net is taken; 1 some net is refused; 2 usage; 3 nothing is made.
examples: net_tool archive rcsr RCSRnets.cgd
          net_tool archive rcsr RCSRnets.cgd && net_tool archive list"""
FAILED = 3


def main() -> int:
    parser = parser_of(__doc__, EPILOG, is_laid_out=True)
    parser.add_argument("files", nargs="+", metavar="FILE", help="a .cgd or .arc file")
    asked = parser.parse_args()
    from .collection import Failed, make_archives  # whose packages no help needs
    bind_programs()
    shared = next((folder for folder in SHARED if folder.is_dir()), None)
    folder = shared if shared and os.access(shared, os.W_OK) else home_of_user()
    try:
        Path(folder).mkdir(parents=True, exist_ok=True)
        return make_archives(folder / "rcsr", asked.files)
    except (Failed, NotANet, OSError) as reason:
        print(f"{called()}: {in_words(reason)}", file=sys.stderr)
        return FAILED
