"""The archives in which names are looked up, one in a line."""

from __future__ import annotations

import os
import sys

from .archive import default_files, files_of
from .command_line import called, parser_of
from .errors import NotAnArchive, in_words
from .files import content_of_file
from .wide.archive import SUFFIX

MARK = b"net_archive "  # with which an archive begins
EPILOG = """exit status: 0 all are listed; 1 a PATH is not there, cannot be read, or is no archive, or a folder has none; 2 usage.
examples: net_tool archive list
          net_tool archive list archives"""


def check_archive(path: str) -> None:
    """NotAnArchive if a file is by its first bytes no archive and no index of one, and OSError if it cannot be read."""
    if not content_of_file(path, len(MARK)).startswith(MARK) and not path.endswith(SUFFIX):
        raise NotAnArchive(f"{path} is no archive")


def main() -> int:
    parser = parser_of(__doc__, EPILOG, is_laid_out=True)
    parser.add_argument("paths", nargs="*", metavar="PATH", help="an archive or a folder; those of net_tool and of the user, if "
                        "none is given")
    parser.add_argument("--without-key", action="store_true", help="the indices of archives of nets without a key instead")
    asked = parser.parse_args()
    try:
        for path in asked.paths:
            os.stat(path)
        files = files_of(asked.paths) if asked.paths else default_files()
        for path in filter(os.path.isfile, asked.paths):
            check_archive(path)
    except (NotAnArchive, OSError) as reason:
        print(f"{called()}: {in_words(reason)}", file=sys.stderr)
        return 1
    for file in files:
        if "\n" in str(file):
            print(f"{called()}: {str(file)!r} has a line feed in its name", file=sys.stderr)
            return 1
        if (file.suffix == SUFFIX) == asked.without_key:
            print(file)
    return 0
