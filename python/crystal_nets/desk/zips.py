"""The files of a ZIP archive, within bounds: what it would unpack to is known before any of it is unpacked."""

from __future__ import annotations

import zipfile
import zlib
from base64 import b64encode
from io import BytesIO
from pathlib import PurePosixPath
from typing import Any

from ..errors import NotANet
from .files import MOST_BYTES, shown_name

MOST_FILES = 2000
BESIDE = "__MACOSX/"    # begins names of what a system puts beside the files; a hidden file is none that was given
OFFICE = "[Content_Types].xml"  # of files of office programs, which are ZIP archives as well
IS_ENCRYPTED = 1                # of the flags of a member


def unzip(content: bytes) -> dict[str, Any]:
    """The files with their contents, in their order, and what is reported of the others. A ZIP archive in it stays one.
    NotANet where it is damaged, or would be more than MOST_BYTES or MOST_FILES."""
    try:
        with zipfile.ZipFile(BytesIO(content)) as archive:
            members = _members(archive)
            files = [{"name": shown_name(member.filename), "content": b64encode(archive.read(member)).decode()}
                     for member in members if not member.flag_bits & IS_ENCRYPTED]
    except (zipfile.BadZipFile, zlib.error, EOFError, OSError, ValueError, NotImplementedError, RuntimeError) as fault:
        raise NotANet(f"the ZIP archive is damaged, or packed in an unusual way: {fault}") from None
    if not files:
        raise NotANet("the ZIP archive has no file" + (" without a password" if members else ""))
    locked = len(members) - len(files)
    return {"files": files, "told": f"{locked} of its files have a password, and are left out" if locked else ""}


def _members(archive: zipfile.ZipFile) -> list[zipfile.ZipInfo]:
    """The files of the archive, by their order. NotANet where they are too many or too much, by what the archive tells of
    them; what has another size is found damaged when it is read."""
    members = [member for member in archive.infolist() if not member.is_dir() and not member.filename.startswith(BESIDE)
               and not PurePosixPath(member.filename).name.startswith(".")]
    if any(member.filename == OFFICE for member in members):
        raise NotANet("it is a file of an office program")
    if len(members) > MOST_FILES:
        raise NotANet(f"the ZIP archive has more than {MOST_FILES} files")
    if sum(member.file_size for member in members) > MOST_BYTES:
        raise NotANet(f"the ZIP archive has more than {MOST_BYTES >> 20} MB, unpacked")
    return members
