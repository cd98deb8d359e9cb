"""By what rows are made: sums of these tools and of the program, so that rows of others are not taken for theirs."""

from __future__ import annotations

import hashlib
from pathlib import Path

from ..program import find_program

TOOLS = Path(__file__).resolve().parents[1]


def made_by() -> str:
    """A sum of the modules of this package, and one of the program. ProgramNotFound if that is not there."""
    told = hashlib.sha256()
    for module in sorted(TOOLS.rglob("*.py")):
        told.update(str(module.relative_to(TOOLS)).encode() + b"\0" + module.read_bytes() + b"\0")
    program = hashlib.sha256(Path(find_program()).read_bytes())
    return f"{told.hexdigest()[:16]}-{program.hexdigest()[:16]}"


def told_difference(planned: str, now: str) -> str:
    """What differs, in words."""
    (tools, program), (tools_now, program_now) = planned.split("-"), now.split("-")
    return " and ".join(["another version of these tools"] * (tools != tools_now) + ["another program"] * (program != program_now))
