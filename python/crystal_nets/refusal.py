"""Why a structure file or a block gives no net."""

from __future__ import annotations


class Refused(Exception):
    """There is no net: the reason, and the line of the text where it shows; 0 is the whole block or file."""

    def __init__(self, reason: str, line: int = 0) -> None:
        super().__init__(reason)
        self.reason = reason
        self.line = line
