"""How far some work is, on standard error where that is a terminal; by tqdm, and silent where that is not there."""

from __future__ import annotations

import shutil
import sys
from types import TracebackType
from typing import Any

FORM = "{desc} [{bar:20}] {n_fmt}/{total_fmt} {unit}{postfix}, {remaining} left"
WITHOUT_TOTAL = "{desc} {n_fmt} {unit}{postfix}, {elapsed}"


class Progress:
    """How much of the work is done, and about how many seconds are left; `with Progress(..)` leaves nothing behind.

    total  of what, as 300 nets; 0 if that is not known"""

    def __init__(self, title: str, total: int, what: str) -> None:
        self.bar = _bar(title, total, what) if sys.stderr.isatty() else None

    def __enter__(self) -> Progress:
        return self

    def __exit__(self, kind: type[BaseException] | None, fault: BaseException | None,
                 trace: TracebackType | None) -> None:
        if self.bar is not None:
            self.bar.close()

    def tell(self, lines: list[str]) -> None:
        """Prints lines above the bar."""
        if lines and self.bar is not None:
            self.bar.write("\n".join(lines), file=sys.stderr)
        elif lines:
            print("\n".join(lines), file=sys.stderr)

    def print(self, line: str) -> None:
        """Prints a line of output, above the bar if that is on the same terminal."""
        if self.bar is not None and sys.stdout.isatty():
            self.bar.write(line, file=sys.stdout)
        else:
            print(line)

    def step(self, count: int = 1, note: str = "") -> None:
        """So much more is done; the note stands behind what is done."""
        if self.bar is None:
            return
        if note:
            self.bar.set_postfix_str(note, refresh=False)
        self.bar.update(count)
        if self.bar.total and self.bar.n >= self.bar.total:
            self.bar.refresh()


def _bar(title: str, total: int, what: str) -> Any:
    """A bar of tqdm; None where that is not there."""
    try:
        from tqdm import tqdm
    except ModuleNotFoundError:
        return None
    return tqdm(total=total or None, desc=title, unit=what, file=sys.stderr, leave=False, ascii=" =",
                bar_format=FORM if total else WITHOUT_TOTAL, ncols=shutil.get_terminal_size().columns)
