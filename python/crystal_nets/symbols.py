"""The symbols of nets: what the names of archives begin with.

RCSR gives a net three lower-case letters, with an extension where it is made of another one, as pcu-b (M. O'Keeffe,
M. A. Peskov, S. J. Ramsden and O. M. Yaghi, Acc. Chem. Res. 41 (2008) 1782); the zeolites have three capitals. A name of
another archive may look like a symbol of RCSR and be none. So it has an address there only if the archives that have
RCSR's symbols, `common` and those that `net_tool archive rcsr` makes, give it to the same net."""

from __future__ import annotations

import re
from collections.abc import Iterable
from functools import cache

RCSR = re.compile(r"[a-z]{3}(?:-[a-z0-9]+)*")
WITH_RCSR = ("common.", "rcsr.")  # how the names of archives begin that have symbols of RCSR
ENTRY = re.compile(r'^entry "([^"\n]*)"\n.*?^key ([^\n]*)$', re.MULTILINE | re.DOTALL)
ROW = re.compile(r"^[0-9a-f]{32}\t\d+\t\d+\t([^\t\n]*)()$", re.MULTILINE)  # of an index: a name without a key
SYMBOL = re.compile(rf"{RCSR.pattern}|[*-]?[A-Z]{{3}}")


def symbol_of(name: str) -> str:
    """The symbol that a name begins with; empty where it has none.

    >>> symbol_of("dia, diamond"), symbol_of("*BEA, zeolite beta"), symbol_of("pcu-b"), symbol_of("diamond")
    ('dia', '*BEA', 'pcu-b', '')"""
    head = name.partition(",")[0].strip()
    return head if SYMBOL.fullmatch(head) else ""


def symbols_of(names: Iterable[str]) -> tuple[str, ...]:
    """The symbols of several names of a net, each once, in their order."""
    return tuple(dict.fromkeys(symbol for name in names if (symbol := symbol_of(name))))


def rcsr_address(names: Iterable[str], key: str, dimension: int) -> str:
    """Where RCSR has the net of these names and this key; empty if none of them is a symbol that RCSR gives to it. Nothing is
    asked there.

    >>> square = "2 1 1 1 1 0 1 1 1 1 0"
    >>> rcsr_address(["SQL", "sql, square lattice"], square, 2), rcsr_address(["abc", "hcb", "SOD, sodalite"], square, 2)
    ('https://rcsr.net/layers/sql', '')"""
    symbols = filter(RCSR.fullmatch, symbols_of(names))
    symbol = next((symbol for symbol in symbols if (symbol, key) in _known_to_rcsr()), "")
    return f"https://rcsr.net/{'layers' if dimension == 2 else 'nets'}/{symbol}" if symbol else ""


@cache
def _known_to_rcsr() -> frozenset[tuple[str, str]]:
    """The symbols with the keys of their nets, as the archives have them that can be read; of a net without a key an empty
    one."""
    from .archive import default_files  # here, since archives take their symbols from this module
    found: set[tuple[str, str]] = set()
    for path in (path for path in default_files() if path.name.startswith(WITH_RCSR)):
        try:
            text = path.read_text("utf-8", "replace")
        except OSError:
            continue
        rows = (ENTRY if path.suffix == ".archive" else ROW).findall(text)
        found.update((symbol_of(name), key) for name, key in rows)
    return frozenset(found)
