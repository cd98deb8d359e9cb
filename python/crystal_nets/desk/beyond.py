"""What is reported of a net that the program refuses a key: names by verified maps, or by the key of a smaller cell."""

from __future__ import annotations

from typing import Any

from ..answers import Answer, By, Naming
from ..asking import identify
from ..net import Net
from ..outcome import Outcome
from ..pictures.text import printable
from ..texts.net_text import NetReport
from ..wide.naming import is_asked, naming_of
from .archives import AllShelves, names_of, names_without_key

BY_MAP = "Its net is {}: net_tool verify has taken a map to the net of this name, edge by edge."
SMALLER = "In a smaller cell it has a key: net_tool verify has taken the map to that cell, edge by edge. "
SMALLER_NAMED, SMALLER_UNNAMED = "Its net is {}.", "Its net has no name in the archives."
UNPROVED = ("A smaller cell was found, and there its net is {}. That it is the same net is not proved: the program does not "
            "read a cell as large as the one that was given.")
NOTHING = "None of the nets without a key that are kept here was found to be it; that is not proved."


def naming(net: Net, outcome: Outcome, report: NetReport) -> Naming | None:
    """What was found of the net; None where nothing is looked for."""
    if not is_asked(outcome):
        return None
    answer = Answer(net, outcome, dimension=report.graph.get(b"d", 0))
    return naming_of(answer, AllShelves(), lambda other: identify(other, archive=None, maps=False))


def told(found: Naming) -> dict[str, Any]:
    """The names with the stems of their archives, a sentence, and the text for `net_tool verify`."""
    if found.small:
        names = names_of(found.small.key)
    else:
        names = names_without_key(found.names)
    shown = [{"archive": stem, "name": printable(name)} for stem, name in names]
    return {"names": shown, "what": _sentence(found, "; ".join(name["name"] for name in shown)),
            "certificate": found.certificate}


def _sentence(found: Naming, names: str) -> str:
    if found.by is By.SMALLER_CELL:
        return SMALLER + (SMALLER_NAMED.format(names) if names else SMALLER_UNNAMED)
    if found.by is By.VERIFIED_MAP:
        return BY_MAP.format(names)
    if found.by is By.UNPROVED_CELL:
        return UNPROVED.format(names or "one without a name in the archives")
    return NOTHING
