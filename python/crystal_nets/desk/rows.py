"""What the table tells of nets: names, sizes, what is in doubt, and why there is no key. Nothing is drawn."""

from __future__ import annotations

from typing import Any

from ..answers import Answer, By
from ..asking import answered_in_time, identify, identify_all
from ..net import Net
from ..pictures.text import printable
from ..wide.naming import is_asked, naming_of
from .archives import AllShelves, names_of, names_without_key
from .reasons import reason_of, unread

SECONDS = 20  # of one net, after which the others are answered without it


def rows_of(nets: list[Net]) -> list[dict[str, Any]]:
    """A row for each net, in their order."""
    answers = answered_in_time(lambda some: identify_all(some, archive=None, maps=False), nets, SECONDS)
    return [{**_sizes(answer), **_told(answer)} for answer in answers]


def _sizes(answer: Answer) -> dict[str, Any]:
    sequences = sorted(set(answer.sequences))
    return {"dimension": answer.dimension, "vertices": answer.vertices, "edges": answer.edges, "classes": answer.classes,
            "degrees": sorted({sequence[0] for sequence in sequences}), "copies": answer.copies, "key": answer.key,
            "sequences": [" ".join(map(str, sequence)) for sequence in sequences]}


def _told(answer: Answer) -> dict[str, Any]:
    """The names with their archives, by what they are certain, the key of all nets that are equal to it, notes and doubts."""
    by, names, reason, key = str(By.KEY), names_of(answer.key) if answer.key else [], "", answer.key
    if not answer.accepted:
        reason = (unread(answer.net.refusal) if answer.net.refusal else reason_of(answer.outcome))["what"]
        by, names, key = _beyond(answer)
    provenance = answer.net.provenance
    return {"names": [{"archive": stem, "name": printable(name)} for stem, name in names], "by": by, "why": printable(reason),
            "groupKey": key,
            "doubts": list(map(printable, provenance.doubts)), "left_out": list(map(printable, provenance.left_out)),
            "notes": list(map(printable, provenance.remarks)), "convention": provenance.convention,
            "components": list(map(str, provenance.components))}


def _beyond(answer: Answer) -> tuple[str, list[tuple[str, str]], str]:
    """By what a net without a key has names, these, and the key that a verified map gives it."""
    if answer.net.refusal or not is_asked(answer.outcome):
        return "", [], ""
    found = naming_of(answer, AllShelves(), lambda other: identify(other, archive=None, maps=False))
    names = names_of(found.small.key) if found.small else names_without_key(found.names)
    return str(found.by), names, found.small.key if found.small and found.by is By.SMALLER_CELL else ""
