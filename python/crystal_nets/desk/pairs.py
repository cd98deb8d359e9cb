"""Whether two nets are the same, with the map that shows it; or what differs first."""

from __future__ import annotations

import re
from collections import Counter
from typing import Any

from ..maps import Meeting, NetMap, Sameness, same
from ..net import Net
from ..outcome import ACCEPTED, outcome_of
from ..parts import Component, components
from ..texts.net_text import NetReport
from ..wide.meeting import UNPROVED_DIFFERENCE
from .archives import names_of
from .cards import report_of
from .reasons import reason_of

DISCONNECTED, DEGENERATE, COLLISION = 1, 2, 5  # numbers of refusals
APART = (DISCONNECTED, DEGENERATE)
ADVICE = {UNPROVED_DIFFERENCE: "Lengths and volumes that nets have in any cell tell them apart; that is not proved."}
MOST_IMAGES = 200  # of a map that are shown; the text that is saved has all


def pair(one: Net, other: Net) -> dict[str, Any]:
    """What is reported of two nets side by side."""
    reports = [report_of(net)[0] for net in (one, other)]
    if not all(report.key for report in reports):
        return _without_key([one, other], reports)
    found = same(one, other)
    if found.same:
        return {"verdict": "same", "what": "A bijection carries the one net to the other, with every edge.", **_map(found)}
    return {"verdict": "different", "what": difference(*reports)}


def _map(found: Sameness) -> dict[str, Any]:
    if found.map is None:
        more = _meeting(found.meeting) if found.meeting else {}
        return {**more, "map": None, "advice": f"Their keys are equal. The map is not written: {found.text}."}
    return {"map": {"period": found.map.period, "base": found.map.base, "text": found.map.text,
                    "verified": found.map.is_verified(), "images": _images(found.map), "count": len(found.map.images)}}


def _meeting(found: Meeting) -> dict[str, Any]:
    """The two texts for `net_tool verify`."""
    return {"what": "Both go to one small net: net_tool verify has taken a map of each to it, edge by edge.",
            "meeting": list(found.certificates)}


def _images(read: NetMap) -> list[list[Any]]:
    """The first rows of the map: vertex, cell, vertex, cell."""
    return [[str(u), list(cell), str(v), list(there)]
            for (u, cell), (v, there) in list(read.images.items())[:MOST_IMAGES]]


def difference(one: NetReport, other: NetReport) -> str:
    """What differs first of two nets with different keys: dimension, classes, edges, a coordination sequence, the
    key."""
    for what, values in (("They differ in dimension", [r.graph[b"d"] for r in (one, other)]),
                         ("Their primitive cells have different numbers of vertices", [one.classes, other.classes]),
                         ("Their primitive cells have different numbers of edges", [one.rows, other.rows])):
        if values[0] != values[1]:
            return f"{what}: {values[0]} and {values[1]}."
    counts = [Counter(tuple(shell) for shell in report.shells) for report in (one, other)]
    if counts[0] != counts[1]:
        return _different_sequences(*counts)
    numbers = [report.key.split() for report in (one, other)]
    place = next(k for k, (a, b) in enumerate(zip(*numbers)) if a != b)
    return (f"Dimension, cell and coordination sequences agree. Their keys differ from number {place + 1} on: "
            f"{numbers[0][place].decode()} and {numbers[1][place].decode()}.")


def _different_sequences(one: Counter[tuple[int, ...]], other: Counter[tuple[int, ...]]) -> str:
    for first, second, word in ((one, other, "first"), (other, one, "second")):
        alone = sorted(shell for shell in first if shell not in second)
        if alone:
            return f"The {word} has the coordination sequence {_text(alone[0])}, which the other has not."
    shell = min(shell for shell in one if one[shell] != other[shell])
    return (f"The coordination sequence {_text(shell)} stands at {one[shell]} and {other[shell]} vertices of the "
            "primitive cells.")


def _text(shell: tuple[int, ...]) -> str:
    return " ".join(map(str, shell))


def _without_key(nets: list[Net], reports: list[NetReport]) -> dict[str, Any]:
    """Nets of which one has no key: what can be reported without."""
    outcomes = [outcome_of(report.told, report.line - 1) if report.told else ACCEPTED for report in reports]
    dimensions = [report.graph.get(b"d") for report in reports]
    if None not in dimensions and dimensions[0] != dimensions[1]:
        return {"verdict": "different", "what": f"They differ in dimension: {dimensions[0]} and {dimensions[1]}."}
    kinds = [outcome.number if outcome.kind == "refused" else None if outcome.number or outcome.text else 0
             for outcome in outcomes]
    if None not in kinds and (kinds[0] in APART) != (kinds[1] in APART):
        return {"verdict": "different", "what": "One of them is connected, and the other falls into pieces."}
    if set(kinds) == {0, COLLISION}:
        return {"verdict": "different", "what": "In one of them two vertices come to stand in one place, and in the other "
                "all stand apart."}
    if kinds == [DISCONNECTED, DISCONNECTED]:
        return _by_parts(nets)
    found = same(*nets)
    if found.meeting:
        return {"verdict": "same", **_meeting(found.meeting)}
    if found.certificate:
        return {"verdict": "different", "what": _told_certificate(found.certificate)}
    return {"verdict": "not known", "what": "One of them has no key, and nothing else tells them apart.",
            "advice": ADVICE.get(found.hint, ""), "reasons": [{} if outcome.accepted else reason_of(outcome) for outcome in outcomes]}


def _told_certificate(text: str) -> str:
    """What a certificate by shells says, in words."""
    _, pair_of_nets, shells = text.splitlines()
    which = "first" if pair_of_nets.split()[1] == "1" else "second"
    sizes = re.sub(r'^shells ("[^"]*"|\S+) ', "", shells)
    return f"A vertex of the {which} has neighbours, next neighbours and so on as {sizes}, and no vertex of the other has."


def _by_parts(nets: list[Net]) -> dict[str, Any]:
    """Two nets that fall into pieces: whether these are the same, and as many of each."""
    parts = [components(net, archive=None).parts for net in nets]
    if not all(parts) or not all(part.key for found in parts for part in found):
        return {"verdict": "not known", "what": "Both fall into pieces, and some of these have no key."}
    counts = [_count(found) for found in parts]
    if counts[0] != counts[1]:
        return {"verdict": "different", "what": "They consist of other pieces: " + ", and ".join(map(_pieces, counts)) + "."}
    return {"verdict": "not known", "what": f"They consist of the same pieces: {_pieces(counts[0])}.",
            "advice": "Whether these are woven in the same way net_tool does not decide."}


def _count(parts: tuple[Component, ...]) -> Counter[str]:
    """How many pieces there are of each key."""
    count: Counter[str] = Counter()
    for part in parts:
        count[part.key] += part.copies
    return count


def _pieces(count: Counter[str]) -> str:
    """The pieces of a net: how many of which."""
    names = {key: next((name for _, name in names_of(key)), "a net without a name") for key in count}
    return " and ".join(f"{copies} of {names[key]}" for key, copies in count.items())
