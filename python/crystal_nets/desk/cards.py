"""What is reported and drawn of a net."""

from __future__ import annotations

from dataclasses import asdict
from typing import Any

import numpy as np

from ..answers import By, Naming
from ..errors import NotANet, ProgramFailed
from ..net import Net
from ..outcome import outcome_of
from ..parts import Component, components
from ..pictures.page import card_of
from ..embedding.placed import NotPlaced, placed_net
from ..pictures.shape import Shape
from ..pictures.text import printable
from ..pictures.view import view_of
from ..program import run
from ..symbols import rcsr_address
from ..texts.net_text import NetReport, nets_of_report
from .archives import names_of
from .beyond import naming, told as told_beyond
from .reasons import reason_of, unread
from .woven import woven, woven_copies

DIGITS = 3


def report_of(net: Net) -> tuple[NetReport, bytes]:
    """The report of `identify` on a net, read and as it is. NotANet where the text is not of one block."""
    _, told = run("identify", net.block, "-")
    reports = list(nets_of_report(told.splitlines(keepends=True)))
    if len(reports) != 1:
        raise NotANet(f"the text has {len(reports)} blocks, and one is asked for")
    return reports[0], told


def card(net: Net) -> dict[str, Any]:
    """All of a net: names, sizes, key, sequences, picture; or the reason why it has no key. `report` is that of
    `identify`, with the names of all archives."""
    if net.refusal:
        return {**_head(net), "reason": unread(net.refusal)}
    report, told = report_of(net)
    done = {**_head(net), "block": net.block.decode(errors="replace"), "report": _with_names(told, report),
            "sizes": {word.decode(): value for word, value in report.graph.items()}}
    return {**done, **(_of_key(net, report) if report.key else _without_key(net, report))}


def _head(net: Net) -> dict[str, Any]:
    return {"name": printable(net.name), "notes": [printable(note) for note in net.notes], "copies": net.copies,
            "woven_class": net.interpenetration.symbol if net.interpenetration else ""}


def _with_names(told: bytes, report: NetReport) -> str:
    """The report, where it has no names yet, with those of all archives, as the program prints them."""
    if not report.key:
        return told.decode(errors="replace")
    names = [name for _, name in names_of(report.key.decode())]
    lines = "".join(f'name "{name}"\n' for name in names)
    text = told.decode(errors="replace")
    return text.removesuffix("names 0\n") + f"names {len(names)}\n" + lines


def _of_key(net: Net, report: NetReport) -> dict[str, Any]:
    key = report.key.decode()
    done = {"key": key, "names": [{"archive": stem, "name": printable(name)} for stem, name in names_of(key)],
            "rcsr": rcsr_address([name for _, name in names_of(key)], key, report.graph[b"d"]),
            "sequences": _sequences(report.shells), "scale": report.scale, "classes": report.classes}
    try:
        placed = placed_net(report)
    except NotPlaced as fault:
        raise ProgramFailed(f"the report of the program is damaged: {fault}") from None
    shape = Shape(placed)
    view = view_of(shape)
    done |= {"cell": _cell(shape), "picture": card_of(report, view)}
    drawn = woven_copies(net, placed, net.copies)
    return {**done, "woven": asdict(drawn)} if drawn else done


def _sequences(shells: list[list[int]]) -> list[dict[str, Any]]:
    """The coordination sequences, each once, with the number of classes that have it."""
    all_of_them = [tuple(shell) for shell in shells]
    return [{"numbers": list(shell), "vertices": all_of_them.count(shell)} for shell in sorted(set(all_of_them))]


def _cell(shape: Shape) -> dict[str, Any]:
    """The cell that is drawn: its kind, the lengths of its axes in mean edges, its angles in degrees."""
    units = shape.axes / shape.lengths[:, None]
    pairs = ((1, 2), (0, 2), (0, 1)) if shape.dimension == 3 else ((0, 1),)
    angles = [float(np.degrees(np.arccos(np.clip(units[i] @ units[j], -1, 1)))) for i, j in pairs]
    return {"system": shape.system, "lengths": [round(float(length), DIGITS) for length in shape.lengths],
            "angles": [round(angle, 1) for angle in angles], "vertices": len(shape.sites), "kinds": shape.kinds,
            "degrees": shape.degrees}


def _without_key(net: Net, report: NetReport) -> dict[str, Any]:
    outcome = outcome_of(report.told, report.line - 1)
    done: dict[str, Any] = {"reason": reason_of(outcome)}
    beyond = naming(net, outcome, report)
    if beyond:
        return {**done, "beyond": told_beyond(beyond), **_picture_of_smaller_cell(beyond)}
    if outcome.kind != "refused" or outcome.number not in (1, 2):
        return done
    found = components(net, archive=None)
    if not found.outcome.accepted:
        return done
    done["parts"] = _told_parts(found.parts)
    drawn = woven(net)
    return {**done, "woven": asdict(drawn)} if drawn else done


def _picture_of_smaller_cell(found: Naming) -> dict[str, Any]:
    """Sequences, cell and picture of the net in the smaller cell to which `verify` has taken a map; nothing where there is
    none, or it cannot be drawn."""
    if found.by is not By.SMALLER_CELL or found.small is None or found.small.report is None:
        return {}
    try:
        shown = _of_key(found.small.net, found.small.report)
    except ProgramFailed:
        return {}
    return {part: shown[part] for part in ("sequences", "scale", "classes", "cell", "picture")}


def _told_parts(parts: tuple[Component, ...]) -> list[dict[str, Any]]:
    """The kinds of pieces: copies of parts with equal keys add up."""
    told: dict[str, dict[str, Any]] = {}
    for number, part in enumerate(parts):
        same = told.setdefault(part.key or str(number), {**_part(part), "copies": 0})
        same["copies"] += part.copies
    return list(told.values())


def _part(part: Component) -> dict[str, Any]:
    names = [{"archive": stem, "name": printable(name)} for stem, name in names_of(part.key)] if part.key else []
    return {"vertices": part.vertices, "key": part.key, "names": names,
            "reason": {} if part.key else reason_of(part.outcome)}
