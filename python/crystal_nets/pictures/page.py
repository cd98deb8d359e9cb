"""One page of many nets, which asks nothing of the network: each can be turned by the mouse."""

from __future__ import annotations

import html
import json
from pathlib import Path

import numpy as np

from ..texts.net_text import NetReport

from .text import PALETTE, label_of, printable, summary_of
from .view import View

TEMPLATE = Path(__file__).with_name("page.html")
VIEWER = Path(__file__).with_name("viewer.js")  # what paints and turns nets, here and in net_tool desk


def page_of(title: str, cards: list[dict]) -> str:
    text = TEMPLATE.read_text(encoding="utf-8").replace("@VIEWER@", VIEWER.read_text(encoding="utf-8"))
    text = text.replace("@TITLE@", html.escape(printable(title))).replace("@PALETTE@", json.dumps(PALETTE))
    # a name must not end the script: < is written as JSON may write it
    nets = json.dumps(cards, separators=(",", ":")).replace("<", "\\u003c")
    return text.replace("@NETS@", nets)


def card_of(report: NetReport, view: View) -> dict:
    """What the script draws from: places around the middle of what is shown."""
    window, corners = view.window, view.corners
    points = _in_space(view, window.spots)
    middle = (points.max(axis=0) + points.min(axis=0)) / 2
    ends = _in_space(view, view.stubs)
    outline = _rounded(_in_space(view, corners) - middle)
    frame = np.eye(3)
    frame[:len(view.frame), :len(view.frame)] = view.frame
    return {"name": label_of(report), "summary": summary_of(view.shape), "key": report.key.decode(),
            "names": [printable(name) for name in report.names], "shells": _sequences(report.shells), "frame": _rounded(frame),
            "vertices": _rounded(points - middle), "kinds": [view.shape.kind[c] for c in window.classes],
            "edges": window.whole, "outline": [(outline[m], outline[n]) for m, n in view.outline],
            "leaving": [[i, *end] for (i, _), end in zip(window.leaving, _rounded(ends - middle))],
            "ball": round(view.ball, 3)}


def _sequences(shells: list[list[int]]) -> list[str]:
    """The coordination sequences, each once, with the number of classes that have it."""
    texts = [" ".join(map(str, shell)) for shell in shells]
    return [f"{text} ({texts.count(text)} of {len(texts)} vertices)" for text in sorted(set(texts))]


def _in_space(view: View, rows: np.ndarray) -> np.ndarray:
    """In lengths of edges; a layer lies in the plane of the page."""
    points = rows @ view.shape.axes
    return np.pad(points, ((0, 0), (0, 3 - points.shape[1])))


def _rounded(rows: np.ndarray) -> list[list[float]]:
    return [[round(float(x), 3) for x in row] for row in rows]
