"""Colours, and the words below a picture."""

from __future__ import annotations

from ..texts.net_text import NetReport

from .shape import Shape

# Okabe and Ito's colours, which colour-blind readers tell apart. From the ninth kind of vertex on
# they come again, with a white dot.
PALETTE = ("#0072B2", "#D55E00", "#009E73", "#CC79A7", "#E69F00", "#56B4E9", "#F0E442", "#404040")
PAPER = 255.0  # each part of its colour
TURNING = "\u202a\u202b\u202c\u202d\u202e\u2066\u2067\u2068\u2069"  # Unicode's embeddings, overrides and isolates
MIST = 0.72  # how far the colours behind are from those in front, on the way to that of the paper


def mixed(colour: str, grey: float, share: float) -> str:
    """The colour with a share of a grey."""
    parts = (int(colour[i:i + 2], 16) for i in (1, 3, 5))
    return "#%02x%02x%02x" % tuple(int(part * (1 - share) + grey * share) for part in parts)


def misty(colour: str, depth: float) -> str:
    """The colour, nearer to that of the paper as it lies deeper: depth 0 is in front, 1 behind."""
    return mixed(colour, PAPER, MIST * depth)


def printable(text: bytes | str) -> str:
    """A name as XML may have it: bytes that are no UTF-8, and control bytes, become a mark. So do those that turn the
    direction of the text that follows them."""
    if isinstance(text, bytes):
        text = text.decode(errors="replace")
    return "".join("\ufffd" if is_no_xml(c) or c in TURNING else c for c in text)


def is_no_xml(c: str) -> bool:
    return c < " " or c == "\x7f" or 0xD800 <= ord(c) <= 0xDFFF or ord(c) in (0xFFFE, 0xFFFF)


def label_of(report: NetReport) -> str:
    """The name of a net, or else its first name in the archive, or else its number."""
    names = [report.name, *report.names]
    return printable(next((name for name in names if name), b"net %d" % report.number))


def summary_of(shape: Shape) -> str:
    kinds = "1 kind of vertex" if shape.kinds == 1 else f"{shape.kinds} kinds of vertices"
    return f"{', '.join(map(str, shape.degrees))}-connected, {kinds}, {shape.system} cell"
