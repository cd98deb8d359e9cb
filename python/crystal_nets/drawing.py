"""Pictures of nets, for notebooks and for files. They are not proved; positions are those of the report."""

from __future__ import annotations

import html
from collections.abc import Sequence
from typing import TYPE_CHECKING

from .errors import CrystalNetsError, NotANet, PackageMissing, lacking
from .net import Net
from .provenance import told_copies

if TYPE_CHECKING:
    from .answers import Answer

MOST_PICTURES = 24  # in the table of many answers


def svg(source: Net | Answer) -> str:
    """The picture of a net as SVG; in its smaller cell where it has a key in that alone. NotANet where it has no key, and so
    no picture."""
    from .answers import Answer
    from .asking import identify
    answer = source if isinstance(source, Answer) else identify(source, archive=None)
    shown = answer if answer.accepted else answer.small
    if shown is None:
        raise NotANet(f"it has no key, and so no picture: {answer.outcome}")
    report = (shown if shown.text else identify(shown.net, archive=None)).report
    try:
        from .embedding.placed import NotPlaced, placed_net
        from .pictures.shape import Shape
        from .pictures.svg import picture
        from .pictures.view import view_of
    except ModuleNotFoundError as missing:
        raise PackageMissing(f"pictures: {lacking(missing, 'apt-get install python3-numpy')}") from missing
    if report is None:
        raise NotANet("the program says nothing of the net of this answer")
    try:
        return picture(view_of(Shape(placed_net(report))), _label(answer))
    except NotPlaced as reason:
        raise NotANet(f"the report is damaged: {reason}") from None


def _label(answer: Answer) -> str:
    from .pictures.text import printable
    return printable(answer.name or (answer.names[0] if answer.names else "net"))


def svg_or_none(net: Net) -> str | None:
    """The picture, or nothing where there is none: a notebook shows the text then."""
    try:
        return svg(net)
    except CrystalNetsError:
        return None


def svg_of_answer(answer: Answer) -> str | None:
    try:
        return svg(answer)
    except CrystalNetsError:
        return None


def html_of_net(net: Net) -> str:
    """What it is, the picture and what is to be known of it."""
    notes = _table(_notes(net, net.notes))
    return f"<div>{html.escape(repr(net))}{_small(svg_or_none(net))}{notes}</div>"


def html_of_answer(answer: Answer) -> str:
    """The names, the picture and what is to be known of an answer."""
    rows = [("net", answer.name), ("names", "; ".join(answer.names)), ("by", "" if answer.accepted else str(answer.by)),
            ("outcome", str(answer.outcome)),
            ("vertices, edges", f"{answer.vertices}, {answer.edges}" if answer.vertices else "")]
    rows += [("symmetry", _symmetry(answer)), ("group of the block", _given_group(answer)), ("RCSR", answer.rcsr)]
    rows += [("copies", told_copies(answer.copies, answer.interpenetration))]
    sequences = (answer.small or answer).sequences
    rows += [("sequence", " ".join(map(str, sequence))) for sequence in sorted(set(sequences))]
    rows += [("what to do", answer.advice), *_notes(answer.net, answer.notes), ("note", answer.naming.note)]
    return f"<div>{_small(svg_of_answer(answer))}{_table(rows)}</div>"


def _given_group(answer: Answer) -> str:
    """How the group of a block is related to that of its net; nothing if it is not known."""
    try:
        return answer.given_group if answer.text else ""
    except CrystalNetsError:
        return ""


def _symmetry(answer: Answer) -> str:
    """The group and the kinds of vertices and edges; without the group if a package is missing for it. Nothing if the program
    lists no symmetries, or was not asked for all that is known."""
    from .symmetries import count_of
    try:
        found = answer.symmetry if answer.text else None
    except CrystalNetsError:
        return ""
    try:
        return str(found or "")
    except PackageMissing:
        return count_of(*found.transitivity) if found else ""


def _notes(net: Net, notes: Sequence[str]) -> list[tuple[str, str]]:
    """Notes with what they are: doubts and what was left out apart from the rest."""
    kinds = {**dict.fromkeys(net.left_out, "left out"), **dict.fromkeys(net.doubts, "in doubt")}
    return [(kinds.get(note, "note"), note) for note in notes]


def _table(rows: Sequence[tuple[str, str]]) -> str:
    """Rows of a word and what belongs to it; nothing where there are none."""
    cells = "".join(f"<tr><th>{name}</th><td>{html.escape(text)}</td></tr>" for name, text in rows if text)
    return f"<table>{cells}</table>" if cells else ""


def _told(answer: Answer) -> str:
    """What is to be known of an answer among others: by what its names are certain, why it has no key, doubts, what was
    left out."""
    words = [] if answer.accepted else [str(answer.by), str(answer.outcome), answer.advice]
    words += [told_copies(answer.copies, answer.interpenetration)]
    words += [f"{kind}: {note}" for kind, note in _notes(answer.net, answer.notes) if kind != "note"]
    return "; ".join(word for word in words if word)


def html_of_answers(answers: Sequence[Answer]) -> str:
    """A table with a row for each answer, and a picture in the first of them."""
    rows = []
    for place, answer in enumerate(answers):
        drawn = _small(svg_of_answer(answer), 120) if place < MOST_PICTURES and answer.text else ""
        cells = (html.escape(answer.name), html.escape("; ".join(answer.names)), html.escape(_told(answer)),
                 str(answer.vertices or ""), str(answer.edges or ""), drawn)
        rows.append("<tr>" + "".join(f"<td>{cell}</td>" for cell in cells) + "</tr>")
    head = "".join(f"<th>{word}</th>" for word in ("net", "names", "what is to be known", "vertices", "edges", ""))
    return f"<table><tr>{head}</tr>{''.join(rows)}</table>"


def _small(picture: str | None, size: int = 320) -> str:
    """A picture of so many pixels; nothing where there is none."""
    return f'<div style="width:{size}px">{picture}</div>' if picture else ""
