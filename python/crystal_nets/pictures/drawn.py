"""What net_tool draw and net_tool gallery write of the nets of a report."""

from __future__ import annotations

import re
import subprocess
import sys
from dataclasses import dataclass
from functools import partial
from pathlib import Path
from typing import Any

from ..command_line import called
from ..progress import Progress
from ..errors import in_words, lacking
from ..side_by_side import results_of
from ..texts.net_text import NetReport, NoReport
from ..embedding.crystal_text import block_of, cif_of
from ..embedding.embedding import Kind, embedding_of_key
from ..embedding.placed import NotPlaced, Placed, placed_net
from ..embedding.reading_back import OTHER_NET, keys_of_blocks
from ..embedding.settings import NoEmbedding

from .page import card_of, page_of
from .shape import Shape
from .svg import picture
from .text import label_of
from .view import View, view_of


@dataclass(frozen=True)
class Wanted:
    """What is to be drawn, and where it goes to."""

    svg: Path | None = None
    png: Path | None = None
    page: Path | None = None
    cgd: Path | None = None
    cif: Path | None = None
    certificates: Path | None = None
    embedding: Kind = "barycentric"
    title: str = "Nets"
    jobs: int = 1
    width: int = 800  # of PNG, in pixels


@dataclass
class Drawn:
    """What was made of one net; told is what was not, and why. The crystal has the key of its net, and is a block, a CIF and
    a certificate, which is empty if there is none."""

    report: NetReport
    told: str = ""
    card: dict[str, Any] | None = None
    block: str = ""
    cif: str = ""
    certificate: str = ""


def placed_or_reason(report: NetReport) -> Placed | str:
    """The net with its places, or why it has no picture."""
    if not report.key:
        return report.told.decode(errors="replace")
    if not report.basis:
        return "the report has no positions; it is not of `net_tool identify`"
    try:
        return placed_net(report)
    except NotPlaced as reason:
        return f"the report is damaged: {reason}"


def stem_of(report: NetReport) -> str:
    """The number of a net and its name, as a file may have them."""
    stem = re.sub(r"[^A-Za-z0-9.-]+", "_", label_of(report))[:40].strip("._") or "net"
    return f"{report.number:04}_{stem}"


def write_pictures(report: NetReport, view: View, wanted: Wanted) -> None:
    text = picture(view, label_of(report)).encode()
    if wanted.svg:
        wanted.svg.mkdir(parents=True, exist_ok=True)
        (wanted.svg / f"{stem_of(report)}.svg").write_bytes(text)
    if wanted.png:
        wanted.png.mkdir(parents=True, exist_ok=True)
        subprocess.run(["rsvg-convert", "-w", str(wanted.width), "-o", wanted.png / f"{stem_of(report)}.png"],
                       input=text, check=True)


def with_crystal(done: Drawn, wanted: Wanted) -> Drawn:
    """With the crystal of the net, or why it has none."""
    report, name = done.report, label_of(done.report)
    try:
        embedding = embedding_of_key(report.key.decode(), wanted.embedding)
    except (NoEmbedding, NotPlaced, NoReport) as reason:
        done.told = f"net {report.number} {name}: no crystal: {reason}"
        return done
    done.block, done.certificate = block_of(embedding, name), embedding.certificate
    done.cif = cif_of(embedding, name, stem_of(report)) if wanted.cif else ""
    return done


def drawn(report: NetReport, wanted: Wanted) -> Drawn:
    """Writes the files of one net, and gives what goes into files of many."""
    net = placed_or_reason(report)
    if isinstance(net, str):
        return Drawn(report, f"net {report.number} {label_of(report)}: no picture: {net}")
    done = Drawn(report)
    if wanted.svg or wanted.png or wanted.page:
        view = view_of(Shape(net))
        if wanted.svg or wanted.png:
            write_pictures(report, view, wanted)
        done.card = card_of(report, view) if wanted.page else None
    return with_crystal(done, wanted) if wanted.cgd or wanted.cif or wanted.certificates else done


def draw(reports: list[NetReport], wanted: Wanted) -> int:
    """Draws the nets; 1 where something could not be drawn, which is reported. It ends where a program or package that is
    needed is not there."""
    try:
        return _draw(reports, wanted)
    except FileNotFoundError as missing:
        what = "rsvg-convert is not there; apt-get install librsvg2-bin"
        sys.exit(f"{called()}: " + (what if missing.filename == "rsvg-convert" else in_words(missing)))
    except ModuleNotFoundError as absent:
        sys.exit(f"{called()}: {lacking(absent, 'apt-get install python3-spglib')}")
    except subprocess.CalledProcessError as fault:
        sys.exit(f"{called()}: {fault}")


def _draw(reports: list[NetReport], wanted: Wanted) -> int:
    bar = Progress(called(), len(reports), "nets")
    results = list(results_of(partial(drawn, wanted=wanted), reports, wanted.jobs, bar))
    drop_other_nets(results)
    for result in results:
        if result.told:
            print(result.told, file=sys.stderr)
    if wanted.page:
        cards = [result.card for result in results if result.card]
        wanted.page.write_text(page_of(wanted.title, cards), encoding="utf-8")
    if wanted.cgd:
        wanted.cgd.write_text("".join(result.block for result in results), encoding="utf-8")
    for result in results:
        write_text(wanted.cif, f"{stem_of(result.report)}.cif", result.cif)
        write_text(wanted.certificates, f"{stem_of(result.report)}.certificate", result.certificate)
    return int(any(result.told for result in results))


def drop_other_nets(results: list[Drawn]) -> None:
    """Reads each crystal back; one that gives another net than the report is not written."""
    crystals = [result for result in results if result.block]
    for result, key in zip(crystals, keys_of_blocks([result.block for result in crystals])):
        if key != result.report.key.decode():
            report, result.block, result.cif, result.certificate = result.report, "", "", ""
            result.told = f"net {report.number} {label_of(report)}: no crystal: {OTHER_NET}"


def write_text(folder: Path | None, name: str, text: str) -> None:
    """Writes a text into a folder, if both are there."""
    if folder and text:
        folder.mkdir(parents=True, exist_ok=True)
        (folder / name).write_text(text, encoding="utf-8")
