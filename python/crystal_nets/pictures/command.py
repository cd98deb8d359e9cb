"""Draws the nets of a report of `net_tool identify`, which is read from standard input: each as
SVG, or as PNG, or all of them on one page that needs no network; or writes embeddings of them as
crystals. Positions of pictures are those of the report; the shape of the cell is that of the
standard realization. Crystals are the standard realization, or relaxed to edges as equal as they
can be. Pictures and crystals are not proved; --check finds in exact numbers what a certificate
shows."""

from __future__ import annotations

import argparse
import sys
from dataclasses import fields
from pathlib import Path

from ..command_line import called, parser_of, whole_number
from ..side_by_side import processors
from ..texts.net_text import MOST_BLOCKS, nets_of_report

EMBEDDINGS = ("barycentric", "relaxed")
MOST_JOBS = 256
MOST_WIDTH = 32_767  # of a picture, in pixels, as librsvg draws it
EPILOG = """exit status: 0 all is drawn; 1 some net has no picture or crystal, or a file cannot be written; 2 usage.
examples: net_tool identify examples/dia.cgd | net_tool draw --page nets.html
          net_tool identify examples/srs.cgd | net_tool draw --embedding relaxed --cgd srs.cgd"""


def words() -> argparse.Namespace:
    parser = parser_of(__doc__, EPILOG, is_laid_out=True)
    parser.add_argument("--svg", metavar="FOLDER", type=Path, help="a picture of each net, NUMBER_NAME.svg")
    parser.add_argument("--png", metavar="FOLDER", type=Path, help="the same as PNG, by rsvg-convert")
    parser.add_argument("--page", metavar="FILE", type=Path, help="one page of all nets")
    parser.add_argument("--cgd", metavar="FILE", type=Path,
                        help="embeddings as blocks CRYSTAL, with groups by spglib")
    parser.add_argument("--cif", metavar="FOLDER", type=Path, help="the same as CIF, NUMBER_NAME.cif")
    parser.add_argument("--embedding", choices=EMBEDDINGS,
                        help="of crystals: barycentric, each vertex at the mean of its neighbours, or relaxed (barycentric)")
    parser.add_argument("--certificates", metavar="FOLDER", type=Path,
                        help="of relaxed embeddings with equal edges what shows that none has a greater volume")
    parser.add_argument("--check", metavar="FILE", type=Path, help="checks such a certificate, and reads no report")
    parser.add_argument("--title", help="of the page (Nets)")
    parser.add_argument("--only", metavar="N", type=whole_number(1, MOST_BLOCKS), help="the net with this number alone")
    parser.add_argument("--jobs", metavar="N", type=whole_number(1, MOST_JOBS), default=processors(),
                        help="processes side by side, as many as processors where it is not given")
    parser.add_argument("--width", metavar="N", type=whole_number(1, MOST_WIDTH), help="of PNG, in pixels (800)")
    asked = parser.parse_args()
    if not (asked.svg or asked.png or asked.page or asked.cgd or asked.cif or asked.certificates or asked.check):
        parser.error("give --svg, --png, --page, --cgd, --cif, --certificates or --check")
    for word, value, of in (("--title", asked.title, "--page"), ("--width", asked.width, "--png")):
        if value is not None and not getattr(asked, of[2:]):
            parser.error(f"{word} has no effect without {of}")
    if asked.embedding and not (asked.cgd or asked.cif):
        parser.error("--embedding has no effect without --cgd or --cif")
    if asked.certificates and asked.embedding != "relaxed":
        asked.embedding = "relaxed" if asked.embedding is None and not (asked.cgd or asked.cif) else \
            parser.error("--certificates are of --embedding relaxed")
    return asked


def check(file: Path) -> int:
    """Prints what a certificate shows; 1 if it shows nothing."""
    from ..embedding.certificate import NotCertified, check_certificate
    try:
        print(check_certificate(file.read_text()))
    except (NotCertified, UnicodeDecodeError) as reason:
        print(f"{called()}: {file}: {reason}", file=sys.stderr)
        return 1
    return 0


def main() -> int:
    asked = words()
    if asked.check:
        return check(asked.check)
    from .drawn import Wanted, draw  # whose packages no help needs
    with open(0, "rb") as lines:
        # all of it is read before anything is drawn
        reports = [report for report in nets_of_report(lines) if asked.only in (None, report.number)]
    if asked.only is not None and not reports:
        print(f"{called()}: the report has no net {asked.only}", file=sys.stderr)
        return 1
    given = {field.name: getattr(asked, field.name) for field in fields(Wanted)}
    return draw(reports, Wanted(**{name: value for name, value in given.items() if value is not None}))
