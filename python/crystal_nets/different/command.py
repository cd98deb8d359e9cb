"""Shows that nets are different: of the first net of FILE and each other one a certificate that anybody can check by counting.
It is a vertex of the one net with its coordination sequence, which no vertex of the other has; or, if sequences do not tell,
a list of arcs that the other has not. Each is checked before it is printed, by a checker that shares no code with the search.
FILE has blocks PERIODIC_GRAPH; `net_tool convert` makes them of other files. That nets are the same, `net_tool same` shows."""

from __future__ import annotations

import argparse
import sys
from pathlib import Path

from ..asking import keys
from ..command_line import called, parser_of
from ..errors import NotANet
from ..net import Net
from ..reading import read
from .certificates import told_apart
from .check_different import blocks, check

EPILOG = """exit status: 0 each pair is shown to be different, or each certificate holds; 1 one is not, or does not; 2 usage; 3 a
file cannot be read.
examples: net_tool different examples/mystery.cgd > mystery.different
          net_tool different --check mystery.different examples/mystery.cgd"""


NOT_FOUND = "nothing was found that tells them apart, which shows nothing; lists are looked for in primitive cells alone"


def words() -> argparse.Namespace:
    parser = parser_of(__doc__, EPILOG, is_laid_out=True)
    parser.add_argument("file", metavar="FILE", help="blocks PERIODIC_GRAPH, two or more")
    parser.add_argument("--check", metavar="CERTIFICATES", help="check these certificates of the blocks of FILE, and make none")
    return parser.parse_args()


def main() -> int:
    asked = words()
    text = Path(asked.file).read_bytes().decode(errors="surrogateescape")
    if asked.check:
        return _checked(Path(asked.check).read_text(encoding="utf-8", errors="surrogateescape"), text)
    return _made(_nets_of(Path(asked.file), text), text)


def _nets_of(file: Path, text: str) -> list[Net]:
    """The nets of a file. NotANet if it has another kind of blocks too, so that they would have other numbers."""
    nets = read(file)
    refused = next((net.refusal for net in nets if net.refusal), "")
    if refused or len(nets) != len(blocks(text)):
        reason = refused or "it has other blocks than PERIODIC_GRAPH"
        raise NotANet(f"{file}: {reason}; 'net_tool convert' makes these of other files")
    if len(nets) < 2:
        raise NotANet(f"{file}: it has fewer than two nets")
    return nets


def _made(nets: list[Net], text: str) -> int:
    """Prints the certificates; 1 if a pair has none."""
    missing = 0
    known = [answer.key for answer in keys(nets, maps=False)]
    for number, net in enumerate(nets[1:], start=2):
        if known[0] and known[0] == known[number - 1]:
            told, reason = None, "they have one key, so they are the same: 'net_tool same' has the map"
        else:
            told, reason = told_apart(nets[0].graph, net.graph), NOT_FOUND
        if told and check(told.text(1, number), text) == [True]:
            print(told.text(1, number), end="")
        else:
            missing = 1
            print(f"{called()}: nets 1 and {number}: {reason}", file=sys.stderr)
    return missing


def _checked(certificates: str, text: str) -> int:
    found = check(certificates, text)
    for number, good in enumerate(found, start=1):
        print(f"certificate {number} {'holds: the nets are different' if good else 'does not hold'}")
    if not found:
        print(f"{called()}: there is no certificate: its first line is 'net_different 1'", file=sys.stderr)
    return int(not found or not all(found))
