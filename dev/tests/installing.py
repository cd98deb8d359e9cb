"""What the tests of installing share."""

from __future__ import annotations

import re

from testing import TOP

INSTALL = TOP / "dev/install"
EIGHT_NAMES = [b"dia, diamond", b"hcb, graphite layer", b"pcu, alpha polonium", b"srs, strontium disilicide",
               b"LTA, zeolite A", b"qtz, quartz", b"sra, aluminium in strontium dialuminide",
               b"ABW, zeolite Li-A of Barrer and White", b"ths, silicon in thorium disilicide"]


def names_told(report: bytes) -> list[bytes]:
    return [line[6:-1] for line in report.splitlines() if line.startswith(b'name "')]


def commands_taken() -> set[str]:
    """The commands that ./net_tool takes: the table of words.sh."""
    table = re.search(r"(?s)\ncommand_table='(.*?)'\n", (TOP / "front/words.sh").read_text())
    return {row.split("|")[0] for row in table[1].split("\n")}
