"""The report of `net_tool components`: the parts of each net, how many copies of each, and keys."""

from __future__ import annotations

import re
from collections.abc import Iterable, Iterator
from dataclasses import dataclass, field

from .net_text import GRAPH, LIST, MALFORMED, REASONS, VERTEX, key_numbers
from .report_lines import COUNT, NET_LINE, Lines

COMPONENTS = re.compile(rb"components " + COUNT)
PART = re.compile(rb"part %s vertices=%s copies=%s" % (COUNT, COUNT, COUNT))
WHOLE_REFUSALS = tuple(re.compile(form) for form in (
    rb"components refused 1 LowRank u=" + VERTEX + rb" c=" + LIST,
    rb"components refused 2 WideShift u=" + VERTEX + rb" v=" + VERTEX + rb" s=" + LIST + rb" c=\d+ value=-?\d+"))


@dataclass
class Part:
    """One part of a net: all its pieces are alike."""

    number: int
    copies: int
    key: bytes = b""
    told: bytes = b""  # the line that refuses it, where it has no key


@dataclass
class NetParts:
    """What is reported of one block."""

    number: int
    name: bytes
    told: bytes = b""  # the line of a block that has no parts
    parts: list[Part] = field(default_factory=list)


def parts_of_report(lines: Iterable[bytes]) -> Iterator[NetParts]:
    """The nets of the report, each whole. NoReport with the first line that may not stand there."""
    source = Lines(lines, "components")
    number = 0
    while not source.are_over:
        header = source.matched(NET_LINE)
        if int(header[1]) != number + 1:
            raise source.fault()
        number += 1
        net = NetParts(number, header[3] or b"")
        _read(net, source)
        yield net


def _read(net: NetParts, source: Lines) -> None:
    line = source.text()
    word, _, rest = line.partition(b" ")
    if (word == b"unsupported" and rest) or (word == b"malformed" and MALFORMED.fullmatch(rest)):
        net.told = line
        return
    graph = GRAPH.fullmatch(rest) if word == b"graph" else None
    if graph is None:
        raise source.fault()
    line = source.text()
    if any(form.fullmatch(line) for form in WHOLE_REFUSALS):
        net.told = line
        return
    count = COMPONENTS.fullmatch(line)
    if count is None or int(count[1]) > int(graph[2]):
        raise source.fault()
    net.parts = [_part(number, int(graph[1]), source) for number in range(1, int(count[1]) + 1)]


def _part(number: int, dimension: int, source: Lines) -> Part:
    found = source.matched(PART)
    if int(found[1]) != number:
        raise source.fault()
    part = Part(number, int(found[3]))
    line = source.text()
    word, _, rest = line.partition(b" ")
    try:
        if word == b"key" and key_numbers(rest)[0] == dimension:
            part.key = rest
            return part
    except ValueError:
        pass
    if word != b"refused" or not any(reason.fullmatch(rest) for reason in REASONS):
        raise source.fault()
    part.told = line
    return part
