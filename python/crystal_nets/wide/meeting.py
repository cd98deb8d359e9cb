"""Two nets that are the same, in any cells: a small net, and a map of each to it.

Both maps have the period 1, so that they have no more images than the nets have vertices, where one map between two larger
cells can have too many."""

from __future__ import annotations

from ..errors import NotANet
from ..maps import Meeting
from ..net import Net
from ..outcome import Outcome
from .archive import block_of
from .certificate import ReadNet, as_read, certificate, is_read
from .matching import Verdict, find_map
from .periodic_map import PeriodicMap
from .placed import NotFound, PlacedNet
from .primitive import primitive_net

SEARCHED = ("accepted", "refused")  # kinds of outcomes of nets that the program reads
APART = (1, 2)                      # numbers of refusals of nets that are not connected
UNPROVED_DIFFERENCE = "other by invariants that are not proved"


def certified_meeting(one: Net, other: Net, outcomes: tuple[Outcome, Outcome]) -> Meeting | str:
    """A meeting with both certificates, or why there is none."""
    if any(outcome.kind not in SEARCHED or outcome.number in APART for outcome in outcomes):
        return ""
    try:
        first, second = (_read(net) for net in (one, other))
        if first.graph.dimension != second.graph.dimension:
            return UNPROVED_DIFFERENCE
        found = find_meeting(first, second)
    except (NotANet, NotFound) as reason:
        return str(reason)
    if isinstance(found, str):
        return found
    small, maps = found
    texts = [certificate(net, [(small.read, way)]).text for net, way in zip((first, second), maps)]
    return Meeting(small.net, (texts[0], texts[1])) if all(texts) else "the maps that were found are not right"


class SmallNet:
    """A small net, with how the program reads its block. NotFound where it reads no net in it."""

    def __init__(self, block: bytes, dimension: int) -> None:
        self.net = Net.from_block(block)
        read = as_read(block, dimension)
        if read is None:
            raise NotFound("the program does not read the small net")
        self.read = read


def find_meeting(first: ReadNet, second: ReadNet) -> tuple[SmallNet, tuple[PeriodicMap, PeriodicMap]] | str:
    """The small net, which is the second in a primitive cell, and the maps of the two to it; or why there is none."""
    one, other = PlacedNet(first.graph), PlacedNet(second.graph)
    net = small_net_of(second, other)
    placed = PlacedNet(net.read.graph, one.prime)
    ways = [find_map(each, placed) for each in (one, other)]
    for way in ways:
        if way.map is None:
            return UNPROVED_DIFFERENCE if way.verdict is Verdict.DIFFERENT else f"no map was found: {way.reason}"
    maps = [way.map for way in ways if way.map]
    return net, (maps[0], maps[1])


def small_net_of(read: ReadNet, placed: PlacedNet) -> SmallNet:
    """A net in a primitive cell, or in its own where the program does not read that one."""
    small = primitive_net(placed)
    graph = small.graph if is_read(small.graph) else read.graph
    return SmallNet(block_of(graph), graph.dimension)


def _read(net: Net) -> ReadNet:
    read = as_read(net.block, net.dimension)
    if read is None:
        raise NotFound("the program reads no net in a block")
    return read
