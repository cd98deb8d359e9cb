"""Point symbols and vertex symbols.

V. A. Blatov, M. O'Keeffe and D. M. Proserpio, CrystEngComm 12 (2010) 44: the point symbol has the sizes of the shortest cycles at
all angles of a vertex, as 4^2.6^4. The vertex symbol has the sizes of the shortest rings, each with the number of these rings, as
6.6.6(2).6(2).8(7).8(7); an angle without a ring is *. Of four neighbours opposite angles stand beside each other."""

from __future__ import annotations

from collections import Counter
from itertools import combinations

from ..wide.walking import Work
from .angles import Rings, shortest_cycle, shortest_rings
from .infinite import InfiniteNet

MOST_NEIGHBOURS = 6  # of a vertex whose vertex symbol is written: databases list no others
OPPOSITE = ((0, 5), (1, 4), (2, 3))  # of the six angles of four neighbours, as `combinations` has them
NO_CYCLE, NO_RING = "∞", "*"


def point_symbol(net: InfiniteNet, vertex: int, work: Work) -> str:
    """The point symbol of a vertex in cell 0; empty where it has fewer than two neighbours."""
    sizes = Counter(shortest_cycle(net, vertex, one, other, work) for one, other in combinations(net.near(vertex), 2))
    ordered = sorted(sizes.items(), key=lambda item: (item[0] == 0, item[0]))
    return ".".join((str(size) if size else NO_CYCLE) + (f"^{times}" if times > 1 else "") for size, times in ordered)


def vertex_symbol(net: InfiniteNet, vertex: int, work: Work) -> str:
    """The vertex symbol of a vertex in cell 0; empty where it has fewer than two neighbours, or more than six."""
    neighbours = list(net.near(vertex))
    if len(neighbours) > MOST_NEIGHBOURS:
        return ""
    rings = [shortest_rings(net, vertex, one, other, work) for one, other in combinations(neighbours, 2)]
    if len(neighbours) == 4:
        pairs = sorted((sorted((rings[k], rings[m]), key=_order) for k, m in OPPOSITE), key=lambda two: list(map(_order, two)))
        return ".".join(_written(one) for pair in pairs for one in pair)
    return ".".join(map(_written, sorted(rings, key=_order)))


def _order(rings: Rings) -> tuple[bool, Rings]:
    return rings.size == 0, rings


def _written(rings: Rings) -> str:
    if rings.size == 0:
        return NO_RING
    return f"{rings.size}({rings.count})" if rings.count > 1 else str(rings.size)
