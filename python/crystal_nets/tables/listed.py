"""What databases list of the net of a row. Of a net with a key the kinds of vertices and edges are proved, and nothing else."""

from __future__ import annotations

from functools import lru_cache, partial

from ..answers import OF_TOPOLOGY, Answer
from ..errors import NotANet
from ..limits import in_time
from ..parts import net_of_key
from ..topology import Topology, topology_of
from .columns import joined

NOTHING = ("",) * len(OF_TOPOLOGY)
NO_SYMBOL = "-"     # of a vertex with more than six neighbours
MOST_KEYS = 10_000  # that are remembered


def listed(answer: Answer) -> tuple[str, ...]:
    """The fields `OF_TOPOLOGY` of an answer; empty if the net is not connected, or it takes too long. They are computed
    of the key if there is one: so equal keys have equal fields, whichever piece they are in, and many take the time
    of one. ProgramTimedOut when the time of `within` is over."""
    try:
        return _of_key(answer.key) if answer.key else in_time(partial(_of_net, answer))
    except NotANet:  # the net of the key has no block
        return in_time(partial(_of_net, answer))


@lru_cache(MOST_KEYS)
def _of_key(key: str) -> tuple[str, ...]:
    return in_time(lambda: _fields_of(topology_of(net_of_key(key).graph)))


def _of_net(answer: Answer) -> tuple[str, ...]:
    return _fields_of(answer.topology)


def _fields_of(found: Topology | None) -> tuple[str, ...]:
    if found is None:
        return NOTHING
    symbols = joined(tuple(kind.vertex_symbol or NO_SYMBOL for kind in found.kinds))
    return found.point_symbol, symbols, f"{float(found.td10):.2f}", found.transitivity, found.space_group
