"""Vertices with the same neighbours, as the two sides of a layer have: they come to stand in one place, and a net with such
has no key. What may be done of a net that collides."""

from __future__ import annotations

from typing import TYPE_CHECKING

from .errors import NotANet
from .graph import QuotientGraph
from .lattice import Vector, add, subtract
from .net import Net
from .outcome import Outcome
from .provenance import OTHER, Note

if TYPE_CHECKING:
    from .wide.sites import Fibres

COLLISION = 5  # the number of the refusal
TWINS = "{} and {} have the same neighbours, as the two sides of a layer have: without_twins makes one vertex of them"
OTHERS = ("{} and {} come to stand in one place: see whether they are one vertex or a bond is missing, or read it by "
          "another convention")
THICK_LAYER = ("this layer is thick, and the placement lays its sheets upon each other: its {} vertices stand in {} places, up to "
               "{} in one")
THICK = "the placement lays parts of this net upon each other: its {} vertices stand in {} places, up to {} in one"


def without_twins(net: Net) -> Net:
    """The net in which vertices with the same neighbours are one vertex; the same net where there are none. NotANet where
    it is none.

    Of a monolayer such as MoS2, whose sulfur stands above and below, it is the net of one side.

    >>> sides = [("Mo", s, shift) for s in ("S1", "S2") for shift in ((0, 0), (1, 0), (0, 1))]
    >>> without_twins(Net(sides)).edges
    (('Mo', 'S1', (0, 0)), ('Mo', 'S1', (0, 1)), ('Mo', 'S1', (1, 0)))"""
    graph, made = net.graph.canonical(), 0
    while twins := _twins(graph):
        made += len(twins)
        graph = graph.part(v for v in range(len(graph.vertices)) if v not in twins).canonical()
    if not made:
        return net
    told = Note(OTHER, f"{made} {'vertex' if made == 1 else 'vertices'} left out that had the same neighbours as others")
    return Net.of_graph(graph, net.name, net.provenance.noted(after=[told]))


def _twins(graph: QuotientGraph) -> set[int]:
    """Of vertices with the same neighbours all but the first; no two of them are joined."""
    first: set[frozenset[tuple[int, Vector]]] = set()
    found: set[int] = set()
    for v, near in enumerate(_around(graph)):
        if near in first:
            found.add(v)
        first.add(near)
    return found


def _around(graph: QuotientGraph) -> list[frozenset[tuple[int, Vector]]]:
    """Of each vertex its neighbours, with their cells seen from that of the least of them."""
    found = []
    for arcs in graph.arcs():
        base = min(arcs)[1] if arcs else ()
        found.append(frozenset((w, subtract(shift, base)) for w, shift in arcs))
    return found


def fibres_on(net: Net, outcome: Outcome) -> Fibres | None:
    """In how many places the vertices of a net that collides stand; None for others, and if that cannot be found."""
    if (outcome.kind, outcome.number) != ("refused", COLLISION):
        return None
    from .wide.placed import NotFound  # here, since few nets need it
    from .wide.sites import fibres_of
    try:
        return fibres_of(net.graph.canonical())
    except (NotANet, NotFound):
        return None


def advice_on(net: Net, outcome: Outcome) -> str:
    """What a collision means, and what may be done of it; empty for other nets."""
    fibres, what = fibres_on(net, outcome), _ways_on(net, outcome)
    if not what or fibres is None:
        return what
    thick = (THICK_LAYER if net.dimension == 2 else THICK).format(len(net.vertices), *fibres)
    return f"{what}; {thick}"


def _ways_on(net: Net, outcome: Outcome) -> str:
    """What may be done of a net that collides; empty for others."""
    values = outcome.values
    if (outcome.kind, outcome.number) != ("refused", COLLISION) or not {"u", "v", "t"} <= set(values):
        return ""
    u, v, t = values["u"], values["v"], values["t"]
    try:
        graph = net.graph
        number = {str(name): k for k, name in enumerate(graph.vertices)}
        one, other = ({*graph.arcs()[number[str(name)]]} for name in (u, v))
    except (NotANet, KeyError):
        return ""
    ways = (t, tuple(-x for x in t)) if isinstance(t, tuple) else ()
    are_twins = any({(w, add(shift, way)) for w, shift in other} == one for way in ways)
    return (TWINS if are_twins else OTHERS).format(u, v)
