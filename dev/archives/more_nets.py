"""Nets of edge-transitive nets, of uniform honeycombs and tilings, and of helices."""

from __future__ import annotations

from collections.abc import Callable

from figures import augmented, of_edges
from quotient import Net
from segments import BY_SEGMENTS
from uniform_tilings import two_uniform_tilings

# Not here is what has its net under another name: hcb-a is hca, sql-a fes, kgm-a fxt, fcu-a ubt, reo-a LTA
AUGMENTED = ("acs", "alb", "bcs", "bto", "cds", "cor", "crs", "csq", "etb", "ftw", "hcp", "hxg", "ith", "lcs", "lcv", "lcy",
             "lvt", "mgc", "nia", "ocu", "qzd", "rhr", "rht", "scu", "she", "shp", "soc", "stp", "the", "thp", "ttt", "twf",
             "utp", "ant", "kgd", "eta")
OF_EDGES = ("bcs", "bor", "bto", "cor", "crs", "etb", "gar", "hcp", "ith", "lcs", "lcv", "lcy", "mgc", "nia", "ocu", "pyr",
            "qzd", "rtl", "soc", "spn", "thp", "toc", "twf", "utp", "eta")


def slabs(word: str) -> Net:
    """Layers of the square lattice with cubes (o) between them, or with triangular prisms that lie along one
    of its directions (x) or the other (y)."""
    net = Net(len(word))
    for k, letter in enumerate(word):
        above, up = (k + 1) % len(word), int(k + 1 == len(word))
        net.join(k, k, (1, 0, 0))
        net.join(k, k, (0, 1, 0))
        net.join(k, above, (0, 0, up))
        if letter != "o":
            net.join(k, above, (0, 1, up) if letter == "x" else (1, 0, up))
    return net


def close_packed_slabs(word: str) -> Net:
    """Close packed layers with triangular prisms (o) between them, or with tetrahedra and octahedra, above the
    triangles of one kind (+) or the other (-)."""
    net = Net(len(word))
    steps = {"o": ((0, 0),), "+": ((0, 0), (-1, 0), (0, -1)), "-": ((0, 0), (1, 0), (0, 1))}
    for k, letter in enumerate(word):
        above, up = (k + 1) % len(word), int(k + 1 == len(word))
        for direction in ((1, 0), (0, 1), (1, -1)):
            net.join(k, k, (*direction, 0))
        for step in steps[letter]:
            net.join(k, above, (*step, up))
    return net


def helices_of_three(hands: tuple[int, int]) -> Net:
    """Threefold helices on the triangles of the tiling 3.12^2, each joined to the three around it, of two hands
    in turn: helices of one hand give eta, those of both hands etb, (8,3)-a and (8,3)-b of A. F. Wells."""
    net = Net(6)
    for first, hand in zip((0, 3), hands):
        for side in range(3):
            net.join(first + side, first + (side + 1) % 3, (0, 0, hand * (side == 2)))
    for side, shift in enumerate(((0, 0, 0), (1, 0, 0), (0, 1, 0))):
        net.join(side, 3 + side, shift)
    return net


HONEYCOMBS = {
    "elongated alternated cubic honeycomb": close_packed_slabs("+o"),
    "gyroelongated alternated cubic honeycomb": close_packed_slabs("+o-o"),
    "gyrated triangular prismatic honeycomb": slabs("xy"),
    "gyroelongated triangular prismatic honeycomb": slabs("xoyo"),
}


def more_nets(known: dict[str, Net], prisms: Callable[[Net], Net], dual: Callable[[Net], Net]) -> dict[str, Net]:
    """The nets by their names; of known ones those that they are made from, by their symbols."""
    nets = {name: segments.net() for name, segments in BY_SEGMENTS.items()}
    nets["eta, threefold helices of one hand"] = helices_of_three((1, 1))
    known = known | {name.split(",")[0]: net for name, net in nets.items()}
    nets |= HONEYCOMBS
    for name, net in two_uniform_tilings().items():
        nets |= {name: net, f"prisms of {name}": prisms(net), f"tiles of {name}": dual(net)}
    nets |= {f"{symbol}-a, augmented {symbol}": augmented(known[symbol]) for symbol in AUGMENTED}
    return nets | {f"{symbol}-e, edges of {symbol}": of_edges(known[symbol]) for symbol in OF_EDGES}
