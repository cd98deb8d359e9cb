#!/usr/bin/python3
"""Writes those nets of common.cgd that have a recipe: duals, tilings, prisms, stackings of close
packed layers, augmented nets, nets of edges, and nets of sites or segments of a space group. More
recipes are in figures.py, sites.py, segments.py, uniform_tilings.py and more_nets.py.

    write_nets.py > part.cgd

The recipes are few and general, so that each net is what its name says. The nets that are made
from others are made from those of common.cgd which stand there by hand. Needs python3-numpy and
python3-gemmi."""

from __future__ import annotations

import re
import sys
from itertools import product
from pathlib import Path

import numpy as np
from figures import augmented, middle_of, of_edges
from more_nets import more_nets
from quotient import Net, text_of
from sites import BY_SITES, Sites, cubic, net_of_sites

ARCHIVES = Path(__file__).resolve().parents[2] / "archives"
BY_RECIPE = "# From here on the nets are those that write_nets.py writes.\n"


def nets_by_hand() -> dict[str, Net]:
    """The nets of common.cgd that have no recipe, by the symbols that their names begin with."""
    text = (ARCHIVES / "common.cgd").read_text().partition(BY_RECIPE)[0]
    nets, net, numbers = {}, Net(0), {}
    for line in text.splitlines():
        words = re.findall(r'"[^"]*"|[^\s"#]+', line.split("#")[0])
        if words and words[0].upper() in ("EDGES", "EDGE", "BONDS", "BOND", "END"):
            words = words[1:]  # a row may stand on this line
        if not words:
            continue
        if words[0].upper() == "PERIODIC_GRAPH":
            net, numbers = Net(0), {}
        elif words[0].upper() in ("NAME", "ID"):
            nets[words[1].strip('"').split(",")[0]] = net
        else:
            u, v = (numbers.setdefault(vertex, len(numbers)) for vertex in words[:2])
            net.count = len(numbers)
            net.join(u, v, words[2:])
    return nets


# Duals, tilings and prisms of layers

def dual(net: Net) -> Net:
    """A vertex for each tile of a tiling of the plane, and an edge across each of its edges."""
    places, cell = net.places(), net.cell()
    turn = {}  # of each arc that comes in at a vertex the one that goes out next to it
    for v, arcs in enumerate(net.arcs()):
        ordered = sorted(arcs, key=lambda arc: np.arctan2(*((places[arc[0]] + arc[1] - places[v]) @ cell)))
        for k, (w, shift) in enumerate(ordered):
            back = tuple(-x for x in shift)
            turn[w, v, back] = (v, *ordered[(k + 1) % len(ordered)])
    tile_of, tiles = {}, 0
    for start in sorted(turn):
        arc, at = start, np.zeros(2, int)
        while arc not in tile_of:
            tile_of[arc] = tiles, tuple(at)  # the tile, and the cell of the arc's tail seen from it
            at = at + arc[2]
            arc = turn[arc]
            if arc == start:
                tiles += 1
    net_of_tiles = Net(tiles)
    for u, v, shift in net.edges:
        tile, cell_of_u = tile_of[u, v, shift]
        other, cell_of_v = tile_of[v, u, tuple(-x for x in shift)]
        net_of_tiles.join(tile, other, np.array(shift) - cell_of_v + cell_of_u)
    return net_of_tiles


def strips(word: str) -> Net:
    """Rows of vertices with squares (S) or triangles (T) between them."""
    net = Net(len(word))
    for k, letter in enumerate(word):
        above, up = (k + 1) % len(word), int(k + 1 == len(word))
        net.join(k, k, (1, 0))
        net.join(k, above, (0, up))
        if letter == "T":
            net.join(k, above, (1, up))
    return net


def with_hexagons(rows: tuple, holes: tuple) -> Net:
    """The triangular lattice without some of its points, each of which leaves a hexagon. The cell
    has the rows (a, b) and (0, d), in a basis with an angle of 120 degrees."""
    (a, b), (_, d) = rows
    points = [point for point in product(range(a), range(d)) if point not in holes]
    number = {point: k for k, point in enumerate(points)}
    net = Net(len(points))
    for x, y in points:
        for dx, dy in ((1, 0), (0, 1), (1, 1)):
            across = (x + dx) // a
            up, rest = divmod(y + dy - across * b, d)
            end = ((x + dx) % a, rest)
            if end in number:
                net.join(number[x, y], number[end], (across, up))
    return net


WITH_HEXAGONS = {
    "tiling [3.6.3.6; 3^2.6^2]": (((1, 2), (0, 4)), ((0, 0),)),
    "tiling [3^4.6; 3^2.6^2]": (((1, 2), (0, 5)), ((0, 0),)),
    "tiling [3^6; 3^2.6^2]": (((3, 0), (0, 3)), ((0, 0), (1, 2))),
    "tiling [3^6; 3^4.6], a hexagon for 8 points": (((3, 0), (0, 3)), ((0, 0),)),
    "tiling [3^6; 3^4.6], a hexagon for 12 points": (((1, 4), (0, 13)), ((0, 0),)),
}


def prisms(layer: Net) -> Net:
    """Layers on top of each other, each vertex joined to those above and below it."""
    net = Net(layer.count)
    for u, v, shift in layer.edges:
        net.join(u, v, (*shift, 0))
    for v in range(layer.count):
        net.join(v, v, (0, 0, 1))
    return net


# Stackings of close packed layers

STEPS = ((0, 0), (-1, 0), (0, -1))  # from a place A to the three places of the next layer, B


def close_packing(word: str) -> Net:
    """The contacts of equal balls in layers that follow each other as the letters A, B, C say."""
    net = Net(len(word))
    for k, steps, shift in _steps_up(word):
        for direction in ((1, 0), (0, 1), (1, 1)):
            net.join(k, k, (*direction, 0))
        for step in steps:
            net.join(k, (k + 1) % len(word), (*step, shift))
    return net


def tetrahedral(word: str) -> Net:
    """The bonds of silicon carbide in such a stacking: each silicon on three carbons, under one."""
    count = len(word)
    net = Net(2 * count)
    for k, steps, shift in _steps_up(word):
        net.join(k, count + k, (0, 0, 0))
        for step in steps:
            net.join(count + k, (k + 1) % count, (*step, shift))
    return net


def _steps_up(word: str):
    """Of each layer the steps to its neighbours in the next one, and whether that is in the next
    cell. In the basis of the layer, with an angle of 120 degrees, B is at (1/3, 2/3) from A."""
    for k, letter in enumerate(word):
        follower = word[(k + 1) % len(word)]
        place = {"A": np.array([0, 0]), "B": np.array([1, 2]), "C": np.array([2, 1])}
        steps = []
        for step in product((-1, 0, 1), repeat=2):
            x, y = place[follower] - place[letter] + 3 * np.array(step)
            if x * x + y * y - x * y == 3:
                steps.append(step)
        assert len(steps) == 3
        yield k, steps, int(k + 1 == len(word))


# Zigzags, helices, supertetrahedra, and rings

def zigzags(directions: tuple[tuple[int, int], ...]) -> Net:
    """Layers of zigzags, one direction for each, and each vertex joined to a layer above or below it in
    turn: two directions at a right angle give ths, three at 120 degrees bto, (10,3)-b and (10,3)-c of
    A. F. Wells."""
    count = len(directions)
    net = Net(2 * count)
    for layer, direction in enumerate(directions):
        up, down = 2 * layer, 2 * layer + 1
        net.join(up, down, (0, 0, 0))
        net.join(down, up, (*direction, 0))
        net.join(up, 2 * ((layer + 1) % count) + 1, (0, 0, int(layer + 1 == count)))
    return net


def helices(hands: tuple[int, int]) -> Net:
    """Fourfold helices on the squares of the tiling 4.8^2, each joined to the four around it, of two hands
    in turn: helices of one hand give srs, those of both hands utp, (10,3)-a and (10,3)-d of A. F. Wells."""
    net = Net(8)
    east, north, west, south = range(4)
    for first, hand in zip((0, 4), hands):
        for side in range(4):
            net.join(first + side, first + (side + 1) % 4, (0, 0, hand * (side == south)))
    net.join(east, 4 + west, (0, 0, 0))
    net.join(north, 4 + south, (0, -1, 0))
    net.join(4 + east, west, (1, 1, 0))
    net.join(4 + north, south, (1, 0, 0))
    return net


def supertetrahedra(net: Net) -> Net:
    """Each vertex with four neighbours made a tetrahedron, whose corners are in the middles of its edges, and
    a vertex on each of its faces, joined to the three corners: dia gives spn."""
    number = {edge: k for k, edge in enumerate(sorted(net.edges))}
    result = Net(len(number) + 4 * net.count)
    for v, arcs in enumerate(net.arcs()):
        corners = [middle_of(v, w, shift, number) for w, shift in arcs]
        for face, left_out in product(range(4), repeat=2):
            corner, cell = corners[left_out]
            if face != left_out:
                result.join(corner, len(number) + 4 * v + face, cell)
    return result


def in_primitive_cell(net: Net, rows: tuple) -> Net:
    """The net of a centred cell in the cell of the rows: vertices that these translations carry to each
    other are one."""
    inverse = np.linalg.inv(np.array(rows))
    places = net.places() @ inverse
    first = [next(u for u in range(v + 1) if np.allclose(places[v] - places[u], np.round(places[v] - places[u])))
             for v in range(net.count)]
    kept = sorted(set(first))
    result = Net(len(kept))
    for u, v, shift in net.edges:
        step = shift @ inverse + (places[v] - places[first[v]]) - (places[u] - places[first[u]])
        result.join(kept.index(first[u]), kept.index(first[v]), np.rint(step))
    return result


def rings_and_paddlewheels() -> Net:
    """The net nbo in a cubic cell in which it has two colours, at the middles of faces and of edges, and
    each vertex of the second colour made a pair, as the two rings of a biphenyl: one ring takes the
    neighbours along two axes, the other those opposite."""
    net = Net(9)  # three middles of faces, and two rings for each of three edges
    axes = np.eye(3, dtype=int)
    for k in range(3):
        one, other = 3 + 2 * k, 4 + 2 * k
        net.join(one, other, (0, 0, 0))
        m, n = (k + 1) % 3, (k + 2) % 3
        for face, axis in ((n, m), (m, n)):
            net.join(one, face, (0, 0, 0))
            net.join(other, face, -axes[axis])
    return net


FACE_CENTRED = ((0, 0.5, 0.5), (0.5, 0, 0.5), (0.5, 0.5, 0))


def recipes() -> dict[str, Net]:
    """The nets by their names, in the order of the file."""
    by_sites = {name: net_of_sites(sites) for name, sites in BY_SITES.items()}
    known = nets_by_hand() | {name.split(",")[0]: net for name, net in by_sites.items()}
    uniform = {"sql": "4^4", "hxl": "3^6", "hcb": "6^3", "kgm": "3.6.3.6", "fes": "4.8^2", "hca": "3.12^2",
               "fxt": "4.6.12", "htb": "3.4.6.4", "cem": "3^3.4^2", "tts": "3^2.4.3.4", "fsz": "3^4.6"}
    nets = {}
    for symbol in ("fes", "hca", "fxt", "htb", "cem", "fsz"):
        nets[f"{symbol}-d, tiles of {uniform[symbol]}"] = dual(known[symbol])
    for word in ("STT", "STTT", "SST", "SSST"):
        nets[f"rows of squares and triangles, {word}"] = strips(word)
    for name, (rows, holes) in WITH_HEXAGONS.items():
        nets[name] = with_hexagons(rows, holes)
    for symbol in ("kgm", "fes", "hca", "fxt", "htb", "cem", "tts", "fsz", "kgd", "mcm"):
        nets["kag, prisms of kagome" if symbol == "kgm" else f"prisms of {symbol}"] = prisms(known[symbol])
    for word in ("ABAC", "ABCAB", "ABCACB", "ABABAC", "ABCBCACAB"):
        nets[f"close packing {word}"] = close_packing(word)
        nets[f"silicon carbide {word}"] = tetrahedral(word)
    for symbol in ("dia", "lon", "qtz", "sod", "crb", "nbo", "pts", "srs", "ths", "pcu", "bcu", "flu", "pto", "tbo",
                   "ctn", "pyr", "bor", "gar", "toc"):
        other = {"pcu": "cab, boron in CaB6, pcu-a", "bcu": "pcb, polycubane, bcu-a"}
        nets[other.get(symbol, f"{symbol}-a, augmented {symbol}")] = augmented(known[symbol])
    for symbol in ("lon", "qtz", "sod", "ths", "pts", "pto", "tbo", "ctn"):
        other = {"tbo": "tbo-e, runcicantic cubic honeycomb"}
        nets[other.get(symbol, f"{symbol}-e, edges of {symbol}")] = of_edges(known[symbol])
    for name, net in list(nets.items()):
        if name.startswith(("rows of", "tiling")):
            nets[f"prisms of {name}"] = prisms(net)
            nets[f"tiles of {name}"] = dual(net)
    for symbol in ("MTN", "MEP", "RHO", "LTA"):
        nets["mtn-e, edges of MTN" if symbol == "MTN" else f"{symbol}-e, edges of {symbol}"] = of_edges(known[symbol])
    for symbol in ("spn", "rtl"):
        nets[f"{symbol}-a, augmented {symbol}"] = augmented(known[symbol])
    nets["bto, boron oxide with zigzags in three directions"] = zigzags(((1, 0), (0, 1), (-1, -1)))
    nets["fof, rings and paddlewheels of MOF-505"] = rings_and_paddlewheels()
    nets["utp, fourfold helices of both hands in turn"] = helices((1, -1))
    nets["moo, trimers and triangles of MIL-100"] = supertetrahedra(in_primitive_cell(known["MTN"], FACE_CENTRED))
    nets |= by_sites
    return nets | more_nets(known | {name.split(",")[0]: net for name, net in nets.items()}, prisms, dual)


def main() -> int:
    sys.stdout.write(BY_RECIPE + "".join(text_of(name, net) for name, net in recipes().items()))
    return 0


if __name__ == "__main__":
    if sys.argv[1:] in (["-h"], ["--help"]):
        sys.exit(print(__doc__))
    if sys.argv[1:]:
        print("write_nets.py: it takes no words but --help", file=sys.stderr)
        sys.exit(2)
    sys.exit(main())
