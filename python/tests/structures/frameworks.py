"""Frameworks that are known by their nets, with all their atoms.

Those of PUBLISHED have the cells, groups and coordinates of their papers, or those of ideal rings and
anions in them; those of ASSEMBLED are made from ideal geometry, and their files say so."""

from __future__ import annotations

from collections import defaultdict
from collections.abc import Callable
from dataclasses import dataclass
from functools import cache
from pathlib import Path

import building_units as u
import numpy as np
from assembly import Assembly, Places, Unit, arcs_of, assemble, placed
from odd_cells import Edge, edges_of_archive, in_larger_cell, small_lattices
from structures import Structure
from supertetrahedra import with_faces
from testing import TOP

Nets = dict[str, str]  # by the convention, the symbol of the archive
MIL_53 = (6.6085, 16.675, 12.813)


def on_linker(x: float, along: float) -> tuple[float, float, float]:
    """A place on the linker of MIL-53, from its middle along it, in fractions of the cell."""
    a, b, c = MIL_53
    return x / a, along * 0.793 / b, 0.5 + along * 0.609 / c


# Yaghi and others 1999; Loiseau and others 2004; Dietzel and others 2006; Buser and others 1977
DMOF = (10.93, 9.608)


def dmof_1() -> tuple:
    """The atoms of [Zn2(C8H4O4)2(C6H12N2)], whose diamine is disordered about the fourfold axis."""
    a, c = DMOF
    of_wheel = (("Zn1", "Zn", 0, 0, 1.47), ("O1", "O", 1.96, 0, 1.12), ("C1", "C", 2.575, 0, 0), ("C2", "C", 4.065, 0, 0),
                ("C3", "C", 4.765, 0, 1.21), ("H3", "H", 4.23, 0, 2.15), ("N1", "N", 0, 0, 3.52))
    of_amine = (("C4", "C", 0, 1.39, 4.02, 0.25), ("C5", "C", 1.204, -0.695, 4.02, 0.25))
    return tuple((label, element, x / a, y / a, z / c, *part) for label, element, x, y, z, *part in of_wheel + of_amine)


# Loiseau and others 2004; Dietzel and others 2006; Buser and others 1977; Dybtsev, Chun and Kim 2004. The
# rings of MIL-53 and DMOF-1 are ideal ones.
PUBLISHED = (
    Structure("MIL-53", "I m m a", (*MIL_53, 90, 90, 90),
              (("Al1", "Al", 0.25, 0.25, 0.75), ("O1", "O", 0, 0.25, 0.815), ("O2", "O", *on_linker(1.12, 3.48)),
               ("C1", "C", *on_linker(0, 2.88)), ("C2", "C", *on_linker(0, 1.39)), ("C3", "C", *on_linker(1.204, 0.695)),
               ("H1", "H", *on_linker(2.14, 1.24))), ("sra",), ("pe",)),
    Structure("MOF-74", "R -3:H", (25.7856, 25.7856, 6.7701, 90, 90, 120),
              (("Ni1", "Ni", 0.38113, 0.35165, 0.1406), ("O1", "O", 0.3274, 0.3008, 0.3579),
               ("O2", "O", 0.3018, 0.2286, 0.6006), ("O3", "O", 0.3544, 0.27423, 0.0062), ("C1", "C", 0.3189, 0.2464, 0.4258),
               ("C2", "C", 0.3271, 0.2078, 0.2801), ("C3", "C", 0.3432, 0.2210, 0.0884), ("C4", "C", 0.3496, 0.1801, -0.024)),
              ("etb",), ("pe",)),
    Structure("Prussian blue", "F m -3 m", (10.166, 10.166, 10.166, 90, 90, 90),
              (("Fe1", "Fe", 0, 0, 0), ("Fe2", "Fe", 0.5, 0.5, 0.5), ("C1", "C", 0.188, 0, 0), ("N1", "N", 0.3, 0, 0)),
              ("pcu",), ("single-nodes", "all-nodes")),
    Structure("DMOF-1", "P 4/m m m", (DMOF[0], *DMOF, 90, 90, 90), dmof_1(), ("pcu",), ("single-nodes", "all-nodes")),
)


@dataclass(frozen=True)
class Assembled:
    """A framework that is made on a net of the archive, which is the one it is published with."""

    name: str
    net: str
    units: Callable[[], dict]                     # by the number of neighbours, and where they are, or the colour
    link: Callable[[], Unit] | None = None        # along each edge between vertices with as many neighbours
    conventions: tuple[str, ...] = ("single-nodes", "all-nodes")
    other_nets: tuple[tuple[str, str], ...] = ()  # by conventions under which it is another
    is_crowded: bool = False                      # so that linkers are to be pushed apart
    made: Callable[[], tuple[list[Edge], Places]] | None = None  # the net with the places to start from

    @property
    def nets(self) -> Nets:
        return {convention: self.net for convention in self.conventions} | dict(self.other_nets)

    def assembly(self) -> Assembly:
        units, link = self.units(), self.link() if self.link else None
        edges, start = self.made() if self.made else (nets_of_archive()[self.net], None)
        edges, colours = in_two_colours(edges) if (4, 0) in units else (edges, {})
        count = 1 + max(max(a, b) for a, b, _ in edges)
        kinds = kinds_of(edges, count, colours)
        chosen = [next(units[kind] for kind in kinds[v] if kind in units) for v in range(count)]
        links = [link if kinds[a][0] == kinds[b][0] else None for a, b, _ in edges]
        return assemble(edges, chosen, links, self.is_crowded, start)


def kinds_of(edges: list[Edge], count: int, colours: dict[int, int]) -> list[list]:
    """Of each vertex its number of neighbours, alone, with its colour, and with whether it is flat."""
    edges = [(a, b, tuple(s) + (0,) * (3 - len(s))) for a, b, s in edges]
    places, lattice = placed(edges, count)
    kinds = []
    for v, arcs in enumerate(arcs_of(edges, count)):
        steps = np.array([(places[w] + s - places[v]) @ lattice for w, s, _ in arcs])
        is_flat = np.linalg.svd(steps, compute_uv=False)[-1] < 1e-3
        kinds.append([len(arcs), (len(arcs), colours.get(v)), (len(arcs), "flat" if is_flat else "round")])
    return kinds


def in_two_colours(edges: list[Edge]) -> tuple[list[Edge], dict[int, int]]:
    """The net in a cell twice as large in which no two neighbours have one colour, and the colours."""
    for lattice in small_lattices(len(edges[0][2]), 2):
        larger = in_larger_cell(edges, lattice)
        colours = {0: 0}
        order = [0]
        near = defaultdict(set)
        for a, b, _ in larger:
            near[a].add(b)
            near[b].add(a)
        for v in order:
            for w in near[v] - set(colours):
                colours[w] = 1 - colours[v]
                order.append(w)
        if all(colours[a] != colours[b] for a, b, _ in larger):
            return larger, colours
    raise ValueError("it has odd rings")


@cache
def nets_of_archive() -> dict[str, list[Edge]]:
    """The nets of both archives by their symbols."""
    nets = {}
    for archive in ("zeolites", "common"):
        nets |= edges_of_archive(Path(TOP) / f"archives/{archive}.archive")
    return {name.split(",")[0]: edges for name, edges in nets.items()}


def zif(name: str, net: str) -> Assembled:
    """A zeolitic imidazolate framework."""
    return Assembled(name, net, lambda: {4: u.atom("Zn", 4, 2.0)}, u.imidazolate, is_crowded=True)


ORGANIC = ("standard",)
ASSEMBLED = (
    Assembled("IRMOF-10", "pcu", lambda: {6: u.zinc_oxide()}, lambda: u.phenylenes(2)),
    Assembled("IRMOF-16", "pcu", lambda: {6: u.zinc_oxide()}, lambda: u.phenylenes(3)),
    Assembled("UiO-67", "fcu", lambda: {12: u.zirconium_oxide()}, lambda: u.phenylenes(2)),
    Assembled("Zr acetylenedicarboxylate", "fcu", lambda: {12: u.zirconium_oxide()}, u.ethyne),
    Assembled("MOF-14", "pto", lambda: {4: u.paddlewheel(), 3: u.three_arms(arms=1)}),
    Assembled("PCN-6'", "tbo", lambda: {4: u.paddlewheel(), 3: u.three_arms("CNCNCN", arms=1)}),
    Assembled("MOF-2", "sql", lambda: {4: u.paddlewheel("Zn", "O")}, u.phenylenes),
    Assembled("NU-1000", "csq", lambda: {8: u.zirconium_oxide(u.EIGHT), 4: u.pyrene()}),
    Assembled("PCN-222", "csq", lambda: {8: u.zirconium_oxide(u.EIGHT), 4: u.porphyrin("Fe")}),
    Assembled("MOF-525", "ftw", lambda: {12: u.zirconium_oxide(), 4: u.porphyrin("")}),
    Assembled("PCN-224", "she", lambda: {6: u.zirconium_oxide(u.HEXAGON), 4: u.porphyrin("Ni")}),
    Assembled("MOF-808", "spn", lambda: {6: u.zirconium_oxide(u.ANTIPRISM), 3: u.three_arms()}),
    Assembled("MIL-88B", "acs", lambda: {6: u.trimer()}, u.phenylenes),
    Assembled("MIL-100", "moo", lambda: {6: u.trimer(), 3: u.three_arms()},
              made=lambda: with_faces(nets_of_archive()["MTN"])),
    Assembled("UMCM-1", "muo", lambda: {6: u.zinc_oxide(), 3: u.three_arms(arms=1)}, u.phenylenes),
    Assembled("NU-902", "scu", lambda: {8: u.zirconium_oxide(u.EIGHT), 4: u.porphyrin()}),
    Assembled("MOF-11", "pts", lambda: {(4, "flat"): u.paddlewheel(), (4, "round"): u.adamantane()}, None,
              ("single-nodes",)),
    Assembled("MOF-505", "fof", lambda: {4: u.paddlewheel(), 3: u.three_arms()}, None, ("all-nodes",),
              (("single-nodes", "nbo"),)),
    Assembled("zinc squarate", "nbo", lambda: {(4, 0): u.atom("Zn", 4, 2.1), (4, 1): u.squarate()}),
    zif("ZIF-4", "cag"), zif("ZIF-8", "sod"), zif("ZIF-20", "LTA"), zif("ZIF-11", "RHO"), zif("ZIF-6", "GIS"), zif("ZIF-1", "crb"),
    zif("ZIF-10", "MER"), zif("ZIF-3", "DFT"),
    Assembled("oxalate honeycomb", "hcb", lambda: {3: u.atom("Fe", 3, 2.4)}, u.oxalate),
    Assembled("oxalate of three dimensions", "srs", lambda: {3: u.atom("Mn", 3, 2.45)}, u.oxalate),
    Assembled("zinc formate", "pcu", lambda: {6: u.atom("Zn", 6, 2.1)}, u.formate),
    Assembled("zinc cyanide", "dia", lambda: {4: u.atom("Zn", 4, 2.0)}, u.cyanide),
    Assembled("gadolinium pyrazine", "sql", lambda: {4: u.atom("Gd", 4, 2.6)}, u.pyrazine),
    Assembled("COF-1", "hcb", lambda: {3: u.boroxine()}, u.phenylenes, ORGANIC),
    Assembled("COF-5", "hcb", lambda: {3: u.hexaoxytriphenylene()}, u.phenylenes, ORGANIC),
    Assembled("COF-300", "dia", lambda: {4: u.tetraphenylmethane()}, u.imine, ORGANIC),
    Assembled("COF-102", "ctn", lambda: {4: u.tetraphenylmethane(), 3: u.boroxine()}, None, ORGANIC),
    Assembled("COF-108", "bor", lambda: {4: u.tetraphenylmethane(), 3: u.hexaoxytriphenylene()}, None, ORGANIC),
    Assembled("COF-LZU1", "hcb", lambda: {3: u.three_arms()}, u.imine, ORGANIC),
    Assembled("COF-366", "sql", lambda: {4: u.porphyrin("")}, u.imine, ORGANIC),
    Assembled("COF-366-Co", "sql", lambda: {4: u.porphyrin("Co")}, u.imine, ORGANIC),
    Assembled("CTF-1", "hcb", lambda: {3: u.three_arms("CNCNCN")}, u.phenylenes, ORGANIC),
    Assembled("PAF-1", "dia", lambda: {4: u.tetraphenylmethane()}, None, ORGANIC),
)
