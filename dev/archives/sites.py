"""Nets of sites that a space group and their distances fix: whole structures, frameworks of one element, and
units of frameworks, atoms joined to so many nearest ones."""

from __future__ import annotations

from dataclasses import dataclass
from itertools import product

import gemmi
import numpy as np

from quotient import Net


@dataclass(frozen=True)
class Sites:
    """Sites of a space group by letters, and how many neighbours each kind has of which kind: the
    nearest ones. The numbers are tested, and that no other neighbour is as near."""

    group: str
    cell: tuple
    places: dict
    neighbours: dict  # of two letters how many the first has of the second; the others follow


def net_of_sites(sites: Sites) -> Net:
    operations = gemmi.find_spacegroup_by_name(sites.group).operations()
    edges = np.array(gemmi.UnitCell(*sites.cell).orthogonalization_matrix.tolist()).T
    orbits = {kind: _orbit(site, operations, edges) for kind, site in sites.places.items()}
    kinds = np.array([kind for kind, orbit in orbits.items() for _ in orbit])
    places = np.vstack(list(orbits.values()))
    net = Net(len(places))
    for (one, other), wanted in sites.neighbours.items():
        ends = np.flatnonzero(kinds == other)
        for u in np.flatnonzero(kinds == one):
            for v, shift in _nearest(places[u], places[ends], edges, wanted):
                net.join(int(u), int(ends[v]), shift)
    return net


def _nearest(place: np.ndarray, ends: np.ndarray, edges: np.ndarray, wanted: int) -> list[tuple]:
    """So many nearest images of the ends, by their numbers and cells; the next one is farther."""
    shifts = np.array(list(product(range(-2, 3), repeat=3)))
    lengths = np.linalg.norm((ends[:, None, :] + shifts - place) @ edges, axis=2).ravel()
    lengths[lengths < 1e-6] = np.inf  # the place itself
    nearest = np.argsort(lengths, kind="stable")[:wanted + 1]
    assert lengths[nearest[-2]] < lengths[nearest[-1]] - 0.02, "no gap after these neighbours"
    return [(at // len(shifts), shifts[at % len(shifts)]) for at in nearest[:-1]]


def _orbit(site: tuple, operations: gemmi.GroupOps, edges: np.ndarray) -> np.ndarray:
    """The images of a site in the cell, each once."""
    kept: list[np.ndarray] = []
    for operation in operations:
        place = np.array(operation.apply_to_xyz(list(site)))
        place -= np.floor(place + 1e-6)
        steps = np.array(kept).reshape(-1, 3) - place
        if not np.any(np.linalg.norm((steps - np.round(steps)) @ edges, axis=1) < 1e-3):
            kept.append(place)
    return np.array(kept)


def cubic(a: float) -> tuple:
    return a, a, a, 90, 90, 90


Q, H, E, T = 1 / 4, 1 / 2, 1 / 8, 1 / 3
R = 2 ** 0.5
HEXAGONAL = (1, 1, 1, 90, 90, 120)
BY_SITES = {
    "bor, boracite": Sites("P -4 3 m", cubic(1), {"a": (T / 2, T / 2, T / 2), "b": (H, 0, 0)}, {"ab": 3, "ba": 4}),
    "the, triangles and cubes": Sites("P m -3 m", cubic(1), {"a": (T / 2, T / 2, T / 2), "b": (H, 0, 0)},
                                      {"ab": 3, "ba": 8}),
    "she, squares and hexagons": Sites("I m -3 m", cubic(1), {"a": (Q, Q, Q), "b": (Q, 0, H)}, {"ab": 6, "ba": 4}),
    "ocu, octahedra and cubes": Sites("I m -3 m", cubic(1), {"a": (Q, Q, Q), "b": (0, H, H)}, {"ab": 6, "ba": 8}),
    "soc, squares and octahedra": Sites("I m -3 m", cubic(1), {"a": (Q, Q, Q), "b": (Q, 0, 0)}, {"ab": 6, "ba": 4}),
    "scu, squares and cubes": Sites("P 4/m m m", (1, 1, 1, 90, 90, 90), {"a": (0, 0, 0), "b": (H, 0, H)},
                                    {"ab": 8, "ba": 4}),
    "csq, squares and cubes along kagome": Sites("P 6/m m m", HEXAGONAL, {"a": (H, 0, 0), "b": (Q, H, H)},
                                                 {"ab": 8, "ba": 4}),
    "shp, squares and hexagonal prisms": Sites("P 6/m m m", HEXAGONAL, {"a": (0, 0, 0), "b": (H, 0, H)},
                                               {"ab": 12, "ba": 4}),
    "alb, aluminium diboride": Sites("P 6/m m m", HEXAGONAL, {"a": (0, 0, 0), "b": (T, 2 * T, H)},
                                     {"ab": 12, "ba": 6}),
    "stp, squares and trigonal prisms": Sites("P 6/m m m", HEXAGONAL, {"a": (T, 2 * T, 0), "b": (H, 0, H)},
                                              {"ab": 6, "ba": 4}),
    "rht, triangles and rhombicuboctahedra": Sites("F m -3 m", cubic(1), {"a": (0, 0, 0), "b": (T, T, T)},
                                                   {"ba": 3, "ab": 24}),
    "spn, aluminium and oxygen in spinel": Sites("F d -3 m:2", cubic(1), {"a": (H, H, H), "b": (Q, Q, Q)},
                                                 {"ab": 6, "ba": 3}),
    "mgc, magnesium and copper in MgCu2": Sites("F d -3 m:2", cubic(1), {"a": (E, E, E), "b": (H, H, H)},
                                                {"ab": 12, "ba": 6}),
    "toc, tetrahedra and octahedra": Sites("P n -3 m:2", cubic(1), {"a": (0, 0, 0), "b": (Q, 3 * Q, 3 * Q)},
                                           {"ab": 6, "ba": 4}),
    "gar, aluminium and silicon in garnet": Sites("I a -3 d", cubic(1), {"a": (0, 0, 0), "b": (3 * E, 0, Q)},
                                                  {"ab": 6, "ba": 4}),
    "lcs, sites S* of Ia-3d": Sites("I a -3 d", cubic(1), {"a": (3 * E, 0, Q)}, {"aa": 4}),
    "lvt, sites vT of I41/amd": Sites("I 41/a m d:2", (1, 1, 1, 90, 90, 90), {"a": (0, 0, 0)}, {"aa": 4}),
    "rhr, sites h of Im-3m": Sites("I m -3 m", cubic(1), {"a": (0, T, T)}, {"aa": 4}),
    "lcy, sites +Y of P4332": Sites("P 43 3 2", cubic(1), {"a": (E, E, E)}, {"aa": 6}),
    "thp, thorium in Th3P4": Sites("I -4 3 d", cubic(1), {"a": (3 * E, 0, Q)}, {"aa": 8}),
    "cantellated cubic honeycomb": Sites("P m -3 m", cubic(1 + R), {"a": (H / (1 + R), H / (1 + R), H)}, {"aa": 6}),
    "runcitruncated cubic honeycomb": Sites("P m -3 m", cubic(2 + R), {"a": (R / 4, R / 4, H / (2 + R))}, {"aa": 5}),
    "ubt, boron in UB12, cantic cubic honeycomb": Sites("F m -3 m", cubic(3 * R), {"a": (0, T / 2, T / 2)}, {"aa": 5}),
    "runcic cubic honeycomb": Sites("F m -3 m", cubic(2 + R), {"a": (R / 4, R / 4, R / 4)}, {"aa": 6}),
    "bsn, beta tin": Sites("I 41/a m d:1", (5.831, 5.831, 3.182, 90, 90, 90), {"a": (0, 0, 0)}, {"aa": 6}),
    "perovskite, all atoms": Sites("P m -3 m", cubic(1), {"a": (0, 0, 0), "b": (H, H, H), "o": (H, H, 0)},
                                   {"ao": 12, "bo": 6}),
    "spinel, all atoms": Sites("F d -3 m:2", cubic(1), {"a": (E, E, E), "b": (H, H, H), "o": (0.2624, 0.2624, 0.2624)},
                               {"ao": 4, "bo": 6}),
    "Th3P4, thorium and phosphorus": Sites("I -4 3 d", cubic(1), {"a": (3 * E, 0, Q), "b": (E / 1.5, E / 1.5, E / 1.5)},
                                           {"ab": 8}),
    "brookite": Sites("P b c a", (9.184, 5.447, 5.145, 90, 90, 90),
                      {"a": (0.1289, 0.0972, 0.8628), "o": (0.0095, 0.1491, 0.1835), "p": (0.2314, 0.1110, 0.5366)},
                      {"ao": 3, "ap": 3}),
    "alpha lead dioxide, scrutinyite": Sites("P b c n", (4.971, 5.956, 5.438, 90, 90, 90),
                                             {"a": (0, 0.1779, Q), "o": (0.2685, 0.4010, 0.4248)}, {"ao": 6}),
    "zircon": Sites("I 41/a m d:2", (6.604, 6.604, 5.979, 90, 90, 90),
                    {"a": (0, 3 * Q, E), "b": (0, Q, 3 * E), "o": (0, 0.0661, 0.1953)}, {"ao": 8, "bo": 4}),
    "scheelite": Sites("I 41/a:2", (5.243, 5.243, 11.376, 90, 90, 90),
                       {"a": (0, Q, 5 * E), "b": (0, Q, E), "o": (0.1504, 0.0086, 0.2111)}, {"ao": 8, "bo": 4}),
    "calcite": Sites("R -3 c:H", (4.990, 4.990, 17.061, 90, 90, 120),
                     {"a": (0, 0, 0), "c": (0, 0, Q), "o": (0.2568, 0, Q)}, {"ao": 6, "co": 3}),
    "beta silicon nitride": Sites("P 63/m", (7.608, 7.608, 2.911, 90, 90, 120),
                                  {"a": (0.174, 0.769, Q), "n": (T, 2 * T, Q), "m": (0.330, 0.030, Q)},
                                  {"an": 1, "am": 3}),
    "lanthanum oxide, A form": Sites("P -3 m 1", (3.938, 3.938, 6.136, 90, 90, 120),
                                     {"a": (T, 2 * T, 0.2454), "o": (T, 2 * T, 0.6471), "p": (0, 0, 0)},
                                     {"ao": 4, "ap": 3}),
    "bixbyite": Sites("I a -3", cubic(10.604), {"a": (Q, Q, Q), "b": (0.968, 0, Q), "o": (0.391, 0.154, 0.381)},
                      {"ao": 6, "bo": 6}),
    "skutterudite": Sites("I m -3", cubic(8.2055), {"a": (Q, Q, Q), "b": (0, 0.3442, 0.1514)}, {"ab": 6, "bb": 2}),
    "kea, keatite": Sites("P 43 21 2", (7.464, 7.464, 8.620, 90, 90, 90),
                          {"a": (0.326, 0.120, 0.248), "b": (0.410, 0.410, 0)}, {"ba": 4, "aa": 2}),
    "mog, moganite": Sites("I 1 2/a 1", (8.758, 4.876, 10.715, 90, 90.08, 90),
                           {"a": (Q, -0.0092, 0), "b": (0.0115, 0.2533, 0.1678)}, {"ab": 4, "bb": 2}),
    "gsi, silicon of the form BC8": Sites("I a -3", cubic(6.636), {"a": (0.1003, 0.1003, 0.1003)}, {"aa": 4}),
    "cag, aluminium and phosphorus in variscite": Sites("P b c a", (9.822, 8.561, 9.630, 90, 90, 90),
                                                        {"a": (0.1339, 0.1553, 0.1684), "p": (0.1476, 0.4681, 0.3531)},
                                                        {"ap": 4}),
    "muo, metal parts and linkers of UMCM-1": Sites("P 63/m", (41.526, 41.526, 17.492, 90, 90, 120),
                                                    {"z": (0.5726, 0.6319, Q), "b": (T, 2 * T, Q), "w": (0.1882, 0.4030, 3 * Q)},
                                                    {"zb": 1, "zw": 3, "zz": 2}),
    "beta manganese, A13": Sites("P 41 3 2", cubic(6.315), {"a": (0.0636, 0.0636, 0.0636), "b": (E, 0.2022, 0.4522)},
                                 {"aa": 3, "ab": 9, "bb": 8}),
    "Cr3Si, all contacts, A15": Sites("P m -3 n", cubic(4.556), {"a": (0, 0, 0), "b": (Q, 0, H)}, {"ab": 12, "bb": 10}),
    "MgCu2, all contacts, C15": Sites("F d -3 m:2", cubic(7.034), {"a": (E, E, E), "b": (H, H, H)},
                                      {"ab": 12, "bb": 6, "aa": 4}),
    "MgZn2, all contacts, C14": Sites("P 63/m m c", (5.223, 5.223, 8.566, 90, 90, 120),
                                      {"m": (T, 2 * T, 0.062), "z": (0, 0, 0), "y": (0.830, 1.660, Q)},
                                      {"mm": 4, "mz": 3, "my": 9, "zy": 6, "yy": 4}),
    "CaCu5, all contacts": Sites("P 6/m m m", (5.082, 5.082, 4.078, 90, 90, 120),
                                 {"a": (0, 0, 0), "b": (T, 2 * T, 0), "g": (H, 0, H)},
                                 {"ab": 6, "ag": 12, "bb": 3, "bg": 6, "gg": 4}),
    "CrB, chromium and boron": Sites("C m c m", (2.969, 7.858, 2.932, 90, 90, 90), {"a": (0, 0.146, Q), "b": (0, 0.440, Q)},
                                     {"ab": 7, "bb": 2}),
    "FeB, iron and boron": Sites("P n m a", (5.506, 2.952, 4.061, 90, 90, 90), {"a": (0.180, Q, 0.125), "b": (0.036, Q, 0.610)},
                                 {"ab": 7, "bb": 2}),
    "FeSi, iron and silicon": Sites("P 21 3", cubic(4.489), {"a": (0.1358,) * 3, "b": (0.844,) * 3}, {"ab": 7}),
    "AlB2, with the bonds of boron": Sites("P 6/m m m", (3.009, 3.009, 3.262, 90, 90, 120),
                                           {"a": (0, 0, 0), "b": (T, 2 * T, H)}, {"ab": 12, "bb": 3}),
    "CaB6, calcium and boron": Sites("P m -3 m", cubic(4.152), {"a": (0, 0, 0), "b": (0.203, H, H)}, {"ab": 24, "bb": 5}),
    "uranium dodecaboride": Sites("F m -3 m", cubic(7.473), {"a": (0, 0, 0), "b": (H, 0.166, 0.166)}, {"ab": 24, "bb": 5}),
    "ThCr2Si2": Sites("I 4/m m m", (4.043, 4.043, 10.577, 90, 90, 90),
                      {"t": (0, 0, 0), "c": (0, H, Q), "s": (0, 0, 0.374)}, {"tc": 8, "ts": 8, "cs": 4, "ss": 1}),
    "pyrite, with its pairs": Sites("P a -3", cubic(5.4166), {"a": (0, 0, 0), "b": (0.3849,) * 3}, {"ab": 6, "bb": 1}),
    "marcasite, with its pairs": Sites("P n n m", (4.443, 5.425, 3.387, 90, 90, 90), {"a": (0, 0, 0), "b": (0.2000, 0.3783, 0)},
                                       {"ab": 6, "bb": 1}),
    "baddeleyite": Sites("P 1 21/c 1", (5.1505, 5.2116, 5.3173, 90, 99.23, 90),
                         {"a": (0.2754, 0.0395, 0.2083), "o": (0.0700, 0.3317, 0.3447), "p": (0.4496, 0.7569, 0.4792)},
                         {"ao": 3, "ap": 4}),
    "aragonite": Sites("P m c n", (4.9616, 7.9705, 5.7394, 90, 90, 90),
                       {"a": (Q, 0.4151, 0.2405), "c": (Q, 0.7627, -0.0862), "o": (Q, 0.9231, -0.0952),
                        "p": (0.4729, 0.6801, -0.0870)}, {"ao": 3, "ap": 6, "co": 1, "cp": 2}),
    "anhydrite": Sites("A m m a", (6.993, 6.995, 6.245, 90, 90, 90),
                       {"a": (3 * Q, 0, 0.3476), "s": (Q, 0, 0.1556), "o": (Q, 0.1699, 0.0162), "p": (0.0819, 0, 0.2975)},
                       {"ao": 4, "ap": 4, "so": 2, "sp": 2}),
    "olivine": Sites("P b n m", (4.7534, 10.1902, 5.9783, 90, 90, 90),
                     {"m": (0, 0, 0), "n": (0.9915, 0.2774, Q), "s": (0.4262, 0.0940, Q), "o": (0.7657, 0.0913, Q),
                      "p": (0.2215, 0.4474, Q), "q": (0.2777, 0.1628, 0.0331)},
                     {"mo": 2, "mp": 2, "mq": 2, "no": 1, "np": 1, "nq": 4, "so": 1, "sp": 1, "sq": 2}),
    "garnet, all atoms": Sites("I a -3 d", cubic(11.845),
                               {"c": (E, 0, Q), "a": (0, 0, 0), "s": (3 * E, 0, Q), "o": (0.038, 0.0450, 0.1513)},
                               {"co": 8, "ao": 6, "so": 4}),
    "pyrochlore, all atoms": Sites("F d -3 m:2", cubic(10.42), {"a": (H, H, H), "b": (0, 0, 0), "o": (0.3199, E, E), "p": (3 * E,) * 3},
                                   {"ao": 6, "ap": 2, "bo": 6}),
    "K2NiF4": Sites("I 4/m m m", (4.006, 4.006, 13.076, 90, 90, 90),
                    {"n": (0, 0, 0), "k": (0, 0, 0.352), "f": (0, H, 0), "g": (0, 0, 0.151)},
                    {"nf": 4, "ng": 2, "kf": 4, "kg": 5}),
}
