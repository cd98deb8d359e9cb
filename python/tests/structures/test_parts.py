"""The parts of cif2cgd by themselves: lattices, quotient graphs, elements, shells."""

import unittest
from fractions import Fraction
from unittest import mock

from testing import need_modules

need_modules("gemmi", "numpy", "scipy")
import numpy as np  # noqa: E402

from crystal_nets.graph import QuotientGraph, edge  # noqa: E402
from crystal_nets.lattice import coordinates, index, staircase  # noqa: E402
from crystal_nets.structures.bonds.shells import first_gap  # noqa: E402
from crystal_nets.structures.nets.pieces import pieces_of  # noqa: E402
from crystal_nets.structures.atoms.elements import element_of, elements_of_formula  # noqa: E402
from crystal_nets.structures.nets.simplification import contracted, without_ends  # noqa: E402
from crystal_nets.net import Net  # noqa: E402
from crystal_nets.structures.nets import translations  # noqa: E402
from crystal_nets.structures.nets.translations import Translation, divided_by_maps, divided_by_translations  # noqa: E402
from crystal_nets.structures.units.building_units import parts_of, ring_edges  # noqa: E402

X, Y, Z = (1, 0, 0), (0, 1, 0), (0, 0, 1)


def net(*edges):
    count = 1 + max(max(u, v) for u, v, _ in edges)
    return QuotientGraph.of(map(str, range(count)), {edge(u, v, s) for u, v, s in edges})


class Lattices(unittest.TestCase):
    def test_face_centred(self):
        basis = staircase([(2, 0, 0), (0, 2, 0), (0, 0, 2), (0, 1, 1), (1, 0, 1), (1, 1, 0)])
        self.assertEqual(basis, [(1, 0, 1), (0, 1, 1), (0, 0, 2)])
        self.assertEqual(index(basis), 2)
        self.assertEqual(coordinates((1, 1, 0), basis), (1, 1, -1))
        with self.assertRaises(ValueError):
            coordinates(X, basis)

    def test_layer(self):
        self.assertEqual(staircase([(2, 4, 0), (3, 6, 0), (0, 0, 5)]), [(1, 2, 0), (0, 0, 5)])


class Nets(unittest.TestCase):
    def test_one_edge_in_two_ways(self):
        self.assertEqual(edge(1, 0, X), edge(0, 1, (-1, 0, 0)))
        self.assertEqual(edge(0, 0, (0, -1, 0)), edge(0, 0, Y))

    def test_rhenium_trioxide_is_the_cubic_lattice(self):
        oxide = net((0, 1, (0, 0, 0)), (1, 0, X), (0, 2, (0, 0, 0)), (2, 0, Y), (0, 3, (0, 0, 0)), (3, 0, Z))
        self.assertEqual(contracted(oxide).net.edge_set, {(0, 0, X), (0, 0, Y), (0, 0, Z)})

    def test_two_bridges_are_one_edge(self):
        layer = net((0, 1, (0, 0, 0)), (1, 0, X), (0, 2, (0, 0, 0)), (2, 0, X), (0, 0, Y))
        simple = contracted(layer)
        self.assertEqual((simple.net.edge_set, simple.doubled), ({(0, 0, X), (0, 0, Y)}, 1))

    def test_ends_are_left_out(self):
        self.assertEqual(len(without_ends(net((0, 0, X), (0, 1, Y), (1, 2, Z))).vertices), 1)

    def test_rod_of_bridges_stays(self):
        self.assertEqual(contracted(net((0, 1, (0, 0, 0)), (1, 0, X))).net.edge_set, {(0, 0, X)})


class Parts(unittest.TestCase):
    def parts(self, elements: str, *bonds):
        """Which atoms are donors, centres of anions, and small anions, of a net by its elements and bonds."""
        names = [f"{element}{k}" for k, element in enumerate(elements.split())]
        zero = (0, 0, 0)
        found = parts_of(QuotientGraph.of(names, {edge(u, v, zero) for u, v in bonds}), dict(zip(names, elements.split())))
        return found.donors, found.centres, found.small_anions

    def test_carboxylates_phosphonates_and_sulfonates_belong_to_metals(self):
        for centre in ("C", "P", "S"):
            bonds = ((0, 2), (1, 3), (2, 4), (3, 4), (4, 5), (5, 6))
            self.assertEqual(self.parts(f"Zn Zn O O {centre} C C", *bonds), ({2, 3}, {4}, set()), centre)

    def test_oxalate_squarate_and_formate_are_linkers(self):
        oxalate = ((0, 2), (0, 3), (2, 4), (3, 5), (4, 5), (4, 6), (5, 7), (6, 1), (7, 1))
        self.assertEqual(self.parts("Fe Fe O O C C O O", *oxalate), (set(), set(), {2, 3, 4, 5, 6, 7}))
        squarate = [(4 + k, 4 + (k + 1) % 4) for k in range(4)] + [(4 + k, 8 + k) for k in range(4)]
        squarate += [(k, 8 + k) for k in range(4)]
        self.assertEqual(self.parts("Zn Zn Zn Zn C C C C O O O O", *squarate)[2], set(range(4, 12)))
        self.assertEqual(self.parts("Zn O C O Zn", (0, 1), (1, 2), (2, 3), (3, 4))[2], {1, 2, 3})

    def test_rings_of_linkers_and_not_of_pores(self):
        def ring(size):
            return QuotientGraph.of(map(str, range(size)), {edge(k, (k + 1) % size, (0, 0, 0)) for k in range(size)})

        self.assertEqual(len(ring_edges(ring(6), set(range(6)))), 6)
        self.assertEqual(len(ring_edges(ring(16), set(range(16)))), 16)
        self.assertEqual(ring_edges(ring(18), set(range(18))), set())
        self.assertEqual(ring_edges(net((0, 1, (0, 0, 0)), (0, 1, X), (0, 1, Y)), {0, 1}), set(net(
            (0, 1, (0, 0, 0)), (0, 1, X), (0, 1, Y)).edges))


class Translations(unittest.TestCase):
    def test_a_net_in_a_larger_cell_comes_to_its_own(self):
        cubic = net((0, 1, (0, 0, 0)), (1, 0, X), (0, 0, Y), (1, 1, Y), (0, 0, Z), (1, 1, Z))
        divided = divided_by_translations(cubic)
        self.assertEqual((len(divided.vertices), len(divided.edges)), (1, 3))

    def test_maps_that_exchange_sheets_fold_none(self):
        """Two sheets over rows of the square net, joined into one where the row closes: the step along the row, with which the
        last column is exchanged, carries each edge to an edge, and leaves one sheet if it is taken for a translation."""
        count = 6
        rows = [(2 * x + i, 2 * (x + 1) + i if x + 1 < count else 1 - i, X if x + 1 == count else (0, 0, 0)) for x in range(count) for i in (0, 1)]
        rows += [(2 * x + i, 2 * x + i, Y) for x in range(count) for i in (0, 1)] + [(2 * x, 2 * x + 1, (0, 0, 0)) for x in range(count)]
        sheets = QuotientGraph.of(map(str, range(2 * count)), {edge(u, v, shift[:2]) for u, v, shift in rows}, 2)
        heads = {(u, v): shift for u, v, shift in rows if u // 2 != v // 2}
        image, shift = zip(*((v, at[:2]) for u in range(2 * count) for (w, v), at in heads.items() if w == u))
        step = Translation(np.array(image), np.array(shift), (Fraction(1, count), Fraction(0)))
        arcs = {(u, v, at) for u, v, at in sheets.edge_set} | {(v, u, (-at[0], -at[1])) for u, v, at in sheets.edge_set}
        carried = {(image[u], image[v], tuple(a + y - x for a, x, y in zip(at, shift[u], shift[v]))) for u, v, at in arcs}
        self.assertEqual(carried, arcs)
        with mock.patch.object(translations, "_translations", lambda net: [step]):
            self.assertEqual(divided_by_translations(sheets).edges, sheets.edges)

    def test_sheets_in_large_cells(self):
        """MoS2 in a cell that is not read: both its sulfurs stand in one place, and stay two."""
        far = [((i, k), x, y) for i in range(14) for k in range(14) for x, y in ((0, 0), (1, 0), (0, 1))]
        rows = [(f"Mo{at}", f"S{side}{((at[0] + x) % 14, (at[1] + y) % 14)}", ((at[0] + x) // 14, (at[1] + y) // 14))
                for at, x, y in far for side in (0, 1)]
        large = Net(rows).graph
        divided = divided_by_maps(large)
        self.assertEqual((len(large.vertices), sorted(divided.degrees())), (588, [3, 3, 6]))
        self.assertLess(set(divided.vertices), set(large.vertices))

    def test_a_net_without_other_translations_stays(self):
        diamond = net((0, 1, (0, 0, 0)), (0, 1, X), (0, 1, Y), (0, 1, Z))
        self.assertEqual(divided_by_translations(diamond).edges, diamond.edges)


class Components(unittest.TestCase):
    def test_interwoven(self):
        piece, = pieces_of(net((0, 0, (0, 1, 1)), (0, 0, (1, 0, 1)), (0, 0, (1, 1, 0))))
        self.assertEqual((piece.dimension, piece.copies), (3, 2))

    def test_layer_in_its_own_basis(self):
        piece, = pieces_of(net((0, 0, (1, 0, 1)), (0, 0, (0, 2, 0))))
        self.assertEqual((piece.dimension, piece.net.edge_set), (2, {(0, 0, (1, 0)), (0, 0, (0, 1))}))

    def test_molecule_and_rod(self):
        pieces = pieces_of(net((0, 1, X), (2, 2, Z)))
        self.assertEqual([p.dimension for p in pieces], [0, 1])


class Atoms(unittest.TestCase):
    def test_elements(self):
        cases = [("", "CO1", {"C": 1, "O": 1}, "C"), ("", "Co1", {"Co": 1}, "Co"), ("", "Wat3", {}, "O"),
                 ("", "OW1", {"H": 2, "O": 1}, "O"), ("W", "W1", {}, "W"), ("", "W1", {"O": 1}, "O"),
                 ("", "HN1", {"H": 1, "N": 1}, "H"), ("O2-", "Ob1", {}, "O"), ("Fe3+", "T1", {}, "Fe")]
        for symbol, label, formula, element in cases:
            self.assertEqual(element_of(symbol, label, formula), element, label)

    def test_formulas(self):
        self.assertEqual(elements_of_formula("Na0.88 Al2(Si.5 O4)2"),
                         {"Na": 0.88, "Al": 2, "Si": 1.0, "O": 8})
        self.assertEqual(elements_of_formula("(N H4)2 [Pt (Cl2)3"), {"N": 2, "H": 8, "Pt": 1, "Cl": 6})
        self.assertEqual(elements_of_formula("Ca (O H)2)2"), {"Ca": 1, "O": 2, "H": 2})
        self.assertEqual(elements_of_formula("H2..3 O"), {"H": 2, "O": 1})

    def test_shells(self):
        self.assertEqual(first_gap([1.0] * 8 + [1.1547] * 6 + [1.633]), 8)
        self.assertEqual(first_gap([2.66] * 6 + [2.91] * 6 + [3.94]), 12)
