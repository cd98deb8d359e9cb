"""Nets in which vertices stand in one place: maps, smaller cells, kinds of vertices, and how long that takes."""

import random
import time
import unittest
from itertools import permutations, product
from statistics import median

from hard_pairs import hard_pairs, hung, random_strands
from odd_cells import in_larger_cell, in_odd_cell
from testing import IS_LONG, need_program

from crystal_nets import Net, identify, identify_all, same  # noqa: E402
from crystal_nets.topology import topology_of  # noqa: E402
from crystal_nets.wide.certificate import as_read, certificate, verified  # noqa: E402
from crystal_nets.wide.matching import Verdict, find_map  # noqa: E402
from crystal_nets.wide.periodic_map import text_of_maps  # noqa: E402
from crystal_nets.wide.placed import NotFound, PlacedNet  # noqa: E402
from crystal_nets.wide.primitive import primitive_net  # noqa: E402

NEAR = ((0, 0), (1, 0), (0, 1))  # three neighbours in a hexagonal sheet
AWAY = ((0, 0), (-1, 0), (0, -1))


def hexagonal(*bonds):
    """Of bonds A-B with the cells of B: edges."""
    return Net([(*one.split("-"), cell) for one, cells in bonds for cell in cells])


# What the transitivity and the order of the point group are is worked out by hand from the pictures of the layers
LAYERS = {"MoS2, 2H": (hexagonal(("Mo-S1", NEAR), ("Mo-S2", NEAR)), "21", 6),
          "CdI2": (hexagonal(("Cd-I1", NEAR), ("Cd-I2", AWAY)), "21", 12),
          "GaSe": (hexagonal(("Ga1-Se1", NEAR), ("Ga2-Se2", NEAR), ("Ga1-Ga2", NEAR[:1])), "22", 6),
          "GaSe, antiprismatic": (hexagonal(("Ga1-Se1", NEAR), ("Ga2-Se2", AWAY), ("Ga1-Ga2", NEAR[:1])), "22", 12),
          "Bi2Te3": (hexagonal(("Te-Bi1", NEAR), ("Te-Bi2", AWAY), ("Bi1-Te1", NEAR), ("Bi2-Te2", AWAY)), "32", 12),
          "graphane": (hexagonal(("C1-C2", NEAR), ("C1-H1", NEAR[:1]), ("C2-H2", NEAR[:1])), "22", 12),
          "two sheets of hBN, one above the other": (hexagonal(("B1-N1", NEAR), ("B2-N2", AWAY), ("B1-N2", NEAR[:1]),
                                                               ("B2-N1", NEAR[:1])), "12", 12),
          "methyl groups": (Net([("C", "C", (1, 0)), ("C", "C", (0, 1)), *(("C", x, (0, 0)) for x in ("Me1", "Me2")),
                                 *((f"Me{k}", f"H{k}{i}", (0, 0)) for k in (1, 2) for i in range(3))]), "33", 8)}


def setUpModule():
    need_program()


def placed(net):
    return PlacedNet(net.graph.canonical())


def odd(net, chance, most=6):
    return Net(in_odd_cell(list(net.graph.canonical().edges), chance, most))


class Pairs(unittest.TestCase):
    def decided(self, one, other):
        """What the search says, with the word of the program on each map."""
        found = find_map(one, other)
        if found.map:
            self.assertEqual(verified(text_of_maps(one.graph, [(other.graph, found.map)]), 1), (True,))
        return {Verdict.SAME: True, Verdict.DIFFERENT: False, Verdict.NOT_KNOWN: None}[found.verdict]

    def test_hard_pairs(self):
        """Each is decided rightly below 10 s, as they are and in an odd cell."""
        chance = random.Random(1)
        pairs = hard_pairs()
        self.assertEqual(len(pairs), 43)
        for pair in pairs:
            for other in (pair.other, odd(pair.other, chance, 2)):
                begun = time.process_time()
                self.assertIs(self.decided(placed(pair.one), placed(other)), pair.are_same, pair.what)
                self.assertLess(time.process_time() - begun, 10, pair.what)

    def test_strands_at_random(self):
        """They are the same by how they are made, so that "different" would be wrong."""
        chance = random.Random(2)
        count = decided = 0
        while count < (500 if IS_LONG else 40):
            one, other = random_strands(chance)
            if len(other.vertices) > 150:
                continue
            try:
                nets = placed(one), placed(odd(other, chance, 2))
                nets[0].index, nets[1].index
            except NotFound:
                continue  # the strands are not joined
            said = self.decided(*nets)
            self.assertIsNot(said, False)
            count, decided = count + 1, decided + bool(said)
        self.assertEqual(decided, count)

    def test_layers_in_odd_cells(self):
        chance = random.Random(3)
        for (what, (net, _, _)), _ in product(LAYERS.items(), range(10 if IS_LONG else 3)):
            one, other = placed(net), placed(odd(net, chance))
            self.assertIs(self.decided(one, other), True, what)
            self.assertIs(self.decided(other, one), True, what)
            self.assertEqual(one.index, other.index, what)

    def test_maps_back(self):
        """The inverse of a map is one, and its inverse carries what the map does."""
        chance = random.Random(9)
        for what, (net, _, _) in LAYERS.items():
            one, other = placed(net), placed(odd(net, chance))
            for first, second in ((one, other), (other, one)):
                found = find_map(first, second).map
                back = found.inverse()
                self.assertTrue(back.carries(second.graph, first.graph), what)
                again = back.inverse()
                self.assertTrue(again.carries(first.graph, second.graph), what)
                self.assertTrue(all(again.image(u, cell) == image for (u, cell), image in found.images.items()), what)

    def test_layers_are_different(self):
        nets = {what: placed(net) for what, (net, _, _) in LAYERS.items()}
        for one, other in permutations(nets, 2):
            self.assertIs(self.decided(nets[one], nets[other]), False, (one, other))

    def test_a_search_that_takes_too_long_says_so(self):
        net = placed(LAYERS["GaSe"][0])
        found = find_map(net, net, most_work=20)
        self.assertEqual((found.verdict, found.reason), (Verdict.NOT_KNOWN, "the search would take too long"))

    def test_choices_that_stand_in_each_other(self):
        """Each choice settles two vertices of 400 in one place."""
        rungs = [(2 * i, 2 * i + 1) for i in range(200)]
        sides = [(2 * i + side, 2 * k + side) for i in range(20) for k in range(i) for side in (0, 1)]
        net = placed(hung(rungs[:20] + sides))
        self.assertIs(self.decided(net, placed(odd(hung(rungs[:20] + sides), random.Random(8), 1))), True)
        wide = rungs[:130] + [(2 * i + side, 2 * k + side) for i in range(130) for k in range(i) for side in (0, 1)]
        found = find_map(placed(hung(wide)), placed(hung(wide[::-1])))
        self.assertIn(found.verdict, (Verdict.SAME, Verdict.NOT_KNOWN))

    def test_a_net_that_is_not_connected(self):
        two = Net([(1, 1, (2, 0)), (1, 1, (0, 1))])
        found = find_map(placed(two), placed(two))
        self.assertEqual((found.verdict, found.reason), (Verdict.NOT_KNOWN, "the net is not connected"))


class Cells(unittest.TestCase):
    def test_smaller_cells(self):
        """Of nets in odd cells the smallest is found, with a map that the program takes."""
        chance = random.Random(4)
        for what, (net, _, _) in LAYERS.items():
            large = as_read(odd(net, chance).block, 2)
            small = primitive_net(PlacedNet(large.graph))
            self.assertEqual(len(small.graph.vertices), len(net.vertices), what)
            self.assertEqual(len(large.graph.vertices), len(net.vertices) * small.index, what)
            self.assertEqual(verified(text_of_maps(large.graph, [(small.graph, small.map)]), 1), (True,), what)

    def test_layers_in_two_odd_cells_are_the_same(self):
        chance = random.Random(5)
        for what, (net, _, _) in LAYERS.items():
            self.assertIs(same(odd(net, chance), odd(net, chance)).same, True, what)

    def test_sheets_without_a_translation_stay_in_their_cell(self):
        """Two sheets that are exchanged around each square: moved by half a cell they exchange rows."""
        for pair in hard_pairs():
            if len(pair.one.vertices) < 30:
                for net in (pair.one, pair.other):
                    net = placed(net)
                    small = primitive_net(net)
                    self.assertTrue(small.map.carries(net.graph, small.graph), pair.what)

    def test_molybdenum_sulfide_with_vacancies(self):
        """75 against 150 vertices."""
        rows = [(f"Mo{i}{k}", f"S{i}{k}{side}", tuple(cell)) for i, k, side in product(range(3), range(3), (0, 1)) for cell in ((0, 0),)]
        rows += [(f"Mo{i}{k}", f"S{(i + x) % 3}{(k + y) % 3}{side}", ((i + x) // 3, (k + y) // 3))
                 for i, k, side in product(range(3), range(3), (0, 1)) for x, y in ((1, 0), (0, 1))]
        net = Net([row for row in rows if row[1] not in ("S000", "S021")])
        edges = list(net.graph.canonical().edges)
        one, other = (Net(in_larger_cell(edges, [[3, 0], [0, size]])) for size in (1, 2))
        self.assertEqual((len(one.vertices), len(other.vertices)), (75, 150))
        begun = time.process_time()
        self.assertIs(same(one, other).same, True)
        self.assertLess(time.process_time() - begun, 5)  # it took 23


class Words(unittest.TestCase):
    """What is said of a net that collides."""

    def test_how_many_vertices_stand_in_one_place(self):
        answer = identify(LAYERS["Bi2Te3"][0], archive=None)
        self.assertEqual(answer.fibres, (3, 2))
        self.assertIn("this layer is thick, and the placement lays its sheets upon each other: its 5 vertices stand in 3 places, "
                      "up to 2 in one", answer.advice)
        with_ends = Net([(1, 1, (1, 0, 0)), (1, 1, (0, 1, 0)), (1, 1, (0, 0, 1)), (1, 2, (0, 0, 0)), (1, 3, (0, 0, 0))])
        self.assertIn("the placement lays parts of this net upon each other: its 3 vertices stand in 1 places, up to 3 in one",
                      identify(with_ends, archive=None).advice)
        for other in (Net([(1, 1, (1, 0)), (1, 1, (0, 1))]), Net([(1, 1, (1, 0))]), Net.refused("nothing")):
            self.assertIsNone(identify_all([other], archive=None)[0].fibres)


class KindsOfLayers(unittest.TestCase):
    def test_transitivity_and_order(self):
        chance = random.Random(6)
        for what, (net, transitivity, order) in LAYERS.items():
            for one in (net, odd(net, chance, 4)):
                found = topology_of(one.graph)
                self.assertEqual((found.transitivity, found.symmetries), (transitivity, order), what)

    def test_twins_of_a_square_net(self):
        """Each vertex of a net of edges between four twins is like the others, and so is each edge, though no exchange of all
        twins at once carries one edge to any other."""
        twins = Net([(i, k, cell) for i in (1, 2, 3, 4) for k in (1, 2, 3, 4) for cell in ((1, 0), (0, 1))])
        self.assertEqual(topology_of(twins.graph).transitivity, "11")

    def test_kinds_agree_with_what_is_counted(self):
        """No kind has vertices with different sequences, and no net fewer kinds than sequences."""
        for pair in hard_pairs():
            if len(pair.one.vertices) <= 12:
                found = topology_of(pair.one.graph)
                self.assertGreater(found.symmetries, 0, pair.what)
                self.assertEqual(sum(kind.count for kind in found.kinds), len(primitive_net(placed(pair.one)).graph.vertices))


class Time(unittest.TestCase):
    def test_medians(self):
        """Below 10 ms of a processor for the place and the invariant of a net, and 5 ms for a map, of cells of some 15 vertices;
        five to ten times as much beside other work."""
        chance = random.Random(7)
        nets = [(net, odd(net, chance)) for net, _, _ in LAYERS.values() for _ in range(3)]
        places, maps = [], []
        for pair in nets:
            begun = time.process_time()
            both = [placed(net) for net in pair]
            self.assertEqual(both[0].index, both[1].index)
            places.append((time.process_time() - begun) / 2)
            begun = time.process_time()
            self.assertTrue(find_map(*both).map)
            maps.append(time.process_time() - begun)
        self.assertLess((median(places), median(maps)), (0.05, 0.05))

    def test_a_certificate_of_a_layer(self):
        net = as_read(LAYERS["GaSe"][0].block, 2)
        found = find_map(PlacedNet(net.graph), PlacedNet(net.graph)).map
        self.assertTrue(certificate(net, [(net, found)]).text)
