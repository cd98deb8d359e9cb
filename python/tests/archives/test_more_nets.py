"""The nets of more_nets.py: symmetries that are known, and nets that have two names."""

from itertools import combinations, product

from testing import PROGRAM, TOP, FolderTest, need_modules, need_program, run

from crystal_nets.texts.net_text import nets_of_report  # noqa: E402

# The orders of the point groups of the tilings with two kinds of vertices (O. Krötenheerdt, 1969), as p6m 12
ORDERS = {"tiling [3^6; 3^2.4.3.4]": 12, "tiling [3.4.6.4; 3^3.4^2]": 12, "tiling [4.6.12; 3.4.6.4]": 12,
          "tiling [3.12^2; 3.4.3.12]": 8, "tiling [3.4^2.6; 3.6.3.6], a cell with right angles": 4,
          "tiling [3.4^2.6; 3.6.3.6], a rhombic cell": 4, "tiling [3^6; 3^2.4.12]": 12,
          "tiling [3.4.6.4; 3^2.4.3.4]": 12, "tiling [3.4.6.4; 3.4^2.6]": 12,
          "tiling [3^3.4^2; 3^2.4.3.4], 8 vertices": 4, "tiling [3^3.4^2; 3^2.4.3.4], 12 vertices": 8}
# Uniform honeycombs have one kind of vertex: R-3m, P63/mmc, I41/amd
HONEYCOMBS = {"elongated alternated cubic honeycomb": 12, "gyroelongated alternated cubic honeycomb": 24,
              "gyrated triangular prismatic honeycomb": 16, "gyroelongated triangular prismatic honeycomb": 16}
AUGMENTED = {"hcb": "hca", "sql": "fes", "kgm": "fxt", "hxl": "hcb", "fcu": "ubt", "reo": "LTA"}
OF_EDGES = {"fcu": "reo", "she": "RHO", "rhr": "RHO", "lvt": "GIS", "flu": "runcic cubic honeycomb", "hxg": "sod",
            "ttt": "ubt", "the": "runcitruncated cubic honeycomb", "shp": "bnn", "acs": "kag"}


class MoreNets(FolderTest):
    def setUp(self):
        super().setUp()
        need_modules("numpy", "gemmi")
        global np, more_nets, uniform_tilings, write_nets
        import numpy as np
        import more_nets
        import uniform_tilings
        import write_nets

    def symbols_of(self, nets):
        need_program()
        text = "".join(write_nets.text_of(name, net) for name, net in nets.items())
        report = run(PROGRAM, "identify", "-", "--archive", TOP / "archives/common.archive", stdin=text.encode()).stdout
        return {net.name.decode(): net.names[0].decode().split(",")[0]
                for net in nets_of_report(report.splitlines(keepends=True))}

    def test_tilings_have_two_kinds_of_vertices_and_known_groups(self):
        found = {name: kinds_and_order(net) for name, net in uniform_tilings.two_uniform_tilings().items()}
        self.assertEqual(found, {name: (2, order) for name, order in ORDERS.items()})

    def test_honeycombs_have_one_kind_of_vertex_and_known_groups(self):
        found = {name: kinds_and_order(net) for name, net in more_nets.HONEYCOMBS.items()}
        self.assertEqual(found, {name: (1, order) for name, order in HONEYCOMBS.items()})

    def test_slabs_of_one_kind_are_known(self):
        nets = {"x": more_nets.slabs("x"), "o": more_nets.slabs("o"), "xo": more_nets.slabs("xo"),
                "+": more_nets.close_packed_slabs("+"), "+-": more_nets.close_packed_slabs("+-")}
        wanted = {"x": "hex", "o": "pcu", "xo": "prisms of cem", "+": "fcu", "+-": "hcp"}
        self.assertEqual(self.symbols_of(nets), wanted)

    def test_threefold_helices_of_both_hands_are_etb(self):
        self.assertEqual(self.symbols_of({"two": more_nets.helices_of_three((1, -1))}), {"two": "etb"})

    def test_nets_that_have_two_names(self):
        known = write_nets.nets_by_hand()
        known |= {name.split(",")[0]: write_nets.net_of_sites(sites) for name, sites in write_nets.BY_SITES.items()}
        known |= {name.split(",")[0]: segments.net() for name, segments in more_nets.BY_SEGMENTS.items()}
        for recipe, wanted in ((write_nets.augmented, AUGMENTED), (write_nets.of_edges, OF_EDGES)):
            self.assertEqual(self.symbols_of({symbol: recipe(known[symbol]) for symbol in wanted}), wanted)


def kinds_and_order(net):
    """How many kinds of vertices a net has, and how many symmetries up to translations: all affine maps of the
    barycentric placement that carry vertices and edges to such ones."""
    places, arcs = net.places(), net.arcs()
    steps = [np.array([places[w] + shift - places[v] for w, shift in arcs[v]]) for v in range(net.count)]
    numbers = {rounded(place % 1, True): v for v, place in enumerate(places)}
    chosen = next(list(rows) for rows in combinations(range(len(steps[0])), net.dimension)
                  if abs(np.linalg.det(steps[0][list(rows)])) > 1e-6)
    back, images = np.linalg.inv(steps[0][chosen]), []
    for v in range(net.count):
        for rows in product(range(len(steps[v])), repeat=net.dimension):
            turn = back @ steps[v][list(rows)]
            if np.allclose(turn, np.rint(turn), atol=1e-6) and abs(np.linalg.det(turn)) > 0.5:
                images.append(image_of((places - places[0]) @ turn + places[v], [s @ turn for s in steps], numbers, steps))
    images = [image for image in images if image]
    return len({frozenset(image[v] for image in images) for v in range(net.count)}), len(images)


def image_of(places, turned, numbers, steps):
    """The numbers of the vertices in these places; None if they are not vertices with these steps."""
    image = [numbers.get(rounded(place % 1, True)) for place in places]
    fits = all(v is not None and {rounded(s) for s in steps[v]} == {rounded(s) for s in mine}
               for v, mine in zip(image, turned))
    return image if fits else None


def rounded(place, wrap=False):
    """Whole numbers, equal for equal places: no simple fraction is at a bound between two of them."""
    marks = np.floor(place * 10000 + 0.37).astype(int)
    return tuple((marks % 10000 if wrap else marks).tolist())
