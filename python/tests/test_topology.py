"""What databases list of nets: symbols, densities and kinds, against those that nets are known by."""

import json
import random
import unittest
from collections import Counter
from itertools import product

from odd_cells import in_odd_cell
from testing import IS_LONG, TOP, FolderTest, command, need_modules, need_program, run

from crystal_nets import Answer, Net, identify, identify_all, read, to_pandas  # noqa: E402
from crystal_nets.topology import topology_of  # noqa: E402
from crystal_nets.topology.angles import is_ring, shortest_cycle, shortest_rings  # noqa: E402
from crystal_nets.topology.infinite import InfiniteNet  # noqa: E402
from crystal_nets.wide.walking import Work  # noqa: E402

NETS = {net.name.split(",")[0]: net for file in ("common", "zeolites") for net in read(TOP / f"archives/{file}.cgd")}
# transitivity of vertices and edges, point symbols, and the vertex symbols that are well known; of the Reticular Chemistry
# Structure Resource (M. O'Keeffe and others, Acc. Chem. Res. 41 (2008) 1782), remembered and not looked up again
KNOWN = {
    "hcb": ("11", "6^3", "6.6.6"), "sql": ("11", "4^4.6^2", ""), "kgm": ("11", "3^2.6^2.7^2", ""),
    "hxl": ("11", "3^6.4^6.5^3", ""), "fes": ("12", "4.8^2", "4.8.8"), "kgd": ("21", "4^3 4^6.6^6.8^3", ""),
    "srs": ("11", "10^3", "10(5).10(5).10(5)"), "ths": ("12", "10^3", "10(2).10(4).10(4)"),
    "dia": ("11", "6^6", "6(2).6(2).6(2).6(2).6(2).6(2)"), "lon": ("12", "6^6", "6(2).6(2).6(2).6(2).6(2).6(2)"),
    "qtz": ("11", "6^4.8^2", "6.6.6(2).6(2).8(7).8(7)"), "nbo": ("11", "6^4.8^2", "6(2).6(2).6(2).6(2).8(2).8(2)"),
    "sod": ("11", "4^2.6^4", "4.4.6.6.6.6"), "cds": ("12", "6^5.8", "6.6.6.6.6(2).*"),
    "lvt": ("11", "4^2.8^4", "4.4.8(4).8(4).8(8).8(8)"), "crb": ("12", "4.6^5", "4.6(2).6.6.6.6"),
    "pts": ("21", "4^2.8^4", "4.4.8(2).8(2).8(8).8(8) 4.4.8(7).8(7).8(7).8(7)"),
    "pcu": ("11", "4^12.6^3", "4.4.4.4.4.4.4.4.4.4.4.4.*.*.*"), "bcu": ("11", "4^24.6^4", ""),
    "fcu": ("11", "3^24.4^36.5^6", ""), "hcp": ("12", "3^24.4^33.5^9", ""), "hex": ("12", "3^6.4^18.5^3.6", ""),
    "bnn": ("12", "4^6.6^4", ""), "acs": ("11", "4^9.6^6", ""), "tbo": ("21", "6^3 6^2.8^2.10^2", ""),
    "bor": ("21", "6^3 6^2.8^4", ""), "ctn": ("21", "8^3 8^6", ""), "flu": ("21", "4^6 4^12.6^12.8^4", ""),
    "rtl": ("22", "4.6^2 4^2.6^10.8^3", ""), "ant": ("22", "4^2.6 4^4.6^2.8^8.10", ""),
    "pyr": ("21", "6^3 6^12.8^3", ""), "nia": ("21", "4^12.6^3 4^9.6^6", ""), "scu": ("", "4^4.6^2 4^16.6^12", ""),
    # C. Baerlocher and others, Atlas of Zeolite Framework Types
    "LTA": ("", "", "4.6.4.6.4.8"), "FAU": ("", "", "4.4.4.6.6.12"), "RHO": ("", "", "4.4.4.6.8.8"),
    "GIS": ("", "", "4.4.4.8(2).8.8"), "CHA": ("", "", "4.4.4.8.6.8"), "ANA": ("", "", "4.4.6.6.8(4).8(4)")}
DENSITIES = {"srs": 530, "dia": 981, "lon": 1027, "qtz": 1231, "sod": 791, "pcu": 1561, "bcu": 2331, "fcu": 3871}
ORDERS = {"dia": 48, "srs": 24, "qtz": 12, "pts": 16, "hcp": 24, "sql": 8, "kgm": 12}  # of the point groups
# two bridges between the same atoms, which stand in one place
BRIDGED = Net([(1, 2, (0, 0)), (2, 1, (1, 0)), (1, 3, (0, 0)), (3, 1, (1, 0)), (1, 1, (0, 1))], name="bridged")


def topology(name):
    return topology_of(NETS[name].graph)


class Listed(unittest.TestCase):
    def test_nets_have_the_symbols_that_they_are_known_by(self):
        for name, (transitivity, points, vertices) in KNOWN.items():
            found = topology(name)
            self.assertIn(found.transitivity, (transitivity, found.transitivity * (not transitivity)), name)
            self.assertIn(Counter(kind.point_symbol for kind in found.kinds).keys(),
                          [set(points.split()) or {kind.point_symbol for kind in found.kinds}], name)
            self.assertLessEqual(set(vertices.split()), {kind.vertex_symbol for kind in found.kinds}, name)

    def test_densities(self):
        self.assertEqual({name: topology(name).td10 for name in DENSITIES}, DENSITIES)

    def test_orders_of_point_groups(self):
        self.assertEqual({name: topology(name).symmetries for name in ORDERS}, ORDERS)

    def test_shares_of_kinds(self):
        self.assertEqual(topology("tbo").point_symbol, "{6^3}4{6^2.8^2.10^2}3")
        self.assertEqual([(kind.count, kind.connectivity) for kind in topology("rtl").kinds], [(4, 3), (2, 6)])

    def test_it_is_the_same_in_any_cell(self):
        chance = random.Random(1)
        for name in KNOWN if IS_LONG else ("srs", "kgm", "qtz", "rtl", "tbo"):
            odd = Net(in_odd_cell(list(NETS[name].graph.canonical().edges), chance, 3))
            self.assertEqual(topology_of(odd.graph), topology(name), name)

    def test_nets_that_have_it_in_part_or_not_at_all(self):
        found = topology_of(BRIDGED.graph)
        self.assertEqual((found.transitivity, found.symmetries, len(found.kinds)), ("22", 4, 2))
        self.assertEqual(found.kinds[0].point_symbol, "4")
        self.assertIsNone(topology_of(Net([(1, 1, (2, 0)), (1, 1, (0, 1))]).graph))  # two nets, interpenetrating
        self.assertIsNone(topology_of(NETS["FAU"].graph, most_work=100))
        ladder = topology_of(Net([(1, 2, (0, 0)), (1, 1, (1, 0)), (1, 1, (0, 1))]).graph)
        self.assertEqual([kind.point_symbol for kind in ladder.kinds], ["", "4^4.6^2.∞^4"])

    def test_kinds_have_the_sequences_that_the_program_counts(self):
        need_program()
        names = sorted(NETS) if IS_LONG else sorted(KNOWN)
        for name, answer in zip(names, identify_all([NETS[name] for name in names], archive=None)):
            if answer.accepted:
                wanted = Counter(answer.sequences)
                found = Counter()
                for kind in answer.topology.kinds:
                    found[kind.sequence] += kind.count
                self.assertEqual(found, wanted, name)


class Rings(unittest.TestCase):
    """What is counted by pairs of vertices, and all cycles looked at one by one."""

    def test_rings_against_all_cycles(self):
        for name in ("qtz", "kgm", "lvt", "nia"):
            net = InfiniteNet(NETS[name].graph.canonical(), Work())
            corner = 0
            for one, other in product(net.near(corner), repeat=2):
                if one >= other:
                    continue
                rings = shortest_rings(net, corner, one, other, Work())
                size = shortest_cycle(net, corner, one, other, Work())
                for length in range(3, min(rings.size or 7, 8) + 1):
                    cycles = list(cycles_of(net, [corner, one], other, length))
                    if length <= size:
                        self.assertEqual(bool(cycles), length == size, name)
                    found = sum(is_ring(net, cycle) for cycle in cycles)
                    self.assertEqual(found, rings.count if length == rings.size else 0, (name, length))


def cycles_of(net, path, other, length):
    """All cycles of a length that begin with a path and come back by a neighbour."""
    if len(path) == length - 1:
        if other in net.near(path[-1]) and other not in path:
            yield [*path, other]
        return
    for near in list(net.near(path[-1])):
        if near not in path and near != other:
            yield from cycles_of(net, [*path, near], other, length)


class Answers(FolderTest):
    def test_of_an_answer(self):
        need_program()
        answer = identify(NETS["dia"], archive=None)
        self.assertEqual(answer.topology.point_symbol, "6^6")
        fields = json.loads(answer.to_json(topology=True))
        self.assertEqual((fields["topology"]["td10"], fields["topology"]["transitivity"]), (981, "11"))
        self.assertEqual(Answer.from_dict(fields), answer)
        self.assertNotIn("topology", answer.to_dict())
        refused = identify(Net([(1, 1, (2, 0)), (1, 1, (0, 1))]), archive=None)
        self.assertIsNone(refused.topology)
        self.assertIsNone(json.loads(refused.to_json(topology=True))["topology"])

    def test_of_a_file_with_blocks_that_are_no_nets(self):
        """Each is reported with its reason, and the nets after it have their lines."""
        need_program()
        need_modules("gemmi", "numpy")
        good = "PERIODIC_GRAPH\nNAME good\nEDGES\n1 1 0 1\n1 1 1 0\nEND\n"
        bad = {"a row": "1 1 0 x\nEND\n", "lengths": "1 1 0 1\n1 1 0 1 0\nEND\n", "names": "1 1 0 1\n1 1 1 0\nNAME b\nEND\n",
               "loop": "1 1 0 0\n1 1 0 1\n1 1 1 0\nEND\n", "edges": "END\n", "end": f"1 1 1 1\n{good}"}
        text = "".join(f'PERIODIC_GRAPH\nNAME "{name}"\nEDGES\n{rows}{good}' for name, rows in bad.items())
        file = self.folder / "x.cgd"
        file.write_text(text)
        done = run(command("topology"), file, status=1)
        lines = done.stdout.decode().splitlines()[1:]
        self.assertEqual(lines, [f"{file}\tgood\t4^4.6^2\t4.4.4.4.*.*\t221.00\t11\tp4mm"] * len(bad))
        told = done.stderr.decode()
        for name, reason in (("a row", "line 4 of the block is no row: '1 1 0 x'"), ("lengths", "its shifts have several lengths"),
                             ("names", "line 6 of the block is no row: 'NAME b'"), ("loop", "an edge joins a vertex to itself in one cell"),
                             ("edges", "it has no edges"), ("end", "line 5 of the block is no row: 'PERIODIC_GRAPH'")):
            self.assertIn(f"net_tool topology: {file}: {name}: {reason}\n", told)

    def test_what_has_no_net_is_told(self):
        (self.folder / "a.pdb").touch()
        (self.folder / "empty.cgd").touch()
        done = run(command("topology"), self.folder, status=1)
        self.assertEqual(done.stderr.decode(), f"net_tool topology: {self.folder}: passed over, of kinds that are not read: a.pdb\n"
                         f"net_tool topology: {self.folder}: it has no net\n")

    def test_in_a_table(self):
        need_program()
        try:
            import pandas  # noqa: F401
        except ImportError:
            self.skipTest("python3-pandas is not there")
        answers = identify_all([NETS["dia"], NETS["rtl"], BRIDGED, Net.refused("nothing")], archive=None)
        table = to_pandas(answers, topology=True)
        self.assertEqual(list(table["transitivity"]), ["11", "22", "22", ""])
        self.assertEqual(list(table["point_symbol"])[:2], ["6^6", "{4.6^2}2{4^2.6^10.8^3}"])
        self.assertEqual(table["vertex_symbols"][1], "4.6(2).6(2); 4.4.6.6.6.6.6.6.6.6.6(2).6(2).*.*.*")
        self.assertAlmostEqual(table["td10"][0], 981)
        self.assertNotIn("td10", answers.to_pandas().columns)


if __name__ == "__main__":
    unittest.main()
