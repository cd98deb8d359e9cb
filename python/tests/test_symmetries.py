"""All symmetries of nets: each is checked by the edges alone, and the groups are those that nets are known by."""

import copy
import pickle
import random
import unittest
from fractions import Fraction
from itertools import product

from odd_cells import in_odd_cell
from testing import PROGRAM, TOP, FolderTest, command, need_modules, need_program, run

from crystal_nets import Answer, Net, NetSymmetry, identify, read  # noqa: E402
from crystal_nets.errors import ProgramFailed  # noqa: E402
from crystal_nets.symmetries import symmetry_if_told, symmetry_of  # noqa: E402
from crystal_nets.texts.net_text import NoReport  # noqa: E402
from crystal_nets.texts.symmetry_text import symmetry_of_report  # noqa: E402

NETS = {net.name.split(",")[0]: net for file in ("common", "zeolites") for net in read(TOP / f"archives/{file}.cgd")}
# number and symbol of the group, and the symbols of the stabilizers: of the International Tables (the orbits of the group that
# have one place for each node), the Reticular Chemistry Structure Resource and the Atlas of Zeolite Framework Types
KNOWN = {
    "hcb": ((17, "p6mm"), "3m"), "sql": ((11, "p4mm"), "4mm"), "kgm": ((17, "p6mm"), "2mm"), "hxl": ((17, "p6mm"), "6mm"),
    "fes": ((11, "p4mm"), "m"), "pcu": ((221, "Pm-3m"), "m-3m"), "bcu": ((229, "Im-3m"), "m-3m"),
    "fcu": ((225, "Fm-3m"), "m-3m"), "dia": ((227, "Fd-3m"), "-43m"), "lon": ((194, "P6_3/mmc"), "3m"),
    "srs": ((214, "I4_132"), "32"), "qtz": ((180, "P6_222"), "222"), "nbo": ((229, "Im-3m"), "4/mmm"),
    "sod": ((229, "Im-3m"), "-42m"), "cds": ((131, "P4_2/mmc"), "mmm"), "ths": ((141, "I4_1/amd"), "mm2"),
    "pts": ((131, "P4_2/mmc"), "-42m mmm"), "hex": ((191, "P6/mmm"), "6/mmm"), "acs": ((194, "P6_3/mmc"), "-6m2"),
    "flu": ((225, "Fm-3m"), "-43m m-3m"), "LTA": ((221, "Pm-3m"), "m"), "FAU": ((227, "Fd-3m"), "1"),
    "RHO": ((229, "Im-3m"), "2"), "GIS": ((141, "I4_1/amd"), "2"), "CHA": ((166, "R-3m"), "1"), "ANA": ((230, "Ia-3d"), "2"),
    "MFI": ((62, "Pnma"), " ".join(["1"] * 12))}
# a layer of group cm, in a basis that its mirror line does not keep; and a net that has translations alone
OBLIQUE = [(1, 2, (-1, 0)), (1, 2, (0, -1)), (2, 3, (-1, -1)), (2, 3, (-1, 0)), (2, 3, (0, 0))]
PLAIN = [(1, 2, (-1, 1)), (1, 2, (0, 1)), (1, 3, (-1, -1)), (2, 2, (0, 1)), (2, 3, (0, 0))]
FAR = [(1, 2, (0, 0)), (1, 2, (1, 0)), (1, 1, (500, 1)), (2, 2, (500, 1))]  # whose primitive graph has a shift of 1,000


def setUpModule():
    need_program()


def images_of(symmetry: NetSymmetry) -> list[dict[int, tuple[int, tuple[Fraction, ...]]]]:
    """Of each operation, of each class the class and the cell that it goes to, by the places alone."""
    found = []
    for operation in symmetry.operations:
        image = {}
        for u, place in enumerate(symmetry.places, start=1):
            there = operation(place)
            (v, cell), = [(v, gap) for v, other in enumerate(symmetry.places, start=1)
                          for gap in [tuple(a - b for a, b in zip(there, other))] if all(part.denominator == 1 for part in gap)]
            image[u] = v, cell
        found.append(image)
    return found


def arcs_of(symmetry: NetSymmetry) -> set[tuple[int, int, tuple[int, ...]]]:
    edges = [(u, v, tuple(shift)) for u, v, *shift in symmetry.report.edges]
    return {*edges, *((v, u, tuple(-part for part in shift)) for u, v, shift in edges)}


class Operations(unittest.TestCase):
    def check(self, symmetry: NetSymmetry) -> None:
        """Each operation carries edges to edges; products are operations; sizes times orders are the count."""
        arcs, images = arcs_of(symmetry), images_of(symmetry)
        for operation, image in zip(symmetry.operations, images):
            for u, v, shift in arcs:
                turned = tuple(sum(a * x for a, x in zip(row, shift)) for row in operation.matrix)
                (a, start), (b, end) = image[u], image[v]
                self.assertIn((a, b, tuple(t + y - x for t, x, y in zip(turned, start, end))), arcs)
        matrices = {operation.matrix for operation in symmetry.operations}
        self.assertEqual(len(matrices), symmetry.order)
        for one, other in product(matrices, repeat=2):
            self.assertIn(tuple(tuple(sum(x * y for x, y in zip(row, column)) for column in zip(*other)) for row in one), matrices)
        for orbit in symmetry.report.vertices:
            reached = {image[orbit.least][0] for image in images}
            kept = sum(image[orbit.least][0] == orbit.least for image in images)
            self.assertEqual((orbit.least, orbit.size, orbit.order), (min(reached), len(reached), kept))
            self.assertEqual(orbit.size * orbit.order, symmetry.order)
        self.assertEqual(sum(orbit.size for orbit in symmetry.edge_orbits), len(symmetry.report.edges))

    def test_each_operation_is_one_by_the_edges_alone(self):
        for net in ("hcb", "kgm", "dia", "srs", "qtz", "nbo", "cds", "sod", "pts", "GIS", "ABW"):
            with self.subTest(net):
                self.check(symmetry_of(NETS[net]))

    def test_a_net_with_translations_alone_and_an_oblique_basis(self):
        plain, oblique = symmetry_of(Net(PLAIN)), symmetry_of(Net(OBLIQUE))
        self.check(oblique)
        self.assertEqual((plain.order, plain.transitivity), (1, (3, 5)))
        self.assertEqual((oblique.order, oblique.operations[1].matrix), (2, ((0, -1), (-1, 0))))

    def test_a_net_without_a_key_or_past_the_limits_has_none(self):
        self.assertIsNone(symmetry_of(Net([(1, 1, (1, 0)), (1, 1, (0, 2))])))
        self.assertIsNone(symmetry_of(Net(FAR)))
        self.assertIsNone(symmetry_of(Net([(1, 1, (1, 0, 0))])))


class Groups(unittest.TestCase):
    @classmethod
    def setUpClass(cls):
        need_modules("numpy", "spglib")

    def test_groups_and_site_symmetries_are_those_that_nets_are_known_by(self):
        for name, ((number, symbol), sites) in KNOWN.items():
            with self.subTest(name):
                found = symmetry_of(NETS[name])
                self.assertEqual(found.space_group, (number, symbol.replace("_", "")))
                self.assertEqual(sorted(orbit.site_symmetry for orbit in found.orbits), sorted(sites.split()))
                self.assertEqual(sum(len(orbit.vertices) for orbit in found.orbits), len(found.places))

    def test_point_groups(self):
        told = {name: symmetry_of(NETS[name]).point_group for name in ("dia", "srs", "qtz", "cds", "hcb", "sql", "CHA")}
        self.assertEqual(told, {"dia": "m-3m", "srs": "432", "qtz": "622", "cds": "4/mmm", "hcb": "6mm", "sql": "4mm", "CHA": "-3m"})
        self.assertEqual(symmetry_of(Net(OBLIQUE)).space_group, (5, "cm"))
        self.assertEqual(symmetry_of(Net(PLAIN)).space_group, (1, "p1"))

    def test_a_net_has_one_group_in_each_cell_and_no_hand(self):
        chance = random.Random(1)
        for name in ("qtz", "dia", "kgm", "cds", "GIS"):
            net = NETS[name]
            edges = [(u, v, shift) for u, v, shift in net.graph.edges]
            mirrored = [(u, v, tuple(-part for part in shift[:1]) + shift[1:]) for u, v, shift in edges]
            for rows in (in_odd_cell(edges, chance), in_odd_cell(edges, chance), mirrored):
                found = symmetry_of(Net([(u + 1, v + 1, shift) for u, v, shift in rows]))
                self.assertEqual(found.space_group, symmetry_of(net).space_group, name)
                self.assertEqual(found.transitivity, symmetry_of(net).transitivity, name)

    def test_the_embedding_has_the_same_group(self):
        for name in ("dia", "qtz", "kgm", "CHA", "pts"):
            answer = identify(NETS[name])
            self.assertEqual((answer.symmetry.space_group[1], answer.symmetry.order),
                             (answer.embedding.group.partition(":")[0], symmetry_of(NETS[name]).order))


class Answers(unittest.TestCase):
    def test_an_answer_has_it_and_shows_it(self):
        need_modules("numpy", "spglib")
        answer = identify(NETS["dia"], archive=None)
        self.assertEqual(str(answer.symmetry), "Fd-3m, 1 kind of vertices, 1 of edges")
        self.assertEqual(repr(answer.symmetry), "<NetSymmetry: 48 operations, 1 kind of vertices, 1 of edges>")
        self.assertIn("Fd-3m, 1 kind of vertices, 1 of edges", answer._repr_html_())
        fields = answer.symmetry.to_dict()
        self.assertEqual((fields["space_group"], fields["number"], fields["order"]), ("Fd-3m", 227, 48))
        self.assertEqual(copy.deepcopy(answer.symmetry), pickle.loads(pickle.dumps(answer.symmetry)))
        self.assertIsInstance(answer, Answer)

    def test_topology_takes_its_kinds_from_the_program(self):
        need_modules("numpy", "spglib")
        found = identify(NETS["rtl"], archive=None).topology
        told = symmetry_of(NETS["rtl"])
        self.assertEqual((found.symmetries, found.edge_kinds, len(found.kinds)), (told.order, told.transitivity[1], told.transitivity[0]))
        self.assertEqual((found.space_group, found.told_symmetry), ("P42/mnm", "P42/mnm, 2 kinds of vertices, 2 of edges"))


class GivenGroups(unittest.TestCase):
    """The cubic net and the square net in groups and cells of their own choice: the index is that of the operations, which
    are 48 and 8 for each vertex."""

    def test_the_group_of_a_block_is_compared_with_that_of_the_net(self):
        need_modules("numpy", "gemmi")
        corner, half = ["0 0 0"], ["0 0 0", "0.5 0 0", "0.5 0.5 0", "0.5 0.5 0.5"]
        for group, cell, nodes, told in (
                ("Pm-3m", "1 1 1 90 90 90", corner, "that of the net"), ("P1", "1 1 1 90 90 90", corner, "of index 48 in"),
                ("Pm-3m", "2 2 2 90 90 90", half, "of index 8 in"), ("Im-3m", "2 2 2 90 90 90", half[:2], "of index 4 in"),
                ("p4mm", "1 1 90", ["0 0"], "that of the net"), ("p4", "1 1 90", ["0 0"], "of index 2 in")):
            degree = 2 * len(nodes[0].split())
            rows = "".join(f"NODE {k} {degree} {place}\n" for k, place in enumerate(nodes, start=1))
            answer = identify(f"CRYSTAL\nNAME x\nGROUP {group}\nCELL {cell}\n{rows}END\n", archive=None)
            self.assertIn(told, answer.given_group, (group, cell, answer))
            self.assertIn(told, answer._repr_html_())
            again = type(answer.net.provenance).from_dict(answer.net.provenance.to_dict())
            self.assertEqual(again.group, answer.net.provenance.group)
        self.assertEqual(identify(NETS["dia"], archive=None).given_group, "")


class Reports(FolderTest):
    def test_cut_and_changed_reports_are_refused(self):
        block = NETS["kgm"].block
        lines = run(PROGRAM, "symmetry", "-", stdin=block).stdout.splitlines(keepends=True)
        self.assertEqual(symmetry_of_report(lines).dimension, 2)
        for count in range(len(lines)):
            with self.assertRaises(NoReport):
                symmetry_of_report(lines[:count])
            with self.assertRaises(NoReport):
                symmetry_of_report([*lines[:count], b"nothing\n", *lines[count:]])

    def test_another_program_is_told(self):
        for script, fault in (("echo nothing", ProgramFailed), ("exit 7", ProgramFailed)):
            path = self.folder / "other"
            path.write_text(f"#!/bin/sh\n{script}\n")
            path.chmod(0o755)
            done = run(command("topology"), TOP / "examples/dia.cgd", NET_TOOL=str(path), status=None)
            self.assertNotIn(b"Traceback", done.stderr)
            self.assertNotEqual(done.returncode, 0)

    def test_an_older_program_or_none_leaves_the_search(self):
        path = self.folder / "older"
        path.write_text("#!/bin/sh\nexit 2\n")
        path.chmod(0o755)
        told = [run(command("topology"), TOP / "examples/dia.cgd", NET_TOOL=program).stdout.split(b"\t")
                for program in (str(path), str(self.folder / "none"))]
        self.assertEqual([row[-2] for row in told], [b"11", b"11"])
        self.assertIsNotNone(symmetry_if_told(NETS["dia"].graph))
