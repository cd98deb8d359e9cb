"""Structures of other programs: atoms of ase, prototypes and graphs of pymatgen, structure files."""

import dataclasses
import json
import sys
import time
import unittest
from pathlib import Path
from typing import get_type_hints

from testing import IS_LONG, TOP, FolderTest, command, long_test, need_modules, need_program, run

from crystal_nets import (Archive, Net, NotANet, NotAnOption, StructureOptions, components, identify,  # noqa: E402
                          identify_all, read, same, without_twins)
from crystal_nets.options import SWITCHES  # noqa: E402
from crystal_nets.provenance import Provenance  # noqa: E402

ROCK_SALT = """data_rock_salt
_cell_length_a 5.64
_cell_length_b 5.64
_cell_length_c 5.64
_cell_angle_alpha 90
_cell_angle_beta 90
_cell_angle_gamma 90
_symmetry_space_group_name_H-M 'F m -3 m'
loop_
_atom_site_label
_atom_site_type_symbol
_atom_site_fract_x
_atom_site_fract_y
_atom_site_fract_z
Na1 Na 0 0 0
Cl1 Cl 0.5 0.5 0.5
"""
KNOWN = ("dia,", "hcb,", "pcu,", "fcu,", "bcu,", "hcp,", "lon,", "flu,", "qtz,", "sql,", "nbo,")


class StructureTest(FolderTest):
    @classmethod
    def setUpClass(cls):
        need_program()
        need_modules("gemmi", "numpy", "scipy")
        nets = read(TOP / "archives/common.cgd")
        cls.archive = Archive.of([net for net in nets if net.name.startswith(KNOWN)])

    def name_of(self, structure: object, **options: object) -> str:
        answer = identify(structure, archive=self.archive, **options)
        return answer.names[0].split(",")[0] if answer.names else str(answer.outcome)


class Options(unittest.TestCase):
    """Options are read as the command line reads them, or told: none is ignored."""

    def setUp(self):
        need_modules("gemmi", "numpy", "scipy")

    def test_each_option_of_the_reader_is_typed(self):
        from crystal_nets.options import CONVENTION_NAMES
        from crystal_nets.structures.nets.choice import Options as Read
        from crystal_nets.structures.units.conventions import AUTO, CONVENTIONS
        self.assertEqual(set(StructureOptions.__annotations__), {entry.name for entry in dataclasses.fields(Read)})
        self.assertEqual({name for name, kind in get_type_hints(StructureOptions).items() if kind is bool}, set(SWITCHES))
        self.assertEqual(set(CONVENTION_NAMES), {*CONVENTIONS, AUTO})

    def test_options_without_an_effect_beside_another_are_refused(self):
        for options in ({"bonds": "file", "lengths": {"Na-Cl": 3.0}}, {"bonds": "file", "hydrogen_bonds": True},
                        {"bonds": "file", "mode": "intermetallic"}, {"mode": "zeolite", "keep_ions": True},
                        {"mode": "intermetallic", "hydrogen_bonds": True}):
            with self.assertRaisesRegex(NotAnOption, "has no effect with"):
                read(ROCK_SALT, **options)
        read(ROCK_SALT, bonds="both", lengths={"Na-Cl": 3.0}, mode="intermetallic", keep_ions=True)
        read(ROCK_SALT, bonds="file", lengths={}, mode="zeolite", keep_ions=False)

    def test_elements_are_whole_symbols(self):
        self.assertEqual({net.vertices for net in read(ROCK_SALT, leave_out="N")}, {net.vertices for net in read(ROCK_SALT)})
        for asked in ("Na", {"Na"}, ("Na",), ["Na"], "Na,F", frozenset(("Na",))):
            net, = read(ROCK_SALT, leave_out=asked, lengths={"Cl-Cl": 4.1})
            self.assertEqual({vertex[:2] for vertex in net.vertices}, {"Cl"}, asked)
        for wrong in ({"na"}, {"Xx"}, "", "na", "NaCl", {""}, {1}, 3, None, b"Na"):
            with self.assertRaises(NotAnOption, msg=repr(wrong)):
                read(ROCK_SALT, leave_out=wrong)

    def test_pairs_are_taken_in_each_writing(self):
        for pair in (("Na", "Cl"), ("Cl", "Na"), frozenset(("Na", "Cl")), "Na-Cl"):
            net, = read(ROCK_SALT, lengths={pair: 0, "Cl-Cl": 4.1, ("Na", "Na"): 0.0})
            self.assertEqual({vertex[:2] for vertex in net.vertices}, {"Cl"}, pair)
        for wrong in ({("Na", "Xx"): 3}, {("Na",): 3}, {"Na": 3}, {"Na-Cl-Na": 3}, {("Na", "Cl"): "3"}, {("Na", "Cl"): -1},
                      {("Na", "Cl"): 20.5}, {("Na", "Cl"): float("nan")}, {("Na", "Cl"): True}, {("Na", "Cl"): None},
                      {"Na-Cl": 3.0, ("Cl", "Na"): 4.0}, [("Na", "Cl", 3)], "Na-Cl=3", {3: 3}):
            with self.assertRaises(NotAnOption, msg=repr(wrong)):
                read(ROCK_SALT, lengths=wrong)

    def test_what_is_ticked_is_true_or_false(self):
        for name in ("keep_ions", "hydrogen_bonds", "partial_as_full", "accept_misfit", "every_copy"):
            for wrong in ("no", 1, None, "False"):
                with self.assertRaises(NotAnOption):
                    read(ROCK_SALT, **{name: wrong})

    def test_a_name_that_is_none_is_told_of_each_source(self):
        for source in (ROCK_SALT, Net([(1, 1, (1, 0)), (1, 1, (0, 1))]), [(1, 1, (1, 0)), (1, 1, (0, 1))]):
            with self.assertRaisesRegex(TypeError, "leave_out"):
                read(source, leaveout={"Na"})

    @long_test
    def test_mypy_sees_a_name_that_is_none(self):
        need_modules("mypy")
        for words, is_right in (('leave_out={"Na"}, lengths={("Fe", "C"): 1.0}', True), ('leaveout={"Na"}', False),
                                ('keep_ions="no"', False), ('convention="single-node"', False)):
            code = f'from crystal_nets import identify\nidentify("x.cif", {words})\n'
            done = run(sys.executable, "-m", "mypy", "--cache-dir", "/dev/null", "--enable-incomplete-feature=Unpack",
                       "--follow-imports=silent", "--ignore-missing-imports", "-c", code, status=None, seconds=1800,
                       MYPYPATH=str(TOP / "python"))
            self.assertEqual(done.returncode == 0, is_right, (words, done.stdout))


CUPRITE = """data_cuprite
_symmetry_space_group_name_H-M 'P 1'
_cell_length_a 4.27
_cell_length_b 4.27
_cell_length_c 4.27
_cell_angle_alpha 90
_cell_angle_beta 90
_cell_angle_gamma 90
loop_
_atom_site_label
_atom_site_type_symbol
_atom_site_fract_x
_atom_site_fract_y
_atom_site_fract_z
O1 O 0 0 0
O2 O 0.5 0.5 0.5
Cu1 Cu 0.25 0.25 0.25
Cu2 Cu 0.25 0.75 0.75
Cu3 Cu 0.75 0.25 0.75
Cu4 Cu 0.75 0.75 0.25
"""


class Interwoven(StructureTest):
    def test_the_number_of_copies_goes_with_the_net(self):
        net, = read(CUPRITE)
        answer = identify(net, archive=self.archive)
        self.assertEqual((net.copies, answer.copies), (2, 2))
        self.assertRegex(str(answer), "dia.*, one of 2 interpenetrating copies")
        self.assertIn("one of 2 interpenetrating copies", answer._repr_html_())
        found = components(net, archive=self.archive)
        self.assertEqual((found.pieces, [part.copies for part in found.parts]), (2, [2]))
        compared = same(net, self.archive[next(name for name in self.archive if name.startswith("dia,"))])
        self.assertTrue(compared)
        self.assertEqual(compared.notes, ("the first is one of 2 interpenetrating copies, and one is compared",))

    def test_one_net_is_one_of_one(self):
        rock_salt, = read(ROCK_SALT)
        self.assertEqual((rock_salt.copies, components(rock_salt, archive=None).pieces), (1, 1))
        self.assertEqual(same(rock_salt, rock_salt).notes, ())
        layers = Net([(1, 1, (1, 0)), (1, 1, (0, 1))]).of_provenance(Provenance(copies=2))
        self.assertEqual(layers.copies, 1)

    def test_tables_have_the_number(self):
        need_modules("pandas")
        self.assertEqual(list(identify_all([CUPRITE, ROCK_SALT], archive=None).to_pandas()["copies"]), [2, 1])


POSCAR = """rock salt
5.64
 0 .5 .5
 .5 0 .5
 .5 .5 0
Na Cl
1 1
Direct
0 0 0
.5 .5 .5
"""


class OtherForms(StructureTest):
    def test_a_poscar_is_read_by_its_name_and_by_its_text(self):
        need_modules("ase")
        for name in ("POSCAR", "x.vasp", "CONTCAR.1", "x_POSCAR"):
            path = self.folder / name
            path.write_text(POSCAR)
            net, = read(path)
            self.assertEqual((len(net.vertices), net.provenance.file), (2, str(path)))
        self.assertEqual(self.name_of(POSCAR), "pcu")
        self.assertEqual(len(read(POSCAR.encode(), leave_out="Na", lengths={"Cl-Cl": 4.1})[0].vertices), 1)
        cut, = read(POSCAR.rpartition("0 0 0")[0], name="POSCAR")
        self.assertIn("no POSCAR: 2 atoms are counted, and 0 rows are there", cut.refusal)

    def test_the_json_of_pymatgen(self):
        need_modules("pymatgen")
        from pymatgen.core import Lattice, Structure
        structure = Structure.from_spacegroup("Fm-3m", Lattice.cubic(5.64), ["Na", "Cl"], [[0, 0, 0], [0.5, 0.5, 0.5]])
        path = self.folder / "salt.json"
        path.write_text(structure.to_json())
        for source in (structure.as_dict(), structure.to_json() + "\n", path):
            self.assertEqual(self.name_of(source), "pcu")
        self.assertEqual(read(path)[0].name, "salt")
        self.assertEqual(len(identify_all([structure.as_dict()] * 2, archive=None)), 2)
        for wrong in ({"lattice": 1, "sites": 2}, '{"lattice": 1, "sites": [\n', '{"lattice": {}, "sites": []}\n'):
            with self.assertRaises(NotANet):
                read(wrong)
        with self.assertRaises(NotANet):
            identify_all(structure.as_dict(), archive=None)

    def test_a_net_knows_where_it_is_from(self):
        path = self.folder / "two.cif"
        path.write_text(ROCK_SALT + CUPRITE)
        told = [(net.provenance.file, net.provenance.block, net.provenance.convention) for net in read(path)]
        self.assertEqual(told, [(str(path), "rock_salt", "all-atoms"), (str(path), "cuprite", "all-atoms")])


class Ase(StructureTest):
    def setUp(self):
        super().setUp()
        need_modules("ase")

    def test_crystals_of_ase_get_their_names(self):
        from ase.build import bulk
        for words, name in ((("C", "diamond", 3.567), "dia"), (("Cu", "fcc", 3.61), "fcu"), (("Fe", "bcc", 2.87), "bcu"),
                            (("NaCl", "rocksalt", 5.64), "pcu"), (("ZnS", "zincblende", 5.41), "dia"),
                            (("CsCl", "cesiumchloride", 4.12), "bcu"), (("CaF2", "fluorite", 5.46), "flu"),
                            (("Mg", "hcp", 3.21), "hcp"), (("ZnO", "wurtzite", 3.25), "lon"), (("Po", "sc", 3.34), "pcu")):
            self.assertEqual(self.name_of(bulk(*words)), name, words)

    def test_cells_and_origins_do_not_matter(self):
        from ase.build import bulk, make_supercell
        atoms = bulk("Si", "diamond", 5.43, cubic=True)
        moved = make_supercell(atoms, [[1, 1, 0], [0, 1, 0], [0, 0, 2]])
        moved.translate((17.3, -4.1, 0.9))
        self.assertEqual(self.name_of(moved), "dia")
        moved.rattle(0.02, seed=1)
        self.assertEqual(self.name_of(moved), "dia")
        self.assertEqual(self.name_of(atoms.repeat((5, 5, 5))), "dia")  # 1,000 atoms, divided to the primitive cell

    def test_layers_and_molecules(self):
        from ase.build import graphene, molecule
        layer = graphene("C2", 2.46, vacuum=5.0)
        for periodic in ((True, True, False), True):
            layer.set_pbc(periodic)
            self.assertEqual(self.name_of(layer), "hcb")
        layer.cell[2] = (0, 0, 1.0)  # too thin for a repeat: there is none along this axis
        layer.set_pbc((True, True, False))
        self.assertEqual(self.name_of(layer), "hcb")
        self.assertIn("1 molecule", self.name_of(molecule("C6H6")))

    def test_a_cell_of_thousands_of_atoms(self):
        """The time is that of this process, so that other work beside it counts little."""
        from ase.spacegroup import crystal
        cell = crystal(["Na", "Cl"], [(0, 0, 0), (0.5, 0.5, 0.5)], spacegroup=225, cellpar=[5.64] * 3 + [90] * 3)
        begun = time.process_time()
        self.assertEqual(self.name_of(cell.repeat(12)), "pcu")  # 13,824 atoms
        self.assertLess(time.process_time() - begun, 20)

    def test_a_monolayer_whose_sides_collide(self):
        from ase.build import mx2
        answer = identify(mx2("MoS2"), archive=self.archive)
        self.assertEqual((answer.outcome.name, answer.key), ("Collision", ""))
        self.assertIn("without_twins makes one vertex", answer.advice)
        self.assertIn(answer.advice, str(answer))
        side = without_twins(answer.net)
        self.assertEqual(self.name_of(side), "hcb")
        self.assertIn("1 vertex left out", side.notes[-1])
        self.assertEqual((without_twins(side), self.answer_without_advice()), (side, ""))

    def answer_without_advice(self) -> str:
        return identify([(1, 1, (1, 0)), (1, 1, (0, 1))], archive=None).advice

    def test_others_that_collide(self):
        collision = [(1, 2, (0, 0, 0)), (1, 3, (0, 0, 0)), (2, 4, (0, 0, 0)), (3, 4, (0, 0, 0)), (4, 1, (1, 0, 0)),
                     (1, 1, (0, 1, 0)), (4, 4, (0, 0, 1))]
        self.assertIn("2 and 3 have the same neighbours", identify(collision, archive=None).advice)
        other = [*collision, (2, 2, (0, 0, 1)), (3, 3, (0, 0, 1))]
        self.assertIn("come to stand in one place: see", identify(other, archive=None).advice)
        self.assertEqual(len(without_twins(Net(other)).vertices), 4)

    def test_atoms_that_are_no_crystal_are_refusals(self):
        from ase import Atoms
        cell = [3.0, 3.0, 3.0]
        for atoms, word in ((Atoms(cell=cell, pbc=True), "no atoms"), (Atoms("C", pbc=True), "no unit cell"),
                            (Atoms("X", cell=cell, pbc=True), "element"), (Atoms("C2", [[0, 0, 0], [0, 0, 0.4]], cell=cell, pbc=True), "apart"),
                            (Atoms("C", [[float("nan"), 0, 0]], cell=cell, pbc=True), "no place")):
            outcome = identify(atoms, archive=None).outcome
            self.assertEqual((outcome.kind, word in outcome.text), ("unreadable", True), outcome)
        with self.assertRaises(NotANet):
            Net.from_ase(Atoms("C", pbc=True))

    def test_options_are_those_of_cif2cgd(self):
        from ase.build import bulk
        atoms = bulk("NaCl", "rocksalt", 5.64)
        self.assertEqual(self.name_of(atoms, leave_out={"Na"}, lengths={frozenset(("Cl",)): 4.1}), "fcu")
        with self.assertRaises(TypeError):
            read(atoms, no_such_option=True)
        with self.assertRaises(NotAnOption):
            read(atoms, convention="nobody's")


class Pymatgen(StructureTest):
    def setUp(self):
        super().setUp()
        need_modules("pymatgen")

    def test_prototypes_of_aflow(self):
        """Each of them is a net, or says why it is none; and files of the same structures say the same."""
        import pymatgen.analysis
        from pymatgen.core import Structure
        file = Path(pymatgen.analysis.__path__[0]) / "aflow_prototypes.json"
        told = json.loads(file.read_text())
        structures = [Structure.from_dict(entry["snl"]) for entry in told[::1 if IS_LONG else 12]]
        nets = [read(structure) for structure in structures]
        self.assertTrue(all(len(found) >= 1 for found in nets))
        answers = identify_all([net for found in nets for net in found], archive=self.archive)
        self.assertGreater(sum(answer.accepted for answer in answers), 0.65 * len(structures))  # others are molecules or rods
        for structure, found in list(zip(structures, nets))[:4 if not IS_LONG else 40]:
            by_file = identify_all(structure.to(fmt="cif").encode(), archive=self.archive)
            self.assertEqual([answer.key for answer in by_file if answer.key],
                             [answer.key for answer in identify_all(found, archive=None) if answer.key])

    def test_sites_that_are_shared(self):
        from pymatgen.core import Lattice, Structure
        structure = Structure.from_spacegroup("Fd-3m", Lattice.cubic(5.5), [{"Si": 0.5, "Ge": 0.5}], [[0, 0, 0]])
        self.assertEqual(self.name_of(structure), "dia")
        half = Structure.from_spacegroup("Fd-3m", Lattice.cubic(5.43), [{"Si": 0.5}], [[0, 0, 0]])
        self.assertIn("partly occupied", self.name_of(half))
        self.assertEqual(self.name_of(half, partial_as_full=True), "dia")

    def test_graphs_of_structures(self):
        need_modules("networkx")
        from pymatgen.analysis.graphs import StructureGraph
        from pymatgen.analysis.local_env import MinimumDistanceNN
        from pymatgen.core import Lattice, Structure
        structure = Structure.from_spacegroup("Fd-3m", Lattice.cubic(3.567), ["C"], [[0, 0, 0]])
        graph = StructureGraph.with_local_env_strategy(structure, MinimumDistanceNN())
        self.assertEqual(self.name_of(graph), "dia")
        self.assertEqual(self.name_of(graph.graph), "dia")


class Files(StructureTest):
    def test_a_file_and_its_text(self):
        path = TOP / "examples/quartz.cif"
        net = Net.from_cif(path)
        self.assertEqual((net.name, net.notes, self.name_of(net)), ("quartz", ("symmetry from name P 32 2 1",), "qtz"))
        text = path.read_text()
        self.assertEqual(read(text, name="a/quartz.cif")[0].block, net.block)
        two = text + text.replace("data_", "data_other_")
        self.assertEqual([found.name.split()[0] for found in read(two)], ["structure", "structure"])
        self.assertEqual([found.name.split()[0] for found in read(two, name="my.cif")], ["my", "my"])

    def test_what_is_no_structure_is_a_refusal(self):
        text = (TOP / "examples/quartz.cif").read_text()
        for other, word in ((text.replace("_cell_length_a", "_cell_length_x"), "no unit cell"), ("data_x\n", "no atoms"),
                            ("data_x\nloop_\n", "no CIF")):
            answer, = identify_all(other.encode(), archive=None)
            self.assertEqual((answer.outcome.kind, word in answer.outcome.text), ("unreadable", True), answer.outcome)
            with self.assertRaises(NotANet):
                Net.from_cif(other.encode())

    def test_notes_are_those_of_each_block(self):
        text = (TOP / "examples/quartz.cif").read_text()
        without = text.replace("data_", "data_b").replace("Si1 Si", "Xx1 Xx")
        first, second = read(text + without, name="q.cif")
        self.assertEqual((first.refusal, first.notes), ("", ("symmetry from name P 32 2 1",)))
        self.assertNotEqual((second.refusal, second.notes), ("", first.notes))
