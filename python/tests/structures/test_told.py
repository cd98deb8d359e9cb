"""What is reported of a net: fields of its own for doubts, copies, components and building units; by which convention it was
read where none was named; bonds of the file; modes; and files of other formats."""

import gzip
import json
import time
import unittest

from testing import PATIENCE, FolderTest, command, need_modules, run

need_modules("gemmi", "numpy", "scipy")
from kinds import SEQUENCES, Kinds, cif_text, converted, cubic  # noqa: E402
from structures import STRUCTURES, presentations  # noqa: E402

from crystal_nets.provenance import Provenance  # noqa: E402
from crystal_nets.reading import read  # noqa: E402
from crystal_nets.structures.nets.simplification import shells  # noqa: E402
from crystal_nets.structures.units.conventions import convention_named  # noqa: E402

COMMAND = command("convert --as structure")


def published(name: str) -> str:
    return presentations(next(s for s in STRUCTURES if s.name == name))["name"]


class Fields(Kinds):
    def test_building_units_of_mof_5(self):
        net = self.net(published("MOF-5"), convention="single-nodes")
        unit, = {(unit.formula, unit.connectivity) for unit in net.units}
        self.assertEqual(unit, ("Zn4O(CO2)6", 6))
        self.assertEqual([len(unit.atoms) for unit in net.units], [23] * len(net.units))
        self.assertEqual({unit.vertex for unit in net.units}, set(map(str, net.graph.vertices)))
        self.assertIn(b": vertices: Zn4O(CO2)6, 6-connected\n", converted(published("MOF-5"), convention="single-nodes").text)

    def test_each_atom_is_a_unit_of_its_own(self):
        net = self.net(published("rutile"))
        self.assertEqual({(unit.formula, unit.connectivity) for unit in net.units}, {("Ti", 6), ("O", 3)})

    def test_linkers_with_their_hydrogens(self):
        net = self.net(published("HKUST-1"), convention="single-nodes")
        self.assertEqual({(unit.formula, unit.connectivity) for unit in net.units}, {("Cu2(CO2)4", 4), ("C6H3", 3)})

    def test_provenance_survives_json(self):
        provenance = self.net(published("MOF-5"), convention="single-nodes").provenance
        fields = json.loads(json.dumps(provenance.to_dict()))
        self.assertEqual(Provenance.from_dict(fields), provenance)
        self.assertEqual(fields["doubts"], list(provenance.doubts))

    def test_what_a_net_has_not_is_told_in_any_case(self):
        text = cif_text((4, 4, 4, 90, 90, 90), [("Cs1", "Cs", 0, 0, 0), ("Cl1", "Cl", 0.5, 0.5, 0.5)], operations=["x,y,z"])
        alternatives = text.removesuffix("1\n") + "0.6\nBr1 Br 0.65 0.5 0.5 0.4\n"
        for structure, options, wanted in (
                (published("cuprite"), {}, "2 interpenetrating nets alike in the cell, one is written"),
                (published("MOF-5") + "O91 O 0.5 0.5 0.5 1\n", {"convention": "single-nodes"}, "left out: "),
                (alternatives, {}, "disorder: ")):
            self.assertIn(wanted, "\n".join(converted(structure, **options).told(is_quiet=True)))

    def test_copies_and_components(self):
        net = self.net(published("cuprite"))
        self.assertEqual((net.copies, [str(part) for part in net.components]), (2, ["2 nets in space Cu4O2"]))
        self.assertIn(b": one of 2 copies\n", converted(published("cuprite")).text)

    def test_molecules_and_rods_are_components(self):
        text = cif_text((8, 8, 3.0, 90, 90, 90), [("Na1", "Na", 0, 0, 0), ("O1", "O", 0.25, 0, 0.5)], operations=["x,y,z"])
        done = converted(published("MOF-5") + "O91 O 0.5 0.5 0.5 1\n", convention="single-nodes")
        self.assertEqual({part.dimension for part in done.nets[0].components}, {0, 3})
        self.assertTrue(converted(text).is_refused)

    def test_json_has_a_field_for_each(self):
        text = cif_text(cubic(3.905), [("Sr1", "Sr", 0.5, 0.5, 0.5), ("Ti1", "Ti", 0, 0, 0), ("O1", "O", 0.5, 0, 0)], name="P m -3 m")
        told = json.loads(converted(text).json_line())
        net, = told["nets"]
        self.assertEqual((net["convention"], net["copies"], net["components"][0]["dimension"]), ("all-atoms", 1, 3))
        self.assertEqual(told["left_out"], ["left out as counter-ions: Sr 1"])
        self.assertIn("with Sr the net is a net in space", told["doubts"][0])
        self.assertIn({"vertex": "Ti1", "formula": "Ti", "connectivity": 6, "atoms": ["Ti1"]}, net["units"])

    def test_nets_in_python_have_the_same(self):
        text = cif_text(cubic(3.905), [("Sr1", "Sr", 0.5, 0.5, 0.5), ("Ti1", "Ti", 0, 0, 0), ("O1", "O", 0.5, 0, 0)], name="P m -3 m")
        net, = read(text, name="SrTiO3.cif")
        self.assertIn("with Sr", net.doubts[0])
        self.assertEqual((net.left_out, net.convention, net.copies), (("left out as counter-ions: Sr 1",), "all-atoms", 1))
        self.assertEqual(net.units[0].connectivity, 6)


class Asked(Kinds):
    def test_auto_is_taken_for_carbon_with_metals(self):
        net = self.net(published("MOF-5"))
        self.assertEqual(net.convention, "single-nodes")
        self.assertIn("no convention is named: auto", "\n".join(net.notes))
        calcite = cif_text((4.99, 4.99, 17.06, 90, 90, 120), [("Ca1", "Ca", 0, 0, 0), ("C1", "C", 0, 0, 0.25), ("O1", "O", 0.257, 0, 0.25)],
                           name="R -3 c H")
        self.assertEqual(self.net(calcite).convention, "all-atoms")

    def test_names_of_conventions_as_others_spell_them(self):
        for text, name in (("AllNodes", "all-nodes"), ("SingleNodes", "single-nodes"), ("PE", "pe"), ("PEM", "pem"),
                           ("EachVertex", "all-atoms"), ("Standard", "standard"), ("single_nodes", "single-nodes"), ("", "")):
            self.assertEqual(convention_named(text), name)
        self.assertRaises(ValueError, convention_named, "nobody's")
        self.assertEqual(read(published("MOF-5"), name="a.cif", convention="SingleNodes")[0].convention, "single-nodes")

    def test_mode_zeolite(self):
        text = cif_text((8.965,) * 3 + (90,) * 3, [("T1", "Si", 0.25, 0.5, 0), ("O1", "O", 0.3522, 0.3522, 0), ("Fe1", "Fe", 0.25, 0.25, 0.25)],
                        name="I m -3 m")
        self.assertNotEqual(shells(self.net(text, keep_ions=True).graph, 4)[0], SEQUENCES["sod"])
        self.assert_net("sod", text, mode="zeolite")

    def test_mode_intermetallic(self):
        nickeline = cif_text((3.619, 3.619, 5.034, 90, 90, 120), [("Ni1", "Ni", 0, 0, 0), ("As1", "As", 1 / 3, 2 / 3, 0.25)],
                             name="P 63/m m c")
        self.assertEqual(set(self.net(nickeline).graph.degrees()), {6})
        self.assertEqual(set(self.net(nickeline, mode="intermetallic").graph.degrees()), {6, 8})


class Speed(Kinds):
    def test_one_convention_needs_no_sequences(self):
        """500 atoms of copper without symmetry take under auto about as long as by all-atoms."""
        n, corners = 5, ((0, 0, 0), (0.5, 0.5, 0), (0.5, 0, 0.5), (0, 0.5, 0.5))
        sites = [(f"Cu{x}{y}{z}{k}", "Cu", (x + p) / n, (y + q) / n, (z + r) / n)
                 for x in range(n) for y in range(n) for z in range(n) for k, (p, q, r) in enumerate(corners)]
        text = cif_text(cubic(3.61 * n), sites, operations=["x,y,z"])
        seconds = []
        for convention in ("all-atoms", "auto"):
            begun = time.process_time()
            self.assertEqual(len(self.net(text, convention=convention).graph.vertices), 500)
            seconds.append(time.process_time() - begun)
        self.assertLess(seconds[1], 2 * seconds[0] + 0.5)


class ListedBonds(Kinds):
    TEXT = published("rutile")
    ALL = "loop_\n_geom_bond_atom_site_label_1\n_geom_bond_atom_site_label_2\n_geom_bond_distance\nTi1 O1 1.949\nTi1 O1 1.980(2)\n"

    def test_bonds_of_the_file(self):
        self.assertIn("lists no bonds", self.refusal(self.TEXT, bonds="file"))
        whole = self.net(self.TEXT + self.ALL, bonds="file")
        self.assertEqual(shells(whole.graph), shells(self.net(self.TEXT).graph))
        short = self.ALL.replace("Ti1 O1 1.980(2)\n", "")
        self.assertEqual(self.doubts(self.TEXT + self.ALL, bonds="both"), "")
        self.assertIn("O1-Ti1 taken, and not listed in the file", self.doubts(self.TEXT + short, bonds="both"))

    def test_a_bond_of_one_site_with_itself_is_told_by_both_ends(self):
        silicon = cif_text(cubic(5.431), [("Si1", "Si", 0.125, 0.125, 0.125)], name="F d -3 m:2")
        listed = self.ALL.partition("Ti1")[0] + "Si1 Si1 3.840\n"
        self.assertIn("Si1-Si1 taken, and not listed in the file; Si1-Si1 left out, and listed in the file",
                      self.doubts(silicon + listed, bonds="both"))


class Formats(FolderTest):
    POSCAR = "copper\n1.0\n0 1.805 1.805\n1.805 0 1.805\n1.805 1.805 0\nCu\n1\nDirect\n0 0 0\n"
    EXTXYZ = '1\nLattice="0 1.805 1.805 1.805 0 1.805 1.805 1.805 0" pbc="T T T"\nCu 0 0 0\n'

    def test_files_of_other_programs(self):
        need_modules("ase")
        for name, text in (("POSCAR", self.POSCAR), ("copper.vasp", self.POSCAR), ("copper.extxyz", self.EXTXYZ)):
            for packed in (False, True):
                file = self.folder / f"{name}{'.gz' * packed}"
                file.write_bytes(gzip.compress(text.encode()) if packed else text.encode())
                self.assertEqual(run(COMMAND, file).stdout.count(b'"Cu1" "Cu1"'), 6)
                self.assertEqual([len(net.edges) for net in read(file)], [6])
        self.assertEqual(run(COMMAND, self.folder).stdout.count(b"PERIODIC_GRAPH"), 6)

    def test_structures_before_the_last_are_told_in_any_case(self):
        need_modules("ase")
        file = self.folder / "two.xyz"
        file.write_text(2 * self.EXTXYZ)
        self.assertEqual(run(COMMAND, "--quiet", file).stderr, b"two.xyz: the last of 2 structures is read\n")

    def test_what_is_cut_or_no_crystal_ends_in_a_reason(self):
        need_modules("ase")
        whole = gzip.compress(self.POSCAR.encode())
        for name, content in (("a.cif.gz", whole[:-9]), ("b.vasp", b"copper\n1.0\n"), ("c.xyz", b"1\n\nCu 0 0 0\n"), ("d.extxyz", b"\xff\xfe"),
                              ("e.cif", whole)):
            file = self.folder / name
            file.write_bytes(content)
            told = run(COMMAND, file, status=1).stderr
            self.assertIn(b": refused: ", told)
            self.assertNotIn(b"Traceback", told)
            self.assertNotIn(b"cif2cgd failed", told)

    def test_more_atoms_than_rows_are_not_looked_for(self):
        """ase would look for 10^11 rows."""
        need_modules("ase")
        file = self.folder / "far.xyz"
        for text, told in (("9" * 11 + self.EXTXYZ[1:], b"99999999999 atoms are counted in line 1, and 1 rows are there"),
                           (self.EXTXYZ + "3\n" + self.EXTXYZ[2:], b"3 atoms are counted in line 4, and 1 rows are there")):
            file.write_text(text)
            self.assertIn(told, run(COMMAND, file, status=1, seconds=PATIENCE).stderr)
        file.write_text("1\nLattice=\"3 0 0 0 3 0 0 0 3\"\nC7x 0 0 0\n")
        self.assertIn(b"'C7x' is no element and no column of it", run(COMMAND, file, status=1).stderr)


if __name__ == "__main__":
    unittest.main()
