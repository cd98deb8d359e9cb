"""What is read of a structure file, and what is not: dummy atoms, bonds that are none, disorder,
kinds of files, cells that are several times the primitive one."""

import random
import re
import unittest
from itertools import combinations

from testing import PROGRAM, TOP, FolderTest, command, need_modules, need_program, run

need_modules("gemmi", "numpy", "scipy")
import gemmi  # noqa: E402
import numpy as np  # noqa: E402
from structures import STRUCTURES, cif_text, images_of, presentations  # noqa: E402

from crystal_nets.structures.bonds.rules import find_bonds  # noqa: E402
from crystal_nets.structures.nets.choice import Options  # noqa: E402
from crystal_nets.structures.conversion import Source, read_and_convert  # noqa: E402
from crystal_nets.structures.reading.document import blocks_of  # noqa: E402
from crystal_nets.structures.reading.structure import read_crystal  # noqa: E402

COMMAND = command("convert --as structure")
CUBE = (10, 10, 10, 90, 90, 90)
QUARTZ = (TOP / "examples/quartz.cif").read_text()


def structure(name: str):
    return next(s for s in STRUCTURES if s.name == name)


def crystal_of(text: str):
    block, = blocks_of(text.encode(), "test")
    return read_crystal(block)


def bonds_between(text: str, one: str, other: str) -> tuple[int, list[str]]:
    """How many bonds of two elements a cell has, and the doubts."""
    crystal = crystal_of(text)
    doubts: list[str] = []
    elements = [atom.site.element for atom in crystal.atoms]
    bonds = find_bonds(crystal, False, {}, doubts)
    return sum({elements[u], elements[v]} == {one, other} for u, v, _ in bonds), doubts


def with_columns(text: str, columns: dict[str, list[str]]) -> str:
    """A text of a file with more columns of its atoms, one value for each."""
    head, _, rows = text.partition("_atom_site_occupancy\n")
    lines = rows.splitlines()
    for values in columns.values():
        lines = [f"{line} {value}" for line, value in zip(lines, values, strict=True)]
    tags = "".join(f"_atom_site_{tag}\n" for tag in columns)
    return f"{head}_atom_site_occupancy\n{tags}" + "\n".join(lines) + "\n"


class Reading(unittest.TestCase):
    def convert(self, text: str | bytes, status: int = 0, **options: object) -> tuple[str, str]:
        """The rows of the nets, without their names, and what is reported."""
        content = text if isinstance(text, bytes) else text.encode()
        done = read_and_convert(Source("-", "test.cif", "test"), Options(**options), content)
        self.assertEqual(done.is_refused, bool(status), done.told(is_quiet=False))
        rows = [line for line in done.text.decode().splitlines() if not line.startswith(("#", "NAME"))]
        return "\n".join(rows), "\n".join([*done.told(is_quiet=False), ""])


class Columns(Reading):
    COPPER = cif_text((3.61, 3.61, 3.61, 90, 90, 90), [("Cu1", "Cu", 0.5, 0.5, 0.5), ("H1", "H", -1, -1, -1)],
                      name="F m -3 m")

    def test_a_dummy_atom_is_none(self):
        text = with_columns(self.COPPER, {"attached_hydrogens": ["0", "0"], "calc_flag": ["d", "dum"]})
        rows, told = self.convert(text)
        self.assertIn("left out, dummy atoms: H1", told)
        self.assertEqual(rows.count('"Cu1" "Cu1"'), 6)
        self.assertNotEqual(rows, self.convert(text.replace("dum", "d"))[0])

    def test_molecules_with_attached_hydrogens_are_no_packing(self):
        ammonia = cif_text((5.13, 5.13, 5.13, 90, 90, 90), [("N1", "N", 0.22, 0.22, 0.22)], name="P 21 3")
        self.assertIn("12 neighbours", self.convert(ammonia)[1])
        told = self.convert(with_columns(ammonia, {"attached_hydrogens": ["3"]}), status=1)[1]
        self.assertIn("refused: no net: 4 single atoms", told)

    def test_oxygen_with_attached_hydrogens_is_water(self):
        ice = cif_text((3.3501, 3.3501, 3.3501, 90, 90, 90), [("O1", "O", 0.25, 0.25, 0.25)], name="P n -3 m:2")
        rows, told = self.convert(with_columns(ice, {"attached_hydrogens": ["2"]}))
        self.assertEqual(rows.count('"O1'), 8)

    def test_other_columns_do_not_matter(self):
        columns = {tag: ["x"] * 2 for tag in (
            "refinement_flags", "refinement_flags_posn", "site_symmetry_order", "site_symmetry_multiplicity",
            "Wyckoff_symbol", "adp_type", "U_iso_or_equiv", "B_iso_or_equiv", "restraints", "constraints",
            "thermal_displace_type", "description", "calc_attached_atom", "label_component_0")}
        text = presentations(structure("quartz"))["published"]
        self.assertEqual(self.convert(with_columns(text, columns)), self.convert(text))

    def test_a_coordinate_that_is_no_number(self):
        self.assertIn("'0.4187+2' of Si1 is no number", self.convert(QUARTZ.replace("0.4697", "0.4187+2"), status=1)[1])
        self.assertEqual(self.convert(QUARTZ.replace("0.66667", "2/3"))[0], self.convert(QUARTZ)[0])


class Bonds(Reading):
    def test_two_oxygens_of_a_silicate_that_are_too_near_are_not_bonded(self):
        rows = self.convert(presentations(structure("cristobalite"))["published"])[0]
        text = near_oxygens(1.36)
        moved, told = self.convert(text)
        self.assertIn("O-O 1.36 left out, between two anions", told)
        self.assertEqual(moved.count("Si"), rows.count("Si"))
        self.assertEqual(bonds_between(text, "O", "O")[0], 0)

    def test_two_oxygens_that_are_too_near_for_no_bond_are_told(self):
        rutile = presentations(structure("rutile"))["published"]
        near = rutile.replace("0.305300 0.305300", "0.350000 0.350000")
        self.assertEqual(self.convert(rutile)[1], "")
        rows, told = self.convert(near)
        self.assertEqual(rows, self.convert(rutile)[0])
        self.assertEqual(told, "test.cif: bonds in doubt: O-O 1.95 left out, too near for no bond\n")

    def test_neighbours_of_a_nonmetal_that_are_farther_than_bonds_are_told(self):
        for edge, doubts in ((5.43, ""), (6.9, "test.cif: bonds in doubt: Si-Si 2.99 taken, longer than a bond\n")):
            silicon = cif_text((edge, edge, edge, 90, 90, 90), [("Si1", "Si", 0.125, 0.125, 0.125)], name="F d -3 m:2")
            rows, told = self.convert(silicon)
            self.assertEqual(rows.count('"Si1'), 8)
            self.assertEqual(told, "test.cif: symmetry from name F d -3 m:2\n" + doubts)

    def test_layers_of_metals_are_told(self):
        for height, are_layers in ((3.2, False), (5.0, True)):
            told = self.convert(cif_text((3.0, 3.0, height, 90, 90, 90), [("Sn1", "Sn", 0, 0, 0)], operations=["x,y,z"]))[1]
            self.assertEqual("the nearest neighbours of these metals make layers" in told, are_layers)

    def test_peroxide_and_disulphide_are_bonds(self):
        for metal, anion, edge, x, length in (("Zn", "O", 4.871, 0.413, 1.47), ("Fe", "S", 5.4166, 0.3849, 2.16)):
            text = cif_text((edge,) * 3 + (90,) * 3, [("M1", metal, 0, 0, 0), ("X1", anion, x, x, x)], name="P a -3")
            count, doubts = bonds_between(text, anion, anion)
            self.assertEqual(count, 4)
            self.assertFalse([doubt for doubt in doubts if "between" in doubt])

    def test_superoxide_is_a_bond_beside_metals(self):
        text = cif_text((5.704, 5.704, 6.699, 90, 90, 90), [("K1", "K", 0, 0, 0), ("O1", "O", 0, 0, 0.4046)],
                        name="I 4/m m m")
        self.assertEqual(bonds_between(text, "O", "O")[0], 1)

    def test_a_metal_is_not_joined_to_carbons_beside_its_nitrogens(self):
        pyrazine = [("Gd1", "Gd", 0, 0, 0), ("N1", "N", 0.325, 0, 0), ("C1", "C", 0.409, 0.1413, 0),
                    ("N2", "N", 0, 0.325, 0), ("C2", "C", 0.1413, 0.409, 0)]
        text = cif_text((8.0, 8.0, 7.0, 90, 90, 90), pyrazine, name="P m m m")
        pair = frozenset(("Gd", "C"))
        self.assertEqual(bonds_between(text, "Gd", "C"), (0, []))
        self.assertEqual(bonds_between(text, "Gd", "N")[0], 4)
        self.assertEqual(self.convert(text)[0], self.convert(text, lengths={pair: 0.0})[0])
        whole = {"convention": "all-atoms"}
        self.assertNotEqual(self.convert(text, **whole)[0], self.convert(text, lengths={pair: 3.6}, **whole)[0])

    def test_cyclopentadienyls_carbonyls_and_cyanides_are_joined_to_metals(self):
        turns = [2 * np.pi * k / 5 for k in range(5)]
        rings = [("Fe1", "Fe", 0.5, 0.5, 0.5)] + [
            (f"C{k}{side}", "C", 0.5 + 0.121 * np.cos(t), 0.5 + 0.121 * np.sin(t), 0.5 + side * 0.1655)
            for side in (1, -1) for k, t in enumerate(turns)]
        self.assertEqual(bonds_between(cif_text(CUBE, rings), "Fe", "C")[0], 10)
        carbonyl = [("Ni1", "Ni", 0.5, 0.5, 0.5)] + [
            (f"{element}{k}", element, *(0.5 + length / 10 / 3 ** 0.5 * np.array(direction)))
            for k, direction in enumerate(((1, 1, 1), (1, -1, -1), (-1, 1, -1), (-1, -1, 1)))
            for element, length in (("C", 1.82), ("O", 2.97))]
        self.assertEqual(bonds_between(cif_text(CUBE, carbonyl), "Ni", "C")[0], 4)
        prussian = [("Fe1", "Fe", 0, 0, 0), ("Co1", "Co", 0.5, 0, 0), ("C1", "C", 0.19, 0, 0), ("N1", "N", 0.303, 0, 0)]
        text = cif_text((10.1, 10.1, 10.1, 90, 90, 90), prussian, name="F m -3 m")
        self.assertEqual((bonds_between(text, "Fe", "C")[0], bonds_between(text, "Co", "N")[0]), (6, 6))


def near_oxygens(length: float) -> str:
    """Cristobalite without symmetry, with two oxygens of one silicon at a length from each other,
    each as far from both of its silicons as before they are moved towards each other."""
    cristobalite = structure("cristobalite")
    group = gemmi.find_spacegroup_by_name(cristobalite.group).operations()
    edges = np.array(gemmi.UnitCell(*cristobalite.cell).orthogonalization_matrix.tolist()).T
    places = [[site[1], place @ edges] for site in cristobalite.sites for place in images_of(site, group, edges)]
    silicon = places[0][1]

    def nearest(at: np.ndarray, element: str, count: int) -> list[tuple[int, np.ndarray]]:
        """The nearest atoms of an element, by their numbers, with the steps to them."""
        steps = [(k, (place - at) @ np.linalg.inv(edges)) for k, (e, place) in enumerate(places) if e == element]
        steps = [(k, (step - np.round(step)) @ edges) for k, step in steps]
        return sorted((pair for pair in steps if np.linalg.norm(pair[1]) > 0.1), key=lambda p: np.linalg.norm(p[1]))[:count]

    arms = [(k, max((to + step for _, step in nearest(places[k][1], "Si", 2)), key=np.linalg.norm))
            for k, to in nearest(silicon, "O", 4)]  # the oxygens, and where the silicons beyond them are
    (one, end), (other, other_end) = min(combinations(arms, 2), key=lambda pair: np.linalg.norm(pair[0][1] - pair[1][1]))
    ends = [end, other_end]
    for height in np.arange(0.5, 1.6, 0.001):
        moved = []
        for axis, inwards in (ends, ends[::-1]):
            across = inwards - axis * (inwards @ axis) / (axis @ axis)
            moved.append(axis / 2 + height * across / np.linalg.norm(across))
        if np.linalg.norm(moved[0] - moved[1]) <= length:
            break
    places[one][1], places[other][1] = silicon + moved[0], silicon + moved[1]
    return cif_text(cristobalite.cell, [(f"{e}{n}", e, *(place @ np.linalg.inv(edges)))
                                        for n, (e, place) in enumerate(places)], operations=["x,y,z"])


class Disorder(Reading):
    WHOLE = (("Si1", "Si", 0.4697, 0, 2 / 3), ("O1", "O", 0.4133, 0.2672, 0.7855))
    OTHER = ("O2", "O", 0.4133, 0.3500, 0.8500)
    CELL = (4.9137, 4.9137, 5.4047, 90, 90, 120)

    def quartz_with_two(self, first: float, second: float, groups: tuple[str, str], assembly: str = ".") -> str:
        sites = [self.WHOLE[0], (*self.WHOLE[1], first), (*self.OTHER, second)]
        text = cif_text(self.CELL, sites, name="P 32 2 1")
        return with_columns(text, {"disorder_assembly": [".", assembly, assembly], "disorder_group": [".", *groups]})

    def test_groups_by_numbers_and_letters(self):
        whole = self.convert(cif_text(self.CELL, self.WHOLE, name="P 32 2 1"))[0]
        for groups in (("1", "2"), ("A", "B"), ("2", "1")):
            rows, told = self.convert(self.quartz_with_two(0.6, 0.4, groups, "A"))
            self.assertIn(f"disorder: group {groups[0]} is taken, and left out are O2\n", told)
            self.assertEqual(rows, whole, groups)

    def test_of_unequal_groups_the_fuller_one_is_taken(self):
        told = self.convert(self.quartz_with_two(0.7, 0.3, ("2", "1")))[1]
        self.assertIn("disorder: group 2 is taken, and left out are O2\n", told)
        told = self.convert(self.quartz_with_two(0.5, 0.5, ("1", "2")))[1]
        self.assertIn("disorder: group 1 is taken, and left out are O2\n", told)

    def test_a_refused_vacancy_stays_one(self):
        text = self.quartz_with_two(0.6, 0.4, (".", ".")).replace("O2 O 0.413300 0.350000 0.850000 0.4", "O2 O ? ? ? 0.4")
        self.assertIn("partly occupied atoms of the net: O1 0.60", self.convert(text, status=1)[1])

    def test_a_ring_that_is_half_occupied_twice_is_taken_once(self):
        whole = self.convert(ring_of_linker(turn=0, times=1))[0]
        for turn in (40, 60, 90):
            rows, told = self.convert(ring_of_linker(turn, times=2))
            self.assertEqual(rows, whole, turn)
            self.assertEqual(told.count("disorder: "), 1, told)

    def test_a_group_with_a_negative_number_is_taken_once(self):
        whole = self.convert(ring_of_linker(turn=0, times=1))[0]
        text = ring_about_mirror()
        rows, told = self.convert(text)
        self.assertIn("images of group -1", told)
        self.assertEqual(len(rows.splitlines()), len(whole.splitlines()))
        self.assertEqual(rows.count("C0"), whole.count("C0"))


def ring_of_linker(turn: float, times: int) -> str:
    """Copper atoms on a square lattice, with rings of six carbons between those along one axis, as
    in 1,4-phenylene; with two rings, at an angle in degrees, each is half occupied."""
    sites = [("Cu1", "Cu", 0.0, 0.0, 0.0), ("N1", "N", 1.95 / 9, 0.0, 0.0), ("N2", "N", 1 - 1.95 / 9, 0.0, 0.0),
             ("C1", "C", 3.1 / 9, 0.0, 0.0), ("C4", "C", 5.9 / 9, 0.0, 0.0), ("Cl1", "Cl", 0.0, 0.5, 0.0)]
    for ring in range(times):
        angle = np.radians(turn * ring + 10)
        for n, (x, r) in enumerate(((3.8, 1.21), (3.8, -1.21), (5.2, 1.21), (5.2, -1.21))):
            sites.append((f"C{ring}{n}", "C", x / 9, r * np.cos(angle) / 5.4, r * np.sin(angle) / 12, 1 / times))
    return cif_text((9.0, 5.4, 12.0, 90, 90, 90), sites, operations=["x,y,z"])


def ring_about_mirror() -> str:
    """The same with one ring, at an angle to a mirror plane that makes another of it."""
    sites = [("Cu1", "Cu", 0.0, 0.0, 0.0), ("N1", "N", 1.95 / 9, 0.0, 0.0), ("N2", "N", 1 - 1.95 / 9, 0.0, 0.0),
             ("C1", "C", 3.1 / 9, 0.0, 0.0), ("C4", "C", 5.9 / 9, 0.0, 0.0), ("Cl1", "Cl", 0.0, 0.5, 0.0)]
    sites += [(f"C0{n}", "C", x / 9, r * 0.94 / 5.4, r * 0.34 / 12, 0.5)
              for n, (x, r) in enumerate(((3.8, 1.21), (3.8, -1.21), (5.2, 1.21), (5.2, -1.21)))]
    text = cif_text((9.0, 5.4, 12.0, 90, 90, 90), sites, operations=["x,y,z", "x,y,-z"])
    return with_columns(text, {"disorder_group": ["."] * 6 + ["-1"] * 4})


class Files(Reading):
    def test_a_refusal_keeps_the_notes_that_led_to_it(self):
        told = self.convert(presentations(structure("quartz"))["name"].replace(" 1\n", " 0.5\n"), status=1)[1]
        self.assertIn("symmetry from name P 32 2 1\n", told)
        self.assertIn("refused: partly occupied atoms of the net: O1 0.50", told)

    def test_modulated_structures_are_refused_by_name(self):
        for tag in ("_space_group_symop_ssg_operation_algebraic x1,x2,x3,x4", "_cell_modulation_dimension 1"):
            self.assertIn("refused: a modulated structure", self.convert(QUARTZ + tag + "\n", status=1)[1])

    def test_of_a_magnetic_structure_the_average_is_read(self):
        """Iron with moments along c, and a type IV lattice, whose centring turns the moments."""
        magnetic = cif_text((2.866, 2.866, 2.866, 90, 90, 90), [("Fe1", "Fe", 0, 0, 0)], operations=["x,y,z"])
        magnetic = magnetic.replace("_symmetry_equiv_pos_as_xyz\n'x,y,z'", "_space_group_symop_magn_operation.xyz\nx,y,z,+1\n"
                                    "-x,-y,z,+1\nloop_\n_space_group_symop_magn_centering.xyz\nx,y,z,+1\nx+1/2,y+1/2,z+1/2,-1")
        rows, told = self.convert(magnetic)
        self.assertEqual(rows.count('"Fe1" "Fe1"'), 4)
        self.assertIn("a magnetic structure: the average is read", told)
        self.assertIn("refused: a magnetic structure", self.convert(
            magnetic.replace("_operation.xyz", "_operation.no").replace("_centering.xyz", "_centering.no"), status=1)[1])

    def test_two_blocks_and_two_tags_of_one_name_are_told_with_their_lines(self):
        count = len(QUARTZ.splitlines())
        rows, told = self.convert(QUARTZ + QUARTZ)
        self.assertEqual(rows.count("PERIODIC_GRAPH"), 2)
        line = next(k for k, text in enumerate(QUARTZ.splitlines(), 1) if text.startswith("data_"))
        self.assertIn(f"in lines {line}, {line + count}\n", told)
        told = self.convert(QUARTZ + "_cell_length_a 5.0\n", status=1)[1]
        self.assertRegex(told, rf"refused: the tag _cell_length_a stands twice, in lines \d+ and {count + 1}\n")
        self.assertRegex(self.convert(QUARTZ + "_a.b 1\n_a.b 2\n")[1],
                         rf"the tag _a.b stands twice, in lines {count + 1} and {count + 2}\n")

    def test_a_block_of_atoms_without_coordinates_is_told(self):
        other = QUARTZ.replace("data_", "data_other_").replace("_fract_", "_other_")
        rows, told = self.convert(QUARTZ + other + "data_pattern\n_cell_length_a 5\n")
        self.assertEqual(rows.count("PERIODIC_GRAPH"), 1)
        self.assertRegex(told, r"\Atest.cif: the block other_\w+ has atoms without coordinates, and is passed over\n")

    def test_tags_with_dots(self):
        dotted = QUARTZ
        for category in ("_cell", "_atom_site", "_space_group", "_symmetry_equiv"):
            dotted = dotted.replace(category + "_", category + ".").replace(category + ".group_", category + "_group_")
        self.assertNotEqual(dotted, QUARTZ)
        self.assertEqual(self.convert(dotted)[0], self.convert(QUARTZ)[0])

    def test_cartesian_coordinates_without_a_cell_and_cif_2_are_refused_by_name(self):
        told = self.convert("data_1ABC\nloop_\n_atom_site.id\n_atom_site.Cartn_x\n1 2.5\n", status=1)[1]
        self.assertIn("refused: no unit cell", told)
        told = self.convert("#\\#CIF_2.0\ndata_a\n_x [1 2]\n", status=1)[1]
        self.assertIn("refused: no CIF (CIF 2.0): ", told)

    def test_cartesian_coordinates_of_mmcif(self):
        cell = "".join(f"_cell.{tag} {value}\n" for tag, value in (("length_a", 2.866), ("length_b", 2.866), ("length_c", 2.866)))
        text = (f"data_iron\n{cell}loop_\n_atom_site.label_atom_id\n_atom_site.type_symbol\n_atom_site.Cartn_x\n_atom_site.Cartn_y\n"
                "_atom_site.Cartn_z\nFe1 Fe 0 0 0\nFe2 Fe 1.433 1.433 1.433\n")
        self.assertEqual(self.convert(text)[0].count('"Fe1" "Fe2"'), 8)

    def test_the_matrix_of_mmcif_gives_the_fractions(self):
        """Silicon along other axes: x of the file is along c."""
        cell = "".join(f"_cell.length_{axis} {length}\n" for axis, length in zip("abc", (5.43, 5.43, 8.0)))
        atoms = ("_symmetry.space_group_name_H-M 'P 4/m m m'\nloop_\n_atom_site.label_atom_id\n_atom_site.type_symbol\n"
                 "_atom_site.Cartn_x\n_atom_site.Cartn_y\n_atom_site.Cartn_z\nSi1 Si {}\nO1 O {}\nO2 O {}\n")
        plain = f"data_t\n{cell}{atoms.format('0 0 0', '1.6 0 0', '0 0 1.6')}"
        rows = {"11": (0, 0, 1 / 5.43), "22": (1 / 5.43, 0, 0), "33": (0, 1 / 8.0, 0)}
        for form in ("_atom_sites.fract_transf_matrix[{}][{}]", "_atom_sites_fract_tran_matrix_{}{}"):
            matrix = "".join(f"{form.format(row[0], column)} {value:.6f}\n"
                             for row, values in rows.items() for column, value in zip("123", values))
            turned = f"data_t\n{cell}{matrix}{atoms.format('0 0 0', '0 0 1.6', '0 1.6 0')}"
            self.assertEqual(crystal_of(turned).listed, crystal_of(plain).listed)
            self.assertEqual(crystal_of(turned).listed, {"Si": 1.0, "O": 6.0})
            told = self.convert(turned.replace("0.184162", "0.284162"), status=1)[1]
            self.assertIn("refused: the matrix from places to fractions is not that of the cell", told)

    def test_occupancies_above_1_are_a_doubt(self):
        for part, doubt in (("1.0", ""), ("1.04", ""), ("100", "test.cif: occupancies above 1, taken as full: Cu1 100\n")):
            text = re.sub(r"(?m)^(Cu1 .*) \S+$", rf"\1 {part}", Columns.COPPER)
            self.assertEqual([line for line in self.convert(text)[1].splitlines(keepends=True) if "occupanc" in line],
                             [doubt] * bool(doubt))

    def test_operations_with_decimals_and_operations_that_stand_twice(self):
        text = presentations(structure("quartz"))["published"]
        rows = self.convert(text)
        decimals = text.replace("+2/3", "+0.66667").replace("+1/3", "+.3333")
        self.assertNotEqual(decimals, text)
        self.assertEqual(self.convert(decimals), rows)
        self.assertEqual(self.convert(text.replace("'x,y,z'\n", "'x,y,z'\n'x,y,z'\n'x+1,y,z'\n")), rows)
        self.assertIn("refused: symmetry operations: ", self.convert(decimals.replace("0.66667", "0.61"), status=1)[1])
        self.assertIn("the 5 symmetry operations are no group", self.convert(text.replace("'x,y,z'\n", ""), status=1)[1])

    def test_line_ends_of_other_systems(self):
        for end in ("\r\n", "\r"):
            self.assertEqual(self.convert(QUARTZ.replace("\n", end).encode()), self.convert(QUARTZ))

    def test_byte_order_marks_are_passed_over(self):
        rows = self.convert(QUARTZ)[0]
        for content in (b"\xef\xbb\xbf" + QUARTZ.encode(), QUARTZ.encode("utf-16"),
                        b"\xfe\xff" + QUARTZ.encode("utf-16-be")):
            self.assertEqual(self.convert(content)[0], rows)


class LargeCells(FolderTest):
    def test_cells_of_molecular_dynamics_give_the_net_of_the_primitive_cell(self):
        need_program()
        for name, times, count in (("LTA", (3, 3, 3), 24), ("quartz", (8, 8, 9), 3)):
            file = self.folder / f"{name}.cif"
            file.write_text(noisy_cell(name, times, 0.02))
            done = run(COMMAND, file)
            self.assertIn(b" times the primitive one of the net\n", done.stderr)
            report = run(PROGRAM, "identify", "-", "--archive", TOP / "archives/common.archive",
                         stdin=done.stdout).stdout.decode()
            self.assertIn(f"graph d=3 vertices={count} ", report)
            self.assertIn(f'name "{structure(name).nets[0]},', report)

    def test_what_is_larger_then_is_refused(self):
        file = self.folder / "one.cif"
        file.write_text(noisy_cell("diamond", (5, 5, 3), 0.0, vacancy=True))
        self.assertIn(b"refused: 599 vertices, at most 512 are read", run(COMMAND, file, status=1).stderr)


def noisy_cell(name: str, times: tuple[int, int, int], noise: float, vacancy: bool = False) -> str:
    """So many cells of a structure without symmetry, each atom moved by some noise in angstrom."""
    of_one = structure(name)
    group = gemmi.find_spacegroup_by_name(of_one.group).operations()
    edges = np.array(gemmi.UnitCell(*of_one.cell).orthogonalization_matrix.tolist()).T
    chance, moves = random.Random(5), np.random.default_rng(5)
    places = [(site[1], (place + cell) / times) for site in of_one.sites for place in images_of(site, group, edges)
              for cell in np.ndindex(*times)]
    chance.shuffle(places)
    back = np.linalg.inv(np.diag(times) @ edges)
    sites = [(f"{element}{k}", element, *(place + moves.normal(0, noise, 3) @ back)) for k, (element, place)
             in enumerate(places[1:] if vacancy else places)]
    lengths = [length * n for length, n in zip(of_one.cell, times)]
    return cif_text([*lengths, *of_one.cell[3:]], sites, operations=["x,y,z"])
