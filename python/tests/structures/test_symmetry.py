"""The symmetry that a file gives, by tags and signs of all kinds, or not at all; what is reported where it is in doubt."""

import unittest

from testing import need_modules

need_modules("gemmi", "numpy", "scipy")
import gemmi  # noqa: E402

from crystal_nets.structures.conversion import Conversion, Source, convert  # noqa: E402
from crystal_nets.structures.nets.choice import Options  # noqa: E402

CELL = "".join(f"_cell_{tag} {value}\n" for tag, value in (
    ("length_a", 5.43), ("length_b", 5.43), ("length_c", 5.43),
    ("angle_alpha", 90), ("angle_beta", 90), ("angle_gamma", 90)))
ATOMS = """loop_
_atom_site_label
_atom_site_fract_x
_atom_site_fract_y
_atom_site_fract_z
Si1 -0.125 -0.125 -0.125
"""
NAME = "_symmetry_space_group_name_H-M 'F d -3 m:2'\n"
OPERATIONS = "loop_\n_symmetry_equiv_pos_as_xyz\n" + "".join(
    f"'{operation.triplet()}'\n" for operation in gemmi.SpaceGroup("F d -3 m:2").operations())


def read(symmetry: str, atoms: str = ATOMS, encoding: str = "utf-8") -> Conversion:
    """What becomes of silicon with a symmetry as a file gives it."""
    content = f"data_silicon\n{CELL}{symmetry}{atoms}".encode(encoding)
    return convert(Source("silicon.cif", "silicon.cif", "silicon"), content, Options())


def rows(done: Conversion) -> str:
    return "".join(line for line in done.text.decode().splitlines(keepends=True) if line[:1] not in "#N")


def told(done: Conversion) -> str:
    return "\n".join(done.told(is_quiet=False))


class Signs(unittest.TestCase):
    def test_a_minus_sign_of_publishers_is_one(self):
        for sign in "\u2212\u2013\u2010\uff0d":
            for symmetry in (NAME, OPERATIONS, "_space_group_name_Hall '-F 4vw 2vw 3'\n"):
                given = read(symmetry.replace("-3", f"{sign}3").replace("-F", f"{sign}F").replace("-x", f"{sign}x"),
                             ATOMS.replace("-", sign))
                self.assertEqual(rows(given), rows(read(NAME)), (sign, symmetry[:60]))
        windows = read(NAME.replace("-3", "\u20133"), ATOMS.replace("-", "\u2013"), "cp1252")
        self.assertEqual(rows(windows), rows(read(NAME)))

    def test_p_minus_1_is_no_p_1(self):
        for name in ("P \u22121", "P\u20111", "P\u00a0-1"):
            self.assertIn("symmetry from name P -1", told(read(f"_space_group_name_H-M_alt '{name}'\n")))

    def test_other_signs_in_names_and_operations_are_refused(self):
        for name in ("P 1\u0305", "P \u02c91", "P \u03b11"):
            self.assertIn(" is not known", told(read(f"_space_group_name_H-M_alt '{name}'\n")))
        self.assertIn("refused: symmetry operations: ", told(read(OPERATIONS.replace("-x", "\u00b7x"))))


class Tags(unittest.TestCase):
    def test_each_tag_of_a_name_is_read(self):
        for tag in ("_space_group_name_H-M_alt", "_space_group_name_H-M_full", "_space_group_name_H-M_ref",
                    "_space_group_name_H-M", "_symmetry_space_group_name_H-M", "_space_group.name_H-M_full",
                    "_space_group.name_H-M_alt", "_symmetry.space_group_name_H-M"):
            self.assertEqual(rows(read(f"{tag} 'F d -3 m:2'\n")), rows(read(NAME)), tag)

    def test_operations_without_a_value_are_none(self):
        for value in "?.":
            self.assertEqual(rows(read(f"{NAME}loop_\n_symmetry_equiv_pos_as_xyz\n{value}\n")), rows(read(NAME)))

    def test_no_symmetry_is_a_doubt(self):
        doubt = "silicon.cif: no symmetry is given, and P 1 is taken"
        self.assertIn(doubt + "\n", told(read("")))
        self.assertIn(doubt + ": _space_group_name_Schoenflies O_h^7 is not read",
                      told(read("_space_group.name_Schoenflies O_h^7\n")))
        for symmetry in ("_space_group_IT_number 1\n", "_space_group_name_H-M_alt 'P 1'\n",
                         "loop_\n_space_group_symop_operation_xyz\nx,y,z\n"):
            self.assertNotIn("no symmetry", told(read(symmetry)))
        self.assertIn("refused: space group foo is not known", told(read("_space_group_name_Hall 'foo'\n")))

    def test_names_of_different_groups_are_a_doubt(self):
        for taken, other in (
                ("_space_group_name_H-M_alt 'P 1'\n", "_space_group_IT_number 227\n"),
                ("_space_group_name_Hall 'F 4d 2 3 -1d'\n", NAME),
                ("_space_group_name_Hall 'P 1'\n", NAME),
                (NAME, "_space_group_IT_number 216\n")):
            self.assertIn(", which is another group or setting", told(read(other + taken)), (taken, other))
        for symmetry in (f"_space_group_name_Hall '-F 4vw 2vw 3'\n{NAME}_space_group_IT_number 227\n",
                         "_space_group_name_Hall '-F 4vw 2vw 3'\n_space_group_name_H-M_alt 'F d -3 m'\n",
                         f"{OPERATIONS}{NAME}_space_group_IT_number 227\n"):
            self.assertNotIn("another group", told(read(symmetry)))


class Settings(unittest.TestCase):
    ATOMS = """loop_
_atom_site_label
_atom_site_fract_x
_atom_site_fract_y
_atom_site_fract_z
Si1 0 0 0
Si2 0.5 0.5 0.5
"""

    def told(self, symmetry: str, **cell: object) -> str:
        """What is reported of two atoms in a cell of these lengths and angles, and 90 degrees elsewhere."""
        values = {"length_a": 5.0, "length_b": 5.2, "length_c": 5.4,
                  "angle_alpha": 90, "angle_beta": 90, "angle_gamma": 90}
        tags = "".join(f"_cell_{tag} {value}\n" for tag, value in (values | cell).items() if value is not None)
        content = f"data_x\n{tags}{symmetry}{self.ATOMS}".encode()
        return told(convert(Source("x.cif", "x.cif", "x"), content, Options()))

    def test_a_number_leaves_the_setting_open(self):
        doubt = "the setting is in doubt: "
        self.assertIn(doubt + "number P 1 21/c 1 is taken, and P 1 21/n 1 fits too",
                      self.told("_space_group_IT_number 14\n", angle_beta=105))
        self.assertIn(doubt + "number P n m a is taken", self.told("_space_group_IT_number 62\n"))
        for symmetry in ("_space_group_IT_number 221\n", "_space_group_IT_number 227\n"):
            self.assertNotIn(doubt, self.told(symmetry, length_b=5.0, length_c=5.0))
        for symmetry in ("_space_group_name_H-M_alt 'P n m a'\n_space_group_IT_number 62\n",
                         "_space_group_IT_number 1\n",
                         "_space_group_name_Hall '-P 2ac 2n'\n_space_group_IT_number 62\n"):
            self.assertNotIn(doubt, self.told(symmetry))

    def test_angles_that_are_absent_are_a_doubt_where_they_are_open(self):
        for value in (None, "?", "."):
            for number, tags in ((10, "beta"), (2, "alpha and beta and gamma"), (47, "")):
                cell = {"angle_alpha": value, "angle_beta": value, "angle_gamma": value}
                lines = self.told(f"_space_group_IT_number {number}\n", **cell)
                self.assertEqual(f"no value of {tags} is given: 90 degrees are taken" in lines, bool(tags), lines)
                self.assertEqual("no value of" in lines, bool(tags))
        self.assertNotIn("no value of", self.told("_space_group_IT_number 10\n", angle_alpha=None, angle_gamma="?"))


if __name__ == "__main__":
    unittest.main()
