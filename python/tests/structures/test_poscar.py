"""POSCAR texts as VASP reads them: scales, elements, numbers of atoms, modes. Each way of writing quartz gives its net,
or is refused."""

import unittest

from testing import need_modules

need_modules("gemmi", "numpy", "scipy", "ase")
import numpy as np  # noqa: E402

from crystal_nets.structures.conversion import Conversion, Source, convert  # noqa: E402
from crystal_nets.structures.nets.choice import Options  # noqa: E402

CELL = np.array([[4.9137, 0, 0], [-2.45685, 4.25539, 0], [0, 0, 5.4047]])
VOLUME = float(np.linalg.det(CELL))
PLACES = np.array([[0.4697, 0, 0.66667], [0, 0.4697, 0.33333], [0.5303, 0.5303, 0], [0.4133, 0.2672, 0.7855],
                   [0.7328, 0.1461, 0.45217], [0.8539, 0.5867, 0.11883], [0.2672, 0.4133, 0.2145],
                   [0.1461, 0.7328, 0.54783], [0.5867, 0.8539, 0.88117]])


def lines_of(rows: np.ndarray) -> str:
    return "".join(" ".join(f"{part:.6f}" for part in row) + "\n" for row in rows)


def poscar(scale: str = "1.0", unit: float = 1.0, kinds: str = "Si O\n3 6\n", mode: str = "Direct\n", rows: str = "",
           comment: str = "quartz") -> str:
    """Quartz with the cell in a unit of so many angstroms."""
    return f"{comment}\n{scale}\n{lines_of(CELL / unit)}{kinds}{mode}{rows or lines_of(PLACES)}"


def read(text: str) -> Conversion:
    return convert(Source("POSCAR", "POSCAR", "quartz"), text.encode(), Options())


def told(text: str) -> str:
    return "\n".join(read(text).told(is_quiet=False))


class Poscar(unittest.TestCase):
    def setUp(self) -> None:
        self.net = read(poscar()).text
        self.assertIn(b'"Si1" "Si', self.net)

    def same(self, text: str) -> None:
        self.assertEqual(read(text).text, self.net, told(text))
        self.assertEqual(told(text), "")

    def test_a_scale_is_a_length_or_a_volume(self):
        for scale, unit in (("2.0", 2.0), (f"-{VOLUME:.6f}", 1.0), (f"-{VOLUME:.6f}", 4.9137), ("1.0 1.0 1.0", 1.0),
                            ("0.5d0 of an angstrom", 0.5)):
            self.same(poscar(scale, unit))
            self.same(poscar(scale, unit, mode="Cartesian\n", rows=lines_of(PLACES @ CELL / unit)))
        for scale in ("1.0 1.0 2.0", "1.0 2.0", "scale"):
            self.assertIn("refused: no POSCAR with one scale", told(poscar(scale)))

    def test_structures_behind_the_first_are_told(self):
        steps = poscar(mode="Direct configuration=     1\n") + "Direct configuration=     2\n" + lines_of(PLACES)
        for text, count in ((steps, 2), (steps + "Direct configuration= 3\n" + lines_of(PLACES), 3), (poscar() + poscar(), 2)):
            self.assertEqual(read(text).text, self.net)
            self.assertEqual(told(text), f"POSCAR: the first of {count} structures is read")
        corrector = "\n" + lines_of(PLACES) + "\n 1\n 0.1E+01\n 0.0 0.0 0.0\n" + 3 * lines_of(PLACES)
        self.same(poscar() + corrector)

    def test_modes(self):
        flags = " T F T\n"
        self.same(poscar(mode="Selective dynamics\nDirect\n", rows=lines_of(PLACES).replace("\n", flags)))
        self.same(poscar(mode="  selective\n  Cartesian\n", rows=lines_of(PLACES @ CELL).replace("\n", flags)))
        self.same(poscar(mode="  kartesisch\n", rows=lines_of(PLACES @ CELL)))

    def test_elements_with_what_names_their_potentials(self):
        self.same(poscar(kinds="Si_GW O_s\n3 6\n"))
        self.same(poscar(kinds="Si/1f2e O/3a4b\n3 6 ! atoms\n"))
        self.assertIn("refused: no POSCAR with 3 elements", told(poscar(kinds="Si O\n3 3 3\n")))
        self.assertIn("refused: no POSCAR with 1 elements", told(poscar(kinds="Si O\n9\n")))

    def test_elements_of_the_comment_are_a_doubt(self):
        text = poscar(kinds="3 6\n", comment="Si O")
        self.assertEqual(read(text).text, self.net)
        self.assertEqual(told(text), "POSCAR: no line has the elements, and those of the first are taken: Si O")
        self.assertEqual([note.kind for _, note in read(text).notes], ["doubt"])

    def test_as_many_rows_as_atoms_are_counted(self):
        for kinds, more in (("3 5", "more"), ("3 7", "9"), ("2 6", "more")):
            self.assertIn(f"atoms are counted, and {more} rows are there", told(poscar(kinds=f"Si O\n{kinds}\n")))
        self.same(poscar(rows=lines_of(PLACES) + "\n" + lines_of(0 * PLACES)))

    def test_numbers_of_double_precision(self):
        self.same(poscar(rows=lines_of(PLACES).replace("0.469700", "4.697D-1")))


if __name__ == "__main__":
    unittest.main()
