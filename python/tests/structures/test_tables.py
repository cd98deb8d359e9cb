"""The tables of radii and bond valences, compared with those of packages of Debian that have the like."""

import math
import statistics
import unittest
from pathlib import Path

from testing import need_modules

need_modules("gemmi", "numpy", "scipy")
from crystal_nets.structures.bonds.contacts import radius  # noqa: E402
from crystal_nets.structures.bonds.lengths import RADII, shortest_of_nonmetals, OF_NONMETALS  # noqa: E402
from crystal_nets.structures.bonds.valences import LONGER, OF_OXIDES  # noqa: E402

PARAMETERS = Path("/usr/lib/python3/dist-packages/pymatgen/analysis/bvparam_1991.yaml")
XTB = "libxtb.so.6"
SOFT = {"Cu", "Ag", "Pd", "Hg"}   # whose parameters are of another valence
OTHERWISE = set("B Si As Se Te At".split())  # which xtb has shorter, as it has the metals
BOHR = 0.529177
# molecules of ase, calculated, with the bond and how many neighbours each of its atoms has beside it
MULTIPLE = {"N2": (0, 1), "C2H2": (0, 1), "HCN": (0, 1), "CO": (0, 1), "P2": (0, 1), "CS": (0, 1), "SiO": (0, 1),
            "C2H4": (0, 1), "H2CO": (0, 1), "S2": (0, 1), "SO": (0, 1)}


class Tables(unittest.TestCase):
    def test_covalent_radii(self):
        """Those of Cordero and others, as ase has them, but for carbon, which ase has single."""
        need_modules("ase")
        from ase.data import chemical_symbols, covalent_radii
        for number in range(1, 97):
            element = chemical_symbols[number]
            wanted = 0.73 if element == "C" else covalent_radii[number]
            self.assertAlmostEqual(radius(element), wanted, 3, element)

    def test_radii_of_single_bonds(self):
        """Those of Pyykkö and Atsumi, as libxtb6 has them: of metals nine tenths, within three picometres."""
        import ctypes

        import gemmi
        try:
            table = (ctypes.c_double * 118).in_dll(ctypes.CDLL(XTB), "__mctcpar_covalent_radii_MOD_covalent_radius_2009")
        except (OSError, ValueError):
            self.skipTest("libxtb6 is not there")
        for element, (single, *_) in RADII.items():
            found = table[gemmi.Element(element).atomic_number - 1] * BOHR * 100
            shares = (1.0,) if not gemmi.Element(element).is_metal and element not in OTHERWISE else (0.9, 0.95, 1.0)
            self.assertLess(min(abs(found - share * single) for share in shares), 3.0, element)

    def test_multiple_bonds_of_molecules(self):
        """No multiple bond of a small molecule is shorter than the shortest that is taken for one, and none much longer."""
        need_modules("ase")
        from ase.build import molecule
        for name, (one, other) in MULTIPLE.items():
            atoms = molecule(name)
            heavy = [k for k, symbol in enumerate(atoms.get_chemical_symbols()) if symbol != "H"]
            length = atoms.get_distance(heavy[one], heavy[other])
            least = shortest_of_nonmetals(*(atoms[heavy[k]].symbol for k in (one, other)))
            self.assertTrue(least < length < 1.15 * least / OF_NONMETALS, (name, length, least))

    def test_bond_valences(self):
        """Those of O'Keeffe and Brese, who give them for any two elements, as pymatgen has them."""
        need_modules("pymatgen", "yaml")
        import yaml
        parameters = yaml.safe_load(PARAMETERS.read_text())

        def reference(one: str, other: str) -> float:
            (r, c), (s, d) = ((parameters[element]["r"], parameters[element]["c"]) for element in (one, other))
            return r + s - r * s * (math.sqrt(c) - math.sqrt(d)) ** 2 / (c * r + d * s)

        known = [metal for metal in OF_OXIDES if metal in parameters]
        self.assertEqual(set(OF_OXIDES) - set(known), {"Os", "Pt", "Au"})
        for metal in set(known) - SOFT:
            self.assertLess(abs(OF_OXIDES[metal] - reference(metal, "O")), 0.075, metal)
        for anion, step in LONGER.items():
            steps = [reference(metal, anion) - reference(metal, "O") for metal in known if metal != anion]
            self.assertAlmostEqual(statistics.mean(steps), step, delta=0.006, msg=anion)


if __name__ == "__main__":
    unittest.main()
