"""That files as the field has them are read: pores without their solvent, rods in layers, mixed sites, azolates."""

import unittest
from itertools import product

from testing import need_modules

need_modules("gemmi", "numpy", "scipy")
import numpy as np  # noqa: E402
from kinds import Kinds, cif_text, converted, cubic  # noqa: E402
from structures import STRUCTURES, presentations  # noqa: E402

from crystal_nets.graph import QuotientGraph, edge  # noqa: E402
from crystal_nets.structures.nets.simplification import contracted  # noqa: E402
from crystal_nets.structures.units.conventions import Framework, conventions_for, standard  # noqa: E402

MOF_5 = presentations(next(s for s in STRUCTURES if s.name == "MOF-5"))["name"]


class Solvent(Kinds):
    def test_a_formula_with_solvent_that_is_not_modelled(self):
        text = MOF_5.replace("loop_", "_chemical_formula_sum 'C48 H68 N8 O21 Zn4'\nloop_", 1)
        self.assert_net("pcu", text, convention="single-nodes")
        self.assertIn("less C and O than the formula has", self.doubts(text))

    def test_more_than_the_formula_has_is_refused(self):
        text = MOF_5.replace("loop_", "_chemical_formula_sum 'C12 H12 O13 Zn4'\nloop_", 1)
        self.assertIn("the formula", self.refusal(text))

    def test_bad_atoms_in_a_pore(self):
        text = MOF_5 + "C91 C 0.5 0.5 0.5 1\nO91 O 0.52 0.5 0.5 1\n"
        self.assert_net("pcu", text, convention="single-nodes")
        self.assertIn("they are in pores", self.doubts(text))
        self.assertIn("apart", self.refusal(MOF_5 + "C91 C 0.3315 0.2065 0.2065 1\n"))

    def test_a_site_that_is_nearly_full(self):
        text = cif_text(cubic(5.6402), [("Na1", "Na", 0, 0, 0, 0.97), ("Cl1", "Cl", 0.5, 0.5, 0.5)], name="F m -3 m")
        self.assert_net("pcu", text)
        self.assertIn("taken as full: Na1 0.97", self.doubts(text))


class Rods(Kinds):
    def test_rods_in_a_layer(self):
        """Chains of metals with hydroxide and carboxylates, which linkers join in a layer alone; ideal geometry."""
        a, b, c = 3.4, 10.8, 14.0
        half = [("O1", 0.6, 1.9, 0), ("O1", 2.8, 1.9, 0), ("C1", 1.7, 2.5, 0), ("C2", 1.7, 4.0, 0), ("C3", 1.7, 4.7, 1.21),
                ("C3", 1.7, 4.7, -1.21)]
        sites = [("Al1", "Al", 0, 0, 0), ("O2", "O", 1.6 / a, 0, 1.1 / c), ("O3", "O", 1.6 / a, 0, -1.1 / c)]
        sites += [(f"{name}{k}", name[0], x / a, (y if is_first else b - y) / b, z / c)
                  for k, ((name, x, y, z), is_first) in enumerate(product(half, (True, False)))]
        text = cif_text((a, b, c, 90, 90, 90), sites, operations=["x,y,z"])
        done = converted(text, convention="pe")
        self.assertEqual([net.graph.dimension for net in done.nets], [2], done.told(is_quiet=False))
        done = converted(text, convention="auto")
        self.assertTrue(done.nets)
        self.assertNotIn("failed", "".join(done.told(is_quiet=False)))


class OneSite(Kinds):
    def test_carbon_and_nitrogen_in_one_place(self):
        """Cubic MAPbI3 with C and N of its cation in one place, and no occupancies."""
        text = cif_text(cubic(6.32), [("Pb1", "Pb", 0, 0, 0), ("I1", "I", 0.5, 0, 0), ("C1", "C", 0.5, 0.5, 0.57),
                                      ("N1", "N", 0.5, 0.5, 0.57)], name="P m -3 m")
        self.assert_net("pcu", text)
        cyanide = cif_text(cubic(6.301), [("Cd1", "Cd", 0, 0, 0), ("C1", "C", 0.197, 0.197, 0.197), ("N1", "N", 0.197, 0.197, 0.197),
                                         ("Cd2", "Cd", 0.5, 0.5, 0.5), ("C2", "C", 0.303, 0.303, 0.303), ("N2", "N", 0.303, 0.303, 0.303)],
                           name="P -4 3 m")
        self.assertIn("C and N in one place without occupancies", self.doubts(cyanide))
        self.assert_net("dia", cyanide)


class Carbon(Kinds):
    def test_graphdiyne(self):
        """Rings of 1.41 angstrom, and chains of 1.39, 1.21 and 1.34 between them; as a net it is hcb."""
        a = 9.46
        places = [(1.41 / a, 0), ((1.41 + 1.39) / a, 0), ((1.41 + 1.39 + 1.21) / a, 0)]
        text = cif_text((a, a, 8.0, 90, 90, 120), [(f"C{k}", "C", x, y, 0) for k, (x, y) in enumerate(places)], name="P 6/m m m")
        self.assert_net("hcb", text)


class Azolates(Kinds):
    def test_kuratowski_units_are_one_vertex(self):
        """MFU-4 in its cell (F m -3 m, a = 21.697), with ideal benzobistriazolates."""
        a = 21.697
        atoms = [("Zn1", "Zn", 0, 0, 0), ("Zn2", "Zn", 2.14, 2.14, 2.14), ("Cl1", "Cl", 3.41, 3.41, 3.41), ("N1", "N", 2.85, 0.78, 0.78),
                 ("N2", "N", 2.17, 0, 0), ("C1", "C", 4.21, 0.495, 0.495), ("C2", "C", 5.42425, 0.99, 0.99)]
        text = cif_text(cubic(a), [(label, e, *(0.25 + part / a for part in place)) for label, e, *place in atoms], name="F m -3 m")
        self.assert_net("pcu", text, convention="single-nodes")

    def test_a_metal_in_a_ring_is_of_its_linker(self):
        """Metals in rings of four nitrogens, whose arms coordinate the metals of two other rings."""
        names = ["M", "N1", "N2", "N3", "N4", "C1", "C2", "C3", "C4", "N5", "N6", "C5", "C6"]
        number = {name: v for v, name in enumerate(names)}
        here = (0, 0)
        bonds = [("M", f"N{k}", here) for k in (1, 2, 3, 4)] + [
            ("C1", "C5", here), ("C5", "N5", here), ("C3", "C6", here), ("C6", "N6", here)]
        bonds += [(f"N{k}", f"C{k}", here) for k in (1, 2, 3, 4)] + [(f"C{k}", f"N{k % 4 + 1}", here) for k in (1, 2, 3, 4)]
        bonds += [("N5", "M", (1, 0)), ("N6", "M", (0, 1))]
        net = QuotientGraph.of(names, (edge(number[u], number[v], s) for u, v, s in bonds), 2)
        framework = Framework(net, {name: "Zn" if name == "M" else name[0] for name in names},
                              {name: np.zeros(3) for name in names}, np.eye(3)[:2])
        self.assertEqual([convention.name for convention in conventions_for("auto", framework)], ["standard"])
        self.assertEqual(contracted(standard(framework).net).net.degrees(), [4])


if __name__ == "__main__":
    unittest.main()
