"""That no net is wrong without a doubt: structures of the kinds that the field has."""

import unittest

from testing import need_modules

need_modules("gemmi", "numpy", "scipy")
from kinds import SEQUENCES, Kinds, cif_text, converted, cubic  # noqa: E402

from crystal_nets.structures.nets.simplification import shells  # noqa: E402


class Overlaps(Kinds):
    """Triple bonds are no overlaps: an overlap is shorter than any bond of the two elements."""

    def test_zinc_cyanide_with_disordered_cyanides(self):
        """Zn(CN)2, of which C and N share their places (P n -3 m, a = 5.905)."""
        text = cif_text(cubic(5.9227), [("Zn1", "Zn", 0.25, 0.25, 0.25), ("C1", "C", 0.4441, 0.4441, 0.4441, 0.5),
                                       ("N1", "N", 0.4441, 0.4441, 0.4441, 0.5)], name="P n -3 m:2")
        self.assert_net("dia", text)
        self.assertIn("C1 N1", "\n".join(converted(text).told(is_quiet=False)))

    def test_a_vacant_prussian_blue(self):
        """Mn3[Co(CN)6]2 with a third of the cobalt absent, and water in its place; ideal coordinates."""
        text = cif_text(cubic(10.42), [("Mn1", "Mn", 0.5, 0.5, 0.5), ("Co1", "Co", 0, 0, 0, 0.667),
                                      ("C1", "C", 0.181, 0, 0, 0.667), ("N1", "N", 0.291, 0, 0, 0.667),
                                      ("O1", "O", 0.293, 0, 0, 0.333)], name="F m -3 m")
        self.assert_net("pcu", text, convention="single-nodes")
        self.assertIn("Co1 0.67", self.doubts(text))


class Metals(Kinds):
    """A structure type has one net, whatever elements stand in it."""

    def test_structure_types_do_not_hang_on_elements(self):
        types = {"L12": ("P m -3 m", 3.57, ((0, 0, 0), (0, 0.5, 0.5)), ("AlNi", "SiNi", "GeNi", "SnPt")),
                 "D03": ("F m -3 m", 5.79, ((0, 0, 0), (0.5, 0.5, 0.5), (0.25, 0.25, 0.25)), ("AlFeFe", "SiFeFe", "GaFeFe")),
                 "A15": ("P m -3 n", 5.29, ((0, 0, 0), (0.25, 0, 0.5)), ("SnNb", "SiNb", "AlNb", "SbNb"))}
        for name, (group, edge, places, kinds) in types.items():
            nets = set()
            for kind in kinds:
                elements = [kind[k:k + 2] for k in range(0, len(kind), 2)]
                sites = [(f"{e}{k}", e, *place) for k, (e, place) in enumerate(zip(elements, places))]
                nets.add(shells(self.net(cif_text(cubic(edge), sites, name=group)).graph))
            self.assertEqual(len(nets), 1, name)
        self.assertEqual({sequence[:4] for sequence in shells(self.net(cif_text(
            cubic(3.5), [("Ni1", "Ni", 0, 0.5, 0.5), ("Si1", "Si", 0, 0, 0)], name="P m -3 m")).graph)}, {SEQUENCES["fcu"]})

    def test_ordered_silicon_germanium_is_diamond(self):
        self.assert_net("dia", cif_text(cubic(5.54), [("Si1", "Si", 0, 0, 0), ("Ge1", "Ge", 0.25, 0.25, 0.25)],
                                        name="F -4 3 m"))

    def test_gallium_selenide_has_whole_layers(self):
        text = cif_text((3.743, 3.743, 15.919, 90, 90, 120),
                        [("Ga1", "Ga", 1 / 3, 2 / 3, 0.1727), ("Se1", "Se", 1 / 3, 2 / 3, 0.602)], name="P 63/m m c")
        net = self.net(text)
        self.assertEqual((net.graph.dimension, sorted(set(net.graph.degrees()))), (2, [3, 4]))

    def test_a_bridged_contact_that_is_left_out_is_told(self):
        """NbO, in which Nb-Nb is as long as in the metal."""
        text = cif_text(cubic(4.21), [("Nb1", "Nb", 0.5, 0.5, 0), ("O1", "O", 0.5, 0, 0)], name="P m -3 m")
        self.assertIn("Nb-Nb 2.98 left out, shorter than the radii", self.doubts(text))

    def test_metals_that_outnumber_the_rest(self):
        """Fe4N, which is fcu with nitrogen in its holes."""
        text = cif_text(cubic(3.79), [("Fe1", "Fe", 0, 0, 0), ("Fe2", "Fe", 0, 0.5, 0.5), ("N1", "N", 0.5, 0.5, 0.5)],
                        name="P m -3 m")
        self.assertIn("intermetallic", self.doubts(text))
        self.assertEqual(max(self.net(text).graph.degrees()), 14)


class Layers(Kinds):
    def test_two_layers_of_one_element_are_two_nets(self):
        """A layer of hexagons, and one of squares and octagons, all of carbons with the label C and bonds of 1.42; their
        common cell strains them by less than a hundredth."""
        a, b = 17.15, 17.08
        honeycomb = [((m + x) / 7, (n + y) / 4) for m in range(7) for n in range(4)
                     for x, y in ((0, 0), (0, 1 / 3), (0.5, 0.5), (0.5, 5 / 6))]
        octagons = [((m + x) / 5, (n + y) / 5) for m in range(5) for n in range(5)
                    for x, y in ((0.2929, 0), (0.7071, 0), (0, 0.2929), (0, 0.7071))]
        sites = [("C", "C", x, y, 0.1) for x, y in honeycomb] + [("C", "C", x, y, 0.6) for x, y in octagons]
        nets = self.nets(cif_text((a, b, 12.0, 90, 90, 90), sites, operations=["x,y,z"]))
        self.assertEqual({tuple(shells(net.graph, 4)) for net in nets}, {(SEQUENCES["hcb"],), (SEQUENCES["fes"],)})


class Waters(Kinds):
    def test_ice_vii_without_hydrogens(self):
        for label, formula in (("Wat1", ""), ("O1", "_chemical_formula_sum 'H2 O'\n")):
            text = cif_text(cubic(3.3501), [(label, "O", 0.25, 0.25, 0.25)], name="P n -3 m:2")
            text = text.replace("loop_", formula + "loop_", 1)
            self.assert_net("dia", text)
            self.assertIn("8 others up to 3.0", self.doubts(text))

    def test_where_no_four_fit_the_net_is_not_known(self):
        text = cif_text(cubic(3.3501), [("Wat1", "O", 0, 0, 0)], name="I m -3 m")
        self.assertIn("not known without its hydrogen atoms", self.refusal(text))

    def test_a_clathrate_hydrate_without_hydrogens(self):
        """Structure I (P m -3 n, a = 12.03) with xenon in its cages."""
        text = cif_text(cubic(12.03), [("O1", "O", 0, 0.3086, 0.1173), ("O2", "O", 0.1836, 0.1836, 0.1836), ("O3", "O", 0, 0.5, 0.25),
                                      ("Xe1", "Xe", 0, 0, 0), ("Xe2", "Xe", 0, 0.25, 0.5)], name="P m -3 n")
        net = self.net(text)
        self.assertEqual(set(net.graph.degrees()), {4})
        self.assertEqual(len(net.graph.vertices), 46)


class Symmetry(Kinds):
    IRON = [("Fe1", "Fe", 0, 0, 0)]

    def with_name(self, operations, name="I m -3 m", more=""):
        text = cif_text(cubic(2.866), self.IRON, operations=operations)
        return text.replace("loop_", f"_symmetry_space_group_name_H-M '{name}'\n{more}loop_", 1)

    def test_a_list_that_is_cut_is_told(self):
        import gemmi
        without_centring = [op.triplet() for op in gemmi.find_spacegroup_by_name("I m -3 m").operations().sym_ops]
        for operations in (["x,y,z"], without_centring):
            text = self.with_name(operations)
            self.assert_net("bcu", text)
            self.assertIn("operations are listed, and I m -3 m has 96", self.doubts(text))

    def test_z_decides(self):
        text = self.with_name(["x,y,z"], more="_cell_formula_units_Z 1\n_chemical_formula_sum Fe\n")
        self.assert_net("pcu", text)
        self.assertIn("they are taken, as Z fits", self.doubts(text))

    def test_all_atoms_beside_a_name_are_no_doubt(self):
        text = cif_text(cubic(2.866), [*self.IRON, ("Fe2", "Fe", 0.5, 0.5, 0.5)], operations=["x,y,z"])
        text = text.replace("loop_", "_symmetry_space_group_name_H-M 'I m -3 m'\nloop_", 1)
        self.assert_net("bcu", text)
        self.assertEqual(self.doubts(text), "")

    def test_more_atoms_than_z_says(self):
        text = cif_text(cubic(5.6402), [("Na1", "Na", 0, 0, 0), ("Cl1", "Cl", 0.5, 0.5, 0.5)], name="F m -3 m")
        told = text.replace("loop_", "_cell_formula_units_Z 2\n_chemical_formula_sum 'Na Cl'\nloop_", 1)
        self.assertIn("2 times the atoms that the formula and Z say", self.doubts(told))
        self.assertEqual(self.doubts(told.replace("units_Z 2", "units_Z 4")), "")

    def test_names_as_files_spell_them(self):
        import gemmi
        from crystal_nets.structures.reading.names import group_of_name
        cell = gemmi.UnitCell(5, 5, 5, 90, 90, 120)
        for name, meant in (("R -3 c H", "R -3 c:H"), ("F d -3 m Z", "F d -3 m:2"), ("F d -3 m S", "F d -3 m:1"),
                            ("F d 3 m", "F d -3 m:1"), ("P2(1)/c", "P 1 21/c 1"), ("P 21/n 21/m 21/a", "P n m a"),
                            ("F 4/m -3 2/m", "F m -3 m"), ("I 41/a 2/m 2/d", "I 41/a m d:1"), ("Pm3m", "P m -3 m"),
                            ("P 63/m 2/m 2/c", "P 63/m m c"), ("PNMA", "P n m a"), ("P 6(3)/m m c", "P 63/m m c"),
                            ("Fm-3m (No. 225)", "F m -3 m"), ("P n -3 m Z", "P n -3 m:2"), ("I a 3 d", "I a -3 d")):
            found = group_of_name(name, cell)
            self.assertEqual(found and found.group.xhm(), meant, name)

    def test_angles_that_are_absent_are_right(self):
        text = cif_text(cubic(2.866), self.IRON, name="I m -3 m")
        bare = "\n".join(line for line in text.splitlines() if "angle" not in line)
        self.assert_net("bcu", bare)


class Short(Kinds):
    def test_bonds_that_are_too_short(self):
        """Zinc blende with other edges: a bond of 0.75 of the radii is a doubt, and one of 0.5 a refusal."""
        def text(share: float) -> str:
            edge = share * (1.22 + 0.66) * 4 / 3 ** 0.5
            return cif_text(cubic(edge), [("Zn1", "Zn", 0, 0, 0), ("O1", "O", 0.25, 0.25, 0.25)], name="F -4 3 m")
        self.assertEqual(self.doubts(text(1.05)), "")
        self.assertIn("O-Zn 1.41 taken, too short for a bond", self.doubts(text(0.75)))
        self.assertRegex(self.refusal(text(0.5)), "0.94 angstrom apart")

    def test_multiple_bonds_are_not_too_short(self):
        """V2O5 has V=O of 1.58 angstrom."""
        text = cif_text((11.512, 3.564, 4.368, 90, 90, 90),
                        [("V1", "V", 0.10118, 0.25, -0.1083), ("O1", "O", 0.1043, 0.25, -0.469), ("O2", "O", -0.0689, 0.25, 0.003),
                         ("O3", "O", 0.25, 0.25, 0.001)], name="P m m n:2")
        self.assertNotIn("too short", self.doubts(text))


class Conventions(Kinds):
    ALBITE = cif_text((8.142, 12.785, 7.159, 94.19, 116.61, 87.68), [
        ("Na", "Na", 0.2682, 0.9888, 0.1460), ("Al1", "Al", 0.0088, 0.1686, 0.2078), ("Si1", "Si", 0.0037, 0.8205, 0.2374),
        ("Si2", "Si", 0.6920, 0.1102, 0.3150), ("Si3", "Si", 0.6812, 0.8817, 0.3605), ("OA1", "O", 0.0049, 0.1310, 0.9669),
        ("OA2", "O", 0.5920, 0.9970, 0.2804), ("OB1", "O", 0.8123, 0.1098, 0.1907), ("OB2", "O", 0.8202, 0.8509, 0.2588),
        ("OC1", "O", 0.0135, 0.3023, 0.2702), ("OC2", "O", 0.0238, 0.6936, 0.2292), ("OD1", "O", 0.2080, 0.1091, 0.3891),
        ("OD2", "O", 0.1839, 0.8682, 0.4360)], name="C -1")

    def test_those_of_frameworks_ask_for_organic_linkers(self):
        for convention in ("single-nodes", "all-nodes", "pe", "pem"):
            self.assertIn(f"{convention} does not apply", self.refusal(self.ALBITE, convention=convention))
        net = self.net(self.ALBITE)
        self.assertEqual(set(net.graph.degrees()), {4})
        self.assertIn("with Na the net is", self.doubts(self.ALBITE))


def sodalite(guest: str, x: float, edge: float) -> str:
    """Sodalites of other cations (P -4 3 n), with the oxygen of the mineral."""
    return cif_text(cubic(edge), [(f"{guest}1", guest, x, x, x), ("Al1", "Al", 0.25, 0, 0.5), ("Si1", "Si", 0.25, 0.5, 0),
                                   ("O1", "O", 0.1390, 0.1494, 0.4383), ("Cl1", "Cl", 0, 0, 0)], name="P -4 3 n")


class Guests(Kinds):
    def test_perovskites_of_all_elements_are_alike(self):
        for large, small, edge in (("Sr", "Ti", 3.905), ("Eu", "Ti", 3.905), ("La", "Al", 3.79), ("La", "Mn", 3.88),
                                   ("Pb", "Ti", 3.97), ("Bi", "Fe", 3.96), ("K", "Ta", 3.99), ("Ba", "Zr", 4.19)):
            text = cif_text(cubic(edge), [(large, large, 0.5, 0.5, 0.5), (small, small, 0, 0, 0), ("O1", "O", 0.5, 0, 0)],
                            name="P m -3 m")
            self.assert_net("pcu", text)
            self.assertIn(f"with {large} the net is", self.doubts(text))

    def test_a_mixed_site_does_not_change_with_its_parts(self):
        for part in (0.3, 0.5, 0.7):
            sites = [("La1", "La", 0.5, 0.5, 0.5, 1 - part), ("Sr1", "Sr", 0.5, 0.5, 0.5, part), ("Mn1", "Mn", 0, 0, 0),
                     ("O1", "O", 0.5, 0, 0)]
            self.assert_net("pcu", cif_text(cubic(3.88), sites, name="P m -3 m"))

    def test_sodalites_of_all_elements_are_alike(self):
        for guest, x, edge in (("Na", 0.178, 8.882), ("Li", 0.168, 8.45), ("Ag", 0.185, 8.873), ("K", 0.2, 9.253), ("Tl", 0.22, 9.4)):
            self.assert_net("sod", sodalite(guest, x, edge))
            self.assertIn(f"with {guest} the net is", self.doubts(sodalite(guest, x, edge)))

    def test_laves_phases_have_no_guests(self):
        nets = {shells(self.net(cif_text(cubic(7.9), [("A", large, 0.125, 0.125, 0.125), ("Al1", "Al", 0.5, 0.5, 0.5)],
                                         name="F d -3 m:2")).graph) for large in ("Ca", "Y", "La")}
        self.assertEqual(len(nets), 1)

    def test_potassium_of_a_mica_is_between_layers(self):
        """Phlogopite 1M (C 2/m), without its hydrogen."""
        text = cif_text((5.308, 9.190, 10.155, 90, 100.08, 90), [
            ("K", "K", 0, 0, 0), ("Mg1", "Mg", 0, 0.5, 0.5), ("Mg2", "Mg", 0, 0.8303, 0.5), ("Si", "Si", 0.5751, 0.1668, 0.2262),
            ("O1", "O", 0.8248, 0.2348, 0.1680), ("O2", "O", 0.5215, 0, 0.1672), ("O3", "O", 0.6305, 0.1677, 0.3908),
            ("O4", "O", 0.1310, 0, 0.3974)], name="C 2/m")
        self.assertEqual(self.net(text).graph.dimension, 2)
        self.assertIn("with K the net is a net in space", self.doubts(text))

    def test_atoms_too_near_are_of_another_origin(self):
        """Lithium cobaltate with its oxygen read from the other origin of its group."""
        text = cif_text((2.816, 2.816, 14.054, 90, 90, 120), [("Co1", "Co", 0, 0, 0), ("O1", "O", 0, 0, 0.0605)], name="R -3 m:H")
        self.assertRegex(self.refusal(text), "angstrom apart .*another origin or setting")

    def test_rock_salt_superstructures_keep_their_cations(self):
        text = cif_text((2.816, 2.816, 14.054, 90, 90, 120), [("Li1", "Li", 0, 0, 0.5), ("Co1", "Co", 0, 0, 0), ("O1", "O", 0, 0, 0.2605)],
                        name="R -3 m:H")
        self.assert_net("pcu", text)
        self.assertIn("without Li the rest is layers", self.doubts(text))

    def test_chalcopyrite_keeps_its_copper_and_silver(self):
        for metal, a, c, x in (("Cu", 5.289, 10.423, 0.2574), ("Ag", 5.757, 10.304, 0.2908)):
            text = cif_text((a, a, c, 90, 90, 90), [("M1", metal, 0, 0, 0), ("Ga1", "Ga", 0, 0, 0.5), ("S1", "S", x, 0.25, 0.125)],
                            name="I -4 2 d")
            self.assert_net("dia", text)


if __name__ == "__main__":
    unittest.main()
