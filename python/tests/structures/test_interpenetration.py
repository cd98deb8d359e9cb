"""The class of interpenetrating nets, on structures of the literature and on made ones. Each expected class is found by hand
in the comment beside it, by the definitions of V. A. Blatov and others, CrystEngComm 6 (2004) 378."""

import json
import unittest
from dataclasses import asdict, replace

from testing import need_modules, need_program

need_modules("gemmi", "numpy", "scipy")
import gemmi  # noqa: E402
from kinds import Kinds, cif_text, converted  # noqa: E402
from structures import STRUCTURES, presentations  # noqa: E402

from crystal_nets import Answer, identify  # noqa: E402
from crystal_nets.desk.cards import _head  # noqa: E402
from crystal_nets.graph import Edge, QuotientGraph  # noqa: E402
from crystal_nets.names import _parts_of  # noqa: E402
from crystal_nets.net import Net  # noqa: E402
from crystal_nets.provenance import DISORDER, WOVEN, Interpenetration, Note, Provenance, told_copies  # noqa: E402
from crystal_nets.structures.atoms.crystal import Crystal  # noqa: E402
from crystal_nets.structures.bonds.listed import listed_bonds  # noqa: E402
from crystal_nets.structures.nets.choice import Options, atoms_chosen  # noqa: E402
from crystal_nets.structures.nets.interpenetration import interpenetration_of, is_cyclic  # noqa: E402
from crystal_nets.structures.nets.pieces import Piece, pieces_of  # noqa: E402
from crystal_nets.structures.reading.formats import structures_of  # noqa: E402

GENERAL = (0.29, 0.16, 0.25)  # a place on no symmetry element
EDGES = (9.0, 9.37, 9.91)     # angstrom, of the nets pcu that are made


def published(name: str, kind: str = "name") -> str:
    return presentations(next(s for s in STRUCTURES if s.name == name))[kind]


def woven_pcu(group: str, times: tuple[int, int, int], *places: tuple[float, float, float]) -> str:
    """A CIF of nets pcu with edges along the axes, each so many cells long: one through each image of the places. The bonds
    are listed by their lengths, which no two other atoms have between them."""
    cell = tuple(edge / n for edge, n in zip(EDGES, times))
    sites = [(f"Ag{k}", "Ag", *place) for k, place in enumerate(places)]
    operations = [op.triplet() for op in gemmi.find_spacegroup_by_name(group).operations()]
    rows = [f"Ag{k} Ag{k} {edge}" for k in range(len(places)) for edge in EDGES]
    head = ["loop_", "_geom_bond_atom_site_label_1", "_geom_bond_atom_site_label_2", "_geom_bond_distance"]
    return cif_text((*cell, 90, 90, 90), sites, operations=operations) + "\n".join([*head, *rows, ""])


class Classes(Kinds):
    def woven(self, text: str, **options: object) -> Interpenetration:
        found = {net.interpenetration for net in self.nets(text, **options)}
        self.assertEqual(len(found), 1, found)
        woven, = found
        assert woven is not None
        return woven

    def assert_class(self, symbol: str, translational: int, by_operations: int, text: str, **options: object) -> None:
        woven = self.woven(text, **options)
        self.assertEqual((woven.symbol, woven.translational, woven.by_operations, woven.copies, woven.remark),
                         (symbol, translational, by_operations, translational * by_operations, ""))

    def assert_made(self, symbol: str, translational: int, by_operations: int, group: str, times: tuple[int, int, int]) -> None:
        """That nets through the images of a place in general have this class."""
        text = woven_pcu(group, times, GENERAL)
        self.assertEqual(self.net(text, bonds="file").copies, translational * by_operations)
        self.assert_class(symbol, translational, by_operations, text, bonds="file")


class OfTheLiterature(Classes):
    def test_cuprite_and_ice_vii(self):
        # Pn-3m, Z = 2. From O at 1/4 1/4 1/4 the net goes by Cu at 0 0 0, 1/2 1/2 0 .. to O at -1/4 -1/4 -1/4, 3/4 3/4 -1/4 ..,
        # whose differences are 1 1 0, 1 0 1, 0 1 1: L is face-centred in the cell of twice the edge, of index 8/4 = 2 in the
        # primitive lattice T. So 1 0 0 carries one net to the other: Zt = 2, Zn = 1, one vector: Ia. In ice VII H bonds do
        # what Cu does.
        for name in ("cuprite", "ice VII"):
            for kind in ("published", "name"):
                self.assert_class("Ia", 2, 1, published(name, kind))

    def test_zinc_cyanide(self):
        # P -4 3 m, a = 5.9 (B. F. Hoskins and R. Robson, J. Am. Chem. Soc. 112 (1990) 1546): Zn at 0 0 0 and 1/2 1/2 1/2, and
        # each C-N lies on a line between them: the nets are those of cuprite: Ia
        operations = [op.triplet() for op in gemmi.find_spacegroup_by_name("P -4 3 m").operations()]
        sites = [("Zn1", "Zn", 0, 0, 0), ("Zn2", "Zn", 0.5, 0.5, 0.5), ("C1", "C", 0.1932, 0.1932, 0.1932),
                 ("N1", "N", 0.3057, 0.3057, 0.3057)]
        self.assert_class("Ia", 2, 1, cif_text((5.9002,) * 3 + (90, 90, 90), sites, operations=operations))

    def test_ice_vi(self):
        # P 42/n m c, origin 1: O2 at 0 0 0 and 1/2 1/2 1/2, one of each net; each net has 5 of the 10 molecules of the cell, so
        # L = T and Zt = 1. The n glide and the inversion carry 0 0 0 to 1/2 1/2 1/2: Zn = 2. Two families: IIa.
        for kind in ("published", "name"):
            self.assert_class("IIa", 1, 2, published("ice VI", kind))

    def test_ice_viii_as_atoms_and_as_molecules(self):
        # I 41/a m d, 8 molecules in the cell and 4 in the primitive one (W. F. Kuhs and others, J. Chem. Phys. 81 (1984) 3612).
        # All molecules of one net point along c, and those of the other one along -c: no translation carries one to the
        # other, Zt = 1; the inversion does: IIa
        operations = [op.triplet() for op in gemmi.find_spacegroup_by_name("I 41/a m d:2").operations()]
        sites = [("O1", "O", 0, 0.25, 0.1071), ("D1", "D", 0, 0.4157, 0.1935)]
        text = cif_text((4.656, 4.656, 6.775, 90, 90, 90), sites, operations=operations)
        self.assert_class("IIa", 1, 2, text)
        listed = "loop_\n_geom_bond_atom_site_label_1\n_geom_bond_atom_site_label_2\n_geom_bond_distance\nO1 D1 0.968\n"
        for every_copy in (False, True):
            self.assert_class("IIa", 1, 2, text + listed, bonds="file", convention="standard", every_copy=every_copy)

    def test_without_symmetry(self):
        # of ice VI no translation carries one net to the other, and the file gives nothing else
        woven = self.woven(published("ice VI", "plain"))
        self.assertEqual((woven.copies, woven.symbol), (2, ""))
        self.assertIn("no symmetry is given", str(woven))
        woven = self.woven(published("cuprite", "plain"))
        self.assertEqual((woven.copies, woven.symbol), (2, "Ia"))
        self.assertIn("of the given cell", str(woven))

    def test_nets_that_interpenetrate_with_none(self):
        for name in ("SOD", "diamond", "graphite", "MOF-5"):
            for net in self.nets(published(name)):
                self.assertIsNone(net.interpenetration, name)


class Made(Classes):
    def test_by_one_translation(self):
        # edges a, b, n c: T/L is of order n and cyclic, as c generates it
        for count in (2, 3, 5):
            self.assert_class("Ia", count, 1, woven_pcu("P m m m", (1, 1, count), (0, 0, 0)), bonds="file")

    def test_by_one_translation_along_no_axis(self):
        # edges 2 a, 3 b, c: T/L = Z2 x Z3, which a + b generates, as 2 and 3 have no common factor
        self.assert_class("Ia", 6, 1, woven_pcu("P m m m", (2, 3, 1), (0, 0, 0)), bonds="file")

    def test_by_several_translations(self):
        # edges 2 a, 2 b, c: T/L = Z2 x Z2, whose vectors all have order 2; 2 a, 2 b, 2 c: Z2 x Z2 x Z2
        self.assert_class("Ib", 4, 1, woven_pcu("P m m m", (2, 2, 1), (0, 0, 0)), bonds="file")
        self.assert_class("Ib", 8, 1, woven_pcu("P m m m", (2, 2, 2), (0, 0, 0)), bonds="file")

    def test_by_one_operation(self):
        # L = T; the inversion alone, and the two-fold axis alone, carry two nets into each other
        self.assert_made("IIa", 1, 2, "P -1", (1, 1, 1))
        self.assert_made("IIa", 1, 2, "P 1 2 1", (1, 1, 1))

    def test_by_several_operations(self):
        # L = T; each operation of 222 other than 1 exchanges two pairs of the four nets, and none has a cycle of four
        self.assert_made("IIb", 1, 4, "P 2 2 2", (1, 1, 1))
        # 2/m: the same, of order 4 without an element of order 4; mmm: eight nets, none of order 8
        self.assert_made("IIb", 1, 4, "P 1 2/m 1", (1, 1, 1))
        self.assert_made("IIb", 1, 8, "P m m m", (1, 1, 1))

    def test_by_both(self):
        # edges a, b, 2 c: Zt = 2 for each of the images; -1 exchanges the two families, 222 has no cycle of the four
        self.assert_made("IIIa", 2, 2, "P -1", (1, 1, 2))
        self.assert_made("IIIb", 2, 4, "P 2 2 2", (1, 1, 2))
        # edges 2 a, 2 b, c with -1: Zt = 4, Zn = 2
        self.assert_made("IIIa", 4, 2, "P -1", (2, 2, 1))

    def test_centring_is_a_translation(self):
        # I m m m with 0 0 0: the centring carries one net to the other: Zt = 2, T/L of order 2
        self.assert_class("Ia", 2, 1, woven_pcu("I m m m", (1, 1, 1), (0, 0, 0)), bonds="file")
        # F: T/L = {0, b/2 + c/2, a/2 + c/2, a/2 + b/2} = Z2 x Z2
        self.assert_class("Ib", 4, 1, woven_pcu("F m m m", (1, 1, 1), (0, 0, 0)), bonds="file")

    def test_alike_and_not_carried(self):
        # P -1 keeps each of the nets through 0 0 0 and 1/2 1/2 1/2; so do the operations of P m m m
        for group in ("P -1", "P m m m"):
            woven = self.woven(woven_pcu(group, (1, 1, 1), (0, 0, 0), (0.5, 0.5, 0.5)), bonds="file")
            self.assertEqual((woven.copies, woven.translational, woven.by_operations, woven.symbol), (2, 1, 0, ""))
            self.assertIn("no class: no operations", str(woven))

    def test_pairs_that_are_not_carried_into_each_other(self):
        # two sites in general of P -1: two pairs of nets, and no operation carries a pair to the other one
        woven = self.woven(woven_pcu("P -1", (1, 1, 1), GENERAL, (0.31, 0.4, 0.36)), bonds="file")
        self.assertEqual((woven.copies, woven.symbol), (4, ""))

    def test_every_copy_has_the_class_of_all(self):
        nets = self.nets(woven_pcu("P -1", (1, 1, 2), GENERAL), bonds="file", every_copy=True)
        self.assertEqual([(net.copies, net.interpenetration.symbol, net.interpenetration.copies) for net in nets],
                         [(2, "IIIa", 4)] * 2)

    def test_of_another_cell_and_origin_it_is_the_same(self):
        # P -1 with its inversion at 1/4 1/4 1/4, atoms moved with it
        text = woven_pcu("P -1", (1, 1, 2), GENERAL).replace("'-x,-y,-z'", "'-x+1/2,-y+1/2,-z+1/2'")
        moved = text.replace(" 0.290000 0.160000 0.250000 ", " 0.540000 0.410000 0.500000 ")
        self.assertNotEqual(text, moved)
        self.assert_class("IIIa", 2, 2, moved, bonds="file")


class OfDisorder(Classes):
    """Alternatives of which one is taken as full may break the operations: what is left has to tell the class."""

    def test_a_place_that_the_operations_do_not_keep(self):
        # one of the four nets of 222 has an atom in another place: its operations carry no net to it as it stands
        crystal, pieces = self.parts(woven_pcu("P 2 2 2", (1, 1, 1), GENERAL))
        self.assertEqual(interpenetration_of(crystal, pieces).symbol, "IIb")
        crystal.atoms[0].place = crystal.atoms[0].place + 0.5
        self.assertEqual(interpenetration_of(crystal, pieces).symbol, "")

    def test_a_bond_that_the_operations_do_not_keep(self):
        crystal, pieces = self.parts(woven_pcu("P -1", (1, 1, 2), GENERAL))
        self.assertEqual(interpenetration_of(crystal, pieces).symbol, "IIIa")
        other = replace(pieces[0], net=replace(pieces[0].net, edges=pieces[0].net.edges[:-1]))
        self.assertEqual(interpenetration_of(crystal, [pieces[1], other]).symbol, "")

    def test_an_element_that_the_operations_do_not_keep(self):
        crystal, pieces = self.parts(woven_pcu("P -1", (1, 1, 1), GENERAL))
        atom = crystal.atoms[0]
        atom.site = replace(atom.site, element="Cu")
        self.assertEqual(interpenetration_of(crystal, pieces).symbol, "")

    def test_an_alternative_that_is_left_out(self):
        # the net through one image lacks an atom that hangs on the other: only if disorder is noted that does not matter
        crystal, pieces = self.parts(woven_pcu("P -1", (1, 1, 1), GENERAL))
        atom = crystal.atoms[0]
        extra = replace(atom, site=replace(atom.site, element="F"), place=atom.place + 1.4, name="F9")
        crystal.atoms.append(extra)
        first = pieces[0].net
        assert first.vertices == (atom.name,)
        hung = replace(first, vertices=(atom.name, "F9"), edges=(*first.edges, Edge(0, 1, (0, 0, 0))))
        pieces = [replace(pieces[0], net=hung, cells=[*pieces[0].cells, (0, 0, 0)]), pieces[1]]
        self.assertEqual(interpenetration_of(crystal, pieces).symbol, "")
        crystal.notes.append(Note(DISORDER, "disorder: one alternative"))
        self.assertEqual(interpenetration_of(crystal, pieces).symbol, "IIa")

    def parts(self, text: str) -> tuple[Crystal, list[Piece]]:
        structure, = structures_of(text.encode(), "test.cif", "test")
        crystal = structure.crystal()
        return crystal, pieces_of(atoms_chosen(crystal, listed_bonds(crystal), Options(), []))


class Lattices(unittest.TestCase):
    def test_quotients_of_whole_vectors(self):
        # with 1 0 2, 0 1 1, 0 0 4 in L, c generates all; 1 0 0, 0 2 0, 0 0 4 gives Z2 x Z4. With 2 0 1, 0 2 1, 0 0 2 it is
        # c = -2 a = -2 b and 2 c = 0: the order is 8, and 4 x = 0 for all x. With 2 0 1, 0 1 0, 0 0 2 it is c = -2 a, 4 a = 0
        for basis, wanted in (([(1, 0, 2), (0, 1, 1), (0, 0, 4)], True), ([(1, 0, 0), (0, 2, 0), (0, 0, 4)], False),
                              ([(2, 0, 1), (0, 2, 1), (0, 0, 2)], False), ([(2, 0, 1), (0, 1, 0), (0, 0, 2)], True)):
            piece = Piece(QuotientGraph.of((), ()), 3, 0, basis, [])
            self.assertEqual(is_cyclic(piece), wanted, basis)


class Told(Classes):
    def test_in_notes_comments_and_json(self):
        done = converted(published("ice VI"))
        self.assertIn("2 interpenetrating nets, class IIa", "\n".join(done.told(is_quiet=True)))
        self.assertIn(b": 2 interpenetrating nets, class IIa\n", done.text)
        self.assertEqual(json.loads(done.json_line())["nets"][0]["interpenetration"]["symbol"], "IIa")
        both = self.woven(woven_pcu("P -1", (1, 1, 2), GENERAL), bonds="file")
        self.assertEqual(str(both), "4 interpenetrating nets, class IIIa, 2 by translations times 2 by other operations")

    def test_json_and_back(self):
        net = self.net(published("ice VI"))
        again = Net.from_dict(json.loads(net.to_json()))
        self.assertEqual(again.interpenetration, net.interpenetration)
        self.assertEqual([note.kind for note in again.provenance.notes].count(WOVEN), 1)
        fields = net.provenance.to_dict()
        self.assertEqual(fields["interpenetration"], asdict(net.interpenetration))
        self.assertIsNone(Provenance.from_dict({**fields, "interpenetration": None}).interpenetration)
        del fields["interpenetration"]  # as another version has it
        self.assertIsNone(Provenance.from_dict(fields).interpenetration)
        for broken in ({"copies": "two"}, {"copies": 2}, 7, [1]):
            with self.assertRaises(ValueError):
                Provenance.from_dict({**fields, "interpenetration": broken})

    def test_by_the_names_of_components_and_in_answers(self):
        need_program()
        net = self.net(published("ice VI"))
        part, = _parts_of([net])
        self.assertEqual(part.name, "test, component 1 of 1, 2 copies, class IIa")
        self.assertEqual(_head(net)["woven_class"], "IIa")
        answer = identify(net, archive=None)
        self.assertIn(", one of 2 interpenetrating copies, class IIa", str(answer))
        self.assertEqual(answer.to_dict()["interpenetration"]["symbol"], "IIa")
        self.assertEqual(Answer.from_dict(json.loads(answer.to_json())).interpenetration, net.interpenetration)
        alone = self.net(published("rutile"))
        self.assertEqual((_head(alone)["woven_class"], [part.name for part in _parts_of([alone])]),
                         ("", ["test, component 1 of 1, 1 copy"]))

    def test_one_of_copies(self):
        woven = self.woven(published("ice VI"))
        self.assertEqual(told_copies(2, woven), "one of 2 interpenetrating copies, class IIa")
        self.assertEqual(told_copies(2, replace(woven, symbol="")), "one of 2 interpenetrating copies")
        self.assertEqual((told_copies(2, None), told_copies(1, woven)), ("one of 2 interpenetrating copies", ""))


if __name__ == "__main__":
    unittest.main()
