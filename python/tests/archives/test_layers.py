"""The layers of layers.txt: each has its name in any cell, no two have one net but those that are said to, and structures that others
made are named."""

import random
import unittest
from collections import defaultdict
from functools import cache
from itertools import combinations
from pathlib import Path

from odd_cells import in_odd_cell  # noqa: E402
from testing import IS_LONG, PROGRAM, TOP, need_modules, need_program, run  # noqa: E402
from write_layers import WITHOUT_ENDS, layers, without_ends  # noqa: E402

from crystal_nets import Archive, By, Net, identify, read  # noqa: E402
from crystal_nets.wide.archive import WideArchive  # noqa: E402
from crystal_nets.wide.certificate import verified  # noqa: E402
from crystal_nets.wide.matching import find_map  # noqa: E402
from crystal_nets.wide.periodic_map import text_of_maps  # noqa: E402
from crystal_nets.wide.placed import PlacedNet  # noqa: E402

ARCHIVES = TOP / "archives"
LAYERS = list(layers((TOP / "dev/archives/layers.txt").read_text()))
BY_KEY = {"CdI2, 1T": "kgd, dual of kagome", "PbO": "sql, square lattice", "FeSe, iron joined": "fes-d, tiles of 4.8^2"}
# Layers that differ as structures and have one net, by what their names begin with; [-] stands for that without ends.
ALIKE = [("Bi2Te3", "Ti3C2,", "Ti2CO2, MXene, oxygen above the other titanium"),
         ("MnBi2Te4", "Ti3C2O2", "V4C3,", "Bi4Se3"),
         ("Ge2Sb2Te5", "V4C3O2", "Mo4VC4"),
         ("GaSe;", "hBN, two sheets AA, joined at boron alone", "diamane AA [-]"),
         ("GaSe, antiprismatic", "hBN, two sheets AB", "diamane AB [-]"),
         ("hBN, two sheets, all atoms joined", "CuI", "silica, two sheets [-]"),
         ("MgB2", "CaSi2, a sheet"),
         ("hBN, three sheets ABC", "diamond [-]"),
         ("hBN, three sheets ABA", "Fe3GeTe2, iron joined to its sheet"),
         ("SnS;", "Sr3Ti2O7 [-]"), ("NaCl", "Sr4Ti3O10 [-]"), ("SnS, two layers", "Sr5Ti4O13 [-]"),
         ("antimony, two sheets", "CaSi2, calcium joined"), ("antimony, three sheets", "CdI2, two layers"),
         ("Fe, slab (100) of three", "planar square net"), ("kaolinite;", "kaolinite, vacancy"),
         ("MoS2 2H, two sulfurs of 18 missing, on both sides", "MoS2 2H, two sulfurs of 18 missing, on one side")]
PLACES = "/usr/share/avogadro2/crystals"
FILES = {"clays/Lepidolite": "talc", "clays/Mg2Al2SiO9H4-Amesite": "lizardite", "clays/Mg3(O12Si4)H2-Vermiculite": "talc",
         "clays/Mn1.854Fe1.656Mg0.537Si0.953O9H4-Guidottiite": "lizardite", "oxides/MoO3-Molybdite": "MoO3"}


def setUpModule():
    need_program()


@cache
def archive():
    return Archive.load(ARCHIVES)


def net_of(edges):
    return Net(sorted(edges))


def named(net):
    """The names of a net, and by what they are certain."""
    answer = identify(net, archive=archive())
    return answer.names, answer.by


class Names(unittest.TestCase):
    def test_each_layer_has_its_name_in_odd_cells(self):
        chance = random.Random(1)
        for layer in LAYERS:
            edges = list(net_of(layer.edges()).graph.canonical().edges)
            for _ in range(10 if IS_LONG else 1):
                names, by = named(Net(in_odd_cell(edges, chance, 4)))
                wanted = next((name for begin, name in BY_KEY.items() if layer.name.startswith(begin)), layer.name)
                if "PdSe2" not in layer.name:  # its net is that of HgI2, whose name stands first
                    self.assertIn(wanted, names, layer.name)
                self.assertIn(by, (By.KEY, By.VERIFIED_MAP), layer.name)

    def test_each_is_named_without_its_ends(self):
        chance = random.Random(2)
        for layer in LAYERS:
            edges = without_ends(layer.edges())
            if edges and edges != layer.edges():
                names, by = named(Net(in_odd_cell(list(net_of(edges).graph.canonical().edges), chance, 3)))
                self.assertTrue(names, layer.name)
                if by is By.VERIFIED_MAP:
                    self.assertIn(WITHOUT_ENDS.format(layer.name), names)

    def test_there_are_a_hundred_types(self):
        self.assertGreaterEqual(len(LAYERS), 100)
        self.assertEqual(len({layer.name for layer in LAYERS}), len(LAYERS))


class Pairs(unittest.TestCase):
    def test_each_two_entries_are_different_or_aliases(self):
        """Two entries have one invariant if and only if a map of the one to the other is verified, and the groups are those that
        are written here."""
        placed = {name: PlacedNet(net.graph.canonical()) for name, net in WideArchive(ARCHIVES / "layers.index").nets()}
        groups = defaultdict(list)
        for name, net in placed.items():
            groups[net.index].append(name)
        for names in groups.values():
            for one, other in combinations(names, 2):
                found = find_map(placed[one], placed[other]).map
                self.assertTrue(found, (one, other))
                self.assertEqual(verified(text_of_maps(placed[one].graph, [(placed[other].graph, found)]), 1), (True,), (one, other))
        alike = {frozenset(names) for names in groups.values() if len(names) > 1}
        wanted = {frozenset(self.whole(begin, placed) for begin in group) for group in ALIKE}
        self.assertEqual(alike ^ wanted, set())

    def whole(self, begin, names):
        head, _, is_short = begin.partition(" [-]")
        ending = WITHOUT_ENDS.format("") if begin.endswith("[-]") else ""
        return next(name for name in names if name.startswith(head) and name.endswith(ending) and ("[" in name) == bool(ending))

    def test_archives_agree(self):
        """No net of layers.archive is one of common.archive under another name."""
        told = run(PROGRAM, "union", ARCHIVES / "layers.archive", "--archive", ARCHIVES / "common.archive").stdout
        count = sum((ARCHIVES / name).read_text().count("\nentry ") for name in ("layers.archive", "common.archive"))
        self.assertEqual(told.count(b"\nentry "), count)
        keys = [line for line in told.split(b"\n") if line.startswith(b"key ")]
        self.assertEqual(len(keys) - len(set(keys)), 1)  # of common.archive


class Structures(unittest.TestCase):
    """Structures that others made."""

    def test_files_of_minerals(self):
        need_modules("gemmi", "numpy")
        found = 0
        for stem, begin in FILES.items():
            file = Path(PLACES, f"{stem}.cif")
            if file.exists():
                for convention in ("", "all-atoms", "auto"):
                    for net in read(file, convention=convention) if convention else read(file):
                        names, by = named(net)
                        self.assertTrue(names and names[0].startswith(begin) and by is By.VERIFIED_MAP, (stem, names))
                        found += 1
        if not found:
            self.skipTest("avogadro2 is not there")

    def test_layers_of_ase(self):
        """Disulfides, graphene and slabs in cells that are skew and several times as large."""
        need_modules("ase", "gemmi", "numpy")
        from ase.build import bcc100, fcc100, fcc111, graphene, make_supercell, mx2
        chance = random.Random(3)
        made = {"graphene": (graphene(vacuum=8), "hcb")}
        for formula in [m + x for m in ("Mo", "W", "Nb", "Ta", "Ti", "Zr", "Hf", "V", "Cr", "Pt") for x in ("S2", "Se2", "Te2", "O2")]:
            a = 3.2 + 0.2 * formula.endswith("Te2") - 0.3 * formula.endswith("O2")
            made[f"{formula} 2H"] = mx2(formula, kind="2H", a=a, vacuum=8), "MoS2 2H"
            made[f"{formula} 1T"] = mx2(formula, kind="1T", a=a + 0.1, vacuum=8), "kgd"
        for count, (cu100, cu111, fe100) in {2: ("Cu, slab (100) of two", "two close packed", "sql"),
                                             3: ("Cu, slab (100) of three", "three close packed sheets ABC", "Fe, slab (100) of three"),
                                             4: ("Cu, slab (100) of four", "four close packed sheets ABCA", "Fe, slab (100) of four")}.items():
            made[f"Cu 100 {count}"] = fcc100("Cu", (1, 1, count), vacuum=8), cu100
            made[f"Cu 111 {count}"] = fcc111("Cu", (1, 1, count), vacuum=8), cu111
            made[f"Fe 100 {count}"] = bcc100("Fe", (1, 1, count), vacuum=8), fe100
        for what in chance.choices(list(made), k=200) if IS_LONG else chance.sample(list(made), 20):
            atoms, begin = made[what]
            a, b, c, d = chance.choice(((1, 0, 0, 1), (2, 0, 1, 1), (1, 1, -1, 2), (3, 0, 1, 2), (2, 1, 0, 2), (0, -1, 3, 1)))
            nets = read(make_supercell(atoms, [[a, b, 0], [c, d, 0], [0, 0, 1]]))
            self.assertEqual(len(nets), 1, what)
            names, _ = named(nets[0])
            self.assertTrue(any(name.startswith(begin) for name in names), (what, names))


if __name__ == "__main__":
    unittest.main()
