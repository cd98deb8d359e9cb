"""Frameworks that are known by their nets, by the conventions of the field: each with all its atoms,
in three presentations, two of them with a solvent and with disorder."""

import random
import re
import unittest
from itertools import product

from testing import PROGRAM, TOP, long_test, need_modules, need_program, run

need_modules("gemmi", "numpy", "scipy")
import gemmi  # noqa: E402
import numpy as np  # noqa: E402
from frameworks import ASSEMBLED, PUBLISHED, nets_of_archive  # noqa: E402
from scipy.spatial import cKDTree  # noqa: E402
from structures import STRUCTURES, Structure, cif_text, images_of, lengths_and_angles, presentations  # noqa: E402

from crystal_nets.structures.nets.choice import Options  # noqa: E402
from crystal_nets.structures.units.conventions import CONVENTIONS  # noqa: E402
from crystal_nets.structures.conversion import Source, convert  # noqa: E402

CLUSTERS = [s for s in STRUCTURES if "--clusters" in s.words]
LARGE = ("MIL-100", "UMCM-1", "PCN-6'", "PCN-224", "NU-1000", "MOF-808", "UiO-67", "ZIF-6", "ZIF-10", "ZIF-11", "ZIF-20",
         "PCN-222", "COF-102", "COF-108")  # that take long, for dev/test --long
WATER = (("O", (0, 0, 0)), ("H", (0.76, 0.59, 0)), ("H", (-0.76, 0.59, 0)))


class Atoms:
    """All atoms of a cell, without symmetry."""

    def __init__(self, lattice: np.ndarray, elements: list[str], places: np.ndarray) -> None:
        self.lattice = lattice
        self.elements = list(elements)
        self.places = np.array(places) @ np.linalg.inv(lattice)
        self.disorder: list[tuple[str, float, str, str]] = [("", 1.0, ".", ".")] * len(self.elements)

    def add(self, element: str, place: np.ndarray, disorder: tuple[str, float, str, str]) -> None:
        self.elements.append(element)
        self.places = np.vstack((self.places, place))
        self.disorder.append(disorder)

    def text(self, first_line: str, basis: np.ndarray, operations: list[str], keep: int) -> str:
        """A file in another basis of a lattice whose translations the operations have; of each atom
        so many images are listed."""
        cells = np.array(list(product(range(-3, 4), repeat=3)))
        lines = []
        for k, place in enumerate(self.places):
            fractions = (place + cells) @ np.linalg.inv(basis)
            inside = fractions[np.all((fractions > -1e-9) & (fractions < 1 - 1e-9), axis=1)][:keep]
            _, part, assembly, group = self.disorder[k]
            lines += [(f"{self.elements[k]}{k}x{n}", self.elements[k], f, part, assembly, group)
                      for n, f in enumerate(inside)]
        text = cif_text(lengths_and_angles(basis @ self.lattice), [(a, b, *f, p) for a, b, f, p, _, _ in lines],
                        operations=operations)
        head, _, rows = text.partition("_atom_site_occupancy\n")
        rows = "\n".join(f"{row} {line[4]} {line[5]}" for row, line in zip(rows.splitlines(), lines))
        return (f"# {first_line}\n{head}_atom_site_occupancy\n_atom_site_disorder_assembly\n"
                f"_atom_site_disorder_group\n{rows}\n")


def atoms_of(structure: Structure) -> Atoms:
    """All atoms of a primitive cell of a structure with ordered atoms."""
    group = gemmi.find_spacegroup_by_name(structure.group).operations()
    edges = np.array(gemmi.UnitCell(*structure.cell).orthogonalization_matrix.tolist()).T
    found = [(site[1], place @ edges) for site in structure.sites for place in images_of(site, group, edges)]
    return Atoms(edges, [element for element, _ in found], np.array([place for _, place in found]))


def with_guests(atoms: Atoms, chance: random.Random) -> Atoms:
    """The same with a molecule of water in the roomiest of some places, and an atom of a linker or an
    anion in two places, one a little fuller."""
    frame = np.array(atoms.places)

    def room(place: np.ndarray) -> float:
        steps = frame - place
        return float(np.linalg.norm((steps - np.round(steps)) @ atoms.lattice, axis=1).min())

    best = max((np.array([chance.random() for _ in range(3)]) for _ in range(200)), key=room)
    if room(best) > 3.2:
        for element, step in WATER:
            atoms.add(element, best + np.array(step) @ np.linalg.inv(atoms.lattice), ("", 1.0, ".", "."))
    moved = chance.choice([k for k, element in enumerate(atoms.elements[:len(frame)]) if element in ("C", "O", "N")])
    step = np.array([chance.gauss(0, 1) for _ in range(3)])
    other = atoms.places[moved] + 0.5 * step / np.linalg.norm(step) @ np.linalg.inv(atoms.lattice)
    atoms.disorder[moved] = ("", 0.6, "A", "1")
    atoms.add(atoms.elements[moved], other, ("", 0.4, "A", "2"))
    return atoms


def files_of(name: str, origin: str, atoms: Atoms) -> dict[str, str]:
    """The presentations: as it is; in a centred cell with a guest and disorder; in a skew one, moved, the same."""
    chance = random.Random(name)
    texts = {"plain": atoms.text(origin, np.eye(3), ["x,y,z"], 1)}
    with_guests(atoms, chance)
    centred = np.array([[1, 1, 0], [-1, 1, 0], [0, 0, 1]])
    texts["centred"] = atoms.text(origin, centred, ["x,y,z", "x+1/2,y+1/2,z"], 1)
    atoms.places = atoms.places + [chance.random() for _ in range(3)]
    texts["skew"] = atoms.text(origin, np.array([[0, 1, 0], [1, 1, 0], [0, chance.choice((-1, 0, 1)), 1]]), ["x,y,z"], 1)
    return texts


class Frameworks(unittest.TestCase):
    """Files are converted one after the other, and their nets identified together at the end."""

    def setUp(self) -> None:
        need_program()
        self.text, self.wanted = b"", {}

    def convert(self, framework: str, files: dict[str, str], wanted: dict[str, str]) -> None:
        """Converts each file by each convention; the nets that are wanted are kept."""
        for kind, content in files.items():
            for convention, symbol in wanted.items():
                name = f"{framework} {kind} {convention}"
                done = convert(Source(name, name, name), content.encode(), Options(convention=convention))
                self.assertFalse(done.is_refused, done.told(is_quiet=False))
                self.assertIn(f"{convention}: ", done.text.decode().splitlines()[0])
                self.text += done.text
                self.wanted[name] = symbol

    def assert_nets(self) -> None:
        self.assertEqual(symbols_of(self.text), self.wanted)


def symbols_of(text: bytes) -> dict[str, str]:
    """The symbols in the archives of the nets of a text."""
    found: dict[str, str] = {}
    for archive in ("zeolites", "common"):
        report = run(PROGRAM, "identify", "-", "--archive", TOP / f"archives/{archive}.archive", stdin=text,
                     status=None).stdout.decode()
        for part in re.split(r"(?m)^net (?=\d)", report)[1:]:
            name = re.match(r'\d+ line \d+ "([^"]*)"', part)[1]
            symbols = re.findall(r'(?m)^name "([^",]*)', part)
            if symbols:
                found[name] = symbols[0]
            else:
                found.setdefault(name, re.findall(r"(?m)^(refused .*|names 0)$", part)[0])
    return found


class Published(Frameworks):
    def test_those_with_their_published_cells(self):
        for structure in PUBLISHED:
            self.convert(structure.name, presentations(structure), dict.fromkeys(structure.words, *structure.nets))
        self.assert_nets()

    def test_the_same_with_a_solvent_and_disorder(self):
        for structure in [s for s in PUBLISHED if s.name != "DMOF-1"] + CLUSTERS:
            conventions = structure.words if structure in PUBLISHED else ("single-nodes", "all-nodes")
            files = files_of(structure.name, "ideal rings in the published cell", atoms_of(structure))
            self.convert(structure.name, files, dict.fromkeys(conventions, *structure.nets))
        self.assert_nets()

    def test_a_disordered_diamine_is_taken_once(self):
        dmof = next(s for s in PUBLISHED if s.name == "DMOF-1")
        text = presentations(dmof)["name"]
        head, _, rows = text.partition("_atom_site_occupancy\n")
        rows = "\n".join(row + (" -1" if row.endswith("0.25") else " .") for row in rows.splitlines())
        done = convert(Source("d", "d", "d"), f"{head}_atom_site_occupancy\n_atom_site_disorder_group\n{rows}\n".encode(),
                       Options(convention="all-atoms"))
        told = "\n".join(done.told(is_quiet=False))
        self.assertIn("images of group -1", told)
        whole = convert(Source("d", "d", "d"), text.encode(), Options(convention="all-atoms"))
        self.assertEqual(len(whole.nets[0].graph.vertices), len(done.nets[0].graph.vertices))

    def test_a_half_occupied_ring_is_taken_once(self):
        uio = next(s for s in STRUCTURES if s.name == "UiO-66")
        sites = tuple((*site, 0.5) if site[0] in ("C3", "H1") else site for site in uio.sites)
        other = (("C4", "C", 0.0582, 0.22625, 0.22625, 0.5), ("H2", "H", 0.1038, 0.2095, 0.2095, 0.5))
        twice = Structure(uio.name, uio.group, uio.cell, sites + other, uio.nets)
        self.convert("UiO-66", presentations(twice), {"single-nodes": "fcu", "all-nodes": "fcu"})
        self.assert_nets()


class Assembled(Frameworks):
    def convert_framework(self, framework) -> None:
        assembly = framework.assembly()
        atoms = Atoms(assembly.lattice, assembly.elements, np.array(assembly.places))
        heavy = [place for element, place in zip(assembly.elements, assembly.places) if element != "H"]
        self.assertFalse(cKDTree(np.array(heavy)).query_pairs(0.9), "atoms in one place")
        origin = f"{framework.name}, made from ideal geometry on the net {framework.net}: not measured"
        self.convert(framework.name, files_of(framework.name, origin, atoms), framework.nets)

    def test_those_made_from_ideal_geometry(self):
        for framework in ASSEMBLED:
            if framework.name not in LARGE:
                self.convert_framework(framework)
        self.assert_nets()

    @long_test
    def test_large_ones(self):
        for framework in ASSEMBLED:
            if framework.name in LARGE:
                self.convert_framework(framework)
        self.assert_nets()


class Conventions(unittest.TestCase):
    def auto(self, name: str):
        framework = next(f for f in ASSEMBLED if f.name == name)
        assembly = framework.assembly()
        atoms = Atoms(assembly.lattice, assembly.elements, np.array(assembly.places))
        return convert(Source(name, name, name), files_of(name, "ideal", atoms)["plain"].encode(), Options(convention="auto"))

    def test_auto_gives_those_that_differ_under_their_names(self):
        done = self.auto("MOF-505")
        self.assertEqual([net.name for net in done.nets], ["MOF-505 single-nodes", "MOF-505 all-nodes"])
        told = done.told(is_quiet=False)
        self.assertTrue(any(line.endswith(": pe and pem do not apply: there are no rods of metals") for line in told), told)

    def test_auto_tells_which_are_the_same(self):
        done = self.auto("IRMOF-10")
        self.assertEqual([net.name for net in done.nets], ["IRMOF-10 single-nodes"])
        told = "\n".join(done.told(is_quiet=False))
        self.assertIn("all-nodes: the net of single-nodes, by its coordination sequences", told)

    def test_auto_of_rods_of_organic_frameworks_and_of_minerals(self):
        for name, conventions in (("MIL-53", ["pe", "pem"]), ("quartz", ["all-atoms"])):
            structure = next(s for s in (*PUBLISHED, *STRUCTURES) if s.name == name)
            done = convert(Source(name, name, name), presentations(structure)["name"].encode(), Options(convention="auto"))
            self.assertEqual([net.provenance.convention for net in done.nets], conventions)
        self.assertEqual([net.provenance.convention for net in self.auto("COF-366-Co").nets], ["standard"])

    def test_a_convention_that_does_not_apply_says_so(self):
        quartz = presentations(next(s for s in STRUCTURES if s.name == "quartz"))["name"].encode()
        mil_53 = presentations(PUBLISHED[0])["name"].encode()
        for content, convention, reason in (
                (quartz, "pe", "there are no metals"), (quartz, "standard", "there is no carbon"),
                (mil_53, "single-nodes", "the metal parts go on without end, as rods: pe and pem apply")):
            done = convert(Source("x", "x", "x"), content, Options(convention=convention))
            self.assertEqual(done.told(is_quiet=True), [f"x: refused: {convention} does not apply: {reason}"])

    def test_each_has_its_source(self):
        for convention in CONVENTIONS.values():
            self.assertRegex(convention.source, r"\d{4}$")

    def test_the_net_of_each_framework_is_in_the_archives(self):
        for framework in ASSEMBLED:
            self.assertLessEqual(set(framework.nets.values()), set(nets_of_archive()), framework.name)

    def test_of_two_interwoven_nets_one_is_written(self):
        self.assert_interwoven("zinc cyanide", "single-nodes", 2, (0.5, 0.5, 0.5))

    @long_test
    def test_of_five_interwoven_nets_one_is_written(self):
        self.assert_interwoven("COF-300", "standard", 5, (0, 0, 0.2))

    def assert_interwoven(self, name: str, convention: str, count: int, step: tuple) -> None:
        """That so many nets dia, each a step in the cubic cell from the one before, are reported, and one is written."""
        need_program()
        assembly = next(f for f in ASSEMBLED if f.name == name).assembly()
        atoms = Atoms(assembly.lattice, assembly.elements, np.array(assembly.places))
        atoms.places = np.vstack([atoms.places + k * np.array(step) for k in range(count)])
        atoms.elements, atoms.disorder = count * atoms.elements, count * atoms.disorder
        origin = f"{name}, {count} nets, made from ideal geometry: not measured"
        for kind, content in files_of(name, origin, atoms).items():
            done = convert(Source(kind, kind, kind), content.encode(), Options(convention=convention))
            told = "\n".join(done.told(is_quiet=False))
            self.assertIn(f"{count} interpenetrating nets alike in the cell, one is written", told, kind)
            self.assertEqual(symbols_of(done.text), {kind: "dia"})

    def test_hydrogen_bonds_join_molecules(self):
        need_program()
        origin = "trimesic acid, made from ideal geometry: not measured"
        for kind, content in files_of("trimesic acid", origin, trimesic_acid()).items():
            done = convert(Source(kind, kind, kind), content.encode(), Options(convention="standard"))
            self.assertEqual(symbols_of(done.text), {kind: "hcb"})
            self.assertIn("each molecule is a vertex", done.text.decode().splitlines()[0])
            done = convert(Source(kind, kind, kind), content.encode(), Options())
            self.assertIn("no net: ", "\n".join(done.told(is_quiet=True)))


def trimesic_acid() -> Atoms:
    """A flat layer of benzenetricarboxylic acid, made from ideal geometry: each pair of acids is joined by
    two hydrogen bonds."""
    ring, arm = 1.39, 1.39 + 1.49
    edge = 2 * 3 ** 0.5 * (arm + 1.93)  # two carboxylic carbons of a pair are 3.86 apart
    atoms = []
    for centre, turn in (((1 / 3, 2 / 3), 0.0), ((2 / 3, 1 / 3), np.pi)):
        middle = centre[0] * np.array([edge, 0]) + centre[1] * np.array([-edge / 2, edge * 3 ** 0.5 / 2])
        for k in range(3):
            angle = 2 * np.pi * k / 3 + turn - np.pi / 6
            out, side = np.array([np.cos(angle), np.sin(angle)]), np.array([-np.sin(angle), np.cos(angle)])
            for element, x, y in (("C", ring, 0), ("C", arm, 0), ("O", arm + 0.62, 1.11), ("O", arm + 0.62, -1.15),
                                  ("H", arm + 1.6, -1.15), ("C", -ring, 0), ("H", -ring - 1.08, 0)):
                atoms.append((element, (*(middle + x * out + y * side), 1.6)))
    lattice = np.array([[edge, 0, 0], [-edge / 2, edge * 3 ** 0.5 / 2, 0], [0, 0, 6.5]])
    return Atoms(lattice, [element for element, _ in atoms], np.array([place for _, place in atoms]))
