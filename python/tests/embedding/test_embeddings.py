"""Embeddings: cells that follow by hand, groups of layers in odd cells, certificates, and what users get of them."""

import random
import re
import unittest
from concurrent.futures import ProcessPoolExecutor
from fractions import Fraction
from math import sqrt
from multiprocessing import get_context

from odd_cells import block, in_odd_cell
from testing import IS_LONG, PROGRAM, TOP, FolderTest, command, need_modules, need_program, run

need_modules("numpy", "spglib", "gemmi", "scipy")
import numpy as np  # noqa: E402
from crystal_nets import Net, identify, identify_all, keys  # noqa: E402
from crystal_nets.blocks.operations import affine, closure, identity  # noqa: E402
from crystal_nets.blocks.plane_groups import TABLE  # noqa: E402
from crystal_nets.embedding.certificate import NotCertified, check_certificate  # noqa: E402
from crystal_nets.embedding.embedding import embedding_of_key  # noqa: E402
from crystal_nets.embedding.relaxing import Certainty  # noqa: E402
from crystal_nets.side_by_side import processors  # noqa: E402

# lengths of the axes of nets whose edges have the length 1: from the geometry of tilings and honeycombs, of sites that a cubic
# group fixes, of tetrahedra, squares, octahedra and cubes in the place of vertices; and of prisms and nets with two axes
# from the greatest volume by one parameter, as a^2/3 + c^2/4 = 1 for acs
R, S = sqrt(2), sqrt(3)
CUBIC = {
    "pcu": 1, "dia": 4 / S, "sod": 2 * R, "srs": 2 * R, "nbo": 2, "fcu": R, "bcu": 2 / S, "LTA": 1 + 2 * R, "RHO": 2 + 2 * R,
    "FAU": 4 * (1 + sqrt(6)) / S, "flu": 4 / S, "pto": 2 * R, "she": 2 * R, "ocu": 4 / S, "soc": 2 * R, "spn": 12 / sqrt(6),
    "mgc": 8 / sqrt(11), "toc": 4 / S, "gar": 8 / sqrt(5), "lcs": 8 / sqrt(6), "lcy": 4 / sqrt(6), "thp": 8 / sqrt(14),
    "crs": 2 * R, "reo": R, "ftw": R, "ith": 4 / sqrt(5), "lcv": 8 / sqrt(6), "hxg": R, "cab": 1 + R, "pcb": 2 + 2 / S,
    "dia-a": 4 / S * (1 + sqrt(6) / 2), "nbo-a": 2 + 2 * R, "srs-a": 2 * R * (1 + 2 / S), "ubt": 3 * R,
    "cantellated cubic honeycomb": 1 + R, "runcitruncated cubic honeycomb": 2 + R, "runcic cubic honeycomb": 2 + R}
TILINGS = {
    "sql": [1, 1], "hcb": [S, S], "kgm": [2, 2], "hxl": [1, 1], "fes": [1 + R] * 2, "hca": [2 + S] * 2, "fxt": [3 + S] * 2,
    "htb": [1 + S] * 2, "fsz": [sqrt(7)] * 2, "tts": [sqrt(2 + S)] * 2, "cem": [1, 2 + S]}
PRISMS = {"bnn": "hcb", "kag": "kgm", "hex": "hxl",
          **{f"prisms of {name}": name for name in ("fes", "hca", "fxt", "htb", "fsz", "tts", "cem")}}
WITH_AN_AXIS = {
    "nia": (R, 4 / S), "alb": (R, 2 / S), "acs": (R, 2 / S), "shp": (sqrt(8 / 3), 2 / S), "scu": (sqrt(8 / 3), 2 / S),
    "csq": (sqrt(32 / 3), 2 / S), "stp": (2 * R, 2 / S), "lon": (sqrt(8 / 3), 8 / 3), "hcp": (1, sqrt(8 / 3))}
BY_HAND = {**{name: [a] * 3 for name, a in CUBIC.items()}, **TILINGS,
           **{name: [*TILINGS[layer], 1] for name, layer in PRISMS.items()},
           **{name: [a, a, c] for name, (a, c) in WITH_AN_AXIS.items()}}
LAYERS = 2_000 if IS_LONG else 68
CELLS = 3


def answers_of(*files):
    return {answer.name.split(",")[0]: answer for file in files for answer in identify_all(TOP / "archives" / file, archive=None)}


class ByHand(unittest.TestCase):
    @classmethod
    def setUpClass(cls):
        need_program()
        cls.answers = answers_of("common.cgd", "zeolites.cgd")

    def test_cells_that_follow_by_hand(self):
        for name, lengths in BY_HAND.items():
            found = self.answers[name].relaxed
            self.assertEqual(found.certainty, Certainty.CERTIFIED, name)
            np.testing.assert_allclose(sorted(found.parameters()[0]), sorted(lengths), atol=1e-6, err_msg=name)
            check_certificate(found.certificate)

    def test_measures_that_follow_by_hand(self):
        dia, pcu, sql = (self.answers[name].relaxed.measures for name in ("dia", "pcu", "sql"))
        self.assertAlmostEqual(dia.angles.mean, np.degrees(np.arccos(-1 / 3)), 6)
        self.assertAlmostEqual(dia.shortest_distance, sqrt(8 / 3), 6)
        self.assertAlmostEqual(pcu.shortest_distance, sqrt(2), 6)
        self.assertAlmostEqual(dia.density, 8 / (4 / sqrt(3)) ** 3, 6)
        self.assertEqual([one.genus for one in (dia, pcu, sql)], [3, 3, 2])
        self.assertEqual([one.degrees_of_freedom for one in (dia, pcu, sql)], [1, 1, 1])
        self.assertEqual(self.answers["LTA"].relaxed.measures.degrees_of_freedom, 3)

    def test_one_embedding_for_each_net(self):
        chance = random.Random(5)
        for name in ("dia", "srs", "cem", "GIS"):
            edges = [(u, v, tuple(shift)) for u, v, shift in self.answers[name].net.graph.edges]
            mirrored = [(u, v, tuple(-part for part in shift)) for u, v, shift in edges]
            texts = {identify(block("", in_odd_cell(one, chance)), archive=None).relaxed.to_cgd()
                     for one in (edges, edges, mirrored)}
            self.assertEqual(texts, {self.answers[name].relaxed.to_cgd()}, name)

    def test_edges_are_equal_in_all_zeolites_but_one(self):
        zeolites = [answer for answer in answers_of("zeolites.cgd").values() if answer.key][::1 if IS_LONG else 15]
        for answer in zeolites:
            found = answer.relaxed
            if found.certainty is not Certainty.STANDARD:
                self.assertLess(found.measures.edges.greatest - found.measures.edges.least, 1e-7, answer.name)
            if found.certainty is Certainty.CERTIFIED and answer.classes < 9:
                check_certificate(found.certificate)

    def test_flat_nets_stay_the_standard_realization(self):
        for name in ("CaB6", "AlB2"):
            answer = next(one for title, one in self.answers.items() if title.startswith(name))
            self.assertEqual(answer.relaxed.certainty, Certainty.STANDARD)
            self.assertEqual(answer.relaxed.certificate, "")

    def test_what_users_get(self):
        need_modules("ase", "pymatgen")
        dia = self.answers["dia"].embedding
        self.assertEqual((len(dia.positions), len(list(dia.edges)), dia.group), (8, 16, "Fd-3m:2"))
        self.assertEqual(dia.to_pymatgen().get_space_group_info(), ("Fd-3m", 227))
        self.assertEqual(len(dia.to_ase()), 8)
        self.assertAlmostEqual(dia.to_ase().get_distance(0, 1, mic=True) % 1.54, 0, delta=1.54)
        self.assertEqual(dia.to_dict()["nodes"][0]["multiplicity"], 2)
        self.assertEqual(identify(dia.to_cgd("dia"), archive=None).key, self.answers["dia"].key)
        sql = self.answers["sql"].embedding
        self.assertEqual((sql.dimension, list(sql.to_ase().pbc)), (2, [True, True, False]))
        self.assertIsNone(identify([(1, 1, (1, 0, 0)), (1, 1, (0, 1, 0))], archive=None, maps=False).embedding)
        with self.assertRaisesRegex(ValueError, "barycentric or relaxed"):
            embedding_of_key(self.answers["sql"].key, "flat")


def layer_of(generators, chance):
    """The edges of a layer that has the operations of a group: one to three vertices anywhere with their images, and edges
    to some vertices of the cells around."""
    operations = closure([affine(text) for text in generators] + [identity(2)])
    orbits = chance.choice((1, 1, 2, 3))
    images = [moved(op, place) for place in [np.array([chance.random(), chance.random()]) for _ in range(orbits)] for op in operations]
    pairs = [(k * len(operations), other, (i, j)) for k in range(orbits) for other in range(k * len(operations), len(images))
             for i in (-1, 0, 1) for j in (-1, 0, 1)]
    edges = {edge_at(moved(op, images[first]), moved(op, images[other] + shift), images)
             for first, other, shift in chance.sample(pairs, 2 * orbits + 1) for op in operations}
    return [(u, v, shift) for u, v, shift in sorted(edges) if u != v or any(shift)]


def moved(operation, place):
    return np.array(operation.rotation, float) @ place + np.array(operation.translation, float)


def edge_at(one, two, images):
    """The edge between two places: the vertices that stand there, and the shift between their cells."""
    (u, first), (v, second) = (number_at(place, images) for place in (one, two))
    return u, v, tuple(int(b - a) for a, b in zip(first, second))


def number_at(place, images):
    gaps = [place - image for image in images]
    number = min(range(len(images)), key=lambda k: np.abs(gaps[k] - np.rint(gaps[k])).max())
    return number, np.rint(gaps[number]).astype(int).tolist()


def group_of_layer(seed):
    """The group of a random layer; empty if it has no key. What is wrong of it is raised."""
    chance = random.Random(seed)
    _, names, _, generators = TABLE[seed % len(TABLE)]
    if not (edges := layer_of(generators, chance)):
        return ""
    blocks = [block("", edges)] + [block("", in_odd_cell(edges, chance)) for _ in range(CELLS - 1)]
    answers = identify_all("".join(blocks), archive=None, maps=False)
    if not answers[0].key:
        return ""
    found = [answer.embedding for answer in answers]
    if not all(found) or len({(one.group, one.to_cgd()) for one in found}) > 1:
        raise AssertionError(f"a net of {names} has several embeddings, or none: {blocks[0]}")
    if {answer.key for answer in keys(found[0].to_cgd())} != {answers[0].key}:
        raise AssertionError(f"the crystal of a net of {names} is another net: {blocks[0]}")
    return found[0].group


class Layers(unittest.TestCase):
    """Random nets of each plane group, which is the one that they were made with or a larger one."""

    def test_groups_in_odd_cells_are_one_and_crystals_come_back(self):
        need_program()
        with ProcessPoolExecutor(processors(), get_context("fork")) as pool:
            found = list(filter(None, pool.map(group_of_layer, range(3 * LAYERS), chunksize=8)))
        self.assertGreaterEqual(len(found), LAYERS)
        self.assertEqual(set(found), {names.split()[0] for _, names, _, _ in TABLE})

    def test_a_net_of_group_cm(self):
        need_program()
        rows = [(1, 2, (-1, 0)), (1, 2, (0, -1)), (2, 3, (-1, -1)), (2, 3, (-1, 0)), (2, 3, (0, 0))]
        self.assertEqual(identify(Net(rows), archive=None).embedding.group, "cm")


class Certificates(FolderTest):
    def text(self):
        need_program()
        return identify(TOP / "examples/quartz.cif", archive=None).relaxed.certificate

    def test_a_damaged_certificate_shows_nothing(self):
        text = self.text()
        self.assertAlmostEqual(float(check_certificate(text).bound), 16, 6)
        larger = re.sub(r"gram (\S+)", lambda row: f"gram {float(row[1]) * 1.0001:.12f}", text, count=1)
        for damaged in (larger, text.replace("weight=1000000", "weight=0", 1), text.replace("weight=1000000", "weight=900000", 1),
                        text.replace("end", ""), "", "net_embedding 1\n", text.replace("edge 1 2 0 0 0", "edge 1 9 0 0 0"),
                        text.replace("edge 1 2 0 0 0", "edge 1 2 0 0 1"), text.replace("graph 3 3 6", "graph 3 3 5"),
                        text.replace("at 2", "at 5"), text.replace("0.5", "nan"), text.replace("graph", "graf")):
            with self.assertRaises(NotCertified):
                check_certificate(damaged)

    def test_the_command(self):
        report = run(PROGRAM, "identify", TOP / "examples/mystery.cgd").stdout
        run(command("draw"), "--embedding", "relaxed", "--cgd", self.folder / "nets.cgd", "--certificates", self.folder / "c",
            stdin=report)
        self.assertEqual((self.folder / "nets.cgd").read_text().count("# relaxed: "), 8)
        certificates = sorted((self.folder / "c").iterdir())
        self.assertGreater(len(certificates), 4)
        told = run(command("draw"), "--check", certificates[0]).stdout.decode()
        self.assertIn("certified: squared volume", told)
        (self.folder / "other").write_text("net_embedding 1\n")
        told = run(command("draw"), "--check", self.folder / "other", status=1).stderr.decode()
        self.assertIn("it has not the form of a certificate", told)
        for words in (("--certificates", "x", "--cgd", "y", "--embedding", "barycentric"), ("--embedding", "relaxed", "--page", "x")):
            self.assertNotIn("Traceback", run(command("draw"), *words, status=2, stdin=report).stderr.decode())

    def test_the_bound_holds_for_other_embeddings(self):
        """Random embeddings with edges up to 1 have smaller cells."""
        text = self.text()
        bound, chance = float(check_certificate(text).bound), np.random.default_rng(3)
        rows = [line.split() for line in text.splitlines() if line.startswith("edge")]
        for _ in range(300):
            places, basis = chance.normal(size=(3, 3)), chance.normal(size=(3, 3))
            vectors = np.array([(places[int(v) - 1] - places[int(u) - 1] + np.array(list(map(int, shift)))) @ basis
                                for _, u, v, *shift, _ in rows])
            basis /= np.linalg.norm(vectors, axis=1).max()
            self.assertLessEqual(np.linalg.det(basis) ** 2, bound * (1 + 1e-12))
        self.assertIsInstance(check_certificate(text).bound, Fraction)
