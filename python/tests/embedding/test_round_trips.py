"""Embeddings as crystals: each net comes back from its block CRYSTAL and from its CIF."""

from collections import Counter

from testing import IS_LONG, PROGRAM, TOP, FolderTest, command, need_modules, need_program, run

need_modules("numpy", "spglib", "gemmi", "scipy")
import gemmi  # noqa: E402
import numpy as np  # noqa: E402
from crystal_nets.embedding.crystal_text import block_of, cif_of  # noqa: E402
from crystal_nets.embedding.embedding import embedding_of_key  # noqa: E402
from crystal_nets.texts.net_text import nets_of_report  # noqa: E402

SOURCES = [TOP / "archives/common.cgd", TOP / "archives/zeolites.cgd"]
STEP = 1 if IS_LONG else 3    # of the zeolites every so many
MOST_ATOMS = 200              # of a CIF that is read back by its bonds
CGD2NET = command("convert --as nets")


def reports_on(text: bytes, command: str = "identify") -> list:
    told = run(PROGRAM, command, "-", stdin=text, status=None).stdout
    return list(nets_of_report(told.splitlines(keepends=True)))


class RoundTrip(FolderTest):
    @classmethod
    def setUpClass(cls):
        need_program()
        cls.nets = []
        for source, step in zip(SOURCES, (1, STEP)):
            cls.nets += [net for net in reports_on(source.read_bytes()) if net.key][::step]
        cls.embeddings = [embedding_of_key(net.key.decode()) for net in cls.nets]

    def converted(self, *forms, status=0):
        """The reports on the nets that cgd2net reads from their blocks, by their names."""
        blocks = "".join(block_of(embedding, net.name.decode(), *forms)
                         for net, embedding in zip(self.nets, self.embeddings))
        self.assertEqual(blocks.count("CRYSTAL"), len(self.nets))
        done = run(CGD2NET, stdin=blocks.encode(), status=status)
        return {net.name: net for net in reports_on(done.stdout, "key")}, done.stderr.decode()

    def test_each_net_comes_back_from_its_edges(self):
        for forms in ((True, False), (True, True)):
            found, _ = self.converted(*forms)
            self.assertEqual({net.name: net.key for net in self.nets}, {name: net.key for name, net in found.items()})

    def test_without_edges_each_comes_back_or_is_refused(self):
        """Where the nearest vertices are the neighbours, the net is found. Else a degree does not come out, or the
        vertices that are joined are in several pieces, or stand in one place."""
        found, told = self.converted(False, status=None)
        right = 0
        for net, embedding in zip(self.nets, self.embeddings):
            read = found.get(net.name)
            name = net.name.decode()
            if read is None:
                self.assertIn(f'"{name}": refused'[:50], told)
            elif read.key != net.key and read.key:  # such a text is of another net: nearer vertices are not joined
                self.assertGreater(embedding.measures.edges.greatest, embedding.measures.shortest_distance, name)
            elif read.key:
                right += 1
            elif not read.outcome.startswith(b"refused 5"):
                self.assertIn(f'"{name}": edges are by distance, and the net is not connected'[:60], told)
        self.assertGreater(right, 0.3 * len(self.nets))

    def test_groups_that_are_known(self):
        wanted = {"pcu": "Pm-3m", "dia": "Fd-3m:2", "srs": "I4132", "nbo": "Im-3m", "sod": "Im-3m", "qtz": "P6222",
                  "lon": "P63/mmc", "cds": "P42/mmc", "ths": "I41/amd:2", "rtl": "P42/mnm", "pyr": "Pa-3",
                  "gis": "I41/amd:2", "sql": "p4mm", "hcb": "p6mm", "mcm": "p4gm", "tts": "p4gm", "cem": "c2mm",
                  "fsz": "p6", "htb": "p6mm", "FAU": "Fd-3m:2", "CHA": "R-3m:H", "LTA": "Pm-3m", "GIS": "I41/amd:2",
                  "MTN": "Fd-3m:2", "CAN": "P63/mmc"}
        found = {net.name.decode().split(",")[0]: embedding.setting.name
                 for net, embedding in zip(self.nets, self.embeddings)}
        self.assertEqual({name: found[name] for name in wanted if name in found},
                         {name: group for name, group in wanted.items() if name in found})

    def test_each_cif_is_the_net_by_its_operations_and_bonds(self):
        graphs, keys = [], []
        for net, embedding in zip(self.nets, self.embeddings):
            text = cif_of(embedding, net.name.decode(), "x")
            if len(embedding.setting.turns) * len(embedding.sites) <= MOST_ATOMS * 4:
                vertices, block = net_of_cif(text, embedding.gram)
                if vertices <= MOST_ATOMS:
                    graphs.append(block)
                    keys.append(net.key if embedding.setting.hall else b"")
        found = reports_on("".join(graphs).encode(), "key")
        self.assertGreater(len(found), len(self.nets) // 3)
        for key, net in zip(keys, found):
            self.assertEqual(net.key, key)


def net_of_cif(text: str, gram: np.ndarray) -> tuple[int, str]:
    """The net of a CIF by its bonds, in its usual cell; a layer is one in space without edges along the third axis."""
    block = gemmi.cif.read_string(text).sole_block()
    structure = gemmi.make_small_structure_from_block(block)
    assert gemmi.find_spacegroup_by_name(structure.spacegroup_hm) is not None, structure.spacegroup_hm
    operations = [gemmi.Op(gemmi.cif.as_string(row)) for row in block.find_values("_space_group_symop_operation_xyz")]
    named = gemmi.find_spacegroup_by_name(structure.spacegroup_hm).operations()
    assert {op.wrap().triplet() for op in operations} == {op.wrap().triplet() for op in named}
    sites = {site.label: site.fract.tolist() for site in structure.sites}
    found = np.empty((0, 3))

    def vertex(place):
        nonlocal found
        place = np.array(place)
        apart = place - found
        same = np.flatnonzero(np.abs(apart - np.round(apart)).max(axis=1) < 1e-3)
        if not same.size:
            found = np.vstack([found, place - np.floor(place)])
            same = np.array([len(found) - 1])
        return int(same[0]), np.round(place - found[same[0]]).astype(int)

    edges = set()
    table = block.find("_geom_bond_", ["atom_site_label_1", "atom_site_label_2", "site_symmetry_2"])
    for one, other, code in table:
        number, _, digits = code.partition("_")
        end = operations[int(number) - 1].apply_to_xyz(sites[other])
        end = [x + int(digit) - 5 for x, digit in zip(end, digits)]
        for op in operations:
            (u, start), (v, cell) = vertex(op.apply_to_xyz(sites[one])), vertex(op.apply_to_xyz(end))
            shift = tuple((cell - start).tolist())
            edges.add(min((u, v, shift), (v, u, tuple(-s for s in shift))))
    rows = [f"{u + 1} {v + 1} {' '.join(map(str, shift))}" for u, v, shift in edges]
    return len(found), "\n".join(["PERIODIC_GRAPH", "EDGES", *rows, "END", ""])


class Files(FolderTest):
    def test_crystals_are_written(self):
        need_program()
        report = run(PROGRAM, "identify", TOP / "examples/mystery.cgd").stdout
        run(command("draw"), "--cgd", self.folder / "nets.cgd", "--cif", self.folder / "cif", stdin=report)
        text = (self.folder / "nets.cgd").read_text()
        self.assertEqual(Counter(text.split())["CRYSTAL"], 8)
        self.assertEqual(text.count("are not proved"), 8)
        self.assertEqual(sorted(file.name for file in (self.folder / "cif").iterdir()),
                         [f"000{k + 1}_sample_{'ABCDEFGH'[k]}.cif" for k in range(8)])
        refused = run(PROGRAM, "identify", TOP / "examples/interpenetrating.cgd", status=1).stdout
        run(command("draw"), "--cgd", self.folder / "none.cgd", stdin=refused, status=1)
        self.assertEqual((self.folder / "none.cgd").read_text(), "")
