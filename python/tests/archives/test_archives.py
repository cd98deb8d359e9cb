"""The archives: that they are archives, that they come from their sources, and that the nets have
the coordination sequences that they are known by."""

import re
import shutil
import sys
from collections import Counter, defaultdict
from itertools import combinations

from testing import IS_LONG, PROGRAM, TOP, FolderTest, need_modules, need_program, run

from crystal_nets import Archive, identify  # noqa: E402
from crystal_nets.texts.net_text import nets_of_report  # noqa: E402
from crystal_nets.wide.certificate import holds  # noqa: E402

ARCHIVES = TOP / "archives"
SHELLS = 10
# Of the first vertex, the one kind or that with more neighbours: the shortest cycles of its angles, as the field writes them (Blatov, O'Keeffe and
# Proserpio, CrystEngComm 12 (2010) 44).
POINT_SYMBOLS = {"srs": "10^3", "ths": "10^3", "bto": "10^3", "utp": "10^3", "dia": "6^6", "lon": "6^6", "sod": "4^2.6^4",
                 "nbo": "6^4.8^2", "qtz": "6^4.8^2", "cds": "6^5.8", "cag": "4.6^5", "lvt": "4^2.8^4", "rhr": "4^2.6^2.8^2",
                 "pcu": "4^12.6^3", "eta": "8^3", "qzd": "7^5.9", "sqp": "4^4.6^6", "hms": "6^9.8", "gra": "6^9.8",
                 "hxg-a": "6.8^2"}
SAME_NETS = {("sra, aluminium in strontium dialuminide", "ABW, zeolite Li-A of Barrer and White")}


class Common(FolderTest):
    @classmethod
    def setUpClass(cls):
        need_program()
        report = run(PROGRAM, "identify", ARCHIVES / "common.cgd", "--archive", ARCHIVES / "common.archive").stdout
        cls.nets = list(nets_of_report(report.splitlines(keepends=True)))
        cls.symbol = {net.name.decode().split(",")[0]: net for net in cls.nets}
        cls.symbol |= {net.name.decode(): net for net in cls.nets}

    def test_each_net_has_its_name_in_the_archive(self):
        for net in self.nets:
            self.assertIn(net.name, net.names)

    def test_nets_are_different(self):
        groups = run(PROGRAM, "duplicates", "--archive", ARCHIVES / "common.archive").stdout.decode()
        found = {tuple(re.findall(r'"([^"]*)"', line)) for line in groups.splitlines()[1:]}
        self.assertEqual(found, SAME_NETS)

    def test_known_sequences(self):
        for line in (TOP / "dev/archives/sequences.tsv").read_text().splitlines():
            symbol, *sequences = line.split("\t")
            wanted = {tuple(map(int, sequence.split())) for sequence in sequences}
            self.assertEqual({tuple(shell) for shell in self.symbol[symbol].shells}, wanted, symbol)

    def test_known_point_symbols(self):
        sources = dict(zip((net.name.decode().split(",")[0] for net in self.nets),
                           nets_of_source(ARCHIVES / "common.cgd")))
        for symbol, wanted in POINT_SYMBOLS.items():
            self.assertEqual(point_symbol(sources[symbol]), wanted, symbol)

    def test_prisms_have_the_sums_of_their_layers(self):
        for name, symbol in [("kag", "kgm")] + [(f"prisms of {s}", s) for s in ("fes", "hca", "tts", "fsz")]:
            layer = [1, *self.symbol[symbol].shells[0]]
            sums = [layer[n] + 2 * sum(layer[:n]) for n in range(1, 11)]
            self.assertEqual(self.symbol[name].shells[0], sums, name)

    def test_sequences_counted_another_way(self):
        for net, edges in zip(self.nets, nets_of_source(ARCHIVES / "common.cgd")):
            told = {tuple(shell[:SHELLS]) for shell in net.shells}
            self.assertEqual(counted_shells(edges), told, net.name)


class Zeolites(FolderTest):
    def setUp(self):
        super().setUp()
        need_program()

    def test_each_code_is_its_own_net(self):
        told = run(PROGRAM, "duplicates", "--archive", ARCHIVES / "zeolites.archive").stdout
        self.assertEqual(told, b"entries 189\n")

    def test_what_is_left_out_is_listed(self):
        codes = re.findall(r'NAME "(\w+)"', (ARCHIVES / "zeolites.cgd").read_text())
        entries = re.findall(r'(?m)^entry "(\w+)"', (ARCHIVES / "zeolites.archive").read_text())
        refused = re.findall(r'(?m)^line \d+ "(\w+)": refused', (ARCHIVES / "zeolites.refused").read_text())
        self.assertEqual(sorted(codes), sorted(entries + refused))

    def test_nets_without_a_key_are_those_of_their_source(self):
        """`verify` takes a map from each block of zeolites.cgd that is refused to the block of wide.cgd that has its name."""
        source = dict(re.findall(r'(?ms)(?=^PERIODIC_GRAPH\nNAME "(\w+)")(.*?^END\n)', (ARCHIVES / "zeolites.cgd").read_text()))
        blocks = dict(re.findall(r'(?ms)(?=^PERIODIC_GRAPH\nNAME "(\w+)")(.*?^END\n)', (ARCHIVES / "wide.cgd").read_text()))
        refused = re.findall(r'(?m)^line \d+ "(\w+)": refused', (ARCHIVES / "zeolites.refused").read_text())
        self.assertEqual(list(blocks), refused)
        archive = Archive.load(ARCHIVES / "wide.index")
        self.assertEqual(archive.without_key, tuple(refused))
        for name in refused if IS_LONG else ["SVR"]:
            answer = identify(source[name].encode(), archive=archive)
            self.assertEqual((answer.names, str(answer.by)), ((name,), "verified map"))
            self.assertTrue(holds(answer.certificate, [source[name].encode(), blocks[name].encode()], 3), name)

    def test_the_two_archives_agree(self):
        report = run(PROGRAM, "identify", ARCHIVES / "common.cgd", "--archive", ARCHIVES / "zeolites.archive").stdout
        others = {b"sod": b"SOD", b"crb": b"BCT", b"sra": b"ABW", b"sod-a": b"RWY", b"pcb": b"ACO", b"eta-e": b"OSO"}
        for net in nets_of_report(report.splitlines(keepends=True)):
            symbol = net.name.split(b",")[0]
            if net.names or symbol.isupper():
                self.assertEqual(net.names, [others.get(symbol, symbol)])


class Recipes(FolderTest):
    def test_archives_come_from_their_sources(self):
        need_program()
        for part in ("archives", "dev/archives", "python/crystal_nets", "front", "net_tool"):
            (self.folder / part).parent.mkdir(parents=True, exist_ok=True)
            (shutil.copytree if (TOP / part).is_dir() else shutil.copy)(TOP / part, self.folder / part)
        run(self.folder / "dev/archives/make", PROGRAM)
        for name in ("common.archive", "zeolites.archive", "zeolites.refused", "wide.cgd", "wide.index", "layers.archive",
                     "layers.cgd", "layers.index"):
            self.assertEqual((self.folder / "archives" / name).read_bytes(), (ARCHIVES / name).read_bytes(), name)

    def test_words_without_a_form(self):
        """Nothing is written, and the status is 2."""
        for words, told in ((("--sources",), "asks for a folder"), (("--sources", "absent"), "asks for a folder"), (("--other",), "no option --other"),
                            (("a", "b"), "usage"), (("a", "--sources", self.folder), "usage")):
            self.assertIn(told, run(TOP / "dev/archives/make", *words, status=2).stderr.decode(), words)
        self.assertIn(b"is not there", run(TOP / "dev/archives/make", self.folder / "absent", status=1).stderr)
        self.assertIn(b"writes the archives", run(TOP / "dev/archives/make", "--sources", self.folder, "--help").stdout)
        need_modules("numpy", "gemmi")
        self.assertEqual(run(TOP / "dev/archives/write_nets.py", "--other", status=2).stdout, b"")

    def write_nets(self):
        need_modules("numpy", "gemmi")
        import write_nets
        return write_nets

    def symbols_of(self, nets):
        """The symbols that nets have in the archive, by their names."""
        need_program()
        text = "".join(self.write_nets().text_of(name, net) for name, net in nets.items())
        report = run(PROGRAM, "identify", "-", "--archive", ARCHIVES / "common.archive", stdin=text.encode()).stdout
        return {net.name.decode(): net.names[0].decode().split(",")[0]
                for net in nets_of_report(report.splitlines(keepends=True))}

    def test_edges_of_nets_that_are_known(self):
        wanted = {"dia": "crs", "srs": "lcv", "pcu": "reo", "hcb": "kgm", "nbo": "sod"}
        recipes = self.write_nets()
        known = recipes.nets_by_hand()
        self.assertEqual(self.symbols_of({symbol: recipes.of_edges(known[symbol]) for symbol in wanted}), wanted)

    def test_space_fillings_that_have_other_names(self):
        wanted = {"truncated": "cab", "bitruncated": "sod", "cantitruncated": "LTA", "omnitruncated": "RHO",
                  "runcicantic": "tbo-e"}
        recipes, r = self.write_nets(), 2 ** 0.5
        corner = (0.5, (1 + r) / 2, (1 + 2 * r) / 2)  # of a truncated cuboctahedron with edges of length 1
        fillings = {"truncated": ("P m -3 m", 1 + r, (0.5, (1 + r) / 2, (1 + r) / 2), 5),
                    "bitruncated": ("I m -3 m", 2 * r, (0, r / 2, r), 4),
                    "cantitruncated": ("P m -3 m", 1 + 2 * r, corner, 4),
                    "omnitruncated": ("P m -3 m", 2 + 2 * r, corner, 4),
                    "runcicantic": ("F m -3 m", 2 + 3 * r, corner, 4)}
        nets = {name: recipes.net_of_sites(recipes.Sites(group, recipes.cubic(a), {"a": tuple(x / a for x in place)},
                                                         {"aa": count}))
                for name, (group, a, place, count) in fillings.items()}
        self.assertEqual(self.symbols_of(nets), wanted)

    def test_zigzags_in_two_directions_are_ths(self):
        recipes = self.write_nets()
        self.assertEqual(self.symbols_of({"two": recipes.zigzags(((1, 0), (0, 1)))}), {"two": "ths"})

    def test_helices_of_one_hand_are_srs(self):
        self.assertEqual(self.symbols_of({"one": self.write_nets().helices((1, 1))}), {"one": "srs"})

    def test_supertetrahedra_on_diamond_are_spn(self):
        recipes = self.write_nets()
        self.assertEqual(self.symbols_of({"dia": recipes.supertetrahedra(recipes.nets_by_hand()["dia"])}), {"dia": "spn"})

    def test_recipes_give_the_nets_of_the_source(self):
        need_modules("numpy", "gemmi")
        text = run(TOP / "dev/archives/write_nets.py").stdout
        self.assertTrue((ARCHIVES / "common.cgd").read_bytes().endswith(text))


def nets_of_source(file):
    """The edges of each block, read without the program."""
    edges, numbers = [], {}
    for line in file.read_text().splitlines():
        words = re.findall(r'"[^"]*"|[^\s"#]+', line.split("#")[0])
        if words and words[0].upper() == "END":
            yield edges
            edges, numbers = [], {}
        elif words and words[0].upper() in ("EDGES", "EDGE", "BONDS", "BOND"):
            words = words[1:]
        if len(words) > 3:
            u, v = (numbers.setdefault(vertex, len(numbers)) for vertex in words[:2])
            edges.append((u, v, tuple(map(int, words[2:]))))


def point_symbol(edges) -> str:
    """Of the first vertex how many of its angles are on shortest cycles of each size."""
    arcs = defaultdict(list)
    for u, v, shift in edges:
        arcs[u].append((v, shift))
        arcs[v].append((u, tuple(-x for x in shift)))
    origin = (0, (0,) * len(edges[0][2]))
    sizes = Counter(2 + steps_without(arcs, origin, one, other) for one, other in combinations(arcs[0], 2))
    return ".".join(f"{size}^{count}" if count > 1 else str(size) for size, count in sorted(sizes.items()))


def steps_without(arcs, origin, start, end) -> int:
    """How many edges lead from one vertex to another, not by way of the origin."""
    seen, shell, steps = {origin, start}, [start], 0
    while end not in seen:
        shell = sorted({(w, tuple(a + b for a, b in zip(cell, shift))) for v, cell in shell for w, shift in arcs[v]} - seen)
        seen.update(shell)
        steps += 1
    return steps


def counted_shells(edges) -> set[tuple[int, ...]]:
    """The shells of all vertices of the cell, counted in the infinite net. A vertex is one number:
    a cell's parts in base 4096, and then its number in the cell."""
    count = 1 + max(max(u, v) for u, v, _ in edges)

    def step(shift):
        return sum(part * 4096 ** k for k, part in enumerate(shift)) * count

    arcs = [set() for _ in range(count)]
    for u, v, shift in edges:
        arcs[u].add(step(shift) + v - u)
        arcs[v].add(u - v - step(shift))
    found = set()
    for start in range(count):
        before, shell, sizes = set(), {start}, []
        for _ in range(SHELLS):
            following = {at + arc for at in shell for arc in arcs[at % count]} - shell - before
            before, shell = shell, following
            sizes.append(len(shell))
        found.add(tuple(sizes))
    return found
