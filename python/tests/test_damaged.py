"""Broken texts, graphs and reports, from a seed: each gives a value, or the exception that is documented for it."""

import random
import sys
from unittest import mock

from testing import IS_LONG, TOP, FolderTest, command, need_modules, need_program, run

from crystal_nets import (Answer, Archive, CrystalNetsError, Net, NotAnArchive, NotANet, NotATable,  # noqa: E402
                          ProgramFailed, components, cover, identify, keys, read, read_table, same)
from crystal_nets.tables.columns import TABLE  # noqa: E402

TEXTS, GRAPHS, STRUCTURES = (800, 600, 60) if not IS_LONG else (8000, 6000, 2000)
REPORTS, ARCHIVES, TABLES = (120, 40, 40) if not IS_LONG else (2000, 2000, 2000)  # reports of each command
PIECES = (b"END\n", b'"', b"#", b"\x00", b"\xff\xfe", b"PERIODIC_GRAPH\n", b"NAME x\n", b"1 1 0 0 0\n", b"EDGES\n", b"9" * 30,
          b"-", b"\n", b"key 2 1 1 1 0\n", b"CRYSTAL\n", b"net 1 line 1\n", b" ", b"\t\r\n", "é".encode(), b"0", b"501")


def damaged(content: bytes, seed: random.Random) -> bytes:
    """The content with one to three damages."""
    for _ in range(seed.randint(1, 3)):
        a, b = sorted(seed.randint(0, len(content)) for _ in range(2))
        kind = seed.randrange(6)
        if kind == 0:
            content = content[:a]
        elif kind == 1:
            content = content[:a] + content[min(b, a + 40):]
        elif kind == 2:
            content = content[:a] + seed.choice(PIECES) + content[a:]
        elif kind == 3:
            content = content[:a] + bytes((seed.randrange(256),)) + content[a + 1:]
        elif kind == 4:
            lines = content.splitlines(keepends=True)
            seed.shuffle(lines)
            content = b"".join(lines)
        else:
            content = content[:b] + content[a:b] + content[b:]
    return content


def all_of(answer: Answer) -> tuple[object, ...]:
    """What is read from the report when it is asked for."""
    return answer.placement, answer.primitive, answer.sequences, answer.classes, answer.denominator, answer.report


class Texts(FolderTest):
    def test_texts(self):
        """What is read of a damaged text is asked about with all the others: no block spoils its neighbours."""
        need_program()
        need_modules("gemmi", "numpy", "scipy", "spglib")
        seed = random.Random(7)
        common = (TOP / "archives/common.cgd").read_bytes().split(b"\n\n")
        sources = [b"\n\n".join(common[k:k + 3]) for k in range(0, 60, 3)]
        sources += [(TOP / f"examples/{name}.cgd").read_bytes() for name in ("dia", "embedded", "sql", "twice")]
        nets = []
        for _ in range(TEXTS):
            try:
                nets += read(damaged(seed.choice(sources), seed)) + [Net([(1, 1, (1, 0)), (1, 1, (0, 1))], name="well")]
            except NotANet:
                pass
        answers = keys(nets)
        self.assertEqual(len(answers), len(nets))
        for answer in answers:
            self.assertIsInstance(answer, Answer)
            self.assertEqual(answer.accepted, answer.key != "")
            if answer.name == "well":
                self.assertEqual(answer.key, "2 1 1 1 1 0 1 1 1 1 0")
            self.see(answer.net)
        self.assertGreater(len({answer.outcome.name or answer.outcome.kind for answer in answers}), 8)

    def see(self, net: Net) -> None:
        """What can be seen of a net without the program."""
        repr(net)
        try:
            self.assertEqual(len(net.vertices), len({v for u, v, _ in net.edges} | {u for u, v, _ in net.edges}))
        except NotANet:
            pass

    def test_structures(self):
        need_modules("gemmi", "numpy", "scipy")
        seed = random.Random(8)
        content = (TOP / "examples/quartz.cif").read_bytes()
        for _ in range(STRUCTURES):
            for net in read(damaged(content, seed), name="x.cif"):
                self.assertIsInstance(net, Net)

    def test_archives(self):
        need_program()
        seed = random.Random(9)
        content = b"".join((TOP / "archives/common.archive").read_bytes().partition(b"entry")[0:1])
        entry = (TOP / "archives/common.archive").read_bytes().split(b"entry ")[1]
        content += b"entry " + entry
        path = self.folder / "x.archive"
        for _ in range(ARCHIVES):
            path.write_bytes(damaged(content, seed))
            try:
                Archive.load(path)
            except NotAnArchive:
                pass


    def test_tables(self):
        """Of a damaged table all rows are read, each with its number, or none."""
        need_program()
        need_modules("pandas")
        run(command("table"), "--no-names", "--jobs", 1, TOP / "examples/mystery.cgd", self.folder)
        seed = random.Random(11)
        path = self.folder / "table.tsv"
        whole, count = path.read_bytes(), 0
        self.assertEqual(len(read_table(path)), 8)
        for _ in range(TABLES):
            content = damaged(whole, seed)
            path.write_bytes(content)
            try:
                table = read_table(self.folder)
            except NotATable:
                continue
            count += 1
            self.assertEqual((len(table), set(table.columns)), (content.count(b"\n") - 1, set(TABLE)), content)
        self.assertLess(count, TABLES)


class Graphs(FolderTest):
    def test_graphs(self):
        need_program()
        seed = random.Random(10)
        odd = (None, "x", 1.5, -1, 10**30, (1,), "", "\x00", float("nan"), True, [1], b"1", "a" * 300)
        nets = []
        for _ in range(GRAPHS):
            edges = [[1, 2, [0, 0, 0]], [1, 2, [1, 0, 0]], [1, 2, [0, 1, 0]], [2, 1, [0, 0, 1]], [2, 2, [1, 1, 1]]]
            for _ in range(seed.randint(1, 3)):
                row = seed.choice(edges)
                if seed.random() < 0.4 and isinstance(row[-1], list) and row[-1]:
                    row[-1][seed.randrange(len(row[-1]))] = seed.choice((*odd, 0, 1, 501, -500))
                elif row:
                    row[seed.randrange(len(row))] = seed.choice((*odd, [0, 0], [1, 0, 0], []))
            seed.shuffle(edges)
            try:
                nets.append(Net(edges[:seed.randint(0, 5)], name=seed.choice(("", "n", '"', "\ud800"))))
            except NotANet:
                pass
        self.assertGreater(len(nets), GRAPHS // 5)
        self.assertEqual([answer.net for answer in keys(nets)], nets)


class Reports(FolderTest):
    """Reports that no net_tool writes."""

    def setUp(self):
        super().setUp()
        need_program()
        self.net = Net.from_cgd(TOP / "examples/dia.cgd")

    def try_damaged(self, module: str, ask: object, count: int, seed: int) -> None:
        """Asks with the report damaged on its way."""
        whole: list[tuple[int, bytes]] = []
        asked = getattr(sys.modules[f"crystal_nets.{module}"], "run")

        def kept(*words: object, **settings: object) -> tuple[int, bytes]:
            whole.append(asked(*words, **settings))
            return whole[-1]

        with mock.patch(f"crystal_nets.{module}.run", kept):
            ask()
        order = random.Random(seed)
        answered = 0
        for _ in range(count):
            report = damaged(whole[0][1], order)
            with mock.patch(f"crystal_nets.{module}.run", lambda *words, report=report, **settings: (0, report)):
                try:
                    ask()
                    answered += 1
                except CrystalNetsError as fault:
                    self.assertIsInstance(fault, (ProgramFailed, NotANet))
        self.assertLess(answered, count)

    def test_reports_of_each_command(self):
        three = [self.net, Net([(1, 1, (1, 0))]), self.net]
        for k, (module, ask) in enumerate((
                ("asking", lambda: all_of(identify(self.net, archive=None))), ("asking", lambda: keys(three)),
                ("maps", lambda: same(self.net, self.net)), ("parts", lambda: components(self.net, archive=None)),
                ("covers", lambda: cover(self.net, [(1, 0, 0), (0, 2, 0), (0, 0, 1)])))):
            __import__(f"crystal_nets.{module}")
            self.try_damaged(module, ask, REPORTS, k)
