"""Nets from edges, texts and graphs: what is read, and that what is none is reported."""

import os
import pickle
import re
import signal
import unittest
from pathlib import Path

from testing import TOP, FolderTest, need_modules

from crystal_nets import Archive, Net, NotAnArchive, NotANet, keys, read  # noqa: E402

DIA = [(1, 2, (0, 0, 0)), (1, 2, (1, 0, 0)), (1, 2, (0, 1, 0)), (1, 2, (0, 0, 1))]
SQL = b"PERIODIC_GRAPH\nNAME sql\nEDGES\n1 1 1 0\n1 1 0 1\nEND\n"


class Paths(unittest.TestCase):
    def test_a_nul_is_in_no_path(self):
        asked = ((read, NotANet), (Net.from_cif, NotANet), (Net.from_cgd, NotANet), (Archive.load, NotAnArchive))
        for path in ("a\0b", "\0", "x.cif\0", "\0.cgd", Path("a\0b")):
            for ask, fault in asked:
                with self.assertRaises(fault):
                    ask(path)
        with self.assertRaises(NotANet):
            keys(["a\0b"])


class FromEdges(unittest.TestCase):
    def test_edges_come_back(self):
        for edges in (DIA, [("Si 1", "O", (0, 0, 1)), ("O", 7, (-1, 2, 0)), (-3, "é", (500, -500, 0))]):
            net = Net(edges, name="a net")
            self.assertEqual(net.edges, tuple((u, v, tuple(shift)) for u, v, shift in edges))
            self.assertEqual(read(net.block)[0].edges, net.edges)
            self.assertEqual(read(net.block)[0], net)

    def test_an_edge_stands_once(self):
        net = Net([(1, 2, (1, 0)), (2, 1, (-1, 0)), (1, 2, (1, 0)), (1, 1, (0, 1))])
        self.assertEqual(net.edges, ((1, 2, (1, 0)), (1, 1, (0, 1))))
        self.assertEqual((net.vertices, net.dimension), ((1, 2), 2))

    def test_what_is_no_edge_is_told(self):
        for edges in ([1], [(1, 2)], [(1, 2, 3)], [(1, 2, (0.5, 0))], [(1.5, 2, (0, 0))], [(None, 2, (0, 0))],
                      [('"', 2, (0, 0))], [("a\nb", 2, (0, 0))], [("\ud800", 2, (0, 0))], ["abc"], [(1, [2], (0, 0))],
                      [(1, 2, "00")]):
            with self.assertRaises(NotANet, msg=repr(edges)):
                Net(edges)
        for source in (None, 3, object(), {1: 2}):
            with self.assertRaises(NotANet):
                read(source)

    def test_names_are_written_as_a_block_may_have_them(self):
        for name in ('a "b"', "x\ty", "n" * 500, "\ud800", "é" * 150):
            net = Net(DIA, name=name)
            self.assertEqual(net.name, name)
            self.assertLessEqual(len(net.block.split(b"\n")[1]), 207)
            self.assertEqual(len(read(net.block)), 1)

    def test_numbers_of_numpy(self):
        need_modules("numpy")
        import numpy
        table = numpy.array([[1, 1, 1, 0, 0], [1, 1, 0, 1, 0], [1, 1, 0, 0, 1]])
        self.assertEqual(Net((u, v, shift) for u, v, *shift in table).edges[0], (1, 1, (1, 0, 0)))

    def test_pickles(self):
        net = Net(DIA, name="dia", notes=["a note"])
        again = pickle.loads(pickle.dumps(net))
        self.assertEqual((again, again.notes, hash(again)), (net, net.notes, hash(net)))


class FromTexts(FolderTest):
    def test_a_text_a_path_and_bytes_are_one(self):
        path = self.folder / "sql.cgd"
        path.write_bytes(SQL)
        for source in (SQL, SQL.decode(), path, str(path), self.folder):
            self.assertEqual([net.block for net in read(source)], [SQL])
        self.assertEqual(Net.from_cgd(path, name="square").name, "square")

    def test_a_folder_has_files_and_a_pipe_is_not_waited_for(self):
        (self.folder / "sql.cgd").write_bytes(SQL)
        (self.folder / "inner.cgd").mkdir()
        (self.folder / "inner.cgd/back.cgd").symlink_to(self.folder)
        (self.folder / "back.cgd").symlink_to(".")
        self.assertEqual([net.provenance.file for net in read(self.folder)], [str(self.folder / "sql.cgd")])
        os.mkfifo(self.folder / "pipe.cgd")
        signal.signal(signal.SIGALRM, signal.default_int_handler)
        self.addCleanup(signal.signal, signal.SIGALRM, signal.SIG_DFL)
        signal.alarm(20)
        self.addCleanup(signal.alarm, 0)
        with self.assertRaisesRegex(OSError, "it is no file, but a pipe.*pipe.cgd"):
            read(self.folder)
        os.mkfifo(self.folder / "pipe.archive")
        with self.assertRaisesRegex(OSError, "it is no file, but a pipe.*pipe.archive"):
            Archive.load(self.folder)

    def test_all_archives_are_read_byte_for_byte(self):
        for name in ("common", "zeolites"):
            content = (TOP / f"archives/{name}.cgd").read_bytes()
            nets, count = read(content), content.lower().count(b"\nperiodic_graph")
            self.assertEqual((len(nets), any(net.refusal for net in nets)), (count, False))
            self.assertTrue(all(net.block in content for net in nets))
            for net in nets:
                self.assertEqual(Net(net.edges).edges, net.edges)

    def test_an_archive_is_a_source(self):
        """Its nets under their names."""
        text = (TOP / "archives/common.archive").read_bytes()
        names = [name.decode() for name in re.findall(rb'(?m)^entry "(.*)"$', text)]
        for source in (TOP / "archives/common.archive", text):
            nets = read(source)
            self.assertEqual([net.name for net in nets], names)
            self.assertEqual((nets[1].dimension, len(nets[1].vertices), len(nets[1].edges)), (2, 2, 3))
        self.assertEqual(read(b"net_archive 2\n"), [])

    def test_what_is_no_text_of_nets_is_told(self):
        for source in (b"net_archive 2\nentry\n", b"net 1 line 1\nconnected\n", b"net_maps 1\n"):
            with self.assertRaises(NotANet):
                read(source)
        with self.assertRaises(OSError):
            read(self.folder / "absent.cgd")
        self.assertEqual(read(b""), [])
        self.assertEqual(read(b"\xef\xbb\xbf" + SQL)[0].block, SQL)
        with self.assertRaises(NotANet):
            Net.from_cgd(SQL + SQL)
        with self.assertRaises(TypeError):
            read(SQL, convention="auto")

    def test_a_block_without_its_end_is_a_refusal(self):
        first, second = read(SQL + SQL.replace(b"END\n", b""))
        self.assertEqual((first.refusal, "no END" in second.refusal), ("", True))
        with self.assertRaises(NotANet):
            second.edges  # noqa: B018

    def test_from_block_wants_one_block(self):
        for block in (b"", b"# nothing\n", SQL + SQL, SQL[:-4], b"CRYSTAL\nEND\n", SQL + b"1 1 1 0\n"):
            with self.assertRaises(NotANet, msg=block):
                Net.from_block(block)
        self.assertEqual(Net.from_block(SQL).block, SQL)

    def test_the_blocks_of_other_programs(self):
        need_modules("gemmi", "numpy", "scipy", "spglib")
        nets = read(TOP / "examples/embedded.cgd")
        self.assertEqual([bool(net.refusal) for net in nets], [False] * 5)
        words = b"PERIODIC_GRAPH\nNAME two words\nEDGES\nA B 0 0\nA B 1 0\nA B 0 1\nEND\n"
        self.assertEqual(read(words)[0].edges[0], ("A", "B", (0, 0)))
        refused, = read(b"CRYSTAL\nNAME x\nGROUP no-such\nEND\n")
        self.assertIn("line", refused.refusal)


class Graphs(unittest.TestCase):
    def setUp(self):
        need_modules("networkx")

    def test_there_and_back(self):
        net = Net(DIA, name="dia")
        graph = net.to_networkx()
        self.assertEqual((graph.number_of_nodes(), graph.number_of_edges(), graph.name), (2, 4, "dia"))
        again, = read(graph)
        self.assertEqual((set(again.edges), again.name), (set(net.edges), "dia"))

    def test_nodes_of_any_kind_are_numbered(self):
        import networkx
        graph = networkx.MultiDiGraph()
        graph.add_edge((0, 0), (1, 1), to_jimage=(0, 0))
        graph.add_edge((0, 0), (1, 1), to_jimage=(1, 0))
        graph.add_edge((1, 1), (0, 0), to_jimage=(0, 1))
        net, = read(graph)
        self.assertEqual(net.edges, ((1, 2, (0, 0)), (1, 2, (1, 0)), (2, 1, (0, 1))))
        self.assertEqual(len(net.notes), 1)

    def test_graphs_without_shifts_or_directions_are_told(self):
        import networkx
        lonely = networkx.MultiDiGraph([(1, 1, {"shift": (1, 0)})])
        lonely.add_node(2)
        for graph in (networkx.cycle_graph(3), networkx.DiGraph([(1, 2)]), lonely, networkx.MultiGraph(),
                      networkx.DiGraph([(1, 2, {"shift": None})]), networkx.DiGraph([(1, 2, {"shift": "x"})])):
            with self.assertRaises(NotANet):
                read(graph)
