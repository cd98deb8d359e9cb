"""The one form of a net: quotient graphs, their text, and what travels with them."""

import unittest
from itertools import product

from testing import TOP, need_modules

from crystal_nets import Net, NotANet, read
from crystal_nets.graph import Edge, QuotientGraph, edge
from crystal_nets.provenance import DOUBT, OTHER, Note, Provenance
from crystal_nets.texts.graph_text import graph_of_text, text_of_graph, written_labels, written_name

DIA = QuotientGraph(("Si1", 7), (Edge(0, 1, (0, 0, 0)), Edge(1, 0, (-1, 0, 0)), Edge(0, 1, (0, 1, 0)),
                                 Edge(0, 1, (0, 0, 1))), 3, "dia")


class Graphs(unittest.TestCase):
    def test_a_graph_comes_back_from_its_text(self):
        for graph in (DIA, QuotientGraph.of(("a",), [edge(0, 0, (1, 0)), edge(0, 0, (0, 1))], 2, "é"), DIA.canonical()):
            again = graph_of_text(text_of_graph(graph), graph.name)
            self.assertEqual((again, hash(again)), (graph, hash(graph)))
        for net in read(TOP / "archives/common.cgd")[:50]:
            self.assertEqual(graph_of_text(text_of_graph(net.graph), net.name), net.graph)

    def test_what_the_program_takes_for_no_net_is_no_graph(self):
        rows = "EDGES\n1 1 0 1\n1 1 1 0\n"
        for text, line in ((f"PERIODIC_GRAPH\n{rows}PERIODIC_GRAPH\n{rows}END\n", 5), (f"PERIODIC_GRAPH\nNAME a\n{rows}ID b\nEND\n", 6),
                           ("PERIODIC_GRAPH\n1 1 0 1\nEND\n", 2), ("PERIODIC_GRAPH\nEDGES\n1 1 0 1\nNAME a\n1 1 1 0\nEND\n", 5)):
            with self.assertRaisesRegex(NotANet, f"line {line} of the block is no row"):
                graph_of_text(text.encode())
        for text in ("PERIODIC_GRAPH\nbond 1 1 0 1\n1 1 1 0\nEND\n", "# x\nperiodic_graph\nEdges\n\n1 1 0 1 # y\nID 5\nBONDS\n1 1 1 0\nEND\n"):
            self.assertEqual(graph_of_text(text.encode()).edges, (Edge(0, 0, (0, 1)), Edge(0, 0, (1, 0))))
        for edges, fault in (((), "no edges"), ([(1, 1, (1, 0)), (1, 1, (0, 1, 0))], "several lengths"), ([(1, 1, (1,))], "two or three"),
                             ([(1, 1, (0, 0)), (1, 1, (0, 1))], "to itself"), ([(1, 2, (0, 0))], "")):
            found = QuotientGraph.of_labelled(edges).fault
            self.assertIn(fault, found)
            self.assertEqual(bool(found), bool(fault))

    def test_an_edge_is_one_in_both_directions(self):
        for u, v, shift in product((0, 1), (0, 1), product((-1, 0, 1), repeat=2)):
            if u != v or any(shift):
                self.assertEqual(edge(*Edge(u, v, shift).reversed()), edge(u, v, shift))
        twice = QuotientGraph(("a", "b"), (Edge(0, 1, (1, 0)), Edge(1, 0, (-1, 0)), Edge(0, 0, (0, 1))), 2)
        self.assertEqual(len(twice.edges), 3)
        self.assertEqual(twice.labelled_edges, (("a", "b", (1, 0)), ("a", "a", (0, 1))))
        self.assertEqual(twice.canonical().edges, (Edge(0, 0, (0, 1)), Edge(0, 1, (1, 0))))

    def test_vertices_that_are_written_alike_but_differ_stay_two(self):
        net = Net.from_block(b'PERIODIC_GRAPH\nEDGES\n01 "01" 0 0\n01 01 1 0\n"01" "01" 0 1\nEND\n')
        self.assertEqual((net.vertices, len(net.edges)), (("01", "01"), 3))

    def test_neither_graphs_nor_nets_change(self):
        with self.assertRaises(AttributeError):
            DIA.name = "other"
        net = Net.of_graph(DIA)
        for field in ("name", "provenance", "refusal", "_block", "other"):
            with self.assertRaises(AttributeError):
                setattr(net, field, "other")
        self.assertEqual((net.named("x").name, net.name, net.named("x").block), ("x", "dia", net.block))

    def test_labels_and_names_that_can_be_written(self):
        labels = written_labels(['a"', "a_", "12", "012", "x" * 300, "x" * 301, "1" * 10, "\ud800"])
        self.assertEqual(labels[:4], ("a_", "a__2", 12, "012"))
        self.assertEqual(len(set(labels)), 8)
        self.assertLessEqual(max(len(str(label).encode()) for label in labels), 200)
        self.assertEqual(written_name('a"b\n'), "a_b_")
        self.assertEqual(len(written_name("é" * 150).encode()), 198)

    def test_where_there_is_no_net_there_is_no_graph(self):
        for net in (Net.refused("why"), Net.from_block(b"PERIODIC_GRAPH\nEDGES\n1 1 1 0\nwhat\nEND\n")):
            with self.assertRaises(NotANet):
                net.graph  # noqa: B018


class Provenances(unittest.TestCase):
    def test_it_travels_with_a_structure_to_its_net(self):
        need_modules("gemmi", "numpy", "scipy")
        text = (TOP / "examples/quartz.cif").read_text()
        net, = read(text, name="quartz.cif", convention="auto")
        self.assertEqual((net.provenance.convention, net.provenance.copies), ("all-atoms", 1))
        self.assertIn("9 atoms", net.provenance.made)

    def test_interwoven_nets_are_counted(self):
        need_modules("gemmi", "numpy", "scipy", "ase")
        from ase.spacegroup import crystal
        cuprite = crystal(["O", "Cu"], [(0.25, 0.25, 0.25), (0, 0, 0)], spacegroup=224, setting=2,
                          cellpar=[4.27] * 3 + [90] * 3)
        net, = read(cuprite)
        self.assertEqual(net.provenance.copies, 2)

    def test_a_block_knows_its_line(self):
        text = b"# two\nPERIODIC_GRAPH\nEDGES\n1 1 1 0\nEND\n\nPERIODIC_GRAPH\nEND"
        self.assertEqual([net.provenance.line for net in read(text)], [2, 7])

    def test_there_and_back(self):
        made = Provenance((Note(DOUBT, "a"), Note(OTHER, "b")), "all-atoms", "of 9 atoms", 2, 7)
        self.assertEqual(Provenance.from_dict(made.to_dict()), made)
        self.assertEqual((made.doubts, made.texts), (("a",), ("a", "b")))
        for fields in ({}, [], None, {"notes": 1, "convention": "", "made": "", "copies": 1, "line": 0},
                       {"notes": [["a"]], "convention": "", "made": "", "copies": 1, "line": 0}):
            with self.assertRaises(ValueError):
                Provenance.from_dict(fields)
