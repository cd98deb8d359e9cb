"""Rows whose words are keywords elsewhere, nodes that are not known, and that whatever is passed over is reported."""

import io

from testing import FolderTest, command, need_modules, run

need_modules("gemmi", "numpy", "scipy")
from crystal_nets.blocks.collection import Collector  # noqa: E402
from crystal_nets.blocks.converter import Converter  # noqa: E402
from crystal_nets.blocks.groups import find_space_group  # noqa: E402
from crystal_nets.graph import QuotientGraph  # noqa: E402
from crystal_nets.provenance import DOUBT, DROPPED, REFUSED  # noqa: E402
from crystal_nets.reading import nets_of_cgd  # noqa: E402

COMMAND = command("convert --as nets")
WORDS = ("Cs", "CS", "Ring", "Rings", "Body", "Tile", "Tiles", "Node", "Vertex", "Symmetry", "Td10", "Density", "Comment")
BCU = """crystal
 name x
 Group Im-3m
 CELL 1.1547 1.1547 1.1547 90 90 90
 Nodes
  {0} 8 0 0 0
 Edges
  {0} 1/2 1/2 1/2
end
"""
CSCL = """CRYSTAL
\tNAME CsCl
\tGROUP Pm-3m
\tCELL 1 1 1 90 90 90
\tATOMS
\t\t{0} 8 0 0 0
\t\tCl\t8 1/2 1/2 1/2
\tBONDS
\t\t{0} Cl
END
"""
DIA = """PERIODIC_GRAPH
  NAME x
  EDGES
  {0} {1} 0 0 0
  {1} {0} 1 0 0
  {0} {1} 0 1 0
  {0} {1} 0 0 1
END
"""


def told_of(text: str) -> list[tuple[str, str]]:
    """What is reported of a text, by its kind."""
    told: list[tuple[str, str]] = []
    Converter("x", lambda _: None, lambda line, kind: told.append((kind, line))).convert(io.BytesIO(text.encode()))
    return told


def graph_of(text: str) -> QuotientGraph:
    net, = nets_of_cgd(text)
    assert not net.refusal, net.refusal
    return net.graph


class Words(FolderTest):
    def test_vertices_that_are_called_as_keywords_are(self):
        for form in (BCU, CSCL):
            wanted = graph_of(form.format("V1")).edges
            for word in WORDS:
                for ending in ("\n", "\r\n"):
                    text = form.format(word).replace("\n", ending)
                    self.assertEqual(graph_of(text).edges, wanted, text)
                    self.assertEqual(told_of(text), [])

    def test_vertices_of_periodic_graphs(self):
        wanted = {edge.shift for edge in graph_of(DIA.format("1", "2")).edges}
        for word in (*WORDS, "Face", "Operations"):
            for pair in ((word, "L1"), ("L1", word), (word, "1"), (word, word + "2")):
                net = graph_of(DIA.format(*pair))
                self.assertEqual((len(net.edges), len(net.vertices)), (4, 2), (pair, net))
                self.assertEqual(len({edge.shift for edge in net.edges}), len(wanted))
                self.assertNotIn(DROPPED, [kind for kind, _ in told_of(DIA.format(*pair))])

    def test_sequences_are_no_rows(self):
        for rows in ("CS 4 12 24 42", "CS\n 4 12 24 42\n 4 12 24 42", "COORDINATION_SEQUENCES\n 4 12 24 42"):
            text = DIA.format("1", "2").replace("END", rows + "\nEND")
            self.assertEqual(len(graph_of(text).edges), 4)
            kinds = [kind for kind, _ in told_of(text)]
            self.assertEqual(kinds, [])
        text = BCU.format("V1").replace(" Edges", "  CS 8 26 56 98\n Edges")
        self.assertEqual(graph_of(text).edges, graph_of(BCU.format("V1")).edges)
        self.assertEqual(told_of(text), [])

    def test_a_net_is_compared_with_what_is_stated_of_it(self):
        text = BCU.format("V1").replace(" Edges", "  CS 8 26 57 98\n Edges")
        (kind, told), = told_of(text)
        self.assertEqual((kind, "line 7: no vertex has the coordination sequence '8 26 57 98'" in told), (REFUSED, True), told)
        for rows, is_told in (("CS 4 12 24 42", False), ("COORDINATION_SEQUENCES\n 4 12 24 42\n 4 12 25 44", True), ("CS 4 12 24 43", True)):
            told = told_of(DIA.format("1", "2").replace("END", rows + "\nEND"))
            self.assertEqual([kind for kind, _ in told], [REFUSED] * is_told, told)
        named = BCU.format("V1").replace(" Edges", "  COORDINATION_SEQUENCE\n V1 8 26 56 98 152\n Edges")
        self.assertEqual(told_of(named), [])

    def test_densities(self):
        """Of diamond TD10 is 981, or 980 without the vertex itself, and 0.6495 vertices stand in the cube of an edge."""
        crystal = ("CRYSTAL\n NAME dia\n GROUP Fd-3m\n CELL {0} {0} {0} 90 90 90\n NODE 1 4 .125 .125 .125\n EDGE 1 -.125 -.125 -.125\n"
                   " {1}\nEND\n")
        for row, is_told in (("TD10 981", False), ("TD10 980.0", False), ("TD10 991", True), ("DENSITY 0.6495", False),
                             ("DENSITY 0.65", False), ("DENSITY 0.7698", True), ("TD10 x", True)):
            for text in (crystal.format(2.3094, row), crystal.format(3.567, row), DIA.format("1", "2").replace("END", row + "\nEND")):
                kinds = [kind for kind, _ in told_of(text)]
                has_places = text.startswith("CRYSTAL")
                self.assertEqual(kinds, [DOUBT] * is_told if has_places or "TD10" in row else [DROPPED], text)
        self.assertEqual(told_of(crystal.format(3.567, "DENSITY 0.17627")), [])  # vertices in a unit of volume

    def test_stated_rows_of_symbolic_nets(self):
        text = "NET\n NAME pcu\n GROUP Pm-3m\n NODE 1 0,0,0\n EDGE 1 1 x+1,y,z\n CS {0}\nEND\n"
        self.assertEqual(told_of(text.format("6 18 38")), [])
        self.assertEqual([kind for kind, _ in told_of(text.format("6 18 39"))], [REFUSED])

    def test_middles_of_edges(self):
        """A cell of iron without its symmetry, whose two nodes with the degree 6 would be joined as hex by distance."""
        centres = "".join(f" EDGE_CENTER {x} {y} {z}\n" for x in (.25, .75) for y in (.25, .75) for z in (.25, .75))
        text = ("CRYSTAL\n NAME x\n GROUP P1\n CELL 1 1 1 90 90 90\n NODE 1 8 0 0 0\n NODE 2 8 .5 .5 .5\n{}END\n")
        self.assertEqual(told_of(text.format(centres)), [])
        wrong = text.format(centres.replace("0.25 0.25 0.25", "0.5 0 0"))
        (kind, told), = told_of(wrong)
        self.assertEqual((kind, "line 7: no edge has its middle at 0.5 0 0" in told), (REFUSED, True), told)
        (kind, told), = told_of(text.format(centres.partition("\n")[0] + "\n"))
        self.assertEqual((kind, "7 of 8 edges have their middle at none that is listed" in told), (DOUBT, True), told)

    def test_rows_that_are_no_faces(self):
        text = CSCL.format("V1").replace("\t\tV1 Cl", "\tFACE 3 0 0 0 1 0 0 1 1 0\n\t\tV1 Cl")
        (kind, told), = told_of(text)
        self.assertEqual((kind, "line 10: 'V1 Cl' stands under FACE" in told), (REFUSED, True))
        text = CSCL.format("V1").replace("END", "\tFACE 3 0 0 0 1 0 0 1 1 0\nEND")
        self.assertEqual(told_of(text), [(DROPPED, 'x: line 1 "CsCl": line 10: FACE is not used here, with 1 row')])

    def test_edges_of_a_tiling_are_told(self):
        text = ("TILING\n NAME cubes\n GROUP Pm-3m\n NODE V 6 0 0 0\n EDGES\n  V 1 0 0\n"
                " FACES 4 0 0 0 1 0 0 1 1 0 0 1 0\nEND\n")
        self.assertEqual(told_of(text), [(DROPPED, 'x: line 1 "cubes": line 6: EDGE is not used here, with 1 row')])
        self.assertEqual(len(graph_of(text).edges), 3)

    def test_what_is_passed_over_is_told_in_any_case(self):
        text = CSCL.format("V1").replace("END", "\tWONDER 3\n\t 4 5\n\tTILE 5\nEND")
        told = run(COMMAND, "--quiet", "-", stdin=text.encode()).stderr.decode().splitlines()
        self.assertEqual([line.partition('": ')[2] for line in told],
                         ["line 10: WONDER is no keyword, and is passed over, with 2 rows",
                          "line 12: TILE is passed over, with 1 row"])
        text = CSCL.format("V1").replace("END", "\tCOMMENT\nCRYSTAL\n\tNAME y\nEND")
        self.assertIn("line 11: CRYSTAL begins before the END", told_of(text)[0][1])

    def test_archives_tell_what_is_passed_over(self):
        refused: list[str] = []
        collector = Collector("x", refused)
        collector.convert(io.BytesIO(CSCL.format("V1").replace("END", "\tTILE 5\nEND").encode()))
        self.assertEqual((len(collector.nets), refused), (1, []))
        self.assertEqual(collector.told, ['x: line 1 "CsCl": line 10: TILE is passed over, with 1 row'])

    def test_a_node_that_is_not_known_is_refused(self):
        for row, line in (("Zink 1/2 1/2 1/2", 8), ("1/2 1/2 1/2 Zink", 8), ("Zink {0}", 8), ("{0} Zink", 8), ("Zink Zink", 8)):
            text = BCU.replace("{0} 1/2 1/2 1/2", row).format("V1")
            (kind, told), = told_of(text)
            self.assertEqual((kind, f"line {line}: there is no node 'Zink'" in told), (REFUSED, True), told)

    def test_edges_by_distance_where_none_are_listed(self):
        for edges, wanted in (("", 4), ("V1 1 0 0", 0)):
            text = BCU.replace("{0} 1/2 1/2 1/2", edges).format("V1")
            told = "edges that are listed are fewer than the degrees ask for: 4 are added by distance to 0" if wanted else "'V1' has 14 neighbours, 8 are stated"
            self.assertIn(told, told_of(text)[0][1])
            if wanted:
                self.assertEqual(len(graph_of(text).edges), wanted)

    def test_some_edges_by_distance(self):
        """Two kinds of edges of primitive cubic in a tetragonal group, of which one is listed."""
        text = "CRYSTAL\n NAME x\n GROUP P4/mmm\n CELL 1 1 1.1 90 90 90\n NODE 1 6 0 0 0\n EDGE 1 1 0 0\nEND\n"
        self.assertEqual(len(graph_of(text).edges), 3)
        self.assertEqual([kind for kind, _ in told_of(text)], [DOUBT])

    def test_tilings_of_the_plane_without_a_cell(self):
        for face in ("4 0 0 1 0 1 1 0 1", "0 0 1 0 1 1 0 1"):
            net = graph_of(f"TILING\n NAME x\n GROUP p4mm\n FACE {face}\nEND\n")
            self.assertEqual((len(net.edges), len(net.edges[0].shift)), (2, 2))

    def test_names_of_groups_that_are_near(self):
        for name, near in (("Fd-3mm", "fd-3m"), ("Pnmma", "pnma")):
            (kind, told), = told_of(BCU.format("V1").replace("Im-3m", name))
            self.assertEqual((kind, near in told), (REFUSED, True), told)

    def test_numbers_that_are_spelled_in_two_ways(self):
        text = "PERIODIC_GRAPH\n NAME x\n EDGES\n 1 01 0 0\n 01 1 1 0\n 1 1 0 1\nEND\n"
        self.assertEqual([(kind, "01 and 1 are different vertices" in told) for kind, told in told_of(text)], [(DOUBT, True)])

    def test_edges_by_distance_in_iron(self):
        text = BCU.replace(" Edges\n  {0} 1/2 1/2 1/2\n", "").format("V1")
        self.assertEqual(len(graph_of(text).edges), 4)

    def test_a_node_with_a_broken_number_is_refused(self):
        text = CSCL.replace("Cl\t8 1/2 1/2 1/2", "Chlorine 8 O.5 1/2 1/2").format("V1")
        self.assertIn("line 7: 'O.5' is no number", told_of(text)[0][1])

    def test_rows_before_a_section(self):
        text = DIA.replace("  EDGES\n", "").format("1", "2")
        self.assertEqual(graph_of(text).edges, graph_of(DIA.format("1", "2")).edges)
        self.assertIn("as Systre takes them", told_of(text)[0][1])
        named = DIA.replace("  EDGES\n", "").format("Cs", "L1")
        self.assertEqual(len(graph_of(named).edges), 4)


class FullSymbols(FolderTest):
    def test_full_symbols_of_all_groups(self):
        need_modules("spglib")
        import spglib
        for number in range(1, 531):
            kind = spglib.get_spacegroup_type(number)
            full = kind["international_full"].replace("_", "")
            for text in (full, full.replace(" ", ""), full.lower()):
                found = find_space_group(text)
                self.assertEqual(found and found.number, kind["number"], text)

    def test_full_symbols_in_blocks(self):
        for symbol, short in (("F 41/d -3 2/m", "Fd-3m"), ("F 41/d -3 2/m:1", "Fd-3m:1"), ("R -3 2/m", "R-3m"),
                              ("R -3 2/m:R", "R-3m:R"), ("P 4/m 2/m 2/m", "P4/mmm"), ("C 2/m 2/c 21/e", "Cmce"),
                              ("P 63/m 2/m 2/c", "P63/mmc"), ("P 21/a -3", "Pa-3"), ("F41/d-32/mS", "Fd-3m:1")):
            self.assertEqual(find_space_group(symbol), find_space_group(short), symbol)
