"""Blocks of .cgd and .arc files: known embeddings by their names in the archive, each form of a row, refusals by their
lines, and broken texts."""

import io
import random
import re
import sys

from testing import IS_LONG, PROGRAM, TOP, FolderTest, command, long_test, need_modules, need_program, run

need_modules("gemmi", "numpy", "scipy")
from crystal_nets.blocks.converter import Converter  # noqa: E402
from crystal_nets.texts.net_text import nets_of_report  # noqa: E402

COMMAND = command("convert --as nets")
ARCHIVE = TOP / "archives/common.archive"
MUTANTS = 2000 if IS_LONG else 700

# the symbol of a net; a group, a cell, nodes of an embedding whose nearest neighbours are the edges; and the edges
KNOWN = """
pcu | Pm-3m | 1 1 1 90 90 90 | 1 6 0 0 0 | 0 0 0 0 0 1
bcu | Im-3m | 1.1547 1.1547 1.1547 90 90 90 | 1 8 0 0 0 | 0 0 0 .5 .5 .5
fcu | Fm-3m | 1.4142 1.4142 1.4142 90 90 90 | 1 12 0 0 0 | 0 0 0 .5 .5 0
dia | Fd-3m | 2.3094 2.3094 2.3094 90 90 90 | 1 4 5/8 5/8 5/8 | 1 3/8 3/8 3/8
dia | Fd-3m:1 | 2.3094 2.3094 2.3094 90 90 90 | C 4 0 0 0 | C .25 .25 .25
dia | F d 3 m | 2.3094 2.3094 2.3094 90 90 90 | V1 4 .125 .125 .125 | -.125 -.125 -.125 V1
dia | -F 4vw 2vw 3 | 1 1 1 90 90 90 | V1 4 0.125 0.125 0.125 | 1.25e-1 .125 .125 -1.25E-1 -.125 -.125
dia | 227 | 1 1 1 90 90 90 | 1 4 0.125(2) 0.125 0.125 | 1 -.125 -.125 -.125
nbo | Im-3m | 2 2 2 90 90 90 | 1 4 0 1/2 1/2 | 0 .5 .5 0 0 .5
sod | Im-3m | 2.8284 2.8284 2.8284 90 90 90 | 1 4 .25 0 .5 | .25 0 .5 .5 0 .75
srs | I4132 | 2.8284 2.8284 2.8284 90 90 90 | 1 3 .125 .125 .125 | .125 .125 .125 -.125 .375 .125
lcv | I4132 | 2.3094 2.3094 2.3094 90 90 90 | 1 4 .125 0 .25 | .125 0 .25 .25 .125 0
crs | Fd-3m:2 | 2.8284 2.8284 2.8284 90 90 90 | 1 6 .5 .5 .5 | .5 .5 .5 .25 .25 .5
reo | Pm-3m | 1.4142 1.4142 1.4142 90 90 90 | 1 8 .5 0 0 | .5 0 0 0 .5 0
qtz | P6222 | 5 5 5.46 90 90 120 | Si 4 .5 0 0 | .5 0 0 .5 .5 .33333
lon | P63/mmc | 1.633 1.633 2.6667 90 90 120 | 1 4 .3333 .6667 .0625 | 1 .6667 .3333 -.0625 ; 1 .3333 .6667 .4375
ths | I41/amd:1 | 4.126 4.126 14.346 90 90 90 | Si 3 0 0 .4165 | Si 0 0 .5835 ; Si 0.5 0 .3335
rtl | P42/mnm | 4.594 4.594 2.959 90 90 90 | Ti 6 0 0 0 , O 3 .3053 .3053 0 | Ti O ; Ti .1947 -.1947 .5
pts | P42/mmc | 3.47 3.47 6.11 90 90 90 | Pt 4 0 .5 0 , S 4 0 0 .25 | Pt S
flu | Fm-3m | 5.463 5.463 5.463 90 90 90 | Ca 8 0 0 0 , F 4 .25 .25 .25 | Ca F
hcp | P63/mmc | 1 1 1.633 90 90 120 | 1 12 1/3 2/3 1/4 | 1 4/3 2/3 1/4 ; 1 2/3 1/3 3/4
acs | P63/mmc | 1.2 1.2 1.4 90 90 120 | 1 6 1/3 2/3 1/4 | 1 2/3 1/3 3/4
LTA | Pm-3m | 11.919 11.919 11.919 90 90 90 | T1 4 0 .1823 .3684 | T1 0 .1823 .6316 ; T1 0 .3684 .1823 ; T1 .1823 0 .3684
hcb | p6mm | 1.73205 1.73205 120 | 1 3 1/3 2/3 | 1/3 2/3 2/3 1/3
kgm | p6m | 2 2 120 | 1 4 1/2 0 | 1/2 0 1/2 1/2
sql | p4mm | 1 1 90 | 1 4 0 0 | 1 0 1
hxl | p 6 m m | 1 1 120 | 1 6 0 0 | 1 1 0
""".strip().splitlines()

# of which the nearest neighbours are not the edges
WITH_EDGES = """CRYSTAL
  NAME cds
  GROUP P42/mmc
  CELL 1 1 2 90 90 90
  NODE 1 4 0 0 0
  EDGES
    0 0 0  1 0 0
    0 0 0  0 0 1/2
END
"""
KGD = """CRYSTAL
NAME kgd
GROUP p6mm
CELL 1.73205 1.73205 120
ATOM A 6 0 0
ATOM B 3 1/3 2/3
EDGE B A
END
"""
NET = """NET # the diamond net
  Group Fd-3m
  Node 1 3/8,3/8,3/8
  Edge 1 1 1-x,1-y,1-z
END
"""
CUBES = """TILING
  NAME "pcu, by cubes"
  GROUP Pm-3m
  FACES 4 0 0 0 1 0 0 1 1 0 0 1 0
END
TILING
  NAME "sod, by truncated octahedra"
  GROUP Im-3m
  CELL 1 1 1 90 90 90
  FACE 4 .5 .25 0 .5 0 .25 .5 -.25 0 .5 0 -.25
  FACE 6 .5 .25 0 .5 0 .25 .25 0 .5 0 .25 .5 0 .5 .25 .25 .5 0
END
"""
OTHER_FORMS = """CRYSTAL
  SPACEGROUP "P m -3 m"   # a comment
  ID "pcu, \u00e9 of one"
  VERTICES
    "a b" 6 0.5 0.5 0.5
  EDGE_CENTER 0.5 0.5 1
  COORDINATION_SEQUENCES
    6 18 38
  BONDS "a b" 0.5 0.5 1.5
end
crystal
  name pcu written out
  OPERATIONS
    -x,y,z
    "x,-y, z"
    x, y, -z; y, x, z
    y,z,x
  Cell 2 2 2 90 90 90
  atom 7 6 0 0 0
END
CRYSTAL
  NAME sql from operations
  GROUP -y,x -x,y
  CELL 1 1 90
  NODES
   X 4 0 0
END
CRYSTAL
  NAME pcu without a group
  CELL 1 1 1 90 90 90
  NODE 1 6 .1 .2 .3
END
CRYSTAL
  NAME pcu without a cell
  GROUP Pm-3m
  NODE 1 6 0 0 0
END
CRYSTAL
  NAME bcu with a node twice, by a Hall symbol that moves the origin
  GROUP I 4 2 3 (x,y,z)
  CELL 1 1 1 90 90 90
  NODE 1 8 0 0 0
  NODE 2 8 1/2 1/2 1/2
  EDGE 1 2
END
"""
PERIODIC = """PERIODIC_GRAPH
ID dia of words
EDGES A B 0 0 0 # one
  A B 1 0 0
  A "B" 0 1 0
  A B 0 0 1
COORDINATION_SEQUENCES
  4 12 24
END
"""
ITEMS = """key 3 1 2 0 0 0 1 2 1 0 0 1 2 0 1 0 1 2 0 0 1
  version 1.0
  id dia
  checksum 12ab
end
"""

REFUSED = {  # the rest of a CRYSTAL block from its third line on, and the reason with the line where it shows
    "GROUP Pm-3m\nCELL 1 1 2 90 90 90\nNODE 1 6 0 0 0": "line 4: the cell does not fit P m -3 m",
    "GROUP P2/m\nCELL 1 2 3 90 90 110\nNODE 1 6 0 0 0": "line 4: the cell does not fit P 1 2/m 1; it fits P 1 1 2/m",
    "GROUP R-3m\nCELL 1 1 1 60 60 60\nNODE 1 12 0 0 0": "line 4: the cell does not fit R -3 m:H; it fits R -3 m:R",
    "GROUP Pm-4m\nCELL 1 1 1 90 90 90\nNODE 1 6 0 0 0": "line 3: no space group is 'Pm-4m'",
    "GROUP p5\nCELL 1 1 90\nNODE 1 4 0 0": "line 3: no plane group is 'p5'",
    "GROUP P1\nGROUP P1\nCELL 1 1 1 90 90 90\nNODE 1 6 0 0 0": "line 4: a second GROUP",
    "CELL 1 1 1 90 90\nNODE 1 6 0 0 0": "line 3: CELL has 3 numbers in the plane, and 6 in space",
    "CELL 1 1 1 90 90 180\nNODE 1 6 0 0 0": "line 3: these numbers are no cell",
    "CELL 1 1 0 90 90 90\nNODE 1 6 0 0 0": "line 3: these numbers are no cell",
    "CELL 1 1 1 90 90 90\nNODE 1 6 0 0": "line 4: a node has a name, a degree and 3 coordinates",
    "CELL 1 1 1 90 90 90\nNODE 1 6 0 0 a": "line 4: 'a' is no number",
    "CELL 1 1 1 90 90 90\nNODE 1 6 0 0 1/0": "line 4: '1/0' is no number",
    "CELL 1 1 1 90 90 90\nNODE 1 6 0 0 1e9": "line 4: a coordinate is beyond 1000",
    "CELL 1 1 1 90 90 90\nNODE 1 6.5 0 0 0": "line 4: '6.5' is no degree",
    "CELL 1 1 1 90 90 90\nNODE 1 6 0 0 0\nEDGE 1 2": "line 5: there is no node '2'",
    "CELL 1 1 1 90 90 90\nNODE 1 6 0 0 0\nEDGE 1 0 0": "line 5: an edge has 2 nodes",
    "CELL 1 1 1 90 90 90\nNODE 1 6 0 0 0\nEDGE 1 0 0 .5": "line 5: no node is at the end 0 0 0.5",
    "CELL 1 1 1 90 90 90\nNODE 1 6 0 0 0\nEDGE 1 0 0 0": "line 5: both ends of an edge are one vertex",
    "CELL 1 1 1 90 90 90\nNODE 1 6 0 0 0\nNODE 2 4 1 0 0": "line 5: the node '2' is where '1' is, which has another",
    "CELL 1 1 1 90 90 90\nNODE 1 6 0 0 0\nNODE 1 6 .5 0 0\nEDGE 1 1 0 0": "line 6: there are 2 nodes '1'",
    "CELL 1 1 1 90 90 90\nNODE 1 5 0 0 0": "line 4: the node '1' has 6 neighbours, 5 are stated",
    "CELL 1 1 1 90 90 90\nNODE 1 4 0 0 0\nEDGE 1 1 0 0": "line 4: the node '1' has 6 neighbours, 4 are stated",
    "GROUP P42/mmc\nCELL 1 1 2 90 90 90\nNODE 1 4 0 0 0": "line 5: the node '1' has 6 neighbours, 4 are stated",
    "GROUP P4/mmm\nNODE 1 6 0 0 0": "there is no CELL, and edges are to be found by distance",
    "GROUP x,y,z -x,y\nCELL 1 1 1 90 90 90\nNODE 1 6 0 0 0": "line 3: ",
    "GROUP x+y,y,z x,x+y,z\nCELL 1 1 1 90 90 90\nNODE 1 6 0 0 0": "line 3: the operations generate more than 192",
    "CELL 1 1 1 90 90 90\nNODE \"1 6 0 0 0": "line 4: a quote without its partner",
    "CELL 1 1 1 90 90 90\nCRYSTAL\nNODE 1 6 0 0 0": "line 4: CRYSTAL begins before the END of this block",
    "CELL 1 1 1 90 90 90": "there are no nodes",
    "1 2 3\nNODE 1 6 0 0 0": "line 3: '1' stands under no keyword",
}

MEASURE = """import resource, subprocess, sys
command, file, out, err = sys.argv[1:]
ended = subprocess.run([command, "--quiet", file], stdout=open(out, "wb"), stderr=open(err, "wb")).returncode
used = resource.getrusage(resource.RUSAGE_CHILDREN)
print(ended, used.ru_utime + used.ru_stime, used.ru_maxrss / 1000)"""


def parts_of(line: str) -> list[str]:
    """The parts of a row of KNOWN, with each node and edge on a line of its own."""
    parts = [part.strip() for part in line.split("|")]
    return [*parts[:3], parts[3].replace(" , ", "\nNODE "), parts[4].replace(" ; ", "\nEDGE ")]


def converted(text: bytes) -> tuple[bytes, list[str]]:
    """What is written, and what is reported, without a new process."""
    written, told = [], []
    Converter("x", written.append, lambda line, kind: told.append(line)).convert(io.BytesIO(text))
    return b"".join(written), told


class Texts(FolderTest):
    def nets(self, text, *words):
        report = run(PROGRAM, "identify", "-", "--archive", ARCHIVE, stdin=text, status=None).stdout
        return list(nets_of_report(report.splitlines(keepends=True)))

    def names(self, text):
        """What the command reads, by the first names of the archive."""
        need_program()
        done = run(COMMAND, stdin=text.encode() if isinstance(text, str) else text)
        return [net.names[0].decode().split(",")[0] if net.names else net.outcome for net in self.nets(done.stdout)]

    def test_known_embeddings(self):
        text, wanted = "", []
        for symbol, group, cell, nodes, edges in map(parts_of, KNOWN):
            head = f"CRYSTAL\nNAME {symbol}\nGROUP {group}\nCELL {cell}\nNODE {nodes}\n"
            text += head + "END\n" + head + f"EDGE {edges}\nEND\n"
            text += head + "EDGES\n" + edges.replace("EDGE ", "  ") + "\n# EDGE_CENTER 0 0 0\nEND\n"
            wanted += [symbol] * 3
        self.assertEqual(self.names(text), wanted)

    def test_edges_that_are_no_nearest_neighbours(self):
        self.assertEqual(self.names(KGD), ["kgd"])
        self.assertIn("'B' has 6 neighbours, 3 are stated", converted(KGD.replace("EDGE", "COMMENT").encode())[1][-1])

    def test_cds_is_not_taken_for_pcu(self):
        self.assertEqual(self.names(WITH_EDGES), ["cds"])
        self.assertIn("6 neighbours, 4 are stated", converted(WITH_EDGES.replace("EDGES", "COMMENT").encode())[1][-1])

    def test_nets_by_operations_and_tilings(self):
        self.assertEqual(self.names(NET), ["dia"])
        self.assertEqual(self.names(CUBES), ["pcu", "sod"])
        told = converted(NET.replace("1-x,1-y,1-z", "1/2-x,1-y,1-z").encode())[1]
        self.assertIn("line 4: '1/2-x,1-y,1-z' is no operation of the group", told[0])
        told = converted(NET.replace("1-x,1-y,1-z", "x,y,z").encode())[1]
        self.assertIn("line 4: both ends of an edge are one vertex", told[0])

    def test_synonyms_quotes_and_operations(self):
        self.assertEqual(self.names(OTHER_FORMS), ["pcu", "pcu", "sql", "pcu", "pcu", "bcu"])

    def test_periodic_graphs_of_other_programs(self):
        self.assertEqual(self.names(PERIODIC), ["dia"])
        text = (TOP / "examples/twice.cgd").read_bytes()
        self.assertEqual(converted(text)[0], text)

    def test_all_blocks_that_are_read_already_stay_as_they_are(self):
        for name in ("common.cgd", "zeolites.cgd"):
            text = (TOP / "archives" / name).read_bytes()
            self.assertEqual(converted(text), (text, []))
        text = b"OTHER thing\n CRYSTAL class\n NODE 1\nEND\n\n# CRYSTAL\n\"CRYSTAL\"\nEND x\nEND\n"
        stayed, told = converted(text)
        self.assertEqual((stayed, len(told)), (text, 2))

    def test_items_of_key_lines(self):
        self.assertEqual(self.names(ITEMS), ["dia"])
        for old, new, reason in (("key 3", "key 4", "line 1: a key line has its dimension"),
                                 ("0 0 1\n", "0 0 501\n", "beyond 500"), ("1 2 0 0 0", "1 1 0 0 0", "one vertex"),
                                 ("  id dia\n", "", "no id line"), ("end", "", "there is no END"),
                                 ("  version", "key 2 1 1 1 0\n version", "line 2: a second key line"),
                                 ("1 2 0 0 1", "1 4 0 0 1", "the vertex '3' has no edge")):
            told = converted(ITEMS.replace(old, new).encode())[1]
            self.assertIn(reason, told[0])

    def test_refusals_by_their_lines(self):
        for rest, reason in REFUSED.items():
            text = f"CRYSTAL\nNAME x y\n{rest}\nEND\n"
            written, told = converted(text.encode())
            refusals = [line for line in told if "refused" in line]
            self.assertEqual(len(refusals), 1, rest)
            self.assertTrue(refusals[0].startswith(f'x: line 1 "x y": refused: {reason}'), refusals)
            self.assertTrue(all(line.startswith(b"#") for line in written.splitlines()))
            self.assertEqual(written.count(b"\n"), 1 + text.count("\n"))

    def test_what_a_reader_should_know(self):
        text = "CRYSTAL\nNAME x\nCELL 1 1 1.05 90 90 90\nNODE 1 4 0 0 0\nWONDER 3\nEND\n"
        self.assertEqual([line.partition(": ")[2] for line in converted(text.encode())[1]], [
            'line 1 "x": line 5: WONDER is no keyword, and is passed over, with 1 row',
            'line 1 "x": edges are by distance, and of the node 1 a vertex that is not joined is 1.050 times as far as '
            'one that is',
            'line 1 "x": edges are by distance, and the net is not connected'])

    def test_coordinates_of_few_digits_and_nodes_near_mirrors(self):
        rough = "CRYSTAL\nNAME x\nGROUP p6mm\nCELL 1.732 1.732 120\nNODE 1 3 .325 .675\nEND\n"
        near = ("CRYSTAL\nNAME x\nGROUP p2mm\nCELL 1 1 90\nNODE 1 4 .005 .2\n"
                "EDGES\n1 -.005 .2\n1 0.995 .2\n1 .005 -.2\n1 .005 .8\nEND\n")
        self.assertEqual(self.names(rough + near), ["hcb", "sql"])
        told = converted((rough + near).encode())[1]
        self.assertIn("places are matched within 10.0% and not 3.0%, since the node '1'", told[0])
        self.assertIn("places are matched within 0.3% and not 3.0%, since both ends of an edge are one vertex", told[-1])

    def test_statuses(self):
        file = self.folder / "a.cgd"
        file.write_text(WITH_EDGES)
        run(COMMAND, file)
        run(COMMAND, file, self.folder / "absent", status=1)
        run(COMMAND, "--none", status=2)
        run(COMMAND, "--help")
        run(COMMAND, stdin=b"CRYSTAL\n", status=1)


class Limits(FolderTest):
    def measured(self, text: bytes, status: int) -> tuple[float, float]:
        """Seconds of processor time, and memory in megabytes; what is written is in two files. A small process starts
        the command, since memory is counted from that of the process that starts it."""
        (self.folder / "big.cgd").write_bytes(text)
        files = (self.folder / name for name in ("big.cgd", "out", "err"))
        ended, seconds, memory = run(sys.executable, "-c", MEASURE, COMMAND, *files).stdout.split()
        self.assertEqual(int(ended), status)
        return float(seconds), float(memory)

    def test_a_block_with_a_million_edges_is_not_attempted(self):
        rows = b"  EDGE 0.12345 0.23456 0.34567 0.45678 0.56789 0.67890\n" * 1_000_000
        big = b"CRYSTAL\nNAME big\nNODE 1 6 0 0 0\n" + rows + b"END\n"
        seconds, memory = self.measured(big + WITH_EDGES.encode(), 1)
        self.assertLess(seconds, 30)
        self.assertLess(memory, 200)
        self.assertIn(b"more than 40000 lines", (self.folder / "err").read_bytes())
        written = (self.folder / "out").read_bytes()
        self.assertTrue(written.endswith(b"END\n") and written.count(b"\nPERIODIC_GRAPH") == 1)

    @long_test
    def test_three_thousand_blocks(self):
        blocks = [f"CRYSTAL\nNAME {symbol} {k}\nGROUP {group}\nCELL {cell}\nNODE {nodes}\nEDGE {edges}\nEND\n"
                  for k in range(120) for symbol, group, cell, nodes, edges in map(parts_of, KNOWN)]
        self.assertGreater(len(blocks), 3000)
        seconds, memory = self.measured("".join(blocks).encode(), 0)
        self.assertLess(seconds, 30)
        self.assertLess(memory, 200)

    def test_a_line_with_a_million_edges(self):
        text = b"CRYSTAL\nEDGE" + b" 0 0 0 1 0 0" * 1_000_000 + b"\nEND\n" + WITH_EDGES.encode()
        self.assertLess(self.measured(text, 1)[1], 200)
        self.assertIn(b"1048576 bytes in a line", (self.folder / "err").read_bytes())
        self.assertEqual((self.folder / "out").read_bytes().count(b"\nPERIODIC_GRAPH"), 1)


class Broken(FolderTest):
    def test_mutants(self):
        """Cut, doubled, exchanged and changed texts: each block is written or refused with a reason."""
        chance = random.Random(8)
        texts = [WITH_EDGES, NET, CUBES, OTHER_FORMS, PERIODIC, ITEMS] + [
            f"CRYSTAL\nGROUP {group}\nCELL {cell}\nNODE {nodes}\nEDGE {edges}\nEND\n"
            for _, group, cell, nodes, edges in map(parts_of, KNOWN)]
        bad = [b"", b"1/0", b"nan", b"inf", b"-", b"1e999", b"0", b"\xff\xfe", b"\"", b"#", b",", b"x,y,z", b"x,y",
               b"END\n",
               b"999999999999999999999999", b"NODE", b"EDGE", b"GROUP", b"1e-300", b"\0", b"-x,-y,-z;x", b"P 2 (", b":"]
        for _ in range(MUTANTS):
            text = mutant(chance.choice(texts).encode() + chance.choice(texts).encode(), bad, chance)
            written, told = converted(text)
            self.assertFalse([line for line in told if "failed" in line], text)
            self.assertLessEqual(written.count(b"\n# refused"), len(told) + text.count(b"# refused"))


def mutant(text: bytes, bad: list[bytes], chance: random.Random) -> bytes:
    """The text with some of its words changed, exchanged, left out or doubled, or cut short."""
    words = re.split(rb"(\s+)", text)  # words, and what is between them
    for _ in range(chance.randint(1, 3)):
        k, other = (2 * chance.randrange((len(words) + 1) // 2) for _ in range(2))
        kind = chance.randrange(12)
        if kind < 3:
            words[k] = chance.choice(bad)
        elif kind < 5:
            words[k] = b""
        elif kind < 7:
            words[k] += b" " + chance.choice([words[other], *bad])
        elif kind < 9:
            words[k], words[other] = words[other], words[k]
        elif kind < 11 and words[k]:
            at = chance.randrange(len(words[k]))
            words[k] = words[k][:at] + bytes([chance.choice(b"0123456789.-/,xyzPFIR\"#\xff\0")]) + words[k][at + 1:]
        elif kind == 11 and chance.random() < 0.3:
            words = words[:other + 1]
    return b"".join(words)
