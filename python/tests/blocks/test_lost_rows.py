"""Rows that a reader may lose: vertices called Id or End, keys in several lines, labels that would become one."""

import gzip
import io

from testing import PROGRAM, FolderTest, command, need_modules, need_program, run

need_modules("gemmi", "numpy", "scipy")
from crystal_nets.blocks.collection import Collector  # noqa: E402
from crystal_nets.blocks.converter import Converter  # noqa: E402
from crystal_nets.errors import NotANet  # noqa: E402
from crystal_nets.graph import QuotientGraph  # noqa: E402
from crystal_nets.provenance import DOUBT, DROPPED, REFUSED  # noqa: E402
from crystal_nets.reading import nets_of_cgd, read  # noqa: E402

COMMAND = command("convert --as nets")
TRIANGLES = "key 2 1 1 1 0 1 1 0 1 1 1 1 1\n  version 1.0\n  id hxl\n  checksum 0\nend\n"
CRYSTAL = "CRYSTAL\n{name}GROUP P1\nCELL 1 1 1 90 90 90\nNODE\nA 8 0 0 0\n{node} 8 .5 .5 .5\nEND\n"
GRAPH = "PERIODIC_GRAPH\n{name}EDGES\n{0} {1} 0 0 0\n{1} {0} 1 0 0\n{0} {1} 0 1 0\n{0} {1} 0 0 1\n{0} {2} 0 0 0\nEND\n"
NET = "NET\nNAME dia\nGROUP Fd-3m\nNODE 1 {}\nEDGE 1 1 {}\nEND\n"


def told_of(text: str | bytes) -> list[tuple[str, str]]:
    """What is reported of a text, by its kind."""
    told: list[tuple[str, str]] = []
    content = text if isinstance(text, bytes) else text.encode()
    Converter("x", lambda _: None, lambda line, kind: told.append((kind, line))).convert(io.BytesIO(content))
    return told


def reason_of(text: str) -> str:
    """Why the only block of a text is refused."""
    (kind, line), = told_of(text)
    assert kind == REFUSED, line
    return line


def graph_of(text: str | bytes) -> QuotientGraph:
    net, = nets_of_cgd(text)
    assert not net.refusal, net.refusal
    return net.graph


def rows_of(graph: QuotientGraph) -> tuple[int, list[tuple[int, int, tuple[int, ...]]]]:
    return len(graph.vertices), [(edge.u, edge.v, edge.shift) for edge in graph.edges]


class Strays(FolderTest):
    """Lines between blocks that open none."""

    BLOCKS = (GRAPH.format(1, 2, 3, name="NAME next\n"), TRIANGLES.replace("hxl", "next"),
              "CRYSTAL\nNAME next\nGROUP Pm-3m\nCELL 1 1 1 90 90 90\nNODE V 6 0 0 0\nEND\n")
    STRAYS = ("stray", "Nets of a friend\n  and more", "OTHER\n NODE 1\n ID 5")
    OPENINGS = ("NET of diamond", "PERIODIC_GRAPH of diamond", "CRYSTAL structures:\n ID 5")

    def test_the_next_block_is_read(self):
        texts = [(f"{stray}\n{block}", stray) for block in self.BLOCKS for stray in self.STRAYS]
        texts += [(f"{stray}\n{block}", stray) for block in self.BLOCKS[::2] for stray in self.OPENINGS]
        for text, stray in texts:
            first, second = nets_of_cgd(text)
            self.assertIn(f"line 1: a block {stray.partition(chr(10))[0]!r} is not read", first.refusal, text)
            self.assertEqual((second.name, second.refusal, second.provenance.line), ("next", "", 2 + stray.count("\n")), text)
            (kind, line), *_ = told_of(text)
            self.assertEqual((kind, line.startswith('x: line 1 "')), (REFUSED, True), text)

    def test_a_block_of_another_kind_lasts_up_to_its_end(self):
        text = "OTHER\n NODE 1\n CRYSTAL system\n key words\nEND\n"
        self.assertEqual(told_of(text), [(REFUSED, "x: line 1 \"\": refused: a block 'OTHER' is not read, up to line 5")])
        self.assertEqual([net.refusal for net in nets_of_cgd(text)], ["line 1: a block 'OTHER' is not read, up to line 5"])
        self.assertEqual(run(COMMAND, "-", stdin=text.encode(), status=1).stdout, text.encode())

    def test_the_program_reads_it_too(self):
        need_program()
        for stray in (*self.STRAYS, *self.OPENINGS):
            text = f"{stray}\n{self.BLOCKS[0]}".encode()
            self.assertNotIn(b"\ngraph ", run(PROGRAM, "check", "-", stdin=text, status=1).stdout)
            turned = run(COMMAND, "--quiet", "-", stdin=text, status=1)
            self.assertIn(b' "next"\ngraph d=3 ', run(PROGRAM, "check", "-", stdin=turned.stdout, status=None).stdout)
            self.assertIn(b': line 1 "', turned.stderr)

    def test_what_stands_behind_an_item_hides_no_block(self):
        need_program()
        for item in (TRIANGLES, TRIANGLES.replace("id hxl", "")):
            text = f"{item}checksum 5\n{self.BLOCKS[0]}".encode()
            turned = run(COMMAND, "-", stdin=text, status=None).stdout
            self.assertIn(b' "next"\ngraph d=3 ', run(PROGRAM, "check", "-", stdin=turned, status=None).stdout)

    def test_keys_of_an_archive_are_no_items(self):
        text = b'net_archive 1\nentry "a"\ngraph 2 1 2\nedge 1 1 0 1\nedge 1 1 1 0\nkey 2 1 1 1 1 0 1 1 1 1 0\nend\n'
        self.assertEqual([line for _, line in told_of(text)],
                         ["x: line 1 \"\": refused: a block 'net_archive 1' is not read, up to line 7"])

    def test_a_graph_without_its_end_is_in_no_archive_and_is_told(self):
        refused: list[str] = []
        Collector("x", refused).convert(io.BytesIO(self.BLOCKS[0].replace("END\n", "").encode()))
        self.assertEqual(refused, ['x: line 1 "next": refused: there is no END'])


class Doubts(FolderTest):
    """What is reported of a net that may be another one."""

    TEXT = CRYSTAL.format(name="NAME y\n", node="B").replace("8", "6").encode()

    def test_a_block_that_begins_before_the_end_of_another_is_told(self):
        """The program takes both for one, and refuses it: so do all tools, and say where."""
        need_program()
        square = "PERIODIC_GRAPH\nNAME {}\nEDGES\n1 1 0 1\n1 1 1 0\n"
        text = f"{square.format('a')}# x\n periodic_graph # y\n{square.format('b').partition(chr(10))[2]}END\n{square.format('c')}END\n"
        told = "line 7: PERIODIC_GRAPH begins before the END of this block: both are read as one"
        self.assertEqual(told_of(text), [(DROPPED, f'x: line 1 "a": {told}')])
        both, last = read(text)
        self.assertEqual((both.notes, last.notes), ((told,), ()))
        with self.assertRaisesRegex(NotANet, "line 7 of the block is no row"):
            both.edges
        file = self.folder / "x.cgd"
        file.write_text(text)
        done = run(COMMAND, "--quiet", file)
        self.assertEqual((done.stdout.decode(), done.stderr.decode()), (text, f'{file}: line 1 "a": {told}\n'))
        said = run(command("archive make"), self.folder / "made", file, status=1).stderr.decode()
        self.assertIn(f'{file}: line 1 "a": {told}\n', said)
        self.assertIn("malformed line=7 4 UnknownField", (self.folder / "made.refused").read_text())

    def test_quiet_tells_them(self):
        loud, quiet = (run(COMMAND, *words, "-", stdin=self.TEXT).stderr for words in ((), ("--quiet",)))
        self.assertIn(b"edges are by distance, and the net is not connected", quiet)
        self.assertEqual(quiet, loud)

    def test_archives_tell_them(self):
        refused: list[str] = []
        collector = Collector("x", refused)
        collector.convert(io.BytesIO(self.TEXT))
        self.assertIn("the net is not connected", "".join(collector.told))


class Encodings(FolderTest):
    """Texts in UTF-16 and UTF-32 are those in UTF-8."""

    TEXT = GRAPH.format('"\u00e4"', 2, 3, name='NAME "\u00e4"\n') + "CRYSTAL\nNAME y\nEND\n"

    def test_they_are_read_by_their_mark(self):
        wanted = run(COMMAND, "-", stdin=self.TEXT.encode(), status=1)
        for encoding in ("utf-16", "utf-32", "utf-8-sig"):
            content = self.TEXT.encode(encoding)
            for text in (content, gzip.compress(content)):
                done = run(COMMAND, "-", stdin=text, status=1)
                self.assertEqual((done.stdout, done.stderr), (wanted.stdout, wanted.stderr), encoding)
            self.assertEqual([net.name for net in read(content)], ["\u00e4", "y"])
        content = b"\xfe\xff" + self.TEXT.encode("utf-16-be")
        self.assertEqual([net.name for net in read(content)], ["\u00e4", "y"])

    def test_what_has_no_mark_is_told(self):
        for encoding in ("UTF-16LE", "UTF-16BE", "UTF-32LE", "UTF-32BE"):
            content = self.TEXT.encode(encoding)
            done = run(COMMAND, "-", stdin=content, status=1)
            self.assertEqual(done.stdout, b"")
            self.assertIn(f"- is in {encoding}, without a byte order mark; `iconv -f {encoding} -t UTF-8`", done.stderr.decode())
            with self.assertRaisesRegex(NotANet, f"iconv -f {encoding} "):
                read(content)

    def test_one_that_is_cut_is_told(self):
        done = run(COMMAND, "-", stdin=self.TEXT.encode("utf-16")[:-1], status=1)
        self.assertIn(b"- begins as UTF-16, and is damaged", done.stderr)


class Keys(FolderTest):
    def test_a_key_that_goes_on_in_another_line_is_refused(self):
        self.assertEqual(len(graph_of(TRIANGLES).edges), 3)
        for broken in (TRIANGLES.replace(" 1 1 1 1\n", "\n 1 1 1 1\n"), TRIANGLES.replace("end", " 1 1 1 1\nend")):
            self.assertIn("numbers begin a line: a key is one line", reason_of(broken))
            self.assertIn("a key is one line", nets_of_cgd(broken)[0].refusal)
            self.assertIn(b"a key is one line", run(COMMAND, "--quiet", "-", stdin=broken.encode(), status=1).stderr)

    def test_a_block_in_an_item_without_its_end_is_told(self):
        block = GRAPH.format("A", "B", "C", name="")
        self.assertIn("line 5: PERIODIC_GRAPH begins before the end of this item",
                      reason_of(TRIANGLES.replace("end\n", block)))

    def test_lines_of_other_words_are_told(self):
        self.assertEqual(told_of(TRIANGLES), [])
        text = TRIANGLES.replace("end", "  family \"4^4\"\nend")
        self.assertEqual(told_of(text), [(DROPPED, 'x: line 1 "hxl": line 5: family is passed over')])
        self.assertEqual(len(graph_of(text).edges), 3)


class Ends(FolderTest):
    def test_a_row_that_ends_the_block_is_refused(self):
        for word in ("End", "END"):
            nodes = CRYSTAL.format(name="", node=word).rpartition("END")[0]
            self.assertIn("line 6: a row begins with END", reason_of(nodes))
            rows = GRAPH.format("A", "B", "A", name="").replace("A B 0 1 0", f"{word} B 0 1 0")
            self.assertIn("line 5: a row begins with END", reason_of(rows.partition("A B 0 0 1")[0]))
        self.assertIn("a row begins with END", reason_of(TRIANGLES.replace("end", "end 1 1")))
        net = NET.format("3/8,3/8,3/8", "1-x,1-y,1-z").replace("END", "END 1-x,y,z")
        self.assertIn("a row begins with END", reason_of(net))

    def test_in_quotes_it_is_a_vertex(self):
        self.assertEqual(len(graph_of(CRYSTAL.format(name="", node='"End"')).vertices), 2)
        self.assertEqual(len(graph_of(GRAPH.format("A", '"End"', "C", name="")).vertices), 3)

    def test_words_behind_the_end_are_told(self):
        for text in (CRYSTAL.format(name="", node="B"), GRAPH.format("A", "B", "C", name=""), TRIANGLES):
            end = text.split()[-1]
            told = told_of(text.replace(f"\n{end}", f"\n{end} of it"))
            self.assertIn(f"line {text.count(chr(10))}: behind END 'of it' is passed over",
                          [line.partition('": ')[2] for kind, line in told if kind == DROPPED])
            self.assertNotIn(DROPPED, [kind for kind, _ in told_of(text.replace(f"\n{end}", f"\n {end} # of it"))])


class Names(FolderTest):
    def test_a_vertex_that_is_called_name(self):
        wanted = rows_of(graph_of(GRAPH.format("A", "B", "C", name="")))
        for word in ("Id", "Name", "ID"):
            for words in ((word, "B", "C"), ("A", word, "C"), ("A", "B", word)):
                for name in ("", "NAME x\n"):
                    graph = graph_of(GRAPH.format(*words, name=name))
                    self.assertEqual(rows_of(graph), wanted, words)
                    self.assertEqual(graph.name, "x" if name else "")

    def test_a_node_that_is_called_name(self):
        for word in ("Id", "Name"):
            named = graph_of(CRYSTAL.format(name="NAME x\n", node=word))
            self.assertEqual((len(named.vertices), named.name), (2, "x"))
            told = reason_of(CRYSTAL.format(name="", node=word))
            self.assertIn(f"line 6: the line may be a name or a node {word}", told)
        self.assertEqual(graph_of(CRYSTAL.format(name="", node="B").replace("END", "Id 4 4\nEND")).name, "4 4")


class Labels(FolderTest):
    def test_vertices_that_differ_stay_so(self):
        wanted = rows_of(graph_of(GRAPH.format("A", "B", "C", name="")))
        long = "v" * 210
        for words in ((long + "a", long + "b", long + "c"), (long, long[:198], long[:180]), ("a\x01", "a\x02", "a_"),
                      (long + "a", f'"{long[:180]}"', f'"{long[:180]}_2"')):
            self.assertEqual(rows_of(graph_of(GRAPH.format(*words, name=""))), wanted, words)
        for encoding in ("latin-1", "utf-8"):
            text = GRAPH.format("\u00e9", "\u00e8", "?", name="").encode(encoding)
            self.assertEqual(rows_of(graph_of(text)), wanted)

    def test_a_vertex_with_quotes_and_without_is_one(self):
        for label in ("\u00e9", "v" * 190):
            text = GRAPH.format(label, "1", "C", name="").replace(f"{label} 1 0 1 0", f'"{label}" 1 0 1 0')
            text = text.replace(f"{label} C 0 0 0", f'"{label}" "C" 0 0 0')
            wanted = rows_of(graph_of(GRAPH.format("A", "1", "C", name="")))
            self.assertEqual(rows_of(graph_of(text.encode("latin-1"))), wanted)


class Operations(FolderTest):
    def test_blanks_within_operations(self):
        wanted = graph_of(NET.format("3/8,3/8,3/8", "1-x,1-y,1-z")).edges
        for site, operation in (("3/8, 3/8, 3/8", "1-x, 1-y, 1-z"), ("3/8 3/8 3/8", "1 - x , 1 - y , 1 - z"),
                                ("4 3/8, 3/8 ,3/8", "1-x,1-y, 1-z")):
            self.assertEqual(graph_of(NET.format(site, operation)).edges, wanted)


class Doubts(FolderTest):
    def test_a_node_that_is_taken_once_is_told_in_any_case(self):
        text = CRYSTAL.format(name="", node="B").replace("END", "C 8 1.5 .5 .5\nEND")
        told = run(COMMAND, "--quiet", "-", stdin=text.encode()).stderr.decode()
        self.assertEqual(told, 'stdin: line 1 "": line 7: the node C is where B is, and is taken once\n')

    def test_edges_by_distance_that_may_be_others_are_doubts(self):
        text = "CRYSTAL\nNAME x\nCELL 1 1 1.05 90 90 90\nNODE 1 4 0 0 0\nEND\n"
        self.assertEqual([kind for kind, _ in told_of(text)], [DOUBT, DOUBT])
        rough = "CRYSTAL\nNAME x\nGROUP p6mm\nCELL 1.732 1.732 120\nNODE 1 3 .325 .675\nEND\n"
        (kind, line), = told_of(rough)
        self.assertEqual((kind, "places are matched within 10.0%" in line), (DOUBT, True))


class Packed(FolderTest):
    def test_a_file_that_is_packed_by_gzip(self):
        text = CRYSTAL.format(name="", node="B").encode()
        packed = gzip.compress(text)
        file = self.folder / "x.cgd.gz"
        file.write_bytes(packed)
        wanted = run(COMMAND, "-", stdin=text).stdout
        self.assertEqual(run(COMMAND, file).stdout, wanted)
        self.assertEqual(run(COMMAND, "-", stdin=packed).stdout, wanted)
        file.write_bytes(packed[:-9])
        self.assertIn(b"is packed by gzip, and damaged", run(COMMAND, file, status=1).stderr)
        told = run(command("archive make"), self.folder / "nets", file, status=3).stderr
        self.assertIn(b"is packed by gzip, and damaged", told)
