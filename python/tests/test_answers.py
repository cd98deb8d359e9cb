"""What is asked and answered: identify, keys, same, components, cover, group, tables and pictures."""

import json
import random
import sqlite3
import time
import unittest
import unittest.mock
from concurrent.futures import ThreadPoolExecutor
from contextlib import closing
from fractions import Fraction

from testing import PATIENCE, PROGRAM, TOP, FolderTest, need_modules, need_program, run

from crystal_nets import (Answer, Answers, Archive, By, Net, NotAnArchive, NotANet, Outcome, ProgramFailed,  # noqa: E402
                          components, cover, group, identify, identify_all, identify_each, keys, net_of_key, read, same, svg)
from crystal_nets.answers import Naming  # noqa: E402
from crystal_nets.provenance import DOUBT, LEFT_OUT, OTHER, Note  # noqa: E402

DIA = Net([(1, 2, (0, 0, 0)), (1, 2, (1, 0, 0)), (1, 2, (0, 1, 0)), (1, 2, (0, 0, 1))], name="dia")
PCU = Net([(1, 1, (1, 0, 0)), (1, 1, (0, 1, 0)), (1, 1, (0, 0, 1))], name="pcu")
SQL = Net([("A", "A", (1, 0)), ("A", "A", (0, 1))], name="sql")
REFUSED = {  # by the words of the outcome
    "refused 1 Disconnected": [(1, 1, (1, 0)), (1, 1, (0, 1)), (2, 2, (1, 0)), (2, 2, (0, 1))],
    "refused 2 Degenerate": [(1, 1, (1, 0))],
    "refused 5 Collision": [("c", "l1", (0, 0)), ("c", "l2", (0, 0)), ("c", "c", (1, 0)), ("c", "c", (0, 1))],
    "malformed 6 SelfEdge": [(1, 1, (0, 0))],
    "malformed 3 MixedDimension": [(1, 1, (0, 1)), (1, 1, (0, 1, 0))],
    "malformed 2 RowLength": [(1, 1, (1,))],
    "malformed 7 ShiftRange": [(1, 1, (501, 0))],
    "malformed 8 TooManyVertices": [(k, k + 1, (0, 0)) for k in range(600)],
    "malformed 5 NoEdges": [],
}


class AnswerTest(FolderTest):
    @classmethod
    def setUpClass(cls):
        need_program()
        cls.archive = Archive.of([DIA, PCU, SQL])


class Identify(AnswerTest):
    def test_all_that_is_told_of_a_net(self):
        need_program()
        doubled = cover(DIA, [(-1, 1, 1), (1, -1, 1), (1, 1, -1)]).net
        answer = identify(doubled, archive=self.archive)
        self.assertEqual((answer.names, answer.vertices, answer.edges, answer.dimension), (("dia",), 8, 16, 3))
        self.assertEqual((answer.primitive.vertices, len(answer.primitive.edges)), (2, 4))
        self.assertEqual(answer.sequences, ((4, 12, 24, 42, 64, 92, 124, 162, 204, 252),) * 2)
        self.assertEqual(set(answer.placement.fractions), set(range(1, 9)))
        self.assertTrue(all(isinstance(part, Fraction) for part in answer.placement[8]))
        self.assertEqual(identify(answer.primitive.net, archive=self.archive).key, answer.key)
        self.assertEqual(str(answer), "dia: dia")

    def test_each_vertex_is_at_the_mean_of_its_neighbours(self):
        for answer in identify_all(read(TOP / "archives/common.cgd")[:12], archive=None):
            places = answer.placement.fractions
            for vertex, place in places.items():
                ends = [(v, shift) for u, v, shift in answer.net.edges if u == vertex]
                ends += [(u, tuple(-part for part in shift)) for u, v, shift in answer.net.edges if v == vertex]
                for k, part in enumerate(place):
                    self.assertEqual(sum(places[v][k] + shift[k] - part for v, shift in ends), 0)

    def test_refusals_are_values(self):
        nets = [Net(edges, name=word) for word, edges in REFUSED.items()]
        for answers in (keys(nets), identify_all(nets, archive=self.archive)):
            for answer, word in zip(answers, REFUSED, strict=True):
                outcome = answer.outcome
                self.assertEqual(f"{outcome.kind} {outcome.number} {outcome.name}", word)
                self.assertEqual((answer.key, answer.names, answer.accepted), ("", (), False))
        by_word = {answer.name: answer.outcome.values for answer in keys(nets)}
        self.assertEqual({by_word["refused 5 Collision"]["u"], by_word["refused 5 Collision"]["v"]}, {"c", "l1"})
        self.assertEqual(by_word["refused 2 Degenerate"], {"q": 0, "c": (0, 1), "h": (0,)})
        self.assertEqual(by_word["malformed 3 MixedDimension"], {"line": 5})

    def test_a_structure_that_gives_no_net_stands_in_its_place(self):
        answers = identify_all([DIA, Net.refused("no atoms", "x"), PCU], archive=self.archive)
        self.assertEqual([answer.outcome.kind for answer in answers], ["accepted", "unreadable", "accepted"])
        self.assertEqual([answer.names for answer in answers], [("dia",), (), ("pcu",)])

    def test_one_and_many(self):
        with self.assertRaises(NotANet):
            identify(TOP / "examples/twice.cgd", archive=None)
        answers = identify_all(TOP / "examples/twice.cgd", archive=self.archive)
        self.assertEqual([answer.names for answer in answers], [("dia",)] * 2)
        self.assertEqual(len(answers[:1]), 1)
        self.assertEqual(len(identify_all([], archive=None)), 0)

    def test_the_number_of_processes_changes_nothing(self):
        nets = read(TOP / "archives/common.cgd")[:40] * 3
        self.assertEqual(keys(nets, processes=3), keys(nets))
        with self.assertRaises(ValueError):
            keys(nets, processes=0)

    def test_processes_run_side_by_side(self):
        """A program that answers once three of it run at the same time, each on a part of the nets."""
        meeting = self.folder / "meeting"
        meeting.write_text(f"""#!/bin/sh
touch {self.folder}/here.$$
tries=0
while [ "$(ls {self.folder} | grep -c here)" -lt 3 ]; do
    [ $((tries += 1)) -lt 600 ] || exit 20
    sleep 0.1
done
exec {PROGRAM} "$@"
""")
        meeting.chmod(0o755)
        nets = [PCU, DIA, SQL] * 16
        with unittest.mock.patch.dict("os.environ", NET_TOOL=str(meeting)):
            found = keys(nets, processes=3)
        self.assertEqual(found, keys(nets))

    def test_keys_are_those_of_the_program(self):
        path = TOP / "examples/mystery.cgd"
        told = run(PROGRAM, "key", path).stdout.decode()
        self.assertEqual([f"key {answer.key}" for answer in keys(path)],
                         [line for line in told.splitlines() if line.startswith("key ")])


class Forms(AnswerTest):
    def test_a_dict_is_answered_as_a_dict(self):
        given = {"a": DIA.edges, 7: TOP / "examples/twice.cgd", "c": Net.refused("no atoms", "x")}
        for answers in (identify_all(given, archive=self.archive), keys(given, self.archive)):
            self.assertEqual({key: [answer.names for answer in found] for key, found in answers.items()},
                             {"a": [("dia",)], 7: [("dia",)] * 2, "c": [()]})
        sources = [(answer.net.provenance.source, answer.net.provenance.file) for answer in answers[7]]
        self.assertEqual(sources, [("7", str(TOP / "examples/twice.cgd"))] * 2)
        self.assertEqual([answer.net.provenance.source for answer in keys([PCU.edges, DIA.edges])], ["0", "1"])
        self.assertEqual([entry.places for entry in group({"a": PCU, "b": DIA, "c": PCU})], [(0, 2), (1,)])

    def test_answers_go_to_json_and_back(self):
        nets = [DIA, Net(PCU.edges, name="a\nb\udcff", notes=["told"]), Net.refused("no atoms", "x")]
        nets += [Net(edges, name=word) for word, edges in REFUSED.items()]
        for answer in identify_all(nets, archive=self.archive):
            again = Answer.from_dict(json.loads(answer.to_json()))
            self.assertEqual((again, again.net), (answer, answer.net))
            self.assertEqual((again.sequences, again.placement), (answer.sequences, answer.placement))
            self.assertEqual(Net.from_dict(json.loads(answer.net.to_json())), answer.net)
        for wrong in ({}, [], None, {"name": "x"}, {**DIA.to_dict(), "block": "x"}, {**DIA.to_dict(), "provenance": 3}):
            with self.assertRaises(NotANet, msg=repr(wrong)):
                Net.from_dict(wrong)
            with self.assertRaises(NotANet, msg=repr(wrong)):
                Answer.from_dict(wrong)

    def test_answers_have_a_hash_and_one_line(self):
        answers = identify_all([DIA, PCU, Net(DIA.edges, name="a\nb"), Net.refused("one\ntwo")], archive=self.archive)
        compared = same(DIA, answers[0].primitive.net)
        shown = [*answers, answers, answers[0].placement, answers[0].primitive, answers[0].outcome, compared, compared.map,
                 components(DIA, archive=self.archive), group(list(answers.accepted) and [DIA, PCU, DIA]),
                 *group([DIA, DIA]), cover(DIA, [(1, 0, 0), (0, 1, 0), (0, 0, 2)])]
        self.assertEqual(len({*shown, *identify_all([DIA], archive=self.archive)}), len(shown))
        for value in shown:
            self.assertNotIn("\n", repr(value))
            self.assertLess(len(repr(value)), 200)
        self.assertEqual(repr(answers[0]), "<Answer dia: dia>")


class Streams(AnswerTest):
    def test_answers_come_in_order_and_sources_are_taken_as_there_is_room(self):
        taken = []

        def sources():
            for place in range(2000):
                taken.append(place)
                yield (DIA, PCU, SQL.edges, "no\nblock\n")[place % 4]

        answers = identify_each(sources(), archive=self.archive, processes=2)
        first = next(answers)
        self.assertEqual((first.names, first.net.provenance.source), (("dia",), "0"))
        self.assertLess(len(taken), 4 * 256 + 10)
        rest = list(answers)
        self.assertEqual([answer.net.provenance.source for answer in rest], [str(place) for place in range(1, 2000)])
        self.assertEqual([answer.names for answer in rest[:4]], [("pcu",), ("sql",), (), ("dia",)])
        self.assertEqual(rest[2].outcome.kind, "unreadable")

    def test_one_that_is_not_asked_for_more_ends_at_once(self):
        """Whatever the program is busy with."""
        slow = self.folder / "slow"
        slow.write_text(f"#!/bin/sh\n[ -e {self.folder}/begun ] && exec sleep {2 * PATIENCE}\ntouch {self.folder}/begun\nexec {PROGRAM} \"$@\"\n")
        slow.chmod(0o755)
        with unittest.mock.patch.dict("os.environ", NET_TOOL=str(slow)):
            answers = identify_each((DIA for _ in range(64 * 9)), archive=None, processes=1)
            next(answers)
            begun = time.monotonic()
            answers.close()
        self.assertLess(time.monotonic() - begun, PATIENCE)

    def test_a_net_that_takes_too_long_is_stopped_alone(self):
        slow = self.folder / "slow"
        slow.write_text(f'#!/bin/sh\ncat > {self.folder}/$$\ngrep -q slow {self.folder}/$$ && exec sleep 60\n'
                        f'exec {PROGRAM} "$@" < {self.folder}/$$\n')
        slow.chmod(0o755)
        with unittest.mock.patch.dict("os.environ", NET_TOOL=str(slow)):
            answers = list(identify_each([DIA, PCU, Net.of_graph(PCU.graph.named("slow"), "slow"), SQL], archive=None, timeout=5))
        self.assertEqual([answer.outcome.kind for answer in answers], ["accepted", "accepted", "stopped", "accepted"])
        self.assertTrue(all(answer.key for answer in answers if answer.name != "slow"))

    def test_what_cannot_be_is_told_at_once(self):
        for words in ({"processes": 0}, {"processes": -1}, {"timeout": 0}):
            with self.assertRaises(ValueError):
                identify_each([], archive=None, **words)
        with self.assertRaises(TypeError):
            identify_each([], archive=None, no_such_option=True)

    def test_threads_load_an_archive_once(self):
        from crystal_nets import archive as module
        loads = []

        def load(*paths):
            loads.append(paths)
            time.sleep(0.2)
            return Archive([])

        module._loaded.cache_clear()
        self.addCleanup(module._loaded.cache_clear)
        with unittest.mock.patch.object(Archive, "load", load), ThreadPoolExecutor(8) as pool:
            list(pool.map(lambda _: Archive.default(), range(8)))
        self.assertEqual(len(loads), 1)


class Same(AnswerTest):
    def test_a_map_is_a_map(self):
        doubled = cover(DIA, [(1, 0, 0), (0, 2, 0), (0, 1, 1)]).net
        answer = same(DIA, doubled)
        self.assertTrue(answer)
        self.assertTrue(answer.map.is_verified())
        joined = {(u, v, shift) for u, v, shift in doubled.edges}
        joined |= {(v, u, tuple(-part for part in shift)) for u, v, shift in doubled.edges}
        for u, v, shift in DIA.edges:
            for cell in ((0, 0, 0), (3, -2, 5), (-7, 1, 1)):
                (a, r), (b, t) = answer.map(u, cell), answer.map(v, tuple(x + y for x, y in zip(cell, shift)))
                self.assertIn((a, b, tuple(y - x for x, y in zip(r, t))), joined)

    def test_different_and_not_known(self):
        self.assertFalse(same(DIA, PCU))
        self.assertIsNone(same(DIA, PCU).map)
        disconnected = Net(REFUSED["refused 1 Disconnected"])
        told = same(DIA, disconnected)
        self.assertIs(told.same, False)  # by a coordination sequence
        self.assertEqual([outcome.accepted for outcome in told.outcomes], [True, False])
        unknown = same(disconnected, disconnected)
        self.assertIsNone(unknown.same)
        with self.assertRaises(NotANet):
            bool(unknown)

    def test_a_map_that_is_spoiled_is_not_verified(self):
        answer = same(DIA, cover(DIA, [(1, 0, 0), (0, 2, 0), (0, 1, 1)]).net)
        lines = answer.map.text.splitlines()
        place = next(k for k, line in enumerate(lines) if line.startswith("image"))
        lines[place] = lines[place + 1].rsplit(" ", 4)[0] + " " + " ".join(lines[place].rsplit(" ", 4)[1:])
        spoiled = type(answer.map)(answer.map.period, answer.map.images, answer.map.base, "\n".join(lines) + "\n")
        self.assertFalse(spoiled.is_verified())


class Parts(AnswerTest):
    def test_interwoven_nets_get_names(self):
        for net, names, pieces in zip(read(TOP / "examples/interpenetrating.cgd"),
                                      ((("dia",),), (("pcu",),), ((), ())), (2, 2, 2)):
            found = components(net, archive=self.archive)
            self.assertEqual((tuple(part.names for part in found.parts)[:len(names)], found.pieces), (names, pieces))
        part = components(read(TOP / "examples/interpenetrating.cgd")[0], archive=None).parts[0]
        self.assertTrue(same(part.net, DIA))

    def test_layers_in_space_are_a_refusal(self):
        found = components(Net([(1, 1, (1, 0, 0)), (1, 1, (0, 1, 0))]), archive=None)
        self.assertEqual((found.outcome.name, found.outcome.values["c"], found.parts), ("LowRank", (0, 0, 1), ()))

    def test_a_text_that_is_no_key_is_told(self):
        for text in ("", "x", "3 1 1", "3 1 1 1 1 0 0 1", "9" * 5000):
            with self.assertRaises(NotANet):
                net_of_key(text)

    def test_a_key_that_needs_a_long_shift_is_told_as_one(self):
        with self.assertRaisesRegex(NotANet, r"(?!.*no key).*a shift past 500: \(.*600.*\)"):
            net_of_key("2 1 3 1 1 0 1 1 1 1 0 1 1 600 1")


class Covers(AnswerTest):
    def test_the_cover_is_the_same_net(self):
        answer = cover(SQL, [(2, 1), (0, 3)])
        self.assertEqual((answer.index, len(answer.net.vertices), bool(same(SQL, answer.net))), (6, 6, True))

    def test_refusals_are_values_and_other_cells_are_told(self):
        for cell, name in (([(1, 0), (0, 1)], "CellDimension"), ([(1, 0, 0), (0, 1, 0), (1, 1, 0)], "CellRank"),
                           ([(9, 0, 0), (0, 9, 0), (0, 0, 9)], "CoverVertices")):
            answer = cover(DIA, cell)
            self.assertEqual((answer.net, answer.outcome.name), (None, name))
        for cell in ([], [(1, 0)], [(1, 0), (0,)], [(501, 0), (0, 1)], 3, [(0.5, 0), (0, 1)], [("a", 0), (0, 1)]):
            with self.assertRaises(NotANet, msg=repr(cell)):
                cover(DIA, cell)


class Groups(AnswerTest):
    def test_groups_of_nets_in_other_cells(self):
        order = random.Random(1)
        nets = [DIA, PCU, cover(DIA, [(1, 1, 0), (0, 2, 0), (0, 0, 1)]).net, cover(PCU, [(1, 2, 0), (0, 1, 1), (0, 0, 3)]).net,
                Net(REFUSED["refused 2 Degenerate"])]
        order.shuffle(nets)
        found = group(nets, archive=self.archive)
        self.assertEqual(sorted(entry.names for entry in found), [("dia",), ("pcu",)])
        self.assertEqual(sorted(len(entry) for entry in found), [2, 2])
        self.assertEqual(len(found.keyless), 1)
        for entry in found:
            self.assertEqual([nets[place] for place in entry.places], [answer.net for answer in entry.members])


class Archives(AnswerTest):
    def write(self, text: bytes) -> str:
        path = self.folder / "x.archive"
        path.write_bytes(text)
        return str(path)

    def test_archives_are_loaded_and_joined(self):
        source = self.folder / "nets.cgd"
        source.write_bytes(DIA.block + PCU.block)
        first = self.write(run(PROGRAM, "add", source).stdout)
        source.write_bytes(DIA.block.replace(b'"dia"', b'"diamond"'))
        (self.folder / "y.archive").write_bytes(run(PROGRAM, "add", source).stdout)
        joined = Archive.load(self.folder)
        self.assertEqual((list(joined), len(joined)), (["dia", "pcu", "diamond"], 3))
        for archive in (joined, self.folder, [first, self.folder / "y.archive"]):
            self.assertEqual(identify(DIA, archive=archive).names, ("dia", "diamond"))
        self.assertTrue(same(joined["diamond"], DIA))

    def test_symbols_stand_for_names(self):
        named = [DIA.named("dia, diamond"), PCU.named("PCU, a code"), SQL.named("square lattice")]
        archive = Archive.of(named)
        self.assertEqual(archive["dia"], archive["dia, diamond"])
        self.assertTrue("dia" in archive and "PCU" in archive and "square" not in archive and "" not in archive)
        self.assertEqual(list(archive), ["dia, diamond", "PCU, a code", "square lattice"])
        with self.assertRaises(KeyError):
            archive["pcu"]
        answers = identify_all([DIA, PCU, SQL], archive=archive)
        self.assertEqual([answer.symbol for answer in answers], ["dia", "PCU", ""])
        self.assertEqual([answer.rcsr for answer in answers], ["https://rcsr.net/nets/dia", "", ""])
        self.assertIn("https://rcsr.net/nets/dia", answers[0]._repr_html_())
        others = [PCU.named("pcx, which looks like a symbol"), SQL.named("dia, of my own"), PCU.named("zif-8")]
        self.assertEqual({answer.rcsr for answer in identify_all(others, archive=Archive.of(others))}, {""})
        both = identify(DIA, archive=archive | Archive.of([DIA.named("DIA"), DIA.named("dia"), DIA]))
        self.assertEqual((both.symbols, len(both.names)), (("dia", "DIA"), 3))

    def test_archives_are_joined_and_saved(self):
        one, other = Archive.of([DIA, PCU]), Archive.of([DIA.named("diamond"), PCU, SQL])
        joined = one | other
        self.assertEqual(list(joined), ["dia", "pcu", "diamond", "sql"])
        joined.save(self.folder / "joined.archive")
        again = Archive.load(self.folder / "joined.archive")
        self.assertEqual((list(again), repr(again)), (list(joined), repr(joined)))
        for archive in ([one, self.folder / "joined.archive"], [one, other], joined):
            self.assertEqual(identify(DIA, archive=archive).names, ("dia", "diamond"))
        self.assertTrue(same(again["sql"], SQL))
        with self.assertRaises(TypeError):
            one | "joined.archive"

    def test_what_a_file_cannot_have_is_told(self):
        for archive, word in ((Archive([]), "1 to 4,096"), (Archive.of([DIA]) | Archive.of([PCU.named("dia")]), "NameTaken"),
                              (Archive.of([DIA.named('a"b')]), "no name"), (Archive.of([DIA.named("x" * 201)]), "name")):
            with self.assertRaisesRegex(NotAnArchive, word):
                archive.save(self.folder / "absent.archive")
        self.assertFalse((self.folder / "absent.archive").exists())

    def test_nothing_in_a_file_is_trusted(self):
        source = self.folder / "nets.cgd"
        source.write_bytes(PCU.block)
        text = run(PROGRAM, "add", source).stdout
        for other in (text.replace(b"key 3 1 1 1 1 0 0 1", b"key 3 1 1 1 1 0 0 2"), text[:-4], b"", text.upper(),
                      text.replace(b"shells 1 6", b"shells 1 7")):
            with self.assertRaises(NotAnArchive, msg=other):
                Archive.load(self.write(other))
        with self.assertRaises(OSError):
            Archive.load(self.folder / "absent")
        (self.folder / "empty").mkdir()
        with self.assertRaises(NotAnArchive):
            Archive.load(self.folder / "empty")
        with self.assertRaises(NotANet):
            Archive.of([Net(DIA.edges)])


class Tables(AnswerTest):
    def test_a_table_for_pandas(self):
        need_modules("pandas")
        nets = [DIA, PCU, Net(REFUSED["refused 2 Degenerate"], name="row")]
        table = identify_all(nets, archive=self.archive).to_pandas()
        self.assertEqual(list(table["names"]), ["dia", "pcu", ""])
        self.assertEqual(list(table["outcome"]), ["accepted", "accepted", "refused 2 Degenerate"])
        self.assertEqual(list(table["D0"]), [4, 1, 0])
        self.assertEqual(len(table.groupby("key")), 3)

    def test_a_table_goes_to_a_database_and_back(self):
        """All of it is texts and numbers, with what databases list, and of a structure."""
        need_modules("pandas", "gemmi", "numpy", "spglib")
        import pandas
        nets = [DIA, Net(REFUSED["refused 2 Degenerate"], name="row"), *read(TOP / "examples/quartz.cif")]
        table = identify_all(nets, archive=self.archive).to_pandas(topology=True)
        with closing(sqlite3.connect(":memory:")) as database:
            table.to_sql("nets", database, index=False)
            again = pandas.read_sql("select * from nets", database)
        pandas.testing.assert_frame_equal(again, table)
        self.assertEqual(list(table["sequences"]), ["4 12 24 42 64 92 124 162 204 252", "", "4 12 30 52 80 116 156 204 258 318"])
        self.assertEqual((table["vertex_symbols"][0], table["units"][2]), ("6(2).6(2).6(2).6(2).6(2).6(2)", "Si, 4-connected"))


class Pictures(AnswerTest):
    def test_pictures_in_a_notebook(self):
        need_modules("numpy")
        answer = identify(DIA, archive=self.archive)
        self.assertTrue(svg(answer).startswith("<svg"))
        self.assertEqual(answer._repr_svg_(), DIA._repr_svg_())
        self.assertIn("<svg", DIA._repr_html_())
        self.assertIn("<svg", identify_all([DIA, PCU], archive=None)._repr_html_())

    def test_nothing_is_shown_without_its_doubts(self):
        net = DIA.noted(after=[Note(DOUBT, "one <doubt>"), Note(LEFT_OUT, "what is left"), Note(OTHER, "a remark")])
        answer, plain = identify(net, archive=self.archive), identify(DIA, archive=self.archive)
        shown = {"net": net._repr_html_(), "answer": answer._repr_html_(), "answers": Answers([plain, answer])._repr_html_()}
        for what, text in shown.items():
            self.assertIn("one &lt;doubt&gt;", text, what)
            self.assertRegex(text, "(?s)in doubt.*left out.*what is left", what)
            self.assertEqual("a remark" in text, what != "answers")
        self.assertEqual(str(answer), "dia: dia; in doubt: one <doubt>")
        self.assertEqual(repr(Answers([plain, answer])), "<Answers: 2 nets, 2 with a key, 1 in doubt>")
        self.assertEqual(same(PCU, net).notes, ("the second is in doubt: one <doubt>",))
        self.assertIn("the first is in doubt: one <doubt>", repr(same(net, DIA)))
        self.assertIn("; in doubt: one <doubt>", repr(components(net, archive=None)))

    def test_names_without_a_key_are_shown_with_what_is_certain_of_them(self):
        found = Naming(("BEA",), By.UNPROVED_CELL)
        outcome = Outcome("malformed", 8, "TooManyVertices", text="malformed line=2 8 TooManyVertices")
        answer = Answer(DIA, outcome, naming=found, names=found.names)
        text = Answers([answer])._repr_html_()
        self.assertRegex(text, "BEA.*unproved cell; malformed line=2 8 TooManyVertices")

    def test_what_has_no_key_has_words(self):
        net = Net(REFUSED["refused 2 Degenerate"], name="<b>")
        self.assertIsNone(net._repr_svg_())
        self.assertIn("&lt;b&gt;", net._repr_html_())
        self.assertIn("Degenerate", identify(net, archive=None)._repr_html_())
        with self.assertRaises(NotANet):
            svg(net)


class Program(FolderTest):
    def fake(self, script: str) -> None:
        """A program in the place of net_tool, which does as the test wants."""
        program = self.folder / "fake"
        program.write_text(f"#!/bin/sh\ncat >/dev/null\n{script}\n")
        program.chmod(0o755)
        patch = unittest.mock.patch.dict("os.environ", {"NET_TOOL": str(program)})
        patch.start()
        self.addCleanup(patch.stop)

    def test_a_program_that_gives_no_report(self):
        for script, word in (("exit 7", "memory was refused"), ("kill -9 $$", "-9"), ("echo hello", "another report"),
                             ("echo 'net 1 line 1'; echo 'graph d=3'", "another report"), ("exit 3", "could not be read")):
            self.fake(script)
            with self.assertRaises(ProgramFailed) as raised:
                keys([DIA])
            self.assertIn(word, str(raised.exception))
        self.fake("echo 'net 1 line 1'; echo connected")
        with self.assertRaises(ProgramFailed):
            identify_all([DIA], archive=None)
