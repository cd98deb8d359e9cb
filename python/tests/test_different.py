"""Certificates that nets are different: what is found, and that a checker takes what is right and nothing else."""

import random
import re
import unittest

from odd_cells import edges_of_archive, in_odd_cell
from testing import TOP, FolderTest, command, need_program, run

from crystal_nets import Net, read, same  # noqa: E402
from crystal_nets.different.certificates import OtherLists, OtherShells, told_apart, told_by_shells  # noqa: E402
from crystal_nets.different.check_different import blocks, check  # noqa: E402

NETS = {net.name.split(",")[0]: net for file in ("common", "zeolites") for net in read(TOP / f"archives/{file}.cgd")}
CHECKER = TOP / "python/crystal_nets/different/check_different.py"
# the nets of diamond and lonsdaleite with two bridges beside a bond: they have no key, since these stand in one place
BRIDGED = [[*NETS[name].edges, (1, "a", (0, 0, 0)), ("a", 2, (0, 0, 0)), (1, "b", (0, 0, 0)), ("b", 2, (0, 0, 0))]
           for name in ("dia", "lon")]


def setUpModule():
    need_program()


def text_of(*names: str) -> str:
    return b"".join(NETS[name].block for name in names).decode()


class Found(unittest.TestCase):
    def test_zeolites_are_told_apart_by_few_shells(self):
        pairs = (("ABW", "GIS"), ("SOD", "ABW"), ("MFI", "MEL"), ("FAU", "EMT"), ("BEA", "BEC"))
        for one, other in pairs:
            found = told_apart(NETS[one].graph, NETS[other].graph)
            self.assertIsInstance(found, OtherShells, (one, other))
            self.assertEqual(check(found.text(), text_of(one, other)), [True])
            self.assertEqual(check(found.text(2, 1), text_of(other, one)), [True])

    def test_nets_with_the_same_sequences_are_told_apart_by_a_list(self):
        found = told_apart(NETS["LTA"].graph, NETS["RHO"].graph)
        self.assertIsInstance(found, OtherLists)
        self.assertEqual(check(found.text(), text_of("LTA", "RHO")), [True])
        self.assertEqual(check(found.text(), text_of("LTA", "LTA")), [False])

    def test_isomorphic_nets_have_no_certificate(self):
        chance = random.Random(3)
        for name in ("srs", "dia", "GIS"):
            edges = in_odd_cell(edges_of_archive(TOP / "archives/zeolites.archive").get(name) or list(NETS[name].graph.edges), chance)
            other = Net([(u, v, shift) for u, v, shift in edges])
            self.assertIsNone(told_apart(NETS[name].graph, other.graph), name)
            self.assertIsNone(told_apart(NETS[name].graph, NETS[name].graph), name)

    def test_layers_and_nets_without_a_key(self):
        self.assertIsNotNone(told_by_shells(NETS["hcb"].graph, NETS["srs"].graph))
        self.assertIsNone(told_apart(Net([(1, 2, (0, 0))]).graph, Net([("a", "b", (0, 0))]).graph))


class Checked(unittest.TestCase):
    def test_changed_and_damaged_certificates_do_not_hold(self):
        text = text_of("ABW", "GIS")
        good = told_apart(NETS["ABW"].graph, NETS["GIS"].graph).text()
        self.assertEqual(check(good, text), [True])
        for bad in (good.replace("nets 1 2", "nets 1 1"), good.replace("nets 1 2", "nets 0 2"), good.replace("nets 1 2", "nets 1 3"),
                    re.sub(r"\d+\n$", "9999\n", good), re.sub(r" [\d ]+\n$", "\n", good), good.replace("shells", "shell")):
            self.assertEqual(check(bad, text), [False], bad)

    def test_thousands_of_damaged_lists(self):
        chance, text = random.Random(5), text_of("LTA", "RHO")
        good = told_apart(NETS["LTA"].graph, NETS["RHO"].graph).text()
        lines = good.splitlines(keepends=True)
        for _ in range(1000):
            bad = lines.copy()
            place = chance.randrange(2, len(bad) - 1)
            bad[place] = chance.choice(["", "at 1\n", "x\n", bad[place].replace("at", "a"), "placement 0\n", "rows -1\n", "\n"])
            if bad != lines:
                self.assertEqual(check("".join(bad), text), [False], bad[place])

    def test_the_checker_counts_the_edges_of_a_block_as_the_program_does(self):
        one, = blocks('periodic_graph # a comment\nName x\nEDGES 1 2 0 0\n2 1 0 0\n"a b" 1 1 0 # more\nEND\nEND\n')
        self.assertEqual({u: len(star) for u, star in one.items()}, {"1": 2, "2": 1, '"a b"': 1})


class Commands(FolderTest):
    def test_certificates_are_printed_and_checked(self):
        file, found = self.folder / "nets.cgd", self.folder / "found"
        file.write_text(text_of("ABW", "GIS", "SOD"))
        found.write_bytes(run(command("different"), file).stdout)
        told = b"certificate 1 holds: the nets are different\ncertificate 2 holds: the nets are different\n"
        self.assertEqual(run(command("different"), "--check", found, file).stdout, told)
        self.assertEqual(run("/usr/bin/python3", CHECKER, found, file).stdout, told)
        file.write_text(text_of("ABW", "SOD", "GIS"))
        self.assertIn(b"certificate 1 does not hold", run(command("different"), "--check", found, file, status=1).stdout)

    def test_what_has_no_certificate_is_told(self):
        file = self.folder / "nets.cgd"
        file.write_text(text_of("dia", "dia"))
        self.assertIn(b"they are the same", run(command("different"), file, status=1).stderr)
        file.write_text(text_of("dia"))
        self.assertIn(b"it has fewer than two nets", run(command("different"), file, status=3).stderr)
        for text in ("", "CRYSTAL\nEND\n" + text_of("dia", "lon"), "nothing"):
            file.write_text(text)
            done = run(command("different"), file, status=3)
            self.assertNotIn(b"Traceback", done.stderr)
        self.assertEqual(run(command("different"), self.folder / "absent", status=3).stdout, b"")
        file.write_text(text_of("dia", "lon"))
        self.assertIn(b"there is no certificate", run(command("different"), "--check", file, file, status=1).stderr)


class Same(unittest.TestCase):
    def test_an_answer_carries_its_certificate(self):
        answer = same(NETS["dia"], NETS["lon"])
        self.assertIs(answer.same, False)
        self.assertEqual(check(answer.certificate, text_of("dia", "lon")), [True])
        self.assertEqual(same(NETS["dia"], NETS["dia"]).certificate, "")

    def test_nets_without_a_key_are_different_by_a_certificate(self):
        nets = [Net(edges) for edges in BRIDGED]
        answer = same(*nets)
        self.assertIs(answer.same, False)
        self.assertEqual(check(answer.certificate, b"".join(net.block for net in nets).decode()), [True])


if __name__ == "__main__":
    unittest.main()
