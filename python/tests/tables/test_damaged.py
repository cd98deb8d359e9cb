"""Texts that are cut, damaged or of another kind: each is refused with its line, and nothing is reported of it."""

import random

from mutants import mutant
from testing import IS_LONG, PROGRAM, TOP, FolderTest, command, need_program, run

ARCHIVE = TOP / "archives/common.archive"
EXAMPLES = TOP / "examples"
MUTANTS = 8_000 if IS_LONG else 2_000
COMPONENTS = b"""net 1 line 4 "cuprite"
graph d=3 vertices=2 edges=4 repeats=0
components 1
part 1 vertices=2 copies=2
key 3 2 1 1 2 -1 -1 -1 1 2 0 0 1 1 2 0 1 0 1 2 1 0 0
net 2 line 48 "a plane in space"
graph d=3 vertices=1 edges=2 repeats=0
components refused 1 LowRank u=1 c=1 -1 0
net 3 line 50 "two of which one collides"
graph d=2 vertices=5 edges=9 repeats=0
components 2
part 1 vertices=1 copies=1
key 2 1 1 1 1 0 1 1 1 1 0
part 2 vertices=4 copies=3
refused 5 Collision u=2 v=3 t=0 0
net 4 line 60
unsupported CRYSTAL
"""

from crystal_nets.texts.archive_text import entries_of  # noqa: E402
from crystal_nets.texts.component_text import parts_of_report  # noqa: E402
from crystal_nets.texts.graph_text import text_of_graph  # noqa: E402
from crystal_nets.texts.key_graph import graph_of_key  # noqa: E402
from crystal_nets.texts.net_text import NoReport, nets_of_report  # noqa: E402


def lines_of(text: bytes) -> list[bytes]:
    return text.splitlines(keepends=True)


class Readers(FolderTest):
    @classmethod
    def setUpClass(cls):
        need_program()
        file, words = EXAMPLES / "mystery.cgd", ["--archive", ARCHIVE]
        cls.reports = [run(PROGRAM, command, file).stdout for command in ("check", "place", "key")]
        cls.reports.append(run(PROGRAM, "identify", file, *words).stdout)
        cls.reports += [run(PROGRAM, "key", EXAMPLES / name, status=1).stdout for name in ("interpenetrating.cgd", "embedded.cgd")]

    def survivors(self, texts: list[bytes], read, count: int) -> int:
        """How many mutants are read as a text; the others end with NoReport and nothing else."""
        chance, taken = random.Random(5), 0
        for _ in range(count):
            text = mutant(chance.choice(texts), chance)
            try:
                list(read(lines_of(text)))
                taken += 1
            except NoReport as fault:
                self.assertRegex(str(fault), "line")
        return taken

    def test_mutants_of_reports(self):
        self.assertLess(self.survivors(self.reports, nets_of_report, MUTANTS), MUTANTS // 4)

    def test_mutants_of_archives(self):
        text = b"".join(lines_of(ARCHIVE.read_bytes())[:160])
        text = text[:text.rindex(b"end\n") + 4]
        self.assertGreater(len(list(entries_of(lines_of(text), "a"))), 4)
        self.assertLess(self.survivors([text], lambda lines: entries_of(lines, "a"), MUTANTS), MUTANTS // 4)

    def test_mutants_of_components(self):
        def blocks(lines):
            return [graph_of_key(part.key) for net in parts_of_report(lines) for part in net.parts if part.key]
        self.survivors([COMPONENTS], blocks_or_fault(blocks), MUTANTS)

    def test_lines_that_look_like_others(self):
        report, long = self.reports[3], b"9" * 5000
        for old, new in ((b"\nnet 2 ", b"\n x\nnet 2 "), (b"\nnet 2 ", b"\n\nnet 2 "), (b"net 2 line", b"net " + long + b" line"),
                         (b" line ", b" line " + long), (b"vertices=", b"vertices=" + long), (b"\nshells 1 4", b"\nshells 1 4_0"),
                         (b"\nshells 1 4", b"\nshells 1 +4"), (b"\nshells 1 4", b"\nshells 1 4\t"), (b"names 1", b"names " + long),
                         (b"repeats=", b"repeats=" + long), (b"D0=", b"D0=" + long)):
            self.assertIn(old, report)
            with self.assertRaises(NoReport, msg=new[:40]):
                list(nets_of_report(lines_of(report.replace(old, new, 1))))
        for old in (b"net 1", b"components ", b"copies=", b"part "):
            with self.assertRaises(NoReport):
                list(parts_of_report(lines_of(COMPONENTS.replace(old, old + long, 1))))

    def test_reports_cut_anywhere_but_between_nets(self):
        for report in self.reports[2:4]:
            starts = {at for at in range(len(report)) if report.startswith(b"net ", at)} | {len(report)}
            chance = random.Random(7)
            for at in chance.sample(range(1, len(report)), 200):
                if at not in starts:
                    with self.assertRaises(NoReport):
                        list(nets_of_report(lines_of(report[:at])))

    def test_each_archive_of_the_repository_is_read(self):
        for archive in (TOP / "archives").glob("*.archive"):
            with archive.open("rb") as lines:
                entries = list(entries_of(lines, archive.name))
            self.assertEqual(len(entries), archive.read_bytes().count(b"\nentry "))
            whole = run(command("convert"), archive).stdout
            self.assertEqual(whole, b"".join(text_of_graph(entry.graph) for entry in entries))


def blocks_or_fault(blocks):
    """Parts whose keys are of no net are refused with the reason, which names no line."""
    def read(lines):
        try:
            return blocks(lines)
        except NoReport as fault:
            raise NoReport(f"line: {fault}") from None
    return read


class Commands(FolderTest):
    """No traceback, a status other than 0, and nothing told."""

    def refused(self, *words, stdin: bytes = b"", status: int = 1) -> str:
        done = run(*words, stdin=stdin, status=status)
        self.assertEqual(done.stdout, b"")
        self.assertNotIn(b"Traceback", done.stderr)
        self.assertEqual(done.stderr.count(b"\n"), 1, done.stderr)
        return done.stderr.decode()

    def test_archives_that_are_not_there_or_damaged(self):
        absent, damaged = self.folder / "absent.archive", self.folder / "damaged.archive"
        self.assertIn("No such file", self.refused(command("convert"), absent))
        damaged.write_bytes(ARCHIVE.read_bytes()[:3000])
        for convert in (command("convert"), command("names")):
            self.assertIn("may not stand in an archive, or is cut", self.refused(convert, damaged))

    def test_texts_of_another_kind(self):
        report = self.folder / "report"
        need_program()
        report.write_bytes(run(PROGRAM, "identify", EXAMPLES / "mystery.cgd").stdout)
        for other, why in ((report, b"there is no END"), (EXAMPLES / "cubic.maps", b"is not read")):
            done = run(command("convert"), other, status=1)
            self.assertIn(why, done.stderr)
            self.assertNotIn(b"Traceback", done.stderr)
            self.assertNotIn(b"PERIODIC_GRAPH", done.stdout)


class Keys(FolderTest):
    def test_the_graph_of_each_key_has_this_key(self):
        need_program()
        for archive in (ARCHIVE, TOP / "archives/zeolites.archive"):
            keys = [line[4:] for line in archive.read_bytes().splitlines() if line.startswith(b"key ")]
            text = b"".join(text_of_graph(graph_of_key(key)) for key in keys)
            report = run(PROGRAM, "key", stdin=text).stdout
            self.assertEqual([net.key for net in nets_of_report(lines_of(report))], keys)

    def test_keys_of_no_net(self):
        for key in (b"3 2 1 1 1 0 0 1", b"3 1 1 1 1 0 0 1 1 1 0 1 0", b"2 1 1 1 1 0 0"):
            with self.assertRaises(NoReport):
                graph_of_key(key)
