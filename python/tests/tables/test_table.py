"""Tables: what net_table writes, that a run that broke off is taken up, and that broken files are reported."""

import gzip
import json
import os
import random
import shutil
import signal
import subprocess
import sys
import time
from pathlib import Path

from odd_cells import block, in_odd_cell, text_of_odd_nets
from testing import (IS_LONG, PROGRAM, TOP, FolderTest, command, long_test, need_commands, need_modules,
                     need_program, run)

from crystal_nets import Net, cover, read  # noqa: E402
from crystal_nets.answers import OF_TOPOLOGY  # noqa: E402
from crystal_nets.tables.columns import TABLE, WITH_TOPOLOGY, escaped, plain, read_table  # noqa: E402
from crystal_nets.tables.piece import path_of, rows_of  # noqa: E402
from crystal_nets.tables.plan import FORM, plan_of, read_plan  # noqa: E402
from crystal_nets.tables.source import Failed, files_of  # noqa: E402
from crystal_nets.wide.archive import write_wide_archive  # noqa: E402

SBATCH = TOP / "python/crystal_nets/tables/nets.sbatch"
NET_TABLE = command("table")
FILES = ("table.tsv", "groups.tsv", "names.tsv", "refused.tsv")
BLOCKS = b"""# a comment
PERIODIC_GRAPH
NAME "a;b	tab"
EDGES
1 1 1 0
1 1 0 1
END
PERIODIC_GRAPH
NAME row
EDGES
1 1 1 0
END
PERIODIC_GRAPH
EDGES
"x" "x" 1 1
"x" "x" 0 1
END
CRYSTAL
NAME x
END
PERIODIC_GRAPH
NAME cut
EDGES
1 1 1 0
"""
SQL_ARCHIVE = b"""PERIODIC_GRAPH
NAME "sql, square; lattice"
EDGES
1 1 1 0
1 1 0 1
END
"""


# two bridges between the same atoms, which stand in one place
BRIDGED = [(0, 1, (0, 0)), (1, 0, (1, 0)), (0, 2, (0, 0)), (2, 0, (1, 0)), (0, 0, (0, 1))]


def odd_block(name: str, edges: list, chance: random.Random) -> str:
    return block(name, in_odd_cell(edges, chance, 2))


def fan(count: int) -> Net:
    """A hub with a lattice of its own, joined to each vertex of a path; the denominator is a Fibonacci number."""
    rows = [(1, 1, (1, 0)), (1, 1, (0, 1)), (count + 1, 1, (1, 0))]
    rows += [(1, k, (0, 0)) for k in range(2, count + 2)] + [(k - 1, k, (0, 0)) for k in range(3, count + 2)]
    return Net(rows, name="fan")


def table_of(folder: Path) -> list[dict[str, str]]:
    head, *rows = (folder / "table.tsv").read_text(errors="surrogateescape").splitlines()
    return [dict(zip(head.split("\t"), row.split("\t"), strict=True)) for row in rows]


def contents(folder: Path) -> dict[str, bytes]:
    return {name: (folder / name).read_bytes() for name in FILES}


class Columns(FolderTest):
    def test_fields_there_and_back(self):
        for text in ("", "a\tb", 'x"y', "a;b\\", "\\x41", "\x01\n\r", "é\udcff"):
            self.assertEqual(plain(escaped(text)), text)
            self.assertFalse({"\t", "\n", '"', ";"} & set(escaped(text).replace("\\;", "")))


class Table(FolderTest):
    def setUp(self):
        super().setUp()
        need_program()
        need_modules("gemmi", "numpy", "scipy", "spglib")
        self.source = self.folder / "nets.cgd"
        self.source.write_bytes(BLOCKS)
        self.result = self.folder / "result"
        self.archives = self.folder / "archives"
        self.archives.mkdir()
        for name in ("one", "two"):
            block = self.folder / "sql.cgd"
            block.write_bytes(SQL_ARCHIVE.replace(b"sql", name.encode()))
            (self.archives / f"{name}.archive").write_bytes(run(PROGRAM, "add", block).stdout)

    def make(self, *words: object, status: int | None = 1) -> subprocess.CompletedProcess:
        return run(NET_TABLE, self.source, self.result, "--archive", self.archives, *words, status=status)

    def test_a_structure_tells_how_many_nets_are_interwoven(self):
        places = {"O": ["0 0 0", ".5 .5 .5"], "Cu": [".25 .25 .25", ".25 .75 .75", ".75 .25 .75", ".75 .75 .25"]}
        atoms = "".join(f"{element} {place}\n" for element, found in places.items() for place in found)
        cell = "".join(f"_cell_length_{axis} 4.27\n" for axis in "abc")
        cell += "".join(f"_cell_angle_{angle} 90\n" for angle in ("alpha", "beta", "gamma"))
        self.source = self.folder / "cuprite.cif"
        self.source.write_text("data_x\n" + cell + "loop_\n_atom_site_label\n" + "".join(
            f"_atom_site_fract_{axis}\n" for axis in "xyz") + atoms)
        self.make("--jobs", 1, status=0)
        row, = table_of(self.result)
        self.assertEqual((row["copies"], row["convention"], row["components"]), ("2", "all-atoms", "2 nets in space Cu4O2"))

    def test_doubts_stand_apart_from_notes(self):
        cell = "".join(f"_cell_length_{axis} 3.9\n" for axis in "abc")
        cell += "".join(f"_cell_angle_{angle} 90\n" for angle in ("alpha", "beta", "gamma"))
        atoms = "Ba 0 0 0\nTi .5 .5 .5\nO1 0 .5 .5\nO2 .5 0 .5\nO3 .5 .5 0\n"
        self.source = self.folder / "BaTiO3.cif"
        self.source.write_text("data_x\n" + cell + "loop_\n_atom_site_label\n" + "".join(
            f"_atom_site_fract_{axis}\n" for axis in "xyz") + atoms)
        self.make("--jobs", 1, status=None)
        row, = table_of(self.result)
        net, = read(self.source)
        self.assertEqual([row["doubts"], row["left_out"], row["notes"]],
                         [";".join(map(escaped, texts)) for texts in (net.doubts, net.left_out, net.provenance.remarks)])
        self.assertTrue(row["doubts"] and row["left_out"], row)

    def test_a_folder_with_packed_files_and_those_of_other_programs(self):
        need_modules("ase")
        source = self.source = self.folder / "all"
        source.mkdir()
        text = BLOCKS[:BLOCKS.index(b"END") + 4]
        for name, content in (("b.cgd.gz", gzip.compress(text)), ("c.arc.gz", gzip.compress(text)[:-9]), ("d.txt", text),
                              ("POSCAR", b"nothing\n")):
            (source / name).write_bytes(content)
        self.make("--jobs", 1)
        found = {Path(row["source"]).name: (row["outcome"], row["line"]) for row in table_of(self.result)}
        self.assertEqual(found, {"POSCAR": ("unreadable", ""), "b.cgd.gz": ("accepted", "2"), "c.arc.gz": ("unreadable", "")})
        self.assertIn(b"packed by gzip, and damaged", contents(self.result)["refused.tsv"])

    def test_how_structures_are_read(self):
        """Quartz, whose oxygens are no edges where its bonds are too short, and no vertices of a zeolite's net."""
        need_modules("gemmi", "numpy", "scipy")
        self.source = self.folder / "quartz.cif"
        self.source.write_bytes((TOP / "examples/quartz.cif").read_bytes())
        for words, outcome in (([], "accepted"), (["--mode", "zeolite", "--bonds", "both"], "accepted"),
                               (["--bond", "Si-O=1.0"], "unreadable")):
            result = self.folder / f"result {len(words)}"
            run(NET_TABLE, self.source, result, *words, "--no-names", "--jobs", 1, status=int(outcome != "accepted"))
            self.assertEqual([row["outcome"] for row in table_of(result)], [outcome], words)
        run(NET_TABLE, result, "--bond", "Si-O=1.5", "--jobs", 1, status=2)
        for words in (["--bond", "Si=1"], ["--bond", "Si-O=x"], ["--mode", "x"], ["--bonds", "x"]):
            run(NET_TABLE, self.source, self.folder / "other", *words, status=2)

    def test_a_table_of_blocks(self):
        told = self.make("--jobs", 1).stdout.decode()
        self.assertIn("5 nets, 2 with a key, 1 different, 2 with a name, 3 refused", told)
        rows = table_of(self.result)
        self.assertEqual([row["number"] for row in rows], list("12345"))
        self.assertEqual([row["line"] for row in rows], ["2", "8", "13", "18", "21"])
        self.assertEqual([plain(row["name"]) for row in rows], ["a;b\ttab", "row", "", "x", "cut"])
        self.assertEqual([row["outcome"] for row in rows],
                         ["accepted", "refused 2 Degenerate", "accepted", "unreadable", "unreadable"])
        self.assertEqual([row["group"] for row in rows], ["1", "", "1", "", ""])
        self.assertEqual(rows[2]["names"], "one, square\\; lattice;two, square\\; lattice")
        self.assertEqual(rows[0]["sequences"], "4 8 12 16 20 24 28 32 36 40")
        told = contents(self.result)
        self.assertEqual(told["groups.tsv"].splitlines()[1:], [b"1\t1\ta\\;b\\ttab\tkey", b"1\t3\t\tkey"])
        self.assertEqual(len(told["names.tsv"].splitlines()), 5)
        self.assertIn(b"refused 2 Degenerate q=0 c=0 1 h=0", told["refused.tsv"])

    def test_nets_without_a_key(self):
        """One is told by a verified map, one by the key of its smaller cell, and two are grouped by maps."""
        chance = random.Random(1)
        skew = cover(fan(23), [(1, 500), (0, 1)]).net
        nets = [odd_block("a", BRIDGED, chance), fan(23).block.decode(), odd_block("b", BRIDGED, chance), skew.block.decode(),
                odd_block("c", [*BRIDGED, (0, 0, (1, 1))], chance), odd_block("d", [*BRIDGED, (0, 0, (1, 1))], chance)]
        self.source.write_text("".join(nets))
        write_wide_archive(self.archives / "mine", [Net(BRIDGED, name="bridged")])
        (self.archives / "fan.archive").write_bytes(run(PROGRAM, "add", "-", stdin=fan(23).block).stdout)
        told = self.make("--jobs", 1, "--maps", "--keys-alone").stdout.decode()
        self.assertIn("6 nets, 1 with a key, 1 different, 4 with a name, 5 refused", told)
        rows = table_of(self.result)
        self.assertEqual([row["names"] for row in rows], ["bridged", "fan", "bridged", "fan", "", ""])
        self.assertEqual([row["by"] for row in rows], ["verified map", "key", "verified map", "key of a smaller cell",
                                                       "verified map", "verified map"])
        self.assertEqual([row["group"] for row in rows], ["1", "2", "1", "2", "5", "5"])
        self.assertEqual([len(row["index"]) for row in rows], [32, 0, 32, 32, 32, 32])
        self.assertEqual([bool(row["key"]) for row in rows], [False, True, False, False, False, False])
        groups = [line.split("\t") for line in (self.result / "groups.tsv").read_text().splitlines()[1:]]
        self.assertEqual([(first, number, by) for first, number, _, by in groups],
                         [("1", "1", "verified map"), ("1", "3", "verified map"), ("2", "2", "key"), ("2", "4", "key"),
                          ("5", "5", "verified map"), ("5", "6", "verified map")])
        maps = sorted((self.result / "maps").iterdir())
        self.assertEqual([path.name for path in maps], [f"{number}.maps" for number in (1, 3, 4, 5, 6)])
        for path in maps:
            self.assertEqual(run(PROGRAM, "verify", path).stdout, b"pair 2 verified\n")
        run(NET_TABLE, self.source, self.result, "--jobs", 2, "--no-names", "--keys-alone", status=1)
        self.assertEqual([row["names"] for row in table_of(self.result)], [""] * 6)

    def test_pandas_reads_it(self):
        need_modules("pandas")
        self.make()
        import pandas
        for table in (read_table(self.result), pandas.read_csv(self.result / "table.tsv", sep="\t")):
            self.assertEqual((list(table.columns), len(table)), (list(TABLE), 5))
            self.assertEqual(table["vertices"].sum(), 3)
        self.assertEqual(list(read_table(self.result)["names"])[1], "")

    def test_pieces_and_processes_change_nothing(self):
        self.source.write_bytes((TOP / "archives/common.cgd").read_bytes()[:20_000])
        run(NET_TABLE, self.source, self.result, "--no-names", "--keys-alone", "--jobs", 1, status=None)
        whole = contents(self.result)
        for blocks, jobs in ((1, 3), (7, 2)):
            other = self.folder / f"by {blocks}"
            code = (f"import sys; sys.path.insert(0, {str(TOP / 'python')!r})\n"
                    f"from crystal_nets.tables import plan; plan.MOST_BLOCKS = {blocks}\n"
                    "from crystal_nets.tables.command import main; sys.exit(main())")
            run(sys.executable, "-B", "-c", code, self.source, other, "--no-names", "--keys-alone", "--jobs", jobs, status=None)
            self.assertGreater(len(read_plan(other / "work/plan").pieces), 3)
            self.assertEqual(contents(other), whole)

    def test_it_goes_on_where_it_was_killed(self):
        """Killed after each of several times, and in the end the bytes are those of a run that was not."""
        need_modules("ase")
        shutil.rmtree(self.archives)
        whole = self.folder / "whole"
        nets = (TOP / "archives/common.cgd").read_bytes()[:30_000]
        folder = self.folder / "source"
        (folder / "deep").mkdir(parents=True)
        for k in range(12):
            (folder / f"deep/{k}.cgd").write_bytes(nets[:3000 + 200 * k] + b"\nEND\n")
        (folder / "quartz.cif").write_bytes((TOP / "examples/quartz.cif").read_bytes())
        (folder / "empty.cgd").touch()
        code = (f"import sys; sys.path.insert(0, {str(TOP / 'python')!r})\n"
                "from crystal_nets.tables import plan; plan.MOST_BLOCKS = 5\n"
                "from crystal_nets.tables.command import main; sys.exit(main())")
        command = [sys.executable, "-B", "-c", code, folder]
        run(*command, whole, "--no-names", "--jobs", 2, status=1)
        killed = 0
        for _ in range(6):
            process = subprocess.Popen([*map(str, command), str(self.result), "--no-names", "--jobs", "2"],
                                       stdout=subprocess.DEVNULL, stderr=subprocess.DEVNULL,
                                       env={**os.environ, "NET_TOOL": PROGRAM})
            before = len(list(self.result.glob("work/*.rows")))
            while process.poll() is None and len(list(self.result.glob("work/*.rows"))) < before + 2:
                time.sleep(0.01)
            killed += process.poll() is None
            process.send_signal(signal.SIGKILL)
            process.wait()
        self.assertGreater(killed, 0)
        run(*command, self.result, "--no-names", "--jobs", 2, status=1)
        self.assertEqual(contents(self.result), contents(whole))
        self.assertEqual([path.name for path in self.result.rglob("*.part")], [])
        rows = table_of(whole)
        self.assertEqual([row["outcome"] for row in rows if row["source"].endswith("empty.cgd")], ["unreadable"])
        self.assertEqual([row["name"] for row in rows if row["source"].endswith("quartz.cif")], ["quartz"])

    def test_rows_that_are_spoiled_are_made_anew(self):
        self.make()
        whole = contents(self.result)
        work = self.result / "work"
        rows = path_of(work, 1)
        for spoiled in (rows.read_bytes()[:-3], b"", rows.read_bytes().replace(b"\t2\t", b"\t3\t")):
            rows.write_bytes(spoiled)
            self.assertIsNone(rows_of(work, read_plan(work / "plan"), 1))
            self.make()
            self.assertEqual(contents(self.result), whole)

    def test_parts_as_on_a_cluster(self):
        run(NET_TABLE, self.source, self.result, "--plan")
        run(NET_TABLE, self.result, "--part", "2/3")
        for k in ("1", "3"):
            run("sh", SBATCH, TOP / "net_tool", self.result, SLURM_ARRAY_TASK_ID=k, SLURM_ARRAY_TASK_COUNT="3",
                SLURM_ARRAY_TASK_MIN="1", SLURM_ARRAY_TASK_MAX="3", SLURM_ARRAY_TASK_STEP="1")
        self.assertEqual(len(list(self.result.glob("work/*.rows"))), len(read_plan(self.result / "work/plan").pieces))
        run(NET_TABLE, self.result, "--archive", self.archives, status=1)
        parts = contents(self.result)
        shutil.rmtree(self.result)
        self.make()
        self.assertEqual(contents(self.result), parts)

    def test_a_folder_of_archives_is_one_archive_to_all_tools(self):
        both = [b"one, square; lattice", b"two, square; lattice"]
        self.source.write_bytes(SQL_ARCHIVE)
        run(NET_TABLE, self.source, self.result, "--archive", self.archives)
        told = (self.result / "names.tsv").read_bytes()
        self.assertEqual([name.replace(b";", b"\\;") in told for name in both], [True, True])
        told = run(command("names"), self.source, "--archive", self.archives).stdout
        self.assertEqual([name in told for name in both], [True, True])
        told = run(command("gallery"), "--jobs", 1, self.folder / "gallery", self.archives).stdout.decode()
        self.assertEqual([Path(line).name for line in told.split()], ["one.html", "two.html"])
        (self.archives / "two.archive").write_bytes(b"net_archive 2\nentry\n")
        self.assertIn(b"archive", run(command("names"), self.source, "--archive", self.archives, status=1).stderr)

    def test_words_and_sources_that_are_none(self):
        self.make()
        for words, status, word in (([], 2, "usage"), ([self.folder / "absent", self.folder / "new"], 3, "absent"),
                                    ([self.folder / "absent", self.result], 3, "its source is"),
                                    ([self.source, self.result, "--keys-alone"], 2, "made without --keys-alone"),
                                    ([self.result, "--keys-alone"], 2, "made without --keys-alone"),
                                    ([self.folder / "new"], 3, "nothing is planned"), ([self.archives, self.folder / "new"], 3, "no files"),
                                    ([self.source, self.result, "--jobs", "0"], 2, "1 to 1024"),
                                    ([self.source, self.result, "--part", "4/3"], 2, "3/16"),
                                    ([self.source, self.result, "--archive", self.source], 3, "archive"),
                                    ([self.source, self.result, "--bond", "Si-O=1", "--bond", "O-Si=2"], 2, "O-Si several lengths"),
                                    ([self.source, self.result, "--leave-out", ","], 2, "has not the form Na,Cl"),
                                    ([self.source], 3, "is a file; the FOLDER"), ([self.source, self.source], 3, "is a file; the FOLDER"),
                                    ([1, 2, 3], 2, "FOLDER")):
            done = run(NET_TABLE, *words, status=status)
            self.assertIn(word, done.stderr.decode(), words)
            self.assertNotIn(b"Traceback", done.stderr)
        self.source.write_bytes(BLOCKS + BLOCKS)
        self.assertIn(b"changed since", self.make(status=3).stderr)
        (self.result / "work/plan").write_text("{}\n")
        self.assertIn(b"no plan", self.make(status=3).stderr)

    def test_options_of_structures_without_a_structure_are_told(self):
        words = ("--convention", "pe", "--bond", "Si-O=1.9", "--keep-ions", "--plan")
        told = run(NET_TABLE, *words, self.source, self.result).stderr.decode()
        self.assertEqual(told, "net_tool table: without effect, since the source has no structures: --convention, --keep-ions, --bond\n")
        self.assertEqual(run(NET_TABLE, "--plan", self.source, self.folder / "plain").stderr, b"")
        structures = self.folder / "structures"
        structures.mkdir()
        for file in (TOP / "examples/quartz.cif", TOP / "examples/dia.cgd"):
            shutil.copy(file, structures)
        self.assertEqual(run(NET_TABLE, *words, structures, self.folder / "mixed").stderr, b"")

    def test_options_that_a_plan_or_another_word_leaves_without_effect(self):
        run(NET_TABLE, "--plan", "--keys-alone", "--seconds", 900, "--bond", "Si-O=1.9", "--leave-out", "H", self.source, self.result)
        for words, told in ((["--topology"], "made without --topology"), (["--seconds", 9], "its --seconds is 900"),
                            (["--convention", "auto"], "made without --convention"), (["--mode", "zeolite"], "made without --mode"),
                            (["--bonds", "file"], "made without --bonds"), (["--bond", "Si-O=2"], "its --bond is {'Si-O': 1.9}"),
                            (["--leave-out", "Na"], "its --leave-out is ['H']"), (["--keep-ions"], "made without --keep-ions"),
                            (["--hydrogen-bonds"], "made without --hydrogen-bonds"), (["--every-copy"], "made without --every-copy"),
                            (["--partial-as-full"], "made without --partial-as-full"),
                            (["--accept-misfit"], "made without --accept-misfit"),
                            (["--part", "1/1", "--archive", self.archives], "--archive has no effect with --part"),
                            (["--part", "1/1", "--maps"], "--maps has no effect with --part"),
                            (["--part", "1/1", "--parquet"], "--parquet has no effect with --part"),
                            (["--part", "1/1", "--plan"], "--plan has no effect with --part"),
                            (["--plan", "--maps"], "--maps has no effect with --plan"),
                            (["--no-names", "--archive", self.archives], "--archive has no effect with --no-names")):
            self.assertIn(told, run(NET_TABLE, self.result, *words, status=2).stderr.decode(), words)
        self.assertIn(b"made with --keys-alone", run(NET_TABLE, self.source, self.result, "--seconds", 900, "--bond", "Si-O=1.9",
                                                     "--leave-out", "H", status=2).stderr)
        self.assertEqual(sorted(path.name for path in self.result.iterdir()), ["work"])
        run(NET_TABLE, self.result, "--no-names", "--keys-alone", "--bond", "Si-O=1.9", "--jobs", 1, status=1)
        self.assertEqual({row["sequences"] for row in table_of(self.result)}, {""})

    def test_the_status_of_a_program_that_fails(self):
        failing = self.folder / "failing"
        failing.write_text("#!/bin/sh\ncat >/dev/null\nexit 7\n")
        failing.chmod(0o755)
        for jobs in (1, 2):
            done = run(NET_TABLE, self.source, self.result, "--no-names", "--jobs", jobs, status=7, NET_TOOL=str(failing))
            self.assertIn(b"memory was refused", done.stderr)
        self.assertEqual([name for name in FILES if (self.result / name).exists()], [])

    def test_broken_texts(self):
        """Damaged files of a folder: each has its rows, and none spoils another."""
        seed = random.Random(3)
        folder = self.folder / "many"
        folder.mkdir()
        common = (TOP / "archives/common.cgd").read_bytes()[:6_000]
        cif = (TOP / "examples/quartz.cif").read_bytes()
        count = 400 if IS_LONG else 60
        for k in range(count):
            text = common if k % 2 else cif
            a, b = sorted(seed.randrange(len(text)) for _ in range(2))
            text = seed.choice((text[:a], text[:a] + text[b:], text[:a] + os.urandom(3) + text[a:], b""))
            (folder / f"{k:04}{'.cgd' if k % 2 else '.cif'}").write_bytes(text)
        (folder / "whole.cgd").write_bytes(SQL_ARCHIVE)
        (folder / "link.cgd").symlink_to(self.folder / "absent")
        (folder / "link.cgd").unlink()
        done = run(NET_TABLE, folder, self.result, "--archive", self.archives, "--jobs", 2, status=1)
        self.assertEqual(done.stderr, b"")
        rows = table_of(self.result)
        self.assertEqual({Path(row["source"]).name for row in rows}, {path.name for path in folder.iterdir()})
        self.assertEqual(rows[-1]["names"], "one, square\\; lattice;two, square\\; lattice")


class Topology(FolderTest):
    """What databases list of nets, beside the other columns."""

    KNOWN = {"dia": ("6^6", "6(2).6(2).6(2).6(2).6(2).6(2)", "981.00", "11"),
             "rtl": ("{4.6^2}2{4^2.6^10.8^3}", "4.6(2).6(2);4.4.6.6.6.6.6.6.6.6.6(2).6(2).*.*.*", None, "22"),
             "pcu": ("4^12.6^3", "4.4.4.4.4.4.4.4.4.4.4.4.*.*.*", "1561.00", "11"),
             "bcu": ("4^24.6^4", "-", "2331.00", "11")}

    def setUp(self):
        super().setUp()
        need_program()
        need_commands("sort")
        known = [net for net in read(TOP / "archives/common.cgd") if net.name.split(",")[0] in ("dia", "rtl", "pcu", "bcu")]
        woven = Net([(1, 1, (2, 0)), (1, 1, (0, 1))], name="woven")
        self.source = self.folder / "nets.cgd"
        self.source.write_bytes(b"".join(net.block for net in (*known, woven, Net(BRIDGED, name="bridged"))) + BLOCKS[-20:])
        self.nets = [net.name.split(",")[0] for net in known]

    def make(self, folder: str, *words: object, most: int = 1000) -> Path:
        code = (f"import sys; sys.path.insert(0, {str(TOP / 'python')!r})\n"
                f"from crystal_nets.tables import plan; plan.MOST_BLOCKS = {most}\n"
                "from crystal_nets.tables.command import main; sys.exit(main())")
        run(sys.executable, "-B", "-c", code, self.source, self.folder / folder, "--no-names", *words, status=1)
        return self.folder / folder

    def test_columns(self):
        rows = {row["name"].split(",")[0]: row for row in table_of(self.make("result", "--topology", "--jobs", 1))}
        for name, wanted in self.KNOWN.items():
            found = tuple(rows[name][column] for column in OF_TOPOLOGY[:4])
            self.assertEqual(found, tuple(text or found[2] for text in wanted), name)
        self.assertEqual([rows["woven"][column] for column in OF_TOPOLOGY], [""] * len(OF_TOPOLOGY))
        self.assertEqual((rows["bridged"]["key"], rows["bridged"]["transitivity"]), ("", "22"))
        self.assertIn("{4}", rows["bridged"]["point_symbol"])

    def test_groups(self):
        need_modules("numpy", "spglib")
        rows = {row["name"].split(",")[0]: row for row in table_of(self.make("result", "--topology", "--jobs", 1))}
        self.assertEqual({name: rows[name]["space_group"] for name in ("dia", "rtl", "pcu", "bcu", "bridged")},
                         {"dia": "Fd-3m", "rtl": "P42/mnm", "pcu": "Pm-3m", "bcu": "Im-3m", "bridged": ""})

    def test_other_columns_are_as_without(self):
        listed, plain_one = table_of(self.make("listed", "--topology")), table_of(self.make("plain"))
        self.assertEqual((tuple(listed[0]), tuple(plain_one[0])), (WITH_TOPOLOGY, TABLE))
        self.assertEqual([{name: row[name] for name in TABLE} for row in listed], plain_one)

    def test_pieces_and_keys_alone_change_nothing(self):
        whole = contents(self.make("whole", "--topology", "--keys-alone", "--jobs", 1))
        parts = self.make("parts", "--topology", "--keys-alone", "--jobs", 2, most=1)
        self.assertGreater(len(read_plan(parts / "work/plan").pieces), 3)
        self.assertEqual(contents(parts), whole)
        same = [[row[name] for name in OF_TOPOLOGY] for row in table_of(self.make("placed", "--topology", "--jobs", 1))]
        self.assertEqual([[row[name] for name in OF_TOPOLOGY] for row in table_of(parts)], same)

    def test_a_plan_fixes_it(self):
        words = (self.source, self.folder / "result", "--no-names", "--jobs", 1)
        run(NET_TABLE, *words, "--topology", "--plan")
        self.assertIn(b"made with --topology", run(NET_TABLE, *words, status=2).stderr)
        run(NET_TABLE, self.folder / "result", "--part", "1/1")
        run(NET_TABLE, *words[1:], status=1)
        self.assertEqual(tuple(table_of(self.folder / "result")[0]), WITH_TOPOLOGY)
        self.make("plain")
        self.assertIn(b"made without --topology", run(NET_TABLE, self.folder / "plain", "--topology", status=2).stderr)

    def test_pandas_reads_it(self):
        need_modules("pandas")
        table = read_table(self.make("result", "--topology"))
        self.assertEqual((list(table.columns), str(table["td10"].dtype)), (list(WITH_TOPOLOGY), "Float64"))
        self.assertEqual(table["td10"].isna().sum(), 2)
        self.assertEqual(list(table["td10"])[self.nets.index("dia")], 981)


class Plans(FolderTest):
    def test_pieces_cover_each_file(self):
        for number, text in enumerate((BLOCKS, BLOCKS * 700, b"", b"# nothing\n", b"key 2 1 1 1 0 1 1 0 1\n id x\nend\n version 1\n" * 2500)):
            (self.folder / f"{number}.cgd").write_bytes(text)
        (self.folder / "x.cif").write_bytes(b"data_x\n")
        plan = plan_of(files_of(self.folder), {"source": "x"})
        lengths: dict[str, int] = {}
        for piece in plan.pieces:
            for portion in piece:
                self.assertEqual(lengths.get(portion.path, 0), portion.offset)
                lengths[portion.path] = portion.offset + portion.length
        self.assertEqual(lengths, {str(path): path.stat().st_size for path in self.folder.iterdir()})
        self.assertEqual({portion.kind for piece in plan.pieces for portion in piece}, {"blocks", "blocks after an item", "whole"})
        (self.folder / "plan").write_bytes(plan.content)
        self.assertEqual(read_plan(self.folder / "plan"), plan)
        for content in (b"", b"x", b"[]\n", plan.content.replace(FORM.encode(), b"net_table 1"),
                        plan.content.replace(b"blocks", b"items", 1), plan.content + b"\n", plan.content[:-1],
                        json.dumps({"form": FORM}).encode() + b"\n[1]\n", b"[" * 100_000 + b"\n\n"):
            (self.folder / "plan").write_bytes(content)
            with self.assertRaises(Failed):
                read_plan(self.folder / "plan")


class Many(FolderTest):
    @long_test
    def test_ten_thousand_nets(self):
        need_program()
        need_commands("sort")
        text, truth = text_of_odd_nets([TOP / "archives/common.archive"], 10_000, seed=5)
        source = self.folder / "many.cgd"
        source.write_text(text)
        run(NET_TABLE, source, self.folder / "result", "--no-names", "--keys-alone", status=None, seconds=3000)
        rows = table_of(self.folder / "result")
        self.assertEqual([row["name"] for row in rows], [str(k + 1) for k in range(len(truth))])
        groups: dict[str, set[str]] = {}
        for row, name in zip(rows, truth):
            groups.setdefault(name, set()).update({row["group"]} - {""})
        self.assertEqual({len(found) for found in groups.values()}, {1})
