"""Tables of files of all kinds, arrays that leave parts out, and nets that take too long.

The program stands here by a script that gives each block one key, and waits at a net that is called slow."""

import gzip
import io
import os
from pathlib import Path

from testing import PROGRAM as BUILT
from testing import TOP, FolderTest, command, need_modules, need_program, run

from crystal_nets.answers import OF_TOPOLOGY
from crystal_nets.reading import nets_of_cgd, read
from crystal_nets.tables.plan import plan_of

need_modules("gemmi", "numpy", "scipy", "spglib")
SBATCH = TOP / "python/crystal_nets/tables/nets.sbatch"
PROGRAM = """#!/bin/sh
[ "$1" != duplicates ] || { echo "entries 0"; exit 0; }
cat >"$0.$$"
! grep -q "NAME slow" "$0.$$" || exec sleep 600
awk '{ gsub(/\\r/, "") } toupper($1) == "NAME" { name = $2 }
!inside && NF && $1 !~ /^#/ && toupper($1) != "END" { inside = 1; line = NR; word = toupper($1) }
inside && toupper($1) == "END" {
    inside = 0; count++
    gsub(/"/, "", name)
    printf "net %d line %d%s\\n", count, line, name == "" ? "" : " \\"" name "\\""
    if (word == "PERIODIC_GRAPH") print "graph d=2 vertices=1 edges=2 repeats=0\\nkey 2 1 1 1 1 0 1 1 1 1 0"
    else { print "unsupported " word; bad = 1 }
    name = ""
} END { exit bad }' "$0.$$"
status=$?
rm "$0.$$"
exit $status
"""
PLENTY = 6  # seconds: far more than the script takes for a net that it answers, also where the machine has much to do
ITEM = "key 2 1 1 1 0 1 1 0 1\n  version 1.0\n  id item\nend\nchecksum 12\n"
CRYSTAL = "CRYSTAL\n  NAME crystal\n  GROUP p4mm\n  CELL 1 1 90\n  NODE V 4 0 0\nEND\n"
GRAPH = "# a comment\nPERIODIC_GRAPH\nNAME {0}\nEDGES\n1 1 1 0\n1 1 0 1\nEND\n"
WRONG = "CRYSTAL\n  NAME wrong\nEND\n"
MIXED = ITEM + CRYSTAL + GRAPH.format("graph") + ITEM.replace("item", "other")
SILICON = "Si\n5.43\n0 0.5 0.5\n0.5 0 0.5\n0.5 0.5 0\nSi\n2\nDirect\n0 0 0\n0.25 0.25 0.25\n"
SILICON_XYZ = """2
Lattice="0 2.715 2.715 2.715 0 2.715 2.715 2.715 0" Properties=species:S:1:pos:R:3 pbc="T T T"
Si 0 0 0
Si 1.3575 1.3575 1.3575
"""
PLACES = [("item", 1), ("crystal", 6), ("graph", 13), ("other", 19)]


class Pieces(FolderTest):
    def setUp(self):
        super().setUp()
        self.program = self.folder / "program"
        self.program.write_text(PROGRAM)
        self.program.chmod(0o755)

    def table(self, *words: object, status: int = 0):
        return run(command("table"), "--no-names", "--keys-alone", "--jobs", 1, *words, status=status, NET_TOOL=str(self.program))

    def named(self, file: Path, archive: Path, status: int = 0):
        """What is reported on standard error when the nets of a file are named; by the program itself."""
        need_program()
        return run(command("names"), file, "--archive", archive, status=status, NET_TOOL=str(BUILT)).stderr.decode()

    def rows(self, name: str, content: bytes, status: int = 0) -> list[tuple[str, str, str]]:
        """Line, name and outcome of each net of a file, by its table."""
        (self.folder / name).write_bytes(content)
        self.told = self.table(self.folder / name, self.folder / f"{name}.table", status=status).stderr.decode()
        rows = [row.split("\t") for row in (self.folder / f"{name}.table/table.tsv").read_text().splitlines()[1:]]
        return [(row[2], row[3], row[4]) for row in rows]

    def test_all_readers_read_mixed_texts_alike(self):
        need_modules("numpy")
        from crystal_nets.blocks.converter import Converter
        for text in (MIXED, MIXED.replace("\n", "\r\n"), "\ufeff" + MIXED, GRAPH.format("first") + MIXED):
            first = [("first", 2)] if "first" in text else []
            places = first + [(name, line + 7 * len(first)) for name, line in PLACES]
            nets = nets_of_cgd(text.encode())
            self.assertEqual([(net.name, net.provenance.line) for net in nets], places)
            converter = Converter("x", lambda _: None, lambda *_: None)
            converter.convert(io.BytesIO(text.encode()))
            self.assertEqual((converter.turned, converter.refused), (len(places), 0))
            path = self.folder / "mixed.cgd"
            path.write_bytes(text.encode())
            self.assertEqual(len(read(path)), len(places))
            self.assertEqual(plan_of([path], {}).pieces[0][0].kind, "blocks")

    def test_rows_of_mixed_texts(self):
        self.assertEqual(self.rows("mixed.cgd", MIXED.encode()), [(str(line), name, "accepted") for name, line in PLACES])

    def test_structures_of_other_programs_and_packed_files(self):
        """POSCAR, extended XYZ and CIF, and blocks, as they are and packed by gzip."""
        need_modules("ase")
        texts = {"quartz.cif": ((TOP / "examples/quartz.cif").read_text(), "quartz"), "CONTCAR": (SILICON, "CONTCAR"),
                 "Si.extxyz": (SILICON_XYZ, "Si"), "nets.cgd": (CRYSTAL + GRAPH.format("graph"), "crystal")}
        for name, (text, net) in texts.items():
            for file, content in ((name, text.encode()), (f"{name}.gz", gzip.compress(text.encode()))):
                self.assertEqual(self.rows(file, content)[0][1:], (net, "accepted"), file)

    def test_a_packed_file_that_is_cut(self):
        (_, _, outcome), = self.rows("nets.cgd.gz", gzip.compress(MIXED.encode())[:-9], status=1)
        self.assertEqual(outcome, "unreadable")
        self.assertIn("packed by gzip, and damaged", (self.folder / "nets.cgd.gz.table/refused.tsv").read_text())

    def test_a_block_without_a_net_is_counted_and_told(self):
        text = CRYSTAL + WRONG + GRAPH.format("graph")
        self.assertEqual([outcome for _, _, outcome in self.rows("nets.cgd", text.encode(), status=1)],
                         ["accepted", "unreadable", "accepted"])
        self.assertIn("line 7: there are no nodes", (self.folder / "nets.cgd.table/refused.tsv").read_text())

    def test_doubts_and_what_is_left_out_are_told_with_names(self):
        need_modules("gemmi", "numpy", "scipy")
        cell = "".join(f"_cell_length_{axis} 6.9\n" for axis in "abc")
        atoms = "loop_\n_atom_site_label\n_atom_site_fract_x\n_atom_site_fract_y\n_atom_site_fract_z\n"
        file = self.folder / "silicon.cif"
        group = "_space_group_name_H-M_alt 'F d -3 m:2'\n"
        file.write_text(f"data_x\n{cell}{group}{atoms}Si1 .125 .125 .125\nSi2 ? ? ?\n")
        told = self.named(file, TOP / "archives/common.archive")
        self.assertEqual([line.partition(": silicon: ")[2] for line in told.splitlines()], [
            "left out, without a place or not occupied: Si2", "bonds in doubt: Si-Si 2.99 taken, longer than a bond"])
        file.write_text(CRYSTAL.replace("END", "  NODE W 4 1 0\nEND"))
        self.assertIn("the node W is where V is, and is taken once",
                      self.named(file.rename(self.folder / "x.cgd"), TOP / "archives/common.archive"))

    def test_names_are_loud_on_nets_without_a_key(self):
        (self.folder / "nets.cgd").write_text(CRYSTAL + WRONG)
        archive = self.folder / "my.archive"
        archive.write_text("net_archive 1\n")
        told = self.named(self.folder / "nets.cgd", archive, status=1)
        self.assertIn('net 2 "wrong": line 7: there are no nodes', told)
        self.assertIn("1 of 2 nets have no key, 1 of them no name either", told)
        (self.folder / "nets.cgd").write_text(MIXED)
        self.assertEqual(self.named(self.folder / "nets.cgd", archive), "")

    def test_arrays_that_leave_parts_out_are_refused(self):
        table = self.folder / "table"
        (self.folder / "nets.cgd").write_text("".join(GRAPH.format(f"n{k}") for k in range(5)))
        self.table("--plan", self.folder / "nets.cgd", table)
        for first, last, step, tasks in ((1, 31, 2, range(1, 32, 2)), (0, 2, 1, range(3)), (7, 7, 1, (7,))):
            for task in tasks:
                self.array(table, first, last, step, task, len(tasks))
            self.assertGreater(len(list(table.glob("work/*.rows"))), 0)
            for file in table.glob("work/*.rows"):
                file.unlink()
        for words in ((1, 9, 1, 5, 3), (1, 31, 2, 4, 16), (1, 7, 2, 3, 3), ("", "", "", 1, 2)):
            self.array(table, *words, status=2)
        self.assertEqual(list(table.glob("work/*.rows")), [])

    def array(self, pieces, first, last, step, task, count, status=0):
        run("sh", SBATCH, TOP / "net_tool", pieces, status=status, NET_TOOL=str(self.program),
            SLURM_ARRAY_TASK_MIN=str(first), SLURM_ARRAY_TASK_MAX=str(last), SLURM_ARRAY_TASK_STEP=str(step),
            SLURM_ARRAY_TASK_ID=str(task), SLURM_ARRAY_TASK_COUNT=str(count))

    def test_a_table_with_nets_that_are_stopped(self):
        (self.folder / "nets.cgd").write_text("".join(GRAPH.format(name) for name in ("a", "slow", "b")))
        self.table("--seconds", PLENTY, self.folder / "nets.cgd", self.folder / "table", status=1)
        rows = [row.split("\t") for row in (self.folder / "table/table.tsv").read_text().splitlines()[1:]]
        self.assertEqual([(row[3], row[4]) for row in rows],
                         [("a", "accepted"), ("slow", f"stopped {PLENTY} Seconds"), ("b", "accepted")])
        self.assertIn(f"no answer came within {PLENTY} seconds", (self.folder / "table/refused.tsv").read_text())
        done = self.table("--seconds", 9, self.folder / "nets.cgd", self.folder / "table", status=2)
        self.assertIn(b"its --seconds is %d" % PLENTY, done.stderr)
        self.assertFalse([name for name in os.listdir(self.folder / "table/work") if name.endswith(".part")])

    def test_parquet(self):
        (self.folder / "nets.cgd").write_text(MIXED)
        words = (self.folder / "nets.cgd", self.folder / "table")
        try:
            import pyarrow.parquet
        except ImportError:
            self.assertIn(b"pip install pyarrow", self.table("--parquet", *words, status=3).stderr)
            self.assertFalse((self.folder / "table").exists())
            return
        self.table("--parquet", *words)
        table = pyarrow.parquet.read_table(self.folder / "table/table.parquet")
        self.assertEqual(table.column("name").to_pylist(), [name for name, _ in PLACES])
        self.assertEqual(table.column("line").to_pylist(), [line for _, line in PLACES])
        self.assertEqual(table.column("classes").to_pylist(), [None] * 4)
        self.table("--parquet", "--topology", *words[:-1], self.folder / "listed")
        table = pyarrow.parquet.read_table(self.folder / "listed/table.parquet")
        self.assertEqual([str(table.schema.field(name).type) for name in OF_TOPOLOGY], ["string", "string", "double", "string"])
