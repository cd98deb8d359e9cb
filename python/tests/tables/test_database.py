"""A table as a database: its rows, and each net once; read back, it is the table."""

from __future__ import annotations

import sqlite3
import unittest.mock
from pathlib import Path

from testing import TOP, FolderTest, command, need_commands, need_modules, need_program, run

NET_TABLE = command("table")


class Databases(FolderTest):
    def setUp(self):
        super().setUp()
        need_program()
        need_commands("sort")
        blocks = (TOP / "archives/common.cgd").read_bytes()
        self.source = self.folder / "nets.cgd"
        self.source.write_bytes(blocks + blocks + (TOP / "archives/layers.cgd").read_bytes() + b"PERIODIC_GRAPH\nNAME row\nEDGES\n1 1 1 0\nEND\n")
        self.file = self.folder / "nets.sqlite"

    def make(self, result: str, *words: object) -> Path:
        run(NET_TABLE, self.source, self.folder / result, "--jobs", 2, "--sqlite", self.file, *words, status=1)
        return self.folder / result

    def test_the_view_reads_as_the_table(self):
        for words in ((), ("--topology",)):
            result = self.make(f"result{len(words)}", *words)
            lines = [line.split("\t") for line in (result / "table.tsv").read_text().splitlines()]
            with sqlite3.connect(self.file) as database:
                found = database.execute("SELECT * FROM net_table")
                self.assertEqual([name for name, *_ in found.description], lines[0])
                self.assertEqual([["" if field is None else f"{field:.2f}" if isinstance(field, float) else str(field)
                                   for field in row] for row in found], lines[1:])
                nets, = database.execute("SELECT count(*) FROM nets").fetchone()
                self.assertEqual(nets, len({(row[11], row[12], row[14]) for row in lines[1:]}))
                self.assertLess(nets, len(lines))
                symbol, = database.execute("SELECT symbols FROM nets WHERE names LIKE 'dia,%'").fetchone()
                self.assertEqual(symbol, "dia")

    def test_read_table_takes_it(self):
        need_modules("pandas")
        import pandas
        from crystal_nets import NotATable, read_table
        table = read_table(self.make("result", "--topology"))
        pandas.testing.assert_frame_equal(read_table(self.file), table)
        content = self.file.read_bytes()
        for damaged in (content[:5000], content[:100] + b"\0" * 4000 + content[4100:]):
            self.file.write_bytes(damaged)
            with self.assertRaises(NotATable):
                read_table(self.file)
        self.file.unlink()
        with sqlite3.connect(self.file) as other:
            other.execute("CREATE TABLE net_table (number INTEGER)")
        with self.assertRaisesRegex(NotATable, "is no database of net_tool table"):
            read_table(self.file)

    def test_a_run_that_was_taken_up_writes_the_same_bytes(self):
        self.make("whole")
        whole = self.file.read_bytes()
        run(NET_TABLE, "--plan", self.source, self.folder / "parts")
        run(NET_TABLE, self.folder / "parts", "--part", "1/2", "--jobs", 1)
        self.make("parts")
        self.assertEqual(self.file.read_bytes(), whole)
        self.assertLess(len(whole), 2 * (self.folder / "whole/table.tsv").stat().st_size)

    def test_nets_with_one_sum_stay_apart(self):
        """Fields are compared whole, and no sum decides."""
        from crystal_nets.tables import columns, database
        table = self.make("result") / "table.tsv"
        asked = "SELECT net, key, names FROM nets ORDER BY net"
        with sqlite3.connect(self.file) as known:
            nets = known.execute(asked).fetchall()
        with unittest.mock.patch.object(database, "_sum_of", lambda fields: b"one"):
            database.write_database(table, self.file, columns.columns_of(False))
        with sqlite3.connect(self.file) as found:
            self.assertEqual(found.execute(asked).fetchall(), nets)

    def test_words_and_places(self):
        for words in (("--plan",), ("--part", "1/1")):
            told = run(NET_TABLE, *words, "--sqlite", self.file, self.source, self.folder / "result", status=2).stderr
            self.assertIn(b"--sqlite has no effect", told)
        run(NET_TABLE, "--sqlite", self.folder / "absent/x", self.source, self.folder / "result", status=3)
