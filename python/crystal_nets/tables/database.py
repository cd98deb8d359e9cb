"""A table as two tables of a database: its rows, and the nets that they have, each of which stands once.

Of many nets most of a table are keys and sequences that stand in it again and again. The view `net_table` reads as
`table.tsv`."""

from __future__ import annotations

import hashlib
import os
import sqlite3
from collections.abc import Iterator
from contextlib import closing
from pathlib import Path
from typing import Any

from ..answers import OF_TOPOLOGY
from ..errors import NotATable
from ..symbols import symbols_of
from .columns import FRACTIONS, NUMBERS, plain

MARK = b"SQLite format 3\0"
FORM = 1_313_166_385  # as application_id: the letters NETS, less what no signed number has
OF_NET = ("key", "sequences", "names", *OF_TOPOLOGY)  # what a row has of its net


def write_database(table: Path, target: Path, columns: tuple[str, ...]) -> None:
    """Writes the file of a table as a database, which comes to its place once it is whole."""
    part = target.with_name(f"{target.name}.part")
    part.unlink(missing_ok=True)
    try:
        with closing(sqlite3.connect(part, isolation_level=None)) as database:
            database.execute("PRAGMA journal_mode = OFF")
            database.execute("PRAGMA synchronous = OFF")
            database.execute(f"PRAGMA application_id = {FORM}")
            database.execute("BEGIN")
            _fill(database, table, columns)
            database.execute("COMMIT")
        part.replace(target)
    except BaseException:
        part.unlink(missing_ok=True)
        raise


def _fill(database: sqlite3.Connection, table: Path, columns: tuple[str, ...]) -> None:
    of_net = [name for name in columns if name in OF_NET]
    of_row = [name for name in columns if name not in OF_NET]
    database.execute(f"CREATE TABLE nets (net INTEGER PRIMARY KEY, {_declared(of_net)}, symbols TEXT, sum BLOB)")
    database.execute("CREATE INDEX \"nets by sum\" ON nets (sum)")
    database.execute(f"CREATE TABLE structures ({_declared(of_row)}, net INTEGER REFERENCES nets)")
    insert = f"INSERT INTO structures VALUES ({', '.join('?' * (len(of_row) + 1))})"
    for fields in _rows(table):
        row = dict(zip(columns, fields, strict=True))
        database.execute(insert, [*(_value(name, row[name]) for name in of_row), _net_of(database, row, of_net)])
    for name in ("net", "name", '"group"'):
        database.execute(f"CREATE INDEX \"structures by {name.strip(chr(34))}\" ON structures ({name})")
    told = ", ".join(f'"{name}"' for name in columns)
    database.execute(f'CREATE VIEW net_table AS SELECT {told} FROM structures JOIN nets USING (net) ORDER BY "number"')


def _net_of(database: sqlite3.Connection, row: dict[str, str], of_net: list[str]) -> int:
    """The number of the net of a row: that of the first row that has it. A sum finds it, and all fields are compared."""
    values, told = [_value(name, row[name]) for name in of_net], _sum_of([row[name] for name in of_net])
    columns = ", ".join(f'"{name}"' for name in of_net)
    for net, *known in database.execute(f"SELECT net, {columns} FROM nets WHERE sum = ?", (told,)):
        if known == values:
            return int(net)
    symbols = "; ".join(symbols_of(map(plain, row["names"].split(";"))))
    fields = [int(row["number"]), *values, symbols, told]
    database.execute(f"INSERT INTO nets VALUES ({', '.join('?' * len(fields))})", fields)
    return int(row["number"])


def _sum_of(fields: list[str]) -> bytes:
    return hashlib.sha256("\t".join(fields).encode(errors="surrogateescape")).digest()[:16]


def _rows(table: Path) -> Iterator[list[str]]:
    with open(table, encoding="utf-8", errors="replace", newline="\n") as lines:
        next(lines)
        for line in lines:
            yield line.removesuffix("\n").split("\t")


def _declared(columns: list[str]) -> str:
    return ", ".join(f'"{name}" {_type(name)}' for name in columns)


def _type(name: str) -> str:
    return "INTEGER" if name in NUMBERS else "REAL" if name in FRACTIONS else "TEXT"


def _value(name: str, text: str) -> Any:
    """A field as the database has it: numbers as such, and NULL where there is none."""
    if name in NUMBERS:
        return int(text) if text else None
    return (float(text) if text else None) if name in FRACTIONS else text


def is_database(path: Path) -> bool:
    with open(path, "rb") as file:
        return file.read(len(MARK)) == MARK


def columns_and_rows(path: Path) -> tuple[list[str], list[tuple[Any, ...]]]:
    """What the view has. NotATable if it is no such database, or damaged."""
    try:
        with closing(sqlite3.connect(f"file:{_quoted(path)}?mode=ro", uri=True)) as database:
            if database.execute("PRAGMA application_id").fetchone() != (FORM,):
                raise NotATable(f"{path} is no database of net_tool table")
            found = database.execute("SELECT * FROM net_table")
            return [name for name, *_ in found.description], found.fetchall()
    except sqlite3.DatabaseError as fault:
        raise NotATable(f"{path}: {fault}") from None


def _quoted(path: Path) -> str:
    return os.fspath(path.absolute()).replace("%", "%25").replace("?", "%3f").replace("#", "%23")
