"""The columns of a table, and how it is read."""

from __future__ import annotations

import os
import re
from pathlib import Path
from typing import TYPE_CHECKING

from ..answers import OF_TOPOLOGY
from ..errors import NotATable, PackageMissing, lacking
from ..files import checked_path, told_encoding

if TYPE_CHECKING:
    import pandas

OF_A_PIECE = ("source", "line", "name", "outcome", "dimension", "vertices", "edges", "classes", "D0", "copies", "key",
              "sequences", "convention", "doubts", "left_out", "components", "notes", "reason", "by", "index", "small_key",
              "certificate", "block", *OF_TOPOLOGY)
OF_READING = ("convention", "doubts", "left_out", "components", "notes")  # how a structure was read
TABLE = ("number", *OF_A_PIECE[:OF_A_PIECE.index("convention")], "group", "names", "by", "index", *OF_READING)
WITH_TOPOLOGY = (*TABLE, *OF_TOPOLOGY)  # where `--topology` was asked for
NUMBERS = ("number", "line", "dimension", "vertices", "edges", "classes", "D0", "copies", "group")
FRACTIONS = ("td10",)
QUOTE_NONE = 3  # of the module csv
# control bytes, and what parts fields and names
MARKS = {chr(byte): f"\\x{byte:02x}" for byte in (*range(32), 127)}
MARKS |= {"\\": "\\\\", "\t": "\\t", "\r": "\\r", ";": "\\;", '"': "\\x22"}
ESCAPED = re.compile(r"\\(x[0-9a-f]{2}|.)")
LETTERS = {"t": "\t", "r": "\r"}


def escaped(text: str) -> str:
    """A text as a field has it: no tab, no line feed, no quote, and `;` for what parts several texts alone."""
    return "".join(MARKS.get(sign, sign) for sign in text)


def joined(texts: tuple[str, ...]) -> str:
    return ";".join(map(escaped, texts))


def plain(field: str) -> str:
    """The text of a field."""
    return ESCAPED.sub(lambda found: chr(int(found[1][1:], 16)) if found[1][0] == "x" and len(found[1]) == 3
                       else LETTERS.get(found[1], found[1]), field)


def columns_of(topology: bool) -> tuple[str, ...]:
    """The columns of a table, with or without what databases list."""
    return WITH_TOPOLOGY if topology else TABLE


def line_of(fields: tuple[str, ...]) -> bytes:
    return "\t".join(fields).encode(errors="surrogateescape") + b"\n"


def read_table(path: str | os.PathLike[str]) -> pandas.DataFrame:
    """The table that net_tool table made, as a `pandas.DataFrame`: of its folder, its file `table.tsv`, or a database of
    `--sqlite`, or one as Parquet, by pyarrow. Numbers that are not there are NA, texts are empty. The fields `sequences`, `names`, `doubts`, `left_out`, `components`, `notes` and `vertex_symbols` have `;`
    between their parts, as README.md of this package says. NotATable where it is none, or is cut."""
    from .database import columns_and_rows, is_database  # here, since it takes its columns from this module
    try:
        import pandas
    except ImportError as missing:
        raise PackageMissing(lacking(missing, "apt-get install python3-pandas")) from None
    place = checked_path(path, NotATable)
    file = place / "table.tsv" if place.is_dir() else place
    if is_database(file):
        names, rows = columns_and_rows(file)
        return _typed(pandas.DataFrame(rows, columns=names))
    if file.suffix == ".parquet":
        return _typed(pandas.read_parquet(file))
    columns = _checked_columns(file)
    try:
        return pandas.read_csv(file, sep="\t", dtype={name: _kind_of(name) for name in columns}, keep_default_na=False,
                               na_values={name: [""] for name in columns if _kind_of(name) != "str"}, quoting=QUOTE_NONE,
                               encoding_errors="surrogateescape", lineterminator="\n")
    except (ValueError, TypeError, OverflowError) as fault:  # of a number that is none
        raise NotATable(f"{file}: {fault}") from None


def _typed(table: pandas.DataFrame) -> pandas.DataFrame:
    """The same with the types that the table of a text has."""
    return table.astype({name: _kind_of(name) for name in table.columns if _kind_of(name) != "str"})


def _kind_of(column: str) -> str:
    """The type of a column, in the words of pandas."""
    return "Int64" if column in NUMBERS else "Float64" if column in FRACTIONS else "str"


def _checked_columns(file: Path) -> tuple[str, ...]:
    """The columns of a file. NotATable where it has no table of net_tool table in its form: pandas takes a line that is cut for a
    whole one."""
    with open(file, "rb") as lines:
        head = next(lines, b"")
        columns = columns_of(head == line_of(WITH_TOPOLOGY))
        if head != line_of(columns):
            raise NotATable(f"{file} is no table of net_tool table: its first line has not the names of the columns"
                            + told_encoding(head))
        for number, line in enumerate(lines, start=2):
            if line.count(b"\t") != len(columns) - 1 or not line.endswith(b"\n"):
                raise NotATable(f"{file}: line {number} is no row of a table, or is cut: {line[:60]!r}")
    return columns
