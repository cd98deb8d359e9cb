"""The files of a table in the form Parquet, by pyarrow."""

from __future__ import annotations

import codecs
from pathlib import Path
from typing import Any

from ..errors import PackageMissing
from .columns import FRACTIONS, NUMBERS
from .join import FILES, head_of
from .plan import Plan

LONGEST_ROWS = 1 << 26  # bytes that are read at a time: more than any row has


def need_pyarrow() -> Any:
    """pyarrow. PackageMissing where it is not there."""
    try:
        import pyarrow
        import pyarrow.csv
        import pyarrow.parquet
    except ImportError:
        raise PackageMissing("pyarrow is not there, by which Parquet is written; Debian has no package of it: "
                             "pip install pyarrow, in an environment made with --system-site-packages") from None
    return pyarrow


def write_parquet(folder: Path, plan: Plan) -> None:
    """Writes each file of a table beside it, with the same columns and texts; numbers are int64, `td10` is float64, and null
    where there is none; bytes that are no UTF-8 are replaced by a mark. Each comes to its place once it is whole."""
    for name in FILES:
        path = (folder / name).with_suffix(".parquet")
        part = path.with_name(f"{path.name}.part")
        _write(folder / name, part, head_of(name, plan))
        part.replace(path)


def _write(source: Path, target: Path, columns: tuple[str, ...]) -> None:
    pyarrow = need_pyarrow()
    types = {name: pyarrow.int64() if name in NUMBERS else pyarrow.float64() if name in FRACTIONS else pyarrow.string()
             for name in columns}
    content = codecs.EncodedFile(open(source, "rb"), "utf-8", errors="replace")
    reader = pyarrow.csv.open_csv(
        content, pyarrow.csv.ReadOptions(block_size=LONGEST_ROWS),
        pyarrow.csv.ParseOptions(delimiter="\t", quote_char=False, double_quote=False, newlines_in_values=False),
        pyarrow.csv.ConvertOptions(column_types=types, null_values=[""], strings_can_be_null=False, check_utf8=True))
    with content, reader, pyarrow.parquet.ParquetWriter(target, reader.schema) as writer:
        for batch in reader:
            writer.write_batch(batch)
