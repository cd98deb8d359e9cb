"""The table of all pieces, with groups and names, and the files beside it.

Several processes read the pieces, some at a time: first they count the rows, then they sort the keys, which one process
merges into groups, and last they write the parts of the table, which are put together. Nets without a key are grouped by
verified maps, among those of one index."""

from __future__ import annotations

import contextlib
import multiprocessing
import os
import shutil
from array import array
from collections.abc import Callable, Iterable, Iterator
from concurrent.futures import ProcessPoolExecutor
from dataclasses import dataclass, field
from itertools import chain, groupby
from pathlib import Path
from typing import NamedTuple, TypeVar

from ..answers import OF_TOPOLOGY, By
from ..archive import Archive
from ..asking import keys
from ..net import Net
from ..side_by_side import end_with_parent
from .columns import OF_A_PIECE, OF_READING, columns_of, joined, line_of, plain
from .piece import rows_of
from .plan import Plan, has_topology
from .sorting import merged_lines, sorted_lines
from .source import Failed

FILES = ("table.tsv", "groups.tsv", "names.tsv", "refused.tsv")
WRITTEN_BY_PARTS = ("table.tsv", "names.tsv", "refused.tsv")
HEADS = {"groups.tsv": ("group", "number", "name", "by"), "names.tsv": ("number", "name", "name_in_archive"),
         "refused.tsv": ("number", "source", "line", "name", "outcome", "reason")}
FOR_TABLE = OF_A_PIECE.index("convention")  # fields of a piece that stand in the table as they are
FOR_REFUSED = OF_A_PIECE.index("outcome") + 1
BY_KEY, SMALLER_CELL, BY_MAP = (str(by).encode() for by in (By.KEY, By.SMALLER_CELL, By.VERIFIED_MAP))
AT_A_TIME = 32  # pieces
Item = TypeVar("Item")
Result = TypeVar("Result")


def head_of(name: str, plan: Plan) -> tuple[str, ...]:
    """The columns of one of the four files."""
    return HEADS.get(name) or columns_of(has_topology(plan.settings))


class Row:
    """The fields of a net, as its piece has them."""

    def __init__(self, line: bytes) -> None:
        self.fields = line.removesuffix(b"\n").split(b"\t")

    def __getitem__(self, column: str) -> bytes:
        return self.fields[OF_A_PIECE.index(column)]

    @property
    def group_key(self) -> bytes:
        """The proved key of the net, in whichever cell it has one."""
        return self["small_key"] if self["by"] == SMALLER_CELL else self["key"]


@dataclass(frozen=True)
class Named:
    """The names of a net, by what they are certain, and the map that shows it."""

    names: tuple[str, ...] = ()
    by: bytes = b""
    certificate: str = ""


class Stretch(NamedTuple):
    """Pieces that one process reads at a time, and how many rows are before them."""

    first: int
    last: int
    before: int

    def part(self, work: Path, name: str) -> Path:
        return work / f"{name}.{self.first:06}.part"


@dataclass
class Counts:
    """What a table has.

    group    of each net the first net of its group; 0 where it is in none
    by_maps  the nets of groups by verified maps"""

    nets: int = 0
    with_key: int = 0
    kinds: int = 0
    named: int = 0
    group: array[int] = field(default_factory=lambda: array("Q", [0]))
    by_maps: set[int] = field(default_factory=set)


class Task(NamedTuple):
    """The rows of a stretch that are to be written: the groups of their nets, and which of these are by verified maps."""

    stretch: Stretch
    groups: array[int]
    by_maps: frozenset[int]


@dataclass(frozen=True)
class Source:
    """The pieces, and the archive for names, which each process has.

    maps  the folder for certificates; None where they are not asked for"""

    work: Path
    plan: Plan
    archive: Archive | None
    maps: Path | None = None

    def rows(self, stretch: Stretch) -> Iterator[tuple[int, Row]]:
        """The number and the fields of all rows in their order."""
        count = stretch.before
        for number in range(stretch.first, stretch.last + 1):
            rows = rows_of(self.work, self.plan, number)
            if rows is None:
                raise Failed(f"the rows of piece {number} are not there; the same command again makes them")
            for row in rows:
                count += 1
                yield count, Row(row)

    def count(self, stretch: Stretch) -> tuple[int, int]:
        """How many rows there are, and how many of them have a key."""
        keyed = [row["key"] != b"" for _, row in self.rows(stretch)]
        return len(keyed), sum(keyed)

    def sort_keys(self, stretch: Stretch) -> None:
        """Writes key, number and name of each net with a key, sorted by both; and index, number, name and block of each
        refused net that the program reads."""
        keyed, indexed = [], []
        for number, row in self.rows(stretch):
            if row.group_key:
                keyed.append((row.group_key, number, row["name"]))
            elif row["block"] and row["outcome"].startswith(b"refused"):
                indexed.append((row["index"], number, row["name"], row["block"]))
        with open(stretch.part(self.work, "keys"), "wb") as file:
            file.writelines(b"%s\t%d\t%s\n" % item for item in sorted(keyed))
        with open(stretch.part(self.work, "indices"), "wb") as file:
            file.writelines(b"%s\t%d\t%s\t%s\n" % item for item in sorted(indexed))

    def write_rows(self, task: Task) -> int:
        """Writes the parts of the files for nets of given groups; how many have names."""
        stretch, named = task.stretch, 0
        last = (*OF_READING, *OF_TOPOLOGY) if has_topology(self.plan.settings) else OF_READING
        with contextlib.ExitStack() as stack:
            table, names, refused = (stack.enter_context(open(stretch.part(self.work, name), "wb")) for name in WRITTEN_BY_PARTS)
            for number, row in self.rows(stretch):
                found = self._named(row)
                named += bool(found.names)
                self.write_map(number, found.certificate)
                first = task.groups[number - stretch.before - 1]
                by = found.by or (BY_MAP if number in task.by_maps else b"")
                told = joined(found.names).encode(errors="surrogateescape")
                table.write(b"\t".join((b"%d" % number, *row.fields[:FOR_TABLE], b"%d" % first if first else b"", told, by,
                                        row["index"], *map(row.__getitem__, last))) + b"\n")
                for name in found.names:
                    names.write(b"%d\t%s\t%s" % (number, row["name"], line_of((joined((name,)),))))
                if not row["key"]:
                    refused.write(b"\t".join((b"%d" % number, *row.fields[:FOR_REFUSED], row["reason"])) + b"\n")
        return named

    def _named(self, row: Row) -> Named:
        """The names of a net: by its key, by that of its smaller cell, or by maps to nets without a key."""
        key = row["key"] or row["small_key"]
        if key:
            certificate = plain(row["certificate"].decode()) if row["certificate"] else ""
            return Named(self.archive.names(key.decode()) if self.archive else (), row["by"], certificate)
        if row["block"] and self.archive and any(True for _ in self.archive.wide_blocks(row["index"].decode())):
            answer, = keys([_net_of(row["block"])], self.archive)
            return Named(answer.names, str(answer.by).encode(), answer.certificate)
        return Named()

    def write_map(self, number: int, text: str) -> None:
        """Keeps the certificate of a net, where they are asked for."""
        if text and self.maps:
            (self.maps / f"{number}.maps").write_text(text)


def _net_of(block: bytes) -> Net:
    """The net of a block as a field has it."""
    return Net.from_block(plain(block.decode(errors="surrogateescape")).encode(errors="surrogateescape"))


class Workers:
    """Processes side by side that have the source; one is none beside this."""

    def __init__(self, source: Source, jobs: int) -> None:
        self.source, self.jobs = source, jobs

    def each(self, work: Callable[[Source, Item], Result], items: Iterable[Item]) -> Iterator[Result]:
        """The results in the order of the items."""
        items = list(items)
        if self.jobs == 1 or len(items) < 2:
            yield from (work(self.source, item) for item in items)
            return
        with ProcessPoolExecutor(min(self.jobs, len(items)), multiprocessing.get_context("fork"), _begin,
                                 (os.getpid(), self.source)) as pool:
            try:
                yield from pool.map(_asked, [work] * len(items), items)
            except BaseException:
                pool.shutdown(cancel_futures=True)
                raise


SOURCE: list[Source] = []  # of this process


def _begin(parent: int, source: Source) -> None:
    end_with_parent(parent)
    SOURCE.append(source)


def _asked(work: Callable[[Source, Item], Result], item: Item) -> Result:
    return work(SOURCE[0], item)


def join(folder: Path, work: Path, plan: Plan, archive: Archive | None, jobs: int = 1, maps: bool = False) -> Counts:
    """Writes the four files from the rows of all pieces, and with `maps` the certificates. Each file comes to its place once
    all are whole; what the folder has beside them of another table goes then."""
    new_maps = work / "maps" if maps else None
    if new_maps:
        shutil.rmtree(new_maps, ignore_errors=True)  # of a run that broke off
        new_maps.mkdir()
    source, counts = Source(work, plan, archive, new_maps), Counts()
    workers = Workers(source, jobs)
    stretches = _counted(workers, len(plan.pieces), counts)
    for _ in workers.each(Source.sort_keys, stretches):
        pass
    _write_groups(folder, source, stretches, counts)
    counts.named = sum(workers.each(Source.write_rows, _tasks(stretches, counts)))
    for name in WRITTEN_BY_PARTS:
        _put_together(folder / f"{name}.part", line_of(head_of(name, plan)), [stretch.part(work, name) for stretch in stretches])
    _let_others_go(folder)
    for name in FILES:
        (folder / f"{name}.part").replace(folder / name)
    if new_maps:
        _take_maps(new_maps, folder / "maps")
    return counts


def _let_others_go(folder: Path) -> None:
    """Takes away what was written beside another table: its files as Parquet, and its maps."""
    for name in FILES:
        (folder / name).with_suffix(".parquet").unlink(missing_ok=True)
    for old in (folder / "maps").glob("*.maps"):
        old.unlink()
    with contextlib.suppress(OSError):  # it is not there, or has other files
        (folder / "maps").rmdir()


def _take_maps(made: Path, place: Path) -> None:
    place.mkdir(exist_ok=True)
    for file in sorted(made.iterdir()):
        file.replace(place / file.name)
    made.rmdir()


def _counted(workers: Workers, pieces: int, counts: Counts) -> list[Stretch]:
    """The pieces in stretches, with their rows counted."""
    ranges = [Stretch(first, min(first + AT_A_TIME - 1, pieces), 0) for first in range(1, pieces + 1, AT_A_TIME)]
    stretches = []
    for stretch, (rows, keyed) in zip(ranges, workers.each(Source.count, ranges)):
        stretches.append(stretch._replace(before=counts.nets))
        counts.nets += rows
        counts.with_key += keyed
    counts.group = array("Q", [0]) * (counts.nets + 1)
    return stretches


def _tasks(stretches: list[Stretch], counts: Counts) -> Iterator[Task]:
    for stretch, end in zip(stretches, [*(stretch.before for stretch in stretches[1:]), counts.nets]):
        numbers = range(stretch.before + 1, end + 1)
        yield Task(stretch, counts.group[numbers.start:numbers.stop], frozenset(counts.by_maps.intersection(numbers)))


def _write_groups(folder: Path, source: Source, stretches: list[Stretch], counts: Counts) -> None:
    """Writes the members of each group of two or more isomorphic nets, by their first nets: by keys, which are compared
    whole, and by verified maps."""
    sorted_keys = [stretch.part(source.work, "keys") for stretch in stretches]
    indices = [stretch.part(source.work, "indices") for stretch in stretches]
    members = chain(_members(sorted_keys, counts), _members_by_maps(source, indices, counts))
    with open(folder / "groups.tsv.part", "wb") as file:
        file.write(line_of(HEADS["groups.tsv"]))
        file.writelines(sorted_lines(members, "1,1n", "2,2n"))
    for path in (*sorted_keys, *indices):
        path.unlink()


def _members(sorted_keys: list[Path], counts: Counts) -> Iterator[bytes]:
    """A line for each net that another one is the same as; of each net its group is kept."""
    rows = (line[:-1].split(b"\t") for line in merged_lines(sorted_keys, "1,1", "2,2n"))
    for _, same in groupby(rows, key=lambda row: row[0]):
        counts.kinds += 1
        first, waiting = 0, b""
        for _, number, name in same:
            line = b"%d\t%s\t%s\t%s\n" % (first or int(number), number, name, BY_KEY)
            counts.group[int(number)] = first or int(number)
            if first:
                yield waiting + line
                waiting = b""
            else:
                first, waiting = int(number), line


def _members_by_maps(source: Source, indices: list[Path], counts: Counts) -> Iterator[bytes]:
    """The same of nets without a key, among those of one index."""
    from ..wide.grouping import grouped_by_maps  # here, since few tables need it
    rows = (line[:-1].split(b"\t") for line in merged_lines(indices, "1,1", "2,2n"))
    for _, alike in groupby(rows, key=lambda row: row[0]):
        found = [(int(number), name, block) for _, number, name, block in alike]
        if len(found) < 2:
            continue
        for group in grouped_by_maps([_net_of(block) for _, _, block in found]):
            members = [found[place] for place in group.places]
            for (number, name, _), text in zip(members, group.certificates):
                counts.group[number] = members[0][0]
                counts.by_maps.add(number)
                source.write_map(number, text)
                if len(members) > 1:
                    yield b"%d\t%d\t%s\t%s\n" % (members[0][0], number, name, BY_MAP)


def _put_together(path: Path, head: bytes, parts: list[Path]) -> None:
    with open(path, "wb") as file:
        file.write(head)
        for part in parts:
            with open(part, "rb") as content:
                shutil.copyfileobj(content, file, 1 << 20)
            part.unlink()
