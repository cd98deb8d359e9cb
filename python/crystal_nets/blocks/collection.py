"""Archives of many nets from .cgd and .arc files, with what is refused beside them, and why.

Two blocks of one name that are one net are taken once. Where they are different nets, as a published key line and the
CRYSTAL block of the same name may be, the second is refused, and both are named. Nets that the program refuses a key make
an archive of their own, in which they are told by verified maps."""

from __future__ import annotations

import os
import subprocess
from collections.abc import Iterable, Iterator
from dataclasses import dataclass
from pathlib import Path

from ..progress import Progress
from ..files import opened_plain, write_whole
from ..net import Net
from ..program import find_program
from ..provenance import REFUSED, TOLD, Note
from ..side_by_side import first_of_program
from ..texts.net_text import MOST_BLOCKS, MOST_BYTES, NetReport, NoReport, nets_of_report
from ..wide.archive import write_wide_archive
from .converter import Block, Converter, lines_of
from .tokens import decoded

DONE, SOME_REFUSED = 0, 1
PIECE = 200            # nets whose keys are asked for at a time
MOST_TEXT = MOST_BYTES - (1 << 20)
WITHOUT_KEY = tuple(f"refused {number} " for number in (4, 5, 6, 7))


class Failed(Exception):
    """No archive can be made."""


@dataclass
class ListedNet:
    """A net that an archive may take: a block that was turned into a graph, and its place."""

    source: str
    line: int
    kind: str
    name: bytes
    text: bytes
    key: bytes = b""
    told: str = ""

    @property
    def place(self) -> str:
        return f"{self.source} line {self.line} ({self.kind})"


class Collector(Converter):
    """Keeps the blocks of a text, and why others are refused."""

    def __init__(self, source: str, refused: list[str]) -> None:
        super().__init__(source, len, self.hear)  # what is written beside the nets is not kept
        self.nets: list[ListedNet] = []
        self.refusals = refused
        self.told: list[str] = []

    def put(self, block: Block, text: bytes) -> None:
        self.nets.append(ListedNet(self.source, block.line, block.kind, b"", text))

    def hear(self, text: str, kind: str) -> None:
        if kind == REFUSED:
            self.refusals.append(text)
        elif kind in TOLD:
            self.told.append(text)

    def stay(self, block: Block, reason: str) -> None:
        self.tell(block, Note(REFUSED, f"refused: {reason}"))


def run(program: str, command: str, text: bytes) -> tuple[int, bytes]:
    """The status and the report of a command on a text."""
    done = subprocess.run([program, command, "-"], input=text, stdout=subprocess.PIPE,
                          preexec_fn=first_of_program())
    if done.returncode not in (0, 1, 9):
        raise Failed(f"{program} {command} ended with {done.returncode}: {decoded(done.stdout[:200]).strip()}")
    return done.returncode, done.stdout


def read_nets(files: list[str], refused: list[str]) -> list[ListedNet]:
    """All blocks of the files."""
    nets: list[ListedNet] = []
    with Progress("reading", sum(os.path.getsize(file) for file in files if os.path.isfile(file)), "bytes") as bar:
        for file in files:
            collector = Collector(file, refused)
            with opened_plain(file) as stream:
                for line, is_rest in lines_of(stream):
                    collector.push(line, is_rest)
                    bar.step(len(line))
            collector.finish()
            bar.tell([line.encode(errors="replace").decode() for line in collector.told])
            nets += collector.nets
    return nets


def find_keys(nets: list[ListedNet], program: str) -> Iterator[ListedNet]:
    """The nets with their names and keys, and what is reported of one that has none."""
    with Progress("keys", len(nets), "nets") as bar:
        for k in range(0, len(nets), PIECE):
            piece = nets[k:k + PIECE]
            for net, report in zip(piece, keys_of_piece(piece, program), strict=True):
                net.name, net.key, net.told = report.name, report.key, decoded(report.told)
                yield net
            bar.step(len(piece))


def keys_of_piece(nets: list[ListedNet], program: str) -> list[NetReport]:
    """What the program reports of each net."""
    _, told = run(program, "key", b"".join(net.text for net in nets))
    try:
        reports = list(nets_of_report(told.splitlines(keepends=True)))
    except NoReport as fault:
        raise Failed(f"{program} key gave no report: {fault}") from fault
    if len(reports) != len(nets):
        raise Failed(f"{program} reports {len(reports)} nets of {len(nets)}")
    return reports


def chosen(nets: Iterable[ListedNet], refused: list[str]) -> list[ListedNet]:
    """The nets that an archive may have: with a key, and with a name that no other net has."""
    by_name: dict[bytes, ListedNet] = {}
    for net in nets:
        first = by_name.get(net.name)
        reason = ""
        if not net.key:
            reason = net.told
        elif not net.name:
            reason = "it has no name"
        elif first and first.key != net.key:
            reason = f"it is another net than {first.place}, which has its name"
        elif not first:
            by_name[net.name] = net
        if reason:
            refused.append(f'{net.source}: line {net.line} "{decoded(net.name)}": {net.kind}: {reason}')
    return list(by_name.values())


def archives_of(nets: list[ListedNet], program: str) -> Iterator[tuple[bytes, int]]:
    """The texts of archives that hold all the nets, each with as many as it has room for, and how many these are."""
    while nets:
        count, size = 0, 0
        while count < min(len(nets), MOST_BLOCKS) and size + len(nets[count].text) <= MOST_TEXT:
            size += len(nets[count].text)
            count += 1
        status, text = run(program, "add", b"".join(net.text for net in nets[:count]))
        if status == 9:  # add refused K ..: the first K - 1 have room
            count = int(text.split()[2]) - 1
            status, text = run(program, "add", b"".join(net.text for net in nets[:count]))
        if status or not count:
            raise Failed(f"{program} add: {decoded(text[:200]).strip()}")
        yield text, count
        nets = nets[count:]


def archive_path(stem: Path, number: int) -> Path:
    return stem.with_name(stem.name + (f".{number}.archive" if number > 1 else ".archive"))


def make_wide_archive(stem: Path, nets: list[ListedNet]) -> int:
    """Makes the archive of the nets without a key, and tells of it; gives their number."""
    by_name: dict[bytes, ListedNet] = {}
    with_key = {net.name for net in nets if net.key}
    for net in nets:
        if net.name and net.name not in with_key and net.told.startswith(WITHOUT_KEY):
            by_name.setdefault(net.name, net)
    wide = stem.with_name(stem.name + ".wide")
    if by_name:
        write_wide_archive(wide, [Net.from_block(net.text, decoded(name)) for name, net in by_name.items()])
        print(f"{wide}.cgd: {len(by_name)} nets without a key")
    else:  # of an earlier collection
        for ending in (".cgd", ".index"):
            wide.with_name(wide.name + ending).unlink(missing_ok=True)
    return len(by_name)


def make_archives(stem: Path, files: list[str]) -> int:
    """Makes the archives and the list of refusals, and tells what was made."""
    program = find_program()
    refused: list[str] = []
    nets = read_nets(files, refused)
    nets = list(find_keys(nets, program))
    taken = chosen(nets, refused)
    stem.parent.mkdir(parents=True, exist_ok=True)
    number = 0
    for number, (text, count) in enumerate(archives_of(taken, program), start=1):
        write_whole(archive_path(stem, number), text)
        print(f"{archive_path(stem, number)}: {count} nets")
    wide = make_wide_archive(stem, nets)
    if not number and not wide:
        raise Failed("no net can be taken" + (": " + refused[0] if refused else ""))
    while (old := archive_path(stem, number + 1)).exists():  # of an earlier, longer collection
        old.unlink()
        number += 1
    refusals = stem.with_name(stem.name + ".refused")
    write_whole(refusals, "".join(line + "\n" for line in refused).encode(errors="surrogateescape"))
    if refused:
        print(f"{refusals}: {len(refused)} are left out, and why")
    return SOME_REFUSED if refused else DONE
