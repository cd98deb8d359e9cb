"""Whether two nets are the same, with the map that shows it."""

from __future__ import annotations

import re
from dataclasses import dataclass, field, replace
from itertools import product
from typing import Any, Unpack

from .archive import Archive
from .asking import keys, single
from .errors import NotANet, ProgramFailed, in_one_line
from .graph import Vertex
from .limits import bounded, in_time
from .net import Net
from .options import StructureOptions
from .outcome import ACCEPTED, Outcome
from .program import reading_report, run

Place = tuple[Vertex, tuple[int, ...]]

BAD_MAP = 11


@dataclass(frozen=True)
class NetMap:
    """A bijection from the vertices of one net to those of another that keeps edges and is periodic.

    period  it goes on alike after so many cells along each axis
    images  the vertex u in the cell r goes to a vertex of the other net in a cell: (u, r) -> (v, t), for each u and each
            cell r with parts from 0 to period - 1, in lattice steps
    base    where the cells period·e1, period·e2 and so on go: 2 or 3 rows, in lattice steps of the other net
    text    what `net_tool verify` reads: who reads it need trust no key

    That a map of `same` is right is proved; `is_verified` has the program test it edge by edge, which trusts no key
    and no placement."""

    period: int
    images: dict[Place, Place] = field(hash=False)
    base: tuple[tuple[int, ...], ...]
    text: str

    def __repr__(self) -> str:
        return f"<NetMap: {len(self.images)} rows, period {self.period}>"

    def __call__(self, vertex: Vertex, cell: tuple[int, ...] | None = None) -> Place:
        """Where a vertex of any cell goes; the cell is 0 where none is given."""
        at = cell if cell is not None else (0,) * len(self.base)
        home = tuple(part % self.period for part in at)
        image, there = self.images[vertex, home]
        steps = [(part - rest) // self.period for part, rest in zip(at, home)]
        return image, tuple(part + sum(step * row[k] for step, row in zip(steps, self.base))
                            for k, part in enumerate(there))

    @bounded
    def is_verified(self, *, timeout: float | None = None) -> bool:
        """Whether `net_tool verify` finds the map right; ProgramTimedOut after so many seconds."""
        _, told = run("verify", self.text.encode(), "-", allowed=(0, 1, BAD_MAP))
        return told == b"pair 2 verified\n"


WHICH = ("first", "second")


@dataclass(frozen=True)
class Meeting:
    """Two nets mapped to one small net, by which they are isomorphic.

    net           the small net
    certificates  two texts for `net_tool verify`: a map of the first net to it, and one of the second. The graphs in them
                  are the rows that `net_tool cover` prints of the blocks on the unit cell"""

    net: Net
    certificates: tuple[str, str] = field(repr=False)


@dataclass(frozen=True)
class Sameness:
    """Whether two nets are isomorphic: whether a bijection keeps edges and carries the lattice of the one onto that of
    the other. Proved, up to the blocks that the program read.

    same      True or False; None where a net has no key, so that the program does not know
    map       the map, where they are the same and it can be written
    outcomes  of the two nets: why there is no answer
    text      `different`, `map`, or why no map is written
    meeting   where there is no such map, or a net has no key: the two are shown to be the same by verified maps to one
              small net
    hint      where it is not known: `other by invariants that are not proved`, or why the search for a meeting gave up
    certificate  if they are different, and few shells tell it: a text that `net_tool different --check` takes, of blocks 1 and
              2. It has a vertex of one net whose coordination sequence no vertex of the other has
    copies    of each net how many nets alike interpenetrate in its structure: the answer is on one of each
    doubts    of each net where another reading of its structure gives another net

    It is true as a condition where `same` is True, and raises NotANet where `same` is None. Of nets without a key it is False
    by a certificate alone: that such a sequence refutes each isomorphism is proved, and counted by a checker that shares no
    code with the search."""

    same: bool | None
    map: NetMap | None
    outcomes: tuple[Outcome, Outcome]
    text: str
    meeting: Meeting | None = None
    hint: str = ""
    certificate: str = field(default="", repr=False)
    copies: tuple[int, int] = (1, 1)
    doubts: tuple[tuple[str, ...], tuple[str, ...]] = ((), ())

    def __repr__(self) -> str:
        word = {True: "same", False: "different", None: f"not known, {self.text}"}[self.same]
        return in_one_line("; ".join((f"<Sameness: {word}", *self.notes)) + ">")

    @property
    def notes(self) -> tuple[str, ...]:
        """What a reader should know of the answer: that a net is one of several interpenetrating ones, or in doubt."""
        woven = [f"the {which} is one of {copies} interpenetrating copies, and one is compared"
                 for which, copies in zip(WHICH, self.copies) if copies > 1]
        return (*woven, *(f"the {which} is in doubt: {doubt}" for which, doubts in zip(WHICH, self.doubts) for doubt in doubts))

    def __bool__(self) -> bool:
        if self.same is None:
            told = "; ".join(filter(None, (self.text, self.hint)))
            raise NotANet(f"whether the nets are the same is not known: {told}")
        return self.same


@bounded
def same(one: Any, other: Any, *, timeout: float | None = None, **options: Unpack[StructureOptions]) -> Sameness:
    """Whether two nets are the same, with a map from the first to the second. A text that is no path of a file is the name or
    the symbol of a net of the archives, as in `same("silicon.cif", "dia")`. After `timeout` seconds ProgramTimedOut is raised.

    >>> pcu = [(1, 1, (1, 0, 0)), (1, 1, (0, 1, 0)), (1, 1, (0, 0, 1))]
    >>> skewed = [("A", "A", (1, 1, 0)), ("A", "A", (0, 1, 0)), ("A", "A", (0, 0, 1))]
    >>> answer = same(pcu, skewed)
    >>> answer.same, answer.map.period, answer.map(1), answer.map.is_verified()
    (True, 1, ('A', (0, 0, 0)), True)
    >>> bool(same(pcu, [(1, 1, (1, 0)), (1, 1, (0, 1))]))
    False"""
    return in_time(lambda: _same([_single_or_named(source, options) for source in (one, other)]))


def _single_or_named(source: Any, options: StructureOptions) -> Net:
    """The net of a source, or that of the archives with this name. FileNotFoundError if there is neither."""
    try:
        return single(source, options)
    except FileNotFoundError as reason:
        found = Archive.default().get(source) if isinstance(source, str) else None
        if found is None:
            told = "there is no such file, and the archives have no net of this name"
            raise FileNotFoundError(reason.errno, told, source) from None
        return found


def _same(nets: list[Net]) -> Sameness:
    _, told = run("same", b"".join(net.block for net in nets), "-")
    if told.startswith(b"net_maps 1\n"):
        with reading_report("same"):
            found = _sameness(told, nets)
        if not found.same:
            return _with_certificate(found, nets)
        return found if found.map else _with_meeting(found, nets)
    first, second = (answer.outcome for answer in keys(nets, maps=False))
    reasons = [str(outcome) for outcome in (first, second) if not outcome.accepted]
    if not reasons:
        raise ProgramFailed("net_tool same gave no map, and both nets have keys")
    found = _with_meeting(_sameness_of(nets, None, None, (first, second), reasons[0]), nets)
    return found if found.same else _with_certificate(found, nets)


def _with_meeting(found: Sameness, nets: list[Net]) -> Sameness:
    """What is known where no map is written, with a meeting where one is found."""
    from .wide.meeting import certified_meeting  # here, since few nets need it
    done = certified_meeting(nets[0], nets[1], found.outcomes)
    if isinstance(done, str):
        return replace(found, hint=done)
    return replace(found, same=True, meeting=done)


def _with_certificate(found: Sameness, nets: list[Net]) -> Sameness:
    """With what shows that the nets are different, if few shells do."""
    from .different.check_different import check  # here, since few answers need it
    from .different.certificates import told_by_shells
    told = told_by_shells(nets[0].graph, nets[1].graph) if not any(net.refusal for net in nets) else None
    if told is None or check(told.text(), b"".join(net.block for net in nets).decode(errors="surrogateescape")) != [True]:
        return found
    return replace(found, same=False, hint="", certificate=told.text())


def _sameness(told: bytes, nets: list[Net]) -> Sameness:
    found = re.search(rb"(?m)^pair 2 (.*)$", told)
    if found is None:
        raise ValueError("there is no pair")
    word = found[1].decode()
    if not re.fullmatch(r"different|map|long entries=\d+|wide value=-?\d+", word):
        raise ValueError(f"there is no pair {word[:60]!r}")
    read = _map_of(told, found.end(), nets) if word == "map" else None
    return _sameness_of(nets, word != "different", read, (ACCEPTED, ACCEPTED), word)


def _sameness_of(nets: list[Net], is_same: bool | None, read: NetMap | None, outcomes: tuple[Outcome, Outcome],
                 text: str) -> Sameness:
    """The answer on two nets, with what a reader should know of them."""
    first, second = nets
    return Sameness(is_same, read, outcomes, text, copies=(first.copies, second.copies), doubts=(first.doubts, second.doubts))


def _map_of(told: bytes, begin: int, nets: list[Net]) -> NetMap:
    """The map of an item that begins there. Its vertices have the numbers of the graphs, and here their names."""
    first, second = (dict(enumerate(net.vertices, start=1)) for net in nets)
    size, period = nets[0].dimension, 0
    images: dict[Place, Place] = {}
    base: list[tuple[int, ...]] = []
    for line in told[begin + 1:].decode().splitlines():
        word, *rest = line.split()
        numbers = tuple(map(int, rest)) if word in ("period", "base", "image") else ()
        if word == "period":
            period, = numbers
        elif word == "base":
            base.append(numbers)
        elif word == "image":
            (tail, *cell), (head, *there) = numbers[:size + 1], numbers[size + 1:]
            images[first[tail], tuple(cell)] = second[head], tuple(there)
    rows = [*base, *(cell for _, cell in images.values())]
    is_whole = len(base) == size and len(images) == len(first) * period ** size and {len(row) for row in rows} == {size}
    if not is_whole or images.keys() != set(product(first.values(), product(range(period), repeat=size))):
        raise ValueError("the map is cut")
    return NetMap(period, images, tuple(base), told.decode())
