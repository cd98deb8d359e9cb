"""Interwoven nets: the parts of a net that is not connected."""

from __future__ import annotations

from dataclasses import dataclass
from typing import Any, Unpack

from .archive import Archive
from .asking import DEFAULT, Archives, archive_of, single
from .errors import NotANet, in_one_line
from .limits import bounded, in_time
from .net import Net
from .options import StructureOptions
from .outcome import ACCEPTED, Outcome, outcome_of
from .program import reading_report, run
from .provenance import told_doubts
from .texts.component_text import Part, parts_of_report
from .texts.key_graph import TooLong, graph_of_key
from .texts.net_text import NoReport


@dataclass(frozen=True)
class Component:
    """One kind of pieces of a net: those over one component of its quotient graph, which translations carry to each
    other.

    copies   how many such pieces the net has; of a net that is one of N interpenetrating copies in a structure, all N count
    vertices of the quotient graph that they have
    outcome  `accepted`, or why the part has no key
    key      parts with equal keys are one kind of piece, and their copies add up
    names    in the archive

    Proved, as `Answer` says, but for the N copies of a structure."""

    copies: int
    vertices: int
    outcome: Outcome
    key: str = ""
    names: tuple[str, ...] = ()

    @property
    def net(self) -> Net:
        """A net with this key, in its primitive cell. NotANet where there is no key."""
        if not self.key:
            raise NotANet(f"the part has no key: {self.outcome}")
        return net_of_key(self.key)


@dataclass(frozen=True)
class Components:
    """The parts of a net, in the order of their least vertices.

    outcome  `accepted` where there are parts; else why there are none: a block that is no graph, or a part that
             reaches in fewer directions than the net, as a layer in space"""

    net: Net
    outcome: Outcome
    parts: tuple[Component, ...] = ()

    def __repr__(self) -> str:
        told = [f"{part.copies} of {'; '.join(part.names) or part.key[:40] or part.outcome}" for part in self.parts]
        return in_one_line(f"<Components: {', '.join(told) or self.outcome}{told_doubts(self.net.doubts)}>")

    @property
    def pieces(self) -> int:
        """How many pieces there are: those that the net falls into, and those of its interpenetrating copies in a structure;
        1 where it is connected and alone, 0 where that is not known."""
        return sum(part.copies for part in self.parts)


@bounded
def components(source: Any, archive: Archives = DEFAULT, *, timeout: float | None = None,
               **options: Unpack[StructureOptions]) -> Components:
    """What interpenetrates: the kinds of pieces of a net, how many of each, their keys and names. After `timeout` seconds
    ProgramTimedOut is raised.

    >>> woven = Net([(u, u, shift) for u in (1, 2) for shift in ((1, 0, 0), (0, 1, 0), (0, 0, 1))])
    >>> [(part.copies, part.key) for part in components(woven, archive=None).parts]
    [(1, '3 1 1 1 1 0 0 1 1 1 0 1 0 1 1 1 0 0'), (1, '3 1 1 1 1 0 0 1 1 1 0 1 0 1 1 1 0 0')]"""
    names = archive_of(archive)
    return in_time(lambda: _components(single(source, options), names))


def _components(net: Net, names: Archive | None) -> Components:
    _, told = run("components", net.block, "-")
    with reading_report("components"):
        found, = parts_of_report(told.splitlines(keepends=True))
        if found.told:
            return Components(net, _outcome(found.told))
        return Components(net, ACCEPTED, tuple(_component(part, net.copies, told, names) for part in found.parts))


def _component(part: Part, times: int, told: bytes, archive: Archive | None) -> Component:
    key = part.key.decode()
    names = archive.names(key) if archive and key else ()
    outcome = outcome_of(part.told) if part.told else ACCEPTED
    return Component(part.copies * times, _vertices_of(told, part), outcome, key, names)


def _outcome(line: bytes) -> Outcome:
    """The outcome of a net without parts; its line begins with `components refused` where no part can be reported."""
    return outcome_of(line.removeprefix(b"components "))


def _vertices_of(told: bytes, part: Part) -> int:
    start = told.index(b"\npart %d vertices=" % part.number)
    return int(told[start:].split(b"vertices=", 1)[1].split(b" ", 1)[0])


def net_of_key(key: str) -> Net:
    """A net with this key: a key lists the edges of the primitive graph. NotANet where the text is no key, or the net
    has a shift past 500, which no block may have.

    >>> net_of_key("2 1 1 1 1 0 1 1 1 1 0").edges
    ((1, 1, (0, 1)), (1, 1, (1, 0)))"""
    try:
        return Net.of_graph(graph_of_key(key.encode()))
    except TooLong as reason:
        raise NotANet(f"the net of this key cannot be written as a block: {reason}") from None
    except (NoReport, ValueError) as reason:
        raise NotANet(f"{key[:60]!r} is no key of a net: {reason}") from None
