"""Which of many nets are the same."""

from __future__ import annotations

from collections.abc import Iterator
from dataclasses import dataclass, field
from typing import Any, Unpack

from .answers import Answer, Answers, By
from .asking import Archives, archive_of, held, keys, nets_of
from .errors import in_one_line
from .limits import bounded, in_time
from .options import StructureOptions, check_options, processes_of

Member = tuple[int, Answer]  # a place among the nets that were given, and the answer


@dataclass(frozen=True)
class Group:
    """Nets that are the same: each two of them are isomorphic.

    Of a group by key no net of another group by key is isomorphic to one of them; that is proved. Of a group by maps that
    is not proved: two such groups may be one net.

    key           of its nets; empty where they have none
    places        of the members among the nets that were given, from 0 on
    by            KEY; or VERIFIED_MAP, where each member has a map to one small net that `verify` has taken
    certificates  of a group by maps a text for `net_tool verify` for each member"""

    key: str
    places: tuple[int, ...]
    members: Answers
    by: By = By.KEY
    certificates: tuple[str, ...] = field(default=(), repr=False)

    def __len__(self) -> int:
        return len(self.places)

    def __repr__(self) -> str:
        return in_one_line(f"<Group: {len(self)} nets, {'; '.join(self.names) or self.key[:40]}>")

    @property
    def names(self) -> tuple[str, ...]:
        """In the archive, where one was given."""
        return tuple(dict.fromkeys(name for member in self.members for name in member.names))


@dataclass(frozen=True)
class Groups:
    """All groups by key, also of one net, and those by maps of two and more, in the order of their first members.

    keyless  the answers of the nets in no group: they may be isomorphic to each other or not"""

    groups: tuple[Group, ...]
    keyless: Answers

    def __repr__(self) -> str:
        return f"<Groups: {len(self)} groups, {len(self.keyless)} nets without a key>"

    def __iter__(self) -> Iterator[Group]:
        return iter(self.groups)

    def __len__(self) -> int:
        return len(self.groups)

    def __getitem__(self, place: int) -> Group:
        return self.groups[place]


@bounded
def group(sources: Any, archive: Archives = None, processes: int | None = 1, maps: bool = True, *,
          timeout: float | None = None, **options: Unpack[StructureOptions]) -> Groups:
    """The groups of isomorphic nets. Keys are compared whole; that two are equal if and only if the nets are isomorphic
    is proved. A net that has a key on a smaller cell alone belongs to the group of that key, since `verify` has taken the
    map. Nets without a key are grouped by verified maps; `maps=False` leaves all of these aside. ProgramTimedOut is raised
    after `timeout` seconds.

    >>> square, wide = [(1, 1, (1, 0)), (1, 1, (0, 1))], [(1, 1, (1, 1)), (1, 1, (0, 1))]
    >>> honeycomb = [(1, 2, (0, 0)), (1, 2, (1, 0)), (1, 2, (0, 1))]
    >>> [entry.places for entry in group([Net(square), Net(honeycomb), Net(wide)])]
    [(0, 2), (1,)]"""
    count = processes_of(processes)
    check_options(options)
    given, known = held(sources), archive_of(archive)
    return in_time(lambda: _groups_of(keys(nets_of(given, options, count), known, count, maps)))


def _groups_of(answers: Answers) -> Groups:
    by_key: dict[str, list[Member]] = {}
    by_index: dict[str, list[Member]] = {}
    for place, answer in enumerate(answers):
        key = _key_of(answer)
        if key:
            by_key.setdefault(key, []).append((place, answer))
        elif answer.index and answer.outcome.kind == "refused":
            by_index.setdefault(answer.index, []).append((place, answer))
    groups = [Group(key, *_split(members)) for key, members in by_key.items()]
    for members in by_index.values():
        groups += _groups_by_maps(members)
    groups.sort(key=lambda one: one.places[0])
    grouped = {place for one in groups for place in one.places}
    return Groups(tuple(groups), Answers([answer for place, answer in enumerate(answers) if place not in grouped]))


def _key_of(answer: Answer) -> str:
    """The proved key of a net, in whichever cell it has one."""
    if answer.by is By.SMALLER_CELL and answer.small:
        return answer.small.key
    return answer.key


def _split(members: list[Member]) -> tuple[tuple[int, ...], Answers]:
    return tuple(place for place, _ in members), Answers([answer for _, answer in members])


def _groups_by_maps(members: list[Member]) -> list[Group]:
    """The groups of two and more of nets with one index."""
    if len(members) < 2:
        return []
    from .wide.grouping import grouped_by_maps  # here, since few nets need it
    found = grouped_by_maps([answer.net for _, answer in members])
    return [Group("", *_split([members[k] for k in one.places]), By.VERIFIED_MAP, one.certificates) for one in found]
