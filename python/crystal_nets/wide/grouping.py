"""Groups of nets without a key, by verified maps to one small net."""

from __future__ import annotations

from collections.abc import Sequence
from dataclasses import dataclass, field

from ..errors import NotANet
from ..net import Net
from .certificate import ReadNet, all_as_read, certificate
from .matching import find_map
from .meeting import small_net_of
from .placed import NotFound, PlacedNet


@dataclass(frozen=True)
class GroupByMaps:
    """Nets that are the same: their places among those that were given, and of each the text of its map."""

    places: tuple[int, ...]
    certificates: tuple[str, ...]


@dataclass
class _Growing:
    """A group while it grows: the small net of its first member, and the members so far."""

    read: ReadNet
    placed: PlacedNet
    places: list[int] = field(default_factory=list)
    certificates: list[str] = field(default_factory=list)

    def takes(self, place: int, net: ReadNet, placed: PlacedNet) -> bool:
        """Whether a net belongs to it: a map to the small net was found, and `verify` has taken it."""
        found = find_map(placed, self.placed)
        text = certificate(net, [(self.read, found.map)]).text if found.map else ""
        if text:
            self.places.append(place)
            self.certificates.append(text)
        return bool(text)


def grouped_by_maps(nets: Sequence[Net]) -> list[GroupByMaps]:
    """The groups of two and more, in the order of their first nets. Two groups may be one net, and so may nets in no group:
    nothing here is proved to be different. Maps are looked for between nets of one index alone."""
    groups: dict[str, list[_Growing]] = {}
    for place, read in enumerate(_as_read(nets)):
        try:
            if read is not None:
                _put(groups, place, read)
        except NotFound:
            continue  # it is in no group
    found = [group for alike in groups.values() for group in alike if len(group.places) > 1]
    return [GroupByMaps(tuple(group.places), tuple(group.certificates)) for group in sorted(found, key=lambda group: group.places)]


def _as_read(nets: Sequence[Net]) -> list[ReadNet | None]:
    """How the program reads each net; None where it does not."""
    found: list[ReadNet | None] = [None] * len(nets)
    for dimension in (2, 3):
        places = [place for place, net in enumerate(nets) if _dimension_of(net) == dimension]
        for place, read in zip(places, all_as_read([nets[place].block for place in places], dimension)):
            found[place] = read
    return found


def _dimension_of(net: Net) -> int:
    try:
        return net.dimension
    except NotANet:
        return 0


def _put(groups: dict[str, list[_Growing]], place: int, read: ReadNet) -> None:
    """Puts a net into the first group of its index that takes it, or begins one."""
    placed = PlacedNet(read.graph)
    alike = groups.setdefault(placed.index, [])
    if any(group.takes(place, read, placed) for group in alike):
        return
    small = small_net_of(read, placed)
    group = _Growing(small.read, PlacedNet(small.read.graph, placed.prime))
    if group.takes(place, read, placed):
        alike.append(group)
