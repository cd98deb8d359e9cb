"""A map from one net to another, found by their placements modulo a prime. It proves nothing: `net_tool verify` does."""

from __future__ import annotations

from collections.abc import Iterator
from dataclasses import dataclass
from enum import Enum

from .fibres import FibreSearch
from .frames import candidates
from .lifting import Lifting, Refuted
from .over_sites import SiteMap
from .periodic_map import PeriodicMap
from .placed import NotFound, PlacedNet
from .sites import FibredNet, difference
from .walking import MOST_WORK, Fault, Work, walk


class Verdict(Enum):
    """What a search came to. DIFFERENT is mathematics, and true if this code is; it is not proved."""

    SAME = "a map was found"
    DIFFERENT = "an invariant differs, or no affine map of the sites is one of the nets"
    NOT_KNOWN = "the search gave up"


@dataclass(frozen=True)
class Found:
    """A map, which only `verify` makes certain, or why there is none."""

    verdict: Verdict
    map: PeriodicMap | None = None
    reason: str = ""


def find_map(one: PlacedNet, other: PlacedNet, most_work: int = MOST_WORK) -> Found:
    """A map from the first net to the second, in whatever cells."""
    try:
        a, b = of_one_prime(one, other)
        reason = difference(a.fibred, b.fibred)
        if reason:
            return Found(Verdict.DIFFERENT, reason=f"they differ in the {reason}")
        if a.fibred.sites.count < b.fibred.sites.count:
            found = _found_backwards(a, b, most_work)
            if found.verdict is not Verdict.NOT_KNOWN:
                return found
        return _Search(a.fibred, b.fibred, Work(most_work)).found()
    except NotFound as reason_of_end:
        return Found(Verdict.NOT_KNOWN, reason=str(reason_of_end))


def _found_backwards(a: PlacedNet, b: PlacedNet, most_work: int) -> Found:
    """The inverse of a map from the second net to the first. If the first has the smaller cell, its sites have fewer images that
    may be tried."""
    try:
        found = _Search(b.fibred, a.fibred, Work(most_work)).found()
    except NotFound as reason:
        return Found(Verdict.NOT_KNOWN, reason=str(reason))
    inverse = found.map.inverse() if found.map else None
    if found.verdict is Verdict.SAME and inverse is None:
        return Found(Verdict.NOT_KNOWN, reason=Fault.LONG.value)
    return Found(found.verdict, inverse, found.reason)


def of_one_prime(one: PlacedNet, other: PlacedNet) -> tuple[PlacedNet, PlacedNet]:
    if one.prime == other.prime:
        return one, other
    prime = max(one.prime, other.prime)
    return PlacedNet(one.graph, prime), PlacedNet(other.graph, prime)


class _Search:
    """The search for one map. The affine maps of sites are tried one after the other, each with the least period first.

    is_long  whether some affine map has too long a period to be tried"""

    def __init__(self, first: FibredNet, second: FibredNet, work: Work) -> None:
        self.first, self.second, self.work = first, second, work
        self.fibres = FibreSearch(work)
        self.is_long = False

    def found(self) -> Found:
        left: list[Lifting] = []
        for sites in self.site_maps():
            if self.first.is_stable:
                return Found(Verdict.SAME, sites.map)
            lifting = Lifting(sites, self.fibres)
            try:
                found = lifting.at_once()
            except Refuted:
                continue
            if found:
                return Found(Verdict.SAME, found)
            left.append(lifting)
        return self._with_longer_periods(left)

    def _with_longer_periods(self, left: list[Lifting]) -> Found:
        is_open = False
        for lifting in left:
            try:
                for found in lifting.later():
                    return Found(Verdict.SAME, found)
            except Refuted:
                continue
            is_open = True
            self.is_long |= lifting.is_long
        if self.is_long:
            return Found(Verdict.NOT_KNOWN, reason=Fault.LONG.value)
        if is_open:
            return Found(Verdict.NOT_KNOWN, reason="no map of a short period was found")
        return Found(Verdict.DIFFERENT, reason="no frame has an image" if self.first.is_stable else
                     "no affine map of the sites is one of the nets")

    def site_maps(self) -> Iterator[SiteMap]:
        """The affine maps of the sites that carry each site to one of its colour."""
        a, b = self.first.sites, self.second.sites
        for one in candidates(a, b, self.work):
            walked = walk(a, b, one.start, one.image, one.matrix, self.work)
            if walked is Fault.LONG:
                self.is_long = True
            if isinstance(walked, PeriodicMap):
                if all(a.colours[site] == b.colours[image] for (site, _), (image, _) in walked.images.items()):
                    yield SiteMap(self.first, self.second, one.matrix, walked)


def site_maps(net: FibredNet, work: Work) -> Iterator[SiteMap]:
    """The affine maps of the sites of a net to themselves, up to translations by its shifts."""
    return _Search(net, net, work).site_maps()
