"""Colours of vertices: numbers that an isomorphism keeps, whatever the cell and the numbering, and the computer."""

from __future__ import annotations

from collections.abc import Sequence
from hashlib import blake2b

from .elimination import Arcs

MOST_STEPS = 4_000  # of the walks of one length from a vertex, which are followed
HALF_LENGTHS = 3    # closed walks of 2, 4 and 6 steps
BASE = 1 << 20      # of the parts of a cell, as the digits of a number


def mixed(*parts: object) -> int:
    """A number of 64 bits of whole numbers, lists and tuples of them (BLAKE2b, RFC 7693)."""
    return int.from_bytes(blake2b(repr(parts).encode(), digest_size=8).digest(), "little")


def refined(colours: Sequence[int], lengths: Sequence[Sequence[int]], arcs: Arcs, rounds: int) -> list[int]:
    """The colours after so many rounds, in which each takes in those of the neighbours with the lengths of the arcs."""
    found = list(colours)
    for _ in range(rounds):
        found = [mixed(own, sorted(zip(row, [found[v] for v, _ in ends]))) for own, row, ends in zip(found, lengths, arcs)]
    return found


def closed_walks(arcs: Arcs) -> list[tuple[int, ...]]:
    """Of each vertex how many walks of 2, 4 and 6 steps come back to it. They see how sheets are joined around rings of the net
    below, which the lengths of arcs do not. Long lists are cut, at one place for all cells of a net."""
    count = len(arcs)
    steps = [[v - u + count * _number(shift) for v, shift in row] for u, row in enumerate(arcs)]
    return [tuple(_closed_from(u, steps, count)) for u in range(count)]


def _closed_from(start: int, steps: list[list[int]], count: int) -> list[int]:
    """The sum of the squares of how many walks of half the length end at each vertex, for each half length."""
    ends, told = {start: 1}, []
    for _ in range(HALF_LENGTHS):
        new: dict[int, int] = {}
        for vertex, walks in ends.items():
            for step in steps[vertex % count]:
                end = vertex + step
                new[end] = new.get(end, 0) + walks
        ends = new
        told.append(sum(walks * walks for walks in ends.values()))
        if len(ends) * len(steps[start]) > MOST_STEPS:
            break
    return told


def _number(shift: Sequence[int]) -> int:
    number = 0
    for part in shift:
        number = number * BASE + part
    return number
