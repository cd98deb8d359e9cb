"""Fibres of two vertices that go along with each other: equations over the field of two elements.

Each pair of vertices goes to its pair in one of two ways, straight or crossed. An arc between two pairs that joins each vertex to
one makes the ways equal or unequal. So a walk gives the way of each pair from that of the first, and each ring of the walk a
condition: that its parity is even. On the infinite net only the rings count that close there; those that lead around the torus
say which longer period is needed."""

from __future__ import annotations

from collections.abc import Sequence
from dataclasses import dataclass

from ..lattice import Vector, add, staircase, subtract
from .over_sites import OverSites
from .refinement import Cells, Pair

MOST_MULTIPLE = 64
Loop = tuple[Vector, int]  # how often a ring leads around the torus, and its parity


@dataclass(frozen=True)
class Ways:
    """What a walk over a part has found.

    images   of the nodes of the first graph; empty where some ring is odd
    loops    the rings that are odd, or that lead around the torus"""

    images: dict[int, int]
    loops: list[Loop]


def ways_of(over: OverSites, pair: Pair, colours: Sequence[int], cells: Cells, part: Sequence[int]) -> Ways:
    """Of a part whose colours have two nodes in each graph."""
    zero = (0,) * len(over.extent)
    found: dict[int, tuple[int, Vector]] = {part[0]: (0, zero)}
    order, loops = [part[0]], []
    for colour in order:  # grows
        parity, at = found[colour]
        for other, flips, label in _matched(pair, colours, cells, colour):
            if other not in found:
                order.append(other)
            there = add(at, over.winding(pair.names[cells[colour][0][0]], label))
            old = found.setdefault(other, (parity ^ flips, there))
            if old != (parity ^ flips, there):
                loops.append((subtract(there, old[1]), old[0] ^ parity ^ flips))
    if any(parity for _, parity in loops):
        return Ways({}, loops)
    images = {}
    for colour, (flips, _) in found.items():
        (x, other_x), theirs = cells[colour]
        images[x], images[other_x] = theirs[flips], theirs[1 - flips]
    return Ways(images, loops)


def _matched(pair: Pair, colours: Sequence[int], cells: Cells, colour: int) -> list[tuple[int, int, int]]:
    """The colours that go along with one: whether their way is the other one, and the label of the arc."""
    mine, theirs = cells[colour][0][0], cells[colour][1][0]
    ends: dict[int, list[int]] = {}
    images = {}
    for label, end in pair.arcs[mine]:
        if len(cells[colours[end]][0]) == 2:
            ends.setdefault(label + colours[end], []).append(end)
    for label, end in pair.arcs[theirs]:
        images[label + colours[end]] = end
    found = []
    for label, end in pair.arcs[mine]:
        other = colours[end]
        key = label + other
        if len(ends.get(key, ())) == 1 and not (other == colour and not label):
            ours, others = cells[other]
            found.append((other, ours.index(end) ^ others.index(images[key]), label))
    return found


def may_agree(loops: Sequence[Loop], dimension: int) -> bool:
    """Whether the infinite net has a solution: no combination of rings is odd and closes there."""
    return _is_even([*((*shift, parity) for shift, parity in loops), (0,) * dimension + (2,)])


def least_multiples(parts: Sequence[Sequence[Loop]], dimension: int) -> Vector | None:
    """How many times as long the torus has to be along each axis, so that all rings that close on it are even; None where
    nothing up to `MOST_MULTIPLE` serves."""
    for most in range(1, MOST_MULTIPLE + 1):
        multiples = [most] * dimension
        if _are_even(parts, multiples):
            for axis in range(dimension):
                smaller = (size for size in range(1, most + 1) if _are_even(parts, _with(multiples, axis, size)))
                multiples[axis] = next(smaller)
            return tuple(multiples)
    return None


def _with(multiples: Sequence[int], axis: int, size: int) -> list[int]:
    return [*multiples[:axis], size, *multiples[axis + 1:]]


def _are_even(parts: Sequence[Sequence[Loop]], multiples: Sequence[int]) -> bool:
    size = len(multiples)
    around = [(*(multiple if k == axis else 0 for k in range(size)), 0) for axis, multiple in enumerate(multiples)]
    return all(_is_even([*((*shift, parity) for shift, parity in loops), *around, (0,) * size + (2,)]) for loops in parts)


def _is_even(rows: Sequence[Vector]) -> bool:
    return not any(row[-1] % 2 and not any(row[:-1]) for row in staircase(rows))
