"""Two graphs with coloured vertices and labelled arcs, and the coarsest colouring that tells apart what differs in them.

B. Weisfeiler and A. Leman, Nauchno-Tekhnicheskaya Informatsiya 2 (1968) 12: a vertex takes in the labels of its arcs with the
colours at their ends, again and again. A map of the first graph to the second keeps the colours. So where the two have a colour
unequally often there is no map."""

from __future__ import annotations

from collections.abc import Iterable, Sequence
from dataclasses import dataclass

from .walking import Work

LABEL = 1 << 40  # labels stand in its multiples, and colours below
Arc = tuple[int, int]  # a label, as a multiple of LABEL, and the node at the end
Cells = dict[int, tuple[list[int], list[int]]]  # of each colour the nodes of the first graph and of the second


@dataclass(frozen=True)
class Pair:
    """The nodes of the first graph and of the second, in one list.

    arcs      of each node; to each there is one back
    is_first  of each node whether it is of the first graph
    names     of each node its number in the pair from which this one was taken"""

    arcs: Sequence[Sequence[Arc]]
    is_first: Sequence[bool]
    names: Sequence[int]

    def part(self, ours: Sequence[int], theirs: Sequence[int]) -> Pair:
        """Some nodes as the first graph, and some as the second, be they the same, with the arcs between them."""
        arcs: list[list[Arc]] = []
        for nodes in (ours, theirs):
            number = {node: k for k, node in enumerate(nodes, start=len(arcs))}
            arcs += [[(label, number[end]) for label, end in self.arcs[node] if end in number] for node in nodes]
        return Pair(arcs, [True] * len(ours) + [False] * len(theirs), [self.names[node] for node in (*ours, *theirs)])


def refine(pair: Pair, colours: list[int], changed: Iterable[int] | None, work: Work) -> bool:
    """Refines the colours until no node takes in anything new, from the nodes that have changed on, or from all. Whether the two
    graphs have each colour equally often."""
    if changed is None and not _is_balanced(pair, colours):
        return False
    sizes: dict[int, int] = {}
    for colour in colours:
        sizes[colour] = sizes.get(colour, 0) + 1
    fresh = 1 + max(colours)
    waiting: Iterable[int] = range(len(colours)) if changed is None else {end for node in changed for _, end in pair.arcs[node]}
    while waiting:
        moved: list[int] = []
        for old, groups in _seen(pair, colours, waiting, work).items():
            for group in _new_groups(groups, sizes[old]):
                if 2 * sum(map(pair.is_first.__getitem__, group)) != len(group):
                    return False
                sizes[old] -= len(group)
                sizes[fresh] = len(group)
                for node in group:
                    colours[node] = fresh
                fresh += 1
                moved += group
        waiting = {end for node in moved for _, end in pair.arcs[node]}
    return True


def _is_balanced(pair: Pair, colours: Sequence[int]) -> bool:
    balance: dict[int, int] = {}
    for colour, is_first in zip(colours, pair.is_first):
        balance[colour] = balance.get(colour, 0) + (1 if is_first else -1)
    return not any(balance.values())


def _seen(pair: Pair, colours: Sequence[int], waiting: Iterable[int], work: Work) -> dict[int, list[list[int]]]:
    """The waiting nodes of each colour, in groups that take in the same."""
    table: dict[tuple[int, ...], list[int]] = {}
    count = 0
    for node in waiting:
        taken_in = [label + colours[end] for label, end in pair.arcs[node]]
        taken_in.sort()
        table.setdefault((colours[node], *taken_in), []).append(node)
        count += 1 + len(taken_in)
    work.spend(count)
    found: dict[int, list[list[int]]] = {}
    for key, group in table.items():
        found.setdefault(key[0], []).append(group)
    return found


def _new_groups(groups: list[list[int]], size: int) -> list[list[int]]:
    """The groups that get new colours: all, if some node of the colour does not wait, and else all but the largest."""
    if sum(map(len, groups)) < size:
        return groups
    if len(groups) == 1:
        return []
    largest = max(groups, key=len)
    return [group for group in groups if group is not largest]


def cells_of_colours(pair: Pair, colours: Sequence[int]) -> Cells:
    cells: Cells = {}
    for node, colour in enumerate(colours):
        cells.setdefault(colour, ([], []))[0 if pair.is_first[node] else 1].append(node)
    return cells


def parts_of(pair: Pair, colours: Sequence[int], cells: Cells) -> list[list[int]]:
    """The colours of two and more nodes, in parts that constrain each other. Two do not if each node of one is joined to all of
    the other, or to none."""
    near: dict[int, set[int]] = {colour: set() for colour, (ours, _) in cells.items() if len(ours) > 1}
    for colour in near:
        for other in _constrained(pair, colours, cells, colour):
            near[colour].add(other)
            near[other].add(colour)
    parts, met = [], set()
    for colour in near:
        if colour not in met:
            part = [colour]
            met.add(colour)
            for one in part:  # grows
                new = near[one] - met
                met |= new
                part += sorted(new)
            parts.append(part)
    return parts


def _constrained(pair: Pair, colours: Sequence[int], cells: Cells, colour: int) -> Iterable[int]:
    """The colours whose nodes have to go along with those of one colour."""
    node = cells[colour][0][0]
    counts: dict[int, int] = {}
    for label, end in pair.arcs[node]:
        if len(cells[colours[end]][0]) > 1:
            key = label + colours[end]
            counts[key] = counts.get(key, 0) + 1
    for key, count in counts.items():
        other = key % LABEL
        if count < len(cells[other][0]) - (key < LABEL and other == colour):
            yield other
