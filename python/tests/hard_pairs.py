"""Pairs of nets with collisions that are hard to tell apart or to map to each other. Whether they are the same is known from how
they are made, and never from the search."""

from __future__ import annotations

import random
from collections.abc import Callable, Iterator, Sequence
from itertools import combinations, permutations, product
from typing import NamedTuple

from crystal_nets import Net

Rows = list[tuple[str, str, tuple[int, ...]]]
Ways = Sequence[int]
STRAIGHT, CROSSED = (0, 1), (1, 0)
PAIR, TRIANGLE, SQUARE = [(0, 1)], [(0, 1), (1, 2), (0, 2)], [(0, 1), (1, 2), (2, 3), (3, 0)]


class Pair(NamedTuple):
    what: str
    one: Net
    other: Net
    are_same: bool


def strands(cells: Sequence[int], goes_on: Callable[..., Ways], count: int, rungs: Sequence[tuple[int, int]]) -> Net:
    """Strands over each vertex of the square or the cubic net, joined by rungs; `goes_on(place, axis)` has of each strand the
    one that it goes on in."""
    rows: Rows = []
    for at in product(*map(range, cells)):
        rows += [(f"{at}.{i}", f"{at}.{k}", (0,) * len(cells)) for i, k in rungs]
        for axis in range(len(cells)):
            ahead = [x + (k == axis) for k, x in enumerate(at)]
            shift = tuple(x // size for x, size in zip(ahead, cells))
            there = tuple(x % size for x, size in zip(ahead, cells))
            rows += [(f"{at}.{i}", f"{there}.{goes_on(at, axis)[i]}", shift) for i in range(count)]
    return Net(rows)


def ring(count: int) -> list[tuple[int, int]]:
    return [(i, (i + 1) % count) for i in range(count)]


def turned(count: int, by: int) -> Ways:
    return tuple((i + by) % count for i in range(count))


def alike(count: int) -> Callable[..., Ways]:
    return lambda at, axis: tuple(range(count))


def columns(swaps: str) -> Net:
    """Two strands with rungs, crossed along the second axis in the columns that have a 1."""
    return strands((len(swaps), 1), lambda at, axis: CROSSED if axis == 1 and swaps[at[0]] == "1" else STRAIGHT, 2, PAIR)


def along_x(count: int, by: int) -> Net:
    return strands((1, 1), lambda at, axis: turned(count, by if axis == 0 else 0), count, ring(count))


def pairs_of_strands() -> Iterator[Pair]:
    """Sheets that are exchanged, or turned by some strands, along one axis or around a square."""
    flat = strands((1, 1), alike(2), 2, PAIR)
    yield Pair("exchanged along x", flat, strands((1, 1), lambda at, axis: (STRAIGHT, CROSSED)[axis == 0], 2, PAIR), True)
    yield Pair("exchanged along both", flat, strands((1, 1), lambda at, axis: CROSSED, 2, PAIR), True)
    yield Pair("around each square", flat, columns("01"), False)
    rows = strands((1, 2), lambda at, axis: CROSSED if axis == 0 and at[1] else STRAIGHT, 2, PAIR)
    yield Pair("around each square, written in rows", columns("01"), rows, True)
    yield Pair("squares next to each other, or not", columns("0110"), columns("0010"), False)
    yield Pair("the same squares, moved", columns("01100000"), columns("00011000"), True)
    yield Pair("near and far pairs of squares", columns("00010000"), columns("00111000"), False)
    checks = strands((2, 2), lambda at, axis: CROSSED if axis == 1 and at == (0, 0) else STRAIGHT, 2, PAIR)
    yield Pair("rows and a checkerboard", columns("01"), checks, False)
    yield Pair("stripes and a checkerboard", columns("0100"), checks, False)
    for count in (3, 5, 7, 12):
        yield Pair(f"{count} strands, turned by one", along_x(count, 0), along_x(count, 1), True)
    twelve = strands((1, 1), lambda at, axis: turned(12, 3 if axis == 0 else 4), 12, ring(12))
    yield Pair("12 strands, turned by 3 and by 4", along_x(12, 0), twelve, True)
    three = [strands((3, 1), lambda at, axis, hand=hand: turned(3, hand * at[0] if axis else 0), 3, TRIANGLE) for hand in (0, 1, 2)]
    yield Pair("3 strands around each square", three[0], three[1], False)
    yield Pair("3 strands, left and right", three[1], three[2], True)
    crossed = strands((1, 1), lambda at, axis: ((1, 0, 3, 2), (2, 3, 0, 1))[axis], 4, [(0, 1), (1, 3), (3, 2), (2, 0)])
    yield Pair("4 strands, exchanged in two ways", strands((1, 1), alike(4), 4, [(0, 1), (1, 3), (3, 2), (2, 0)]), crossed, True)
    mirrored = strands((1, 1), lambda at, axis: (turned(4, 1), (1, 0, 3, 2))[axis], 4, SQUARE)
    yield Pair("4 strands, a turn and a mirror", strands((1, 1), alike(4), 4, SQUARE), mirrored, False)
    solid = strands((1, 1, 1), alike(2), 2, PAIR)
    yield Pair("exchanged in space", solid, strands((1, 1, 1), lambda at, axis: CROSSED, 2, PAIR), True)
    around = strands((2, 1, 1), lambda at, axis: CROSSED if axis == 1 and at[0] else STRAIGHT, 2, PAIR)
    yield Pair("around squares in space", solid, around, False)
    yield Pair("3 strands turned in space", strands((1, 1, 1), alike(3), 3, TRIANGLE),
               strands((1, 1, 1), lambda at, axis: turned(3, 1), 3, TRIANGLE), True)


def ladder(step: int, by: int) -> Net:
    rows: Rows = [("h", "h", (0, 1)), ("h", "h", (1, 0))]
    for i in (0, 1):
        rows += [("h", f"s{i}", (0, 0)), (f"s{i}", f"s{(i + by) % 2}", (step, 0))]
    return Net(rows)


def equations(shape: Sequence[tuple[int, int]], is_odd: Callable[[Sequence[int]], int], cells: tuple[int, int] = (1, 1)) -> Net:
    """Pairs at the cells of a square lattice, and vertices that say of each cell that the sum over a shape from there is even or
    odd (J.-Y. Cai, M. Fürer and N. Immerman, Combinatorica 12 (1992) 389)."""
    rows: Rows = []

    def moved(at: Sequence[int]) -> tuple[str, tuple[int, ...]]:
        return str(tuple(x % size for x, size in zip(at, cells))), tuple(x // size for x, size in zip(at, cells))

    for at in product(*map(range, cells)):
        rows += [(f"h{at}", f"a{at}{i}", (0, 0)) for i in (0, 1)]
        for axis in (0, 1):
            there, shift = moved([x + (k == axis) for k, x in enumerate(at)])
            rows.append((f"h{at}", f"h{there}", shift))
        for bits in product((0, 1), repeat=len(shape)):
            if sum(bits) % 2 == is_odd(at):
                for bit, by in zip(bits, shape):
                    there, shift = moved([x + y for x, y in zip(at, by)])
                    rows.append((f"g{at}{bits}", f"a{there}{bit}", shift))
    return Net(rows)


def pairs_of_equations() -> Iterator[Pair]:
    for step in (1, 2, 3, 4):
        yield Pair(f"ladders of step {step}", ladder(step, 0), ladder(step, 1), True)
    three, four = [(0, 0), (1, 0), (0, 1)], [(0, 0), (1, 0), (0, 1), (1, 1)]
    row = [(0, 0), (1, 0), (2, 0), (3, 0)]
    for what, shape in (("three", three), ("four", four), ("two in a row", row[:2]), ("four in a row", row)):
        yield Pair(f"{what}, all odd", equations(shape, lambda at: 0), equations(shape, lambda at: 1), True)
    yield Pair("three, each second one odd", equations(three, lambda at: 0), equations(three, lambda at: at[0], (2, 1)), True)


def hung(edges: Sequence[tuple[object, object]]) -> Net:
    """A finite graph whose vertices all hang on one vertex of the square net, so that they stand in one place."""
    vertices = sorted({str(vertex) for one in edges for vertex in one})
    return Net([("C", "C", (1, 0)), ("C", "C", (0, 1)), *(("C", f"v{vertex}", (0, 0)) for vertex in vertices),
                *((f"v{u}", f"v{v}", (0, 0)) for u, v in edges)])


def renamed(edges: Sequence[tuple[object, object]], chance: random.Random) -> list[tuple[object, object]]:
    names = list({vertex for one in edges for vertex in one})
    other = dict(zip(names, chance.sample(range(len(names)), len(names))))
    return [(other[u], other[v]) for u, v in edges]


def even_covers(edges: Sequence[tuple[int, int]], odd: int | None) -> list[tuple[object, object]]:
    """The graph of Cai, Fürer and Immerman of a finite graph: with one odd vertex it is another one than with none."""
    found: list[tuple[object, object]] = []
    at: dict[int, list[int]] = {}
    for k, one in enumerate(edges):
        for vertex in one:
            at.setdefault(vertex, []).append(k)
    for vertex, around in at.items():
        for bits in product((0, 1), repeat=len(around)):
            if sum(bits) % 2 == (vertex == odd):
                found += [(f"g{vertex}{bits}", f"e{k}{bit}") for k, bit in zip(around, bits)]
    return found


def pairs_in_one_place(chance: random.Random) -> Iterator[Pair]:
    """Graphs whose vertices all look alike, in one place."""
    cells = list(product(range(4), repeat=2))
    rook = [(a, b) for a, b in combinations(cells, 2) if (a[0] == b[0]) != (a[1] == b[1])]
    near = {(0, 1), (0, 3), (1, 0), (3, 0), (1, 1), (3, 3)}
    shrikhande = [(a, b) for a, b in combinations(cells, 2) if ((a[0] - b[0]) % 4, (a[1] - b[1]) % 4) in near]
    yield Pair("the rook's graph and Shrikhande's", hung(rook), hung(shrikhande), False)
    yield Pair("the rook's graph", hung(rook), hung(renamed(rook, chance)), True)
    cube = [(x, x ^ (1 << k)) for x in range(64) for k in range(6) if not x >> k & 1]
    yield Pair("the cube of six dimensions", hung(cube), hung(renamed(cube, chance)), True)
    cubic = [[edge for i in range(32) for edge in ((i, (i + 1) % 32), (i, 32 + i), (32 + i, 32 + (i + step) % 32))] for step in (5, 7)]
    yield Pair("a graph of Petersen's kind", hung(cubic[0]), hung(renamed(cubic[0], chance)), True)
    yield Pair("two graphs of Petersen's kind", hung(cubic[0]), hung(cubic[1]), False)
    eights = [(8 * b + i, 8 * b + (i + 1) % 8) for b in range(8) for i in range(8)]
    sixteens = [(16 * b + i, 16 * b + (i + 1) % 16) for b in range(4) for i in range(16)]
    yield Pair("8 rings of 8 and 4 of 16", hung(eights), hung(sixteens), False)
    graphs = {"K4": list(combinations(range(4), 2)),
              "Petersen's graph": [*ring(5), *((i, i + 5) for i in range(5)), *((5 + i, 5 + (i + 2) % 5) for i in range(5))],
              "Heawood's graph": [*ring(14), *((i, (i + 5) % 14) for i in range(0, 14, 2))]}
    for what, edges in graphs.items():
        yield Pair(f"even and odd over {what}", hung(even_covers(edges, None)), hung(even_covers(edges, 0)), False)
        yield Pair(f"odd over {what}", hung(even_covers(edges, 1)), hung(even_covers(edges, 0)), True)
    hub: Rows = [("C", "D", (0, 0)), ("C", "D", (0, 1)), ("C", "C", (1, 0))]
    twins = hub + [(x, f"v{k}", shift) for k in range(64) for x, shift in (("C", (0, 0)), ("D", (0, 0)), ("C", (0, 1)))]
    yield Pair("64 twins", Net(twins), Net(twins[::-1]), True)


def hard_pairs() -> list[Pair]:
    return [*pairs_of_strands(), *pairs_of_equations(), *pairs_in_one_place(random.Random(3))]


def random_strands(chance: random.Random) -> tuple[Net, Net]:
    """Strands at random over the square or the cubic net, and the same after strands were numbered anew at each place of a
    torus of several cells. By how they are made they are the same."""
    dimension, count = chance.choice((2, 2, 2, 3)), chance.choice((2, 2, 3, 3, 4, 4, 5))
    rungs = ring(count)[:1 if count == 2 else count] if chance.random() < .5 else [
        one for one in combinations(range(count), 2) if chance.random() < .6]
    kept = [way for way in permutations(range(count)) if {frozenset(map(way.__getitem__, one)) for one in rungs}
            == {frozenset(one) for one in rungs}]
    is_free = chance.random() < .3
    cells = [chance.choice((1, 1, 2, 3)) for _ in range(dimension)]
    larger = [size * chance.choice((1, 1, 2, 3) if dimension == 2 else (1, 2)) for size in cells]
    ways = {(at, axis): chance.sample(range(count), count) if is_free else chance.choice(kept)
            for at in product(*map(range, cells)) for axis in range(dimension)}
    anew = {at: tuple(range(count)) if is_free else chance.choice(kept) for at in product(*map(range, larger))}

    def goes_on(at: Sequence[int], axis: int) -> Ways:
        return ways[tuple(x % size for x, size in zip(at, cells)), axis]

    def goes_on_anew(at: Sequence[int], axis: int) -> Ways:
        there = tuple((x + (k == axis)) % size for k, (x, size) in enumerate(zip(at, larger)))
        found = [0] * count
        for strand in range(count):
            found[anew[tuple(at)][strand]] = anew[there][goes_on(at, axis)[strand]]
        return found

    return strands(cells, goes_on, count, rungs), strands(larger, goes_on_anew, count, rungs)
