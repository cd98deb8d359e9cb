#!/usr/bin/env python3
"""Checks certificates that nets are different: check_different.py CERTIFICATE FILE.

FILE has blocks PERIODIC_GRAPH, as the program reads them. A certificate is one of these two, with the numbers A and B of
blocks:

    net_different 1               net_different 1
    nets A B                      nets A B
    shells U N1 N2 .. Nk          placement D, and a line `at X Y Z` for each vertex of A; then the same of B
                                  list START X Y Z X Y Z ..
                                  rows K

The first says: from the vertex U of A so many vertices stand at the distances 1 to k, and so it is from no vertex of B. The
second: both nets stand in primitive cells, with each vertex at the mean of its neighbours, in units of 1/D; START is the
number of a vertex of A, and a frame follows; each list of a start and a frame of B differs from that of A before its row
K + 1. A bijection that joins images if and only if the vertices are joined keeps both, so there is none.

It trusts nothing but this file, and needs nothing but the standard library. It ends with 0 if all hold, with 1 if one does not."""

from __future__ import annotations

import itertools
import math
import re
import sys
from collections.abc import Iterator, Sequence

Row = tuple[int, ...]
Stars = dict[str, dict[tuple[str, Row], bool]]  # of each vertex its neighbours, each with the step of the cell

TOKEN = re.compile(r'"[^"]*"|[^\s"#]+|#.*')


def blocks(text: str) -> list[Stars]:
    """The nets of the blocks. An edge that stands twice counts once."""
    found: list[Stars] = []
    stars: Stars | None = None
    for line in text.splitlines():
        words = [word for word in TOKEN.findall(line) if not word.startswith("#")]
        key = words[0].upper() if words else ""
        if key == "PERIODIC_GRAPH" and stars is None:
            stars = {}
            found.append(stars)
        elif key == "END":
            stars = None
        elif stars is not None and words and key not in ("NAME", "ID"):
            row = words[key in ("EDGES", "EDGE", "BONDS", "BOND"):]
            if row:
                u, v, *shift = row
                stars.setdefault(u, {})[v, tuple(map(int, shift))] = True
                stars.setdefault(v, {})[u, tuple(-int(part) for part in shift)] = True
    return found


def shells(stars: Stars, start: str) -> Iterator[int]:
    """How many vertices stand at the distances 1, 2 and so on from a vertex in cell 0: two shells suffice for the next."""
    before: set[tuple[str, Row]] = set()
    here: set[tuple[str, Row]] = {(start, (0,) * len(next(iter(stars[start]))[1]))}
    while True:
        after = {(v, tuple(a + b for a, b in zip(cell, shift))) for u, cell in here for v, shift in stars[u]} - here - before
        before, here = here, after
        yield len(here)


def has_shells(stars: Stars, vertex: str, sizes: list[int]) -> bool:
    return all(n == m for n, m in zip(sizes, shells(stars, vertex)))


def determinant(m: Sequence[Row]) -> int:
    if len(m) == 2:
        return m[0][0] * m[1][1] - m[0][1] * m[1][0]
    (a, b, c), (d, e, f), (g, h, i) = m
    return a * (e * i - f * h) - b * (d * i - f * g) + c * (d * h - e * g)


def is_independent(vectors: Sequence[Row]) -> bool:
    """Whether vectors are independent: some minor of theirs is not 0."""
    rows, size = list(vectors), len(vectors)
    if size == 1:
        return any(rows[0])
    minors = itertools.combinations(range(len(rows[0])), size)
    return any(determinant([tuple(row[k] for k in columns) for row in rows]) for columns in minors)


class Placed:
    """A net in a primitive cell, with the vectors of its arcs in units of 1/D. ValueError if its vertices are not at the means
    of their neighbours, if two stand in one place, or if it is not connected or not in a primitive cell."""

    def __init__(self, stars: Stars, denominator: int, places: list[Row]) -> None:
        number = {vertex: k for k, vertex in enumerate(stars)}
        self.places, self.size = places, denominator
        if len(places) != len(stars) or any(len(place) != len(places[0]) for place in places) or denominator < 1:
            raise ValueError("not as many places as vertices")
        self.arcs = [[(self.vector(number[u], number[v], shift), number[v]) for v, shift in star] for u, star in stars.items()]
        if any(sum(part) for row in self.arcs for part in zip(*(vector for vector, _ in row))):
            raise ValueError("a vertex is not at the mean of its neighbours")
        self.at = {tuple(part % denominator for part in place): k for k, place in enumerate(places)}
        if len(self.at) < len(places) or not self.is_connected() or any(map(self.is_translation, range(1, len(places)))):
            raise ValueError("two vertices in one place, or not connected, or not in a primitive cell")

    def vector(self, u: int, v: int, shift: Row) -> Row:
        return tuple(self.size * s + b - a for a, b, s in zip(self.places[u], self.places[v], shift))

    def is_connected(self) -> bool:
        """Whether walks reach each vertex, and closed ones each cell: the minors of their steps have no common divisor."""
        place = {0: self.places[0]}
        for u in (order := [0]):
            for vector, v in self.arcs[u]:
                if v not in place:
                    place[v] = tuple(a + b for a, b in zip(place[u], vector))
                    order.append(v)
        if len(order) < len(self.arcs):
            return False
        cells = {tuple((a + b - c) // self.size for a, b, c in zip(place[u], x, place[v]))
                 for u in order for x, v in self.arcs[u]}
        minors = map(determinant, itertools.combinations(sorted(filter(any, cells)), len(place[0])))
        divisor = 0
        for minor in minors:
            divisor = math.gcd(divisor, minor)
            if divisor == 1:
                return True
        return False

    def is_translation(self, v: int) -> bool:
        """Whether the move of vertex 0 to the vertex v carries the net to itself."""
        move = [b - a for a, b in zip(self.places[0], self.places[v])]
        for u, place in enumerate(self.places):
            image = self.at.get(tuple((x + m) % self.size for x, m in zip(place, move)))
            if image is None or {x for x, _ in self.arcs[u]} != {x for x, _ in self.arcs[image]}:
                return False
        return True

    def frames(self, start: int) -> Iterator[tuple[Row, ...]]:
        """The frames of a start: each vector is of the nearest arcs at which there is one independent of those before."""
        distance = {start: 0}
        for u in (order := [start]):
            for _, v in self.arcs[u]:
                if v not in distance:
                    distance[v] = distance[u] + 1
                    order.append(v)
        layers = [{x for u in order if distance[u] == k for x, _ in self.arcs[u]} for k in range(distance[order[-1]] + 1)]
        waiting: list[tuple[Row, ...]] = [()]
        while waiting:
            frame = waiting.pop()
            if len(frame) == len(self.places[0]):
                yield frame
                continue
            free = ([x for x in layer if is_independent((*frame, x))] for layer in layers)
            waiting += [(*frame, x) for x in next(filter(None, free))]

    def rows(self, start: int, frame: tuple[Row, ...]) -> Iterator[Row]:
        """The scale q, and the rows: vertices are numbered as they are met, from each the arcs by their coordinates."""
        whole = determinant(frame)
        sign = 1 if whole > 0 else -1
        parts = {x: tuple(sign * determinant((*frame[:k], x, *frame[k + 1:])) for k in range(len(frame)))
                 for row in self.arcs for x, _ in row}
        q = abs(whole) // math.gcd(whole, *itertools.chain(*parts.values()))
        yield (q,)
        number = {start: 1}
        for u in (order := [start]):
            ends = sorted((parts[x], v) for x, v in self.arcs[u])
            for _, v in ends:
                if v not in number:
                    number[v] = len(number) + 1
                    order.append(v)
            yield from ((number[u], number[v], *(q * part // abs(whole) for part in x)) for x, v in ends
                        if number[u] < number[v] or (u == v and x > (0,) * len(x)))


def lists_differ(one: Placed, other: Placed, start: int, frame: tuple[Row, ...], last: int) -> bool:
    """Whether each list of the second net differs from that of the first within its scale and its first `last` rows."""
    if frame not in set(one.frames(start)) or (len(one.arcs), len(one.places[0])) != (len(other.arcs), len(other.places[0])):
        return False
    wanted = list(itertools.islice(one.rows(start, frame), last + 1))
    return all(list(itertools.islice(other.rows(there, theirs), last + 1)) != wanted
               for there in range(len(other.arcs)) for theirs in other.frames(there))


def holds(lines: list[str], nets: list[Stars]) -> bool:
    """Whether one certificate holds, without its first line. ValueError or the like if it has another form."""
    words = [TOKEN.findall(line) for line in lines]
    word, *numbers = words.pop(0)
    one, other = (nets[int(number) - 1] for number in numbers if int(number) > 0)
    if word == "nets" and words[0][0] == "shells" and len(words) == 1:
        vertex, sizes = words[0][1], list(map(int, words[0][2:]))
        return bool(sizes) and has_shells(one, vertex, sizes) and not any(has_shells(other, there, sizes) for there in other)
    placed = []
    for stars in (one, other):
        (head, size), rows, words = words[0], words[1:len(stars) + 1], words[len(stars) + 1:]
        if head != "placement" or any(row[0] != "at" for row in rows):
            raise ValueError("no placement")
        placed.append(Placed(stars, int(size), [tuple(map(int, row[1:])) for row in rows]))
    (head, start, *parts), (last, k) = words
    size = len(placed[0].places[0])
    frame = tuple(tuple(map(int, parts[k:k + size])) for k in range(0, len(parts), size))
    return (word, head, last) == ("nets", "list", "rows") and lists_differ(placed[0], placed[1], int(start) - 1, frame, int(k))


def check(certificates: str, text: str) -> list[bool]:
    """Of each certificate of a text, whether it holds of the blocks of another text."""
    head, *parts = certificates.split("net_different 1\n")
    nets, found = blocks(text), []
    for part in parts:
        try:
            found.append(head == "" and holds(part.splitlines(), nets))
        except (ValueError, LookupError, TypeError, StopIteration, ZeroDivisionError, RuntimeError):
            found.append(False)
    return found


def main(certificate: str, file: str) -> int:
    with open(certificate, encoding="utf-8") as certificates, open(file, encoding="utf-8", errors="surrogateescape") as text:
        found = check(certificates.read(), text.read())
    for number, good in enumerate(found, start=1):
        print(f"certificate {number} {'holds: the nets are different' if good else 'does not hold'}")
    return int(not found or not all(found))


if __name__ == "__main__":
    if len(sys.argv) != 3:
        sys.exit("usage: check_different.py CERTIFICATE FILE")
    sys.exit(main(*sys.argv[1:]))
