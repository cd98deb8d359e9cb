"""Certificates: texts that show anybody that no embedding with edges up to 1 has a greater volume.

    net_embedding 1
    graph D VERTICES EDGES
    gram ROW                  D rows: the products of the vectors of the primitive cell
    at U PLACE                a row for each vertex from 1 on: its place in units of that cell
    edge U V SHIFT weight=N   a row for each edge, with a whole number as its weight
    end

Let each vertex stand at the weighted mean of its neighbours, t be the weights, and M the sum of t v v^T over the vectors v
of the edges in units of the cell. Then V^2 <= (sum t / D)^D / det M for the volume V of the cell in every embedding whose
edges are not longer than 1: the sum of t l^2 is at most the sum of t, it is at least the trace of M times the metric, and
the arithmetic mean of eigenvalues is at least their geometric mean. `check_certificate` finds this bound in exact numbers,
and that the embedding reaches it."""

from __future__ import annotations

from collections.abc import Iterator
from dataclasses import dataclass
from fractions import Fraction
from typing import TYPE_CHECKING

if TYPE_CHECKING:
    from .relaxing import Relaxed

FIRST_LINE = "net_embedding 1"
DECIMALS = 12        # of places and products
MOST_WEIGHT = 10**6  # of an edge; so the bound is some 10^-12 above the greatest volume
LONGER = Fraction(1, 10**9)  # than 1 an edge may be, and so much the squared volume may fall short of the bound
Vector = list[Fraction]


class NotCertified(ValueError):
    """A text is no certificate, or shows nothing, for the reason that it is made with."""


def certificate_of(shape: Relaxed) -> str:
    """The certificate of a shape that has weights."""
    assert shape.weights is not None
    net, scale = shape.net, MOST_WEIGHT / shape.weights.max()
    lines = [FIRST_LINE, f"graph {net.dimension} {len(net.places)} {len(net.edges)}"]
    lines += ["gram " + _row(row) for row in shape.gram.tolist()]
    lines += [f"at {u} " + _row(place) for u, place in enumerate(net.places.tolist(), start=1)]
    lines += [f"edge {u + 1} {v + 1} {' '.join(map(str, shift))} weight={round(weight * scale)}"
              for (u, v, shift), weight in zip(net.edges, shape.weights.tolist())]
    return "\n".join([*lines, "end", ""])


def _row(numbers: list[float]) -> str:
    return " ".join(f"{number + 0.0:.{DECIMALS}f}" for number in numbers)


@dataclass(frozen=True)
class Checked:
    """What a certificate shows: the squared volume of its cell, and the bound of all squared volumes."""

    squared_volume: Fraction
    bound: Fraction

    def __str__(self) -> str:
        return (f"certified: squared volume of the primitive cell {float(self.squared_volume):.9f}, and of every embedding with "
                f"edges up to 1 at most {float(self.bound):.9f}")


def check_certificate(text: str) -> Checked:
    """What a certificate shows, in exact numbers. NotCertified if it shows nothing."""
    try:
        gram, places, edges, weights = _read(text)
    except (ValueError, IndexError, ZeroDivisionError) as fault:
        raise NotCertified(f"it has not the form of a certificate: {fault}") from None
    for (u, v, shift), weight in zip(edges, weights):
        step = [end + part - start for start, end, part in zip(places[u], places[v], shift)]
        if _product(step, gram, step) > 1 + LONGER or weight <= 0:
            raise NotCertified(f"the edge {u + 1} {v + 1} is longer than 1, or has no weight")
    moment = _moment(len(places), len(gram), edges, weights)
    if determinant(moment) <= 0:
        raise NotCertified("its edges do not reach in all directions")
    mean, bound = sum(weights, Fraction(0)) / len(gram), 1 / determinant(moment)
    for _ in gram:
        bound *= mean
    if determinant(gram) < bound * (1 - LONGER):
        raise NotCertified(f"its squared volume is {float(determinant(gram)):.9f}, and the bound {float(bound):.9f}")
    return Checked(determinant(gram), bound)


Edges = list[tuple[int, int, Vector]]


def _read(text: str) -> tuple[list[Vector], list[Vector], Edges, list[Fraction]]:
    """The metric, the places, the edges and their weights."""
    first, head, *lines = text.splitlines()
    word, *sizes = head.split()
    dimension, vertices, count = map(int, sizes)
    if (first, word, lines[-1], len(lines)) != (FIRST_LINE, "graph", "end", dimension + vertices + count + 1):
        raise ValueError("a first or last line is another one, or rows are missing")
    gram = [_numbers(line, "gram", dimension) for line in lines[:dimension]]
    places = [_numbers(line, f"at {u}", dimension) for u, line in enumerate(lines[dimension:dimension + vertices], start=1)]
    if gram != [list(column) for column in zip(*gram)]:
        raise ValueError("the metric is not symmetric")
    edges, weights = [], []
    for line in lines[dimension + vertices:-1]:
        word, u, v, *shift, weight = line.split()
        if word != "edge" or not weight.startswith("weight=") or len(shift) != dimension or not 1 <= int(u) <= vertices >= int(v) >= 1:
            raise ValueError(f"no row of an edge: {line[:60]}")
        edges.append((int(u) - 1, int(v) - 1, [Fraction(int(part)) for part in shift]))
        weights.append(Fraction(int(weight[7:])))
    return gram, places, edges, weights


def _numbers(line: str, words: str, dimension: int) -> Vector:
    if not line.startswith(words + " ") or len(line[len(words):].split()) != dimension:
        raise ValueError(f"no row {words}: {line[:60]}")
    return [Fraction(word) for word in line[len(words):].split()]


def _moment(count: int, dimension: int, edges: Edges, weights: list[Fraction]) -> list[Vector]:
    """M: the sum of t s s^T over the shifts s, less what the vertices take away by standing at their weighted means. They are
    eliminated one by one, the one with the fewest neighbours first."""
    size = range(dimension)
    moment = [[sum((t * s[i] * s[j] for (_, _, s), t in zip(edges, weights)), Fraction(0)) for j in size] for i in size]
    pulls: list[dict[int, Fraction]] = [{} for _ in range(count)]
    sums = [[Fraction(0)] * dimension for _ in range(count)]
    for (u, v, shift), weight in zip(edges, weights):
        for tail, head, sign in ((u, v, 1), (v, u, -1)):
            if u != v:
                pulls[tail][head] = pulls[tail].get(head, Fraction(0)) + weight
            sums[tail] = [total + sign * weight * part for total, part in zip(sums[tail], shift)]
    left = set(range(count))
    while len(left) > 1:
        u = min(left, key=lambda vertex: (len(pulls[vertex]), vertex))
        left.remove(u)
        moment = [[moment[i][j] - part for j, part in enumerate(row)] for i, row in enumerate(_taken(u, pulls, sums))]
    return moment


def _taken(u: int, pulls: list[dict[int, Fraction]], sums: list[Vector]) -> Iterator[Vector]:
    """Takes a vertex out of the equations; the rows of what the moment loses by it."""
    total, own = sum(pulls[u].values(), Fraction(0)), sums[u]
    if not total:
        raise NotCertified("its edges do not join all vertices")
    for v, weight in pulls[u].items():
        del pulls[v][u]
        sums[v] = [part + weight / total * other for part, other in zip(sums[v], own)]
        for w, other in pulls[u].items():
            if w != v:
                pulls[v][w] = pulls[v].get(w, Fraction(0)) + weight * other / total
    return ([one * other / total for other in own] for one in own)


def _product(one: Vector, gram: list[Vector], other: Vector) -> Fraction:
    return sum((a * row[j] * b for a, row in zip(one, gram) for j, b in enumerate(other)), Fraction(0))


def determinant(rows: list[Vector]) -> Fraction:
    if len(rows) == 1:
        return rows[0][0]
    minors = ([row[:k] + row[k + 1:] for row in rows[1:]] for k in range(len(rows)))
    return sum(((-1) ** k * rows[0][k] * determinant(minor) for k, minor in enumerate(minors)), Fraction(0))
