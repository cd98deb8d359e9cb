"""The linear parts that a map between two placed nets may have.

A map is affine on positions, so it is known from the image of one vertex and of a frame: as many independent vectors of arcs as
dimensions, on a short walk from that vertex. The images of the frame have the same lengths and inner products in the metric of
the nets. Nearly only the images under symmetries do so, and nearly each frame that is found is right."""

from __future__ import annotations

from collections import Counter
from collections.abc import Iterator, Sequence
from dataclasses import dataclass

from ..lattice import Vector, times
from .elimination import NoInverse
from .placed import Matrix, NotFound, VectorNet, inverse_matrix
from .walking import Work


@dataclass(frozen=True)
class Step:
    """A step of the plan: an arc from a vertex that is known to one that becomes known, where `is_new`.

    tail      the place of the first vertex among those that are known
    parts     the coordinates of the arc's vector in the frame so far; None where the vector is the next of the frame
    length    of that vector, and its inner products with the vectors before
    colour    of the vertex at the end"""

    tail: int
    is_new: bool
    parts: Vector | None
    colour: int
    length: int = 0
    products: Vector = ()


@dataclass(frozen=True)
class Candidate:
    """A vertex of the first net, the vertex of the second that may be its image, and the linear part modulo the prime: the
    images of the unit vectors are its rows."""

    start: int
    image: int
    matrix: Matrix


def candidates(a: VectorNet, b: VectorNet, work: Work) -> Iterator[Candidate]:
    """All of them for one start, which is a vertex of the rarest colour."""
    counts = Counter(a.colours)
    rarest = min(counts, key=lambda colour: (counts[colour], colour))
    start = a.colours.index(rarest)
    plan, frame = _plan(a, start)
    try:
        unframed = inverse_matrix([list(vector) for vector in frame], a.prime)
    except NoInverse:
        raise NotFound("the net does not reach in all directions") from None
    for image, colour in enumerate(b.colours):
        if colour == rarest:
            for vectors in dict.fromkeys(tuple(found) for found in _framings(b, plan, image, work)):
                yield Candidate(start, image, [[part % a.prime for part in times(row, vectors)] for row in unframed])


def _plan(a: VectorNet, start: int) -> tuple[list[Step], list[Vector]]:
    """The walk from the start, breadth first, up to the arc that completes the frame."""
    known, place = [start], {start: 0}
    plan: list[Step] = []
    frame: list[Vector] = []
    for u in known:
        for vector, length, (v, _) in zip(a.vectors[u], a.lengths[u], a.arcs[u]):
            parts, is_new = _parts(a, frame, vector), v not in place
            if parts is None:
                products = tuple(a.product(vector, other) for other in frame)
                plan.append(Step(place[u], is_new, None, a.colours[v], length, products))
                frame.append(vector)
            elif is_new:
                plan.append(Step(place[u], True, parts, a.colours[v]))
            if is_new:
                place[v] = len(known)
                known.append(v)
            if len(frame) == a.dimension:
                return plan, frame
    raise NotFound("the net does not reach in all directions")


def _parts(a: VectorNet, frame: list[Vector], vector: Vector) -> Vector | None:
    """The coordinates of a vector in a frame that may be incomplete; None where it is independent of it."""
    if not frame:
        return None if any(vector) else ()
    products = [a.product(vector, other) for other in frame]
    rows = [[a.product(one, other) for other in frame] for one in frame]
    try:
        unframed = inverse_matrix(rows, a.prime) if len(frame) > 1 else [[pow(rows[0][0], -1, a.prime)]]
    except (NoInverse, ValueError):
        raise NotFound("a frame has no volume modulo the prime") from None
    parts = tuple(sum(x * y for x, y in zip(row, products)) % a.prime for row in unframed)
    return parts if _combined(a, parts, frame) == vector else None


def _combined(net: VectorNet, parts: Vector, frame: Sequence[Vector]) -> Vector:
    """The vector with these coordinates in a frame, which may have no vector yet."""
    if not frame:
        return (0,) * net.dimension
    return tuple(part % net.prime for part in times(parts, frame))


def _framings(b: VectorNet, plan: Sequence[Step], image: int, work: Work) -> Iterator[list[Vector]]:
    """The frames of the second net over which the plan can be walked from a vertex."""
    waiting: list[tuple[int, list[int], list[Vector]]] = [(0, [image], [])]
    while waiting:
        at, known, frame = waiting.pop()
        if at == len(plan):
            yield frame
            continue
        step = plan[at]
        u = known[step.tail]
        work.spend(len(b.arcs[u]))
        waiting += [(at + 1, [*known, v] if step.is_new else known, frame if step.parts is not None else [*frame, vector])
                    for vector, v in reversed(list(_ends(b, step, u, frame)))]


def _ends(b: VectorNet, step: Step, u: int, frame: list[Vector]) -> Iterator[tuple[Vector, int]]:
    """The arcs from a vertex that a step may go along: their vectors and ends."""
    wanted = None if step.parts is None else _combined(b, step.parts, frame)
    for vector, length, (v, _) in zip(b.vectors[u], b.lengths[u], b.arcs[u]):
        if b.colours[v] != step.colour:
            continue
        if wanted is not None:
            if vector == wanted:
                yield vector, v
        elif length == step.length and step.products == tuple(b.product(vector, other) for other in frame):
            yield vector, v
