"""All symmetries of a net, as the program lists them: operations, orbits, and the symbols of groups."""

from __future__ import annotations

from dataclasses import dataclass, field
from fractions import Fraction
from functools import cached_property
from operator import mul
from typing import TYPE_CHECKING, Any

from .errors import PackageMissing, ProgramFailed, ProgramNotFound, lacking
from .graph import Edge, QuotientGraph
from .net import Net
from .program import NOT_KNOWN, reading_report, run
from .texts.symmetry_text import SymmetryReport, ToldOrbit, symmetry_of_report

if TYPE_CHECKING:
    from .answers import Answer
    from .embedding.listed import GroupSymbols

PACKAGES = "apt-get install python3-numpy python3-spglib"
Matrix = tuple[tuple[int, ...], ...]
Place = tuple[Fraction, ...]


@dataclass(frozen=True)
class Operation:
    """The vertex at x goes to the one at W·x + w, in fractions of the primitive cell.

    matrix  W, its rows
    shift   w"""

    matrix: Matrix
    shift: Place

    def __call__(self, place: Place) -> Place:
        """Where a place goes.

        >>> Operation(((0, -1), (1, 0)), (Fraction(1, 2), Fraction(0)))((Fraction(1, 4), Fraction(0)))
        (Fraction(1, 2), Fraction(1, 4))"""
        return tuple(sum((a * x for a, x in zip(row, place)), w) for row, w in zip(self.matrix, self.shift))


@dataclass(frozen=True)
class VertexOrbit:
    """Vertices that symmetries carry to each other.

    vertices       the classes of the primitive graph that it has
    order          how many symmetries keep one of its vertices
    site_symmetry  the symbol of the point group that these make, as `-43m`; it is looked up"""

    vertices: tuple[int, ...]
    order: int
    site_symmetry: str


@dataclass(frozen=True)
class EdgeOrbit:
    """Edges that symmetries carry to each other, by the first of them in the primitive graph, and how many that has."""

    edge: tuple[int, int, tuple[int, ...]]
    size: int


@dataclass(frozen=True)
class NetSymmetry:
    """All symmetries of a net: bijections of its infinite graph that join images if and only if the vertices are joined.

    Proved: each of them is one of the operations, followed by a translation of the net; each operation is one, and none stands
    there twice; the orbits of vertices and edges, and the orders. Looked up, and not proved: the symbols of groups. A net has
    no hand: of the eleven pairs of space groups that are mirror images the one of the lower number is told.

    This is the group of the net in its most symmetric embedding. A structure may have less symmetry than its net.

    operations   the identity first; all in the basis of the translations that `Answer.primitive` has
    edge_orbits  orbits of edges, by their first edges
    report       the lines of `net_tool symmetry` by their form"""

    operations: tuple[Operation, ...]
    edge_orbits: tuple[EdgeOrbit, ...]
    report: SymmetryReport = field(repr=False)

    @property
    def order(self) -> int:
        """How many operations there are: the order of the point group."""
        return len(self.operations)

    @property
    def transitivity(self) -> tuple[int, int]:
        """How many kinds of vertices and of edges there are."""
        return len(self.report.vertices), len(self.edge_orbits)

    @cached_property
    def places(self) -> tuple[Place, ...]:
        """Where the vertices of the primitive graph stand, from class 1 on, in fractions of the primitive cell."""
        return tuple(_place(row, self.report.denominator) for row in self.report.places)

    @cached_property
    def orbits(self) -> tuple[VertexOrbit, ...]:
        """The orbits of vertices, by their least classes. PackageMissing if python3-spglib is not there."""
        return tuple(map(self._orbit, self.report.vertices))

    @property
    def space_group(self) -> tuple[int, str] | None:
        """The number and the symbol of the space group in the International Tables, as (227, 'Fd-3m'); of a layer those of the
        plane group, as (17, 'p6mm'). None if no group of the tables is found that has these operations. PackageMissing if
        python3-spglib is not there."""
        return self._symbols.group

    @property
    def point_group(self) -> str:
        """The symbol of the point group, as `m-3m`; of a layer as `6mm`. PackageMissing as for `space_group`."""
        return self._symbols.point_group([operation.matrix for operation in self.operations])

    @cached_property
    def _symbols(self) -> GroupSymbols:
        try:
            from .embedding.listed import GroupSymbols
            return GroupSymbols(self.report)
        except ModuleNotFoundError as missing:
            raise PackageMissing(f"symbols of groups: {lacking(missing, PACKAGES)}") from missing

    @property
    def graph(self) -> QuotientGraph:
        """The primitive graph; its vertices are the classes, from 1 on."""
        edges = tuple(Edge(u - 1, v - 1, tuple(shift)) for u, v, *shift in self.report.edges)
        return QuotientGraph(tuple(range(1, len(self.report.places) + 1)), edges, self.report.dimension)

    @cached_property
    def images(self) -> tuple[tuple[int, ...], ...]:
        """Of each operation, and of each class from 1 on, the class over which its image stands."""
        units = [row[self.report.dimension ** 2:] for row in self.report.operations]
        with reading_report("symmetry"):
            return tuple(self._images(one.matrix, shift) for one, shift in zip(self.operations, units))

    @property
    def vertex_kinds(self) -> tuple[int, ...]:
        """Of each vertex of the graph, by its place from 0 on, the least one that a symmetry carries it to."""
        return tuple(min(images) - 1 for images in zip(*self.images))

    def _images(self, matrix: Matrix, shift: tuple[int, ...]) -> tuple[int, ...]:
        """The places are compared in whole numbers, in units of 1/D."""
        whole = self.report.denominator
        number = {tuple(part % whole for part in place): k for k, place in enumerate(self.report.places, start=1)}
        return tuple(number[tuple((sum(map(mul, row, place)) + part) % whole for row, part in zip(matrix, shift))]
                     for place in self.report.places)

    def _orbit(self, told: ToldOrbit) -> VertexOrbit:
        vertices = tuple(k for k, least in enumerate(self.vertex_kinds, start=1) if least == told.least - 1)
        kept = [one.matrix for one, image in zip(self.operations, self.images) if image[told.least - 1] == told.least]
        return VertexOrbit(vertices, told.order, self._symbols.point_group(kept))

    def to_dict(self) -> dict[str, Any]:
        """All of it as JSON has it: matrices by rows, shifts as texts, as `1/2`."""
        number, symbol = self.space_group or (None, "")
        return {"space_group": symbol, "number": number, "point_group": self.point_group, "order": self.order,
                "transitivity": list(self.transitivity),
                "operations": [{"matrix": [list(row) for row in one.matrix], "shift": list(map(str, one.shift))}
                               for one in self.operations],
                "orbits": [{"vertices": list(one.vertices), "order": one.order, "site_symmetry": one.site_symmetry}
                           for one in self.orbits],
                "edge_orbits": [{"edge": [*one.edge[:2], list(one.edge[2])], "size": one.size} for one in self.edge_orbits]}

    def __repr__(self) -> str:
        return f"<NetSymmetry: {self.order} operations, {count_of(*self.transitivity)}>"

    def __str__(self) -> str:
        """In one line, as a chemist asks first: `Fd-3m, 1 kind of vertices, 1 of edges`."""
        group = self.space_group
        return f"{group[1] if group else 'no group found'}, {count_of(*self.transitivity)}"


def count_of(vertices: int, edges: int) -> str:
    """How many kinds of vertices and of edges there are, in words."""
    return f"{vertices} kind{'s' * (vertices > 1)} of vertices, {edges} of edges"


def symmetry_of(net: Net) -> NetSymmetry | None:
    """The symmetries of a net by the program; None if it has no key, or its primitive graph is past the limits of shifts.

    >>> honeycomb = symmetry_of(Net([(1, 2, (0, 0)), (1, 2, (1, 0)), (1, 2, (0, 1))]))
    >>> honeycomb.order, honeycomb.transitivity, honeycomb.operations[0].matrix
    (12, (1, 1), ((1, 0), (0, 1)))"""
    _, told = run("symmetry", net.block, "-")
    with reading_report("symmetry"):
        report = symmetry_of_report(told.splitlines(keepends=True))
    return _symmetry(report) if report else None


def symmetry_if_told(graph: QuotientGraph) -> NetSymmetry | None:
    """The same of a graph; None also if the program is not there, or is one that does not know the command."""
    try:
        return symmetry_of(Net.of_graph(graph))
    except ProgramNotFound:
        return None
    except ProgramFailed as fault:
        if fault.status != NOT_KNOWN:
            raise
        return None


def given_group(answer: Answer) -> str:
    """Whether the group that a block gives is that of its net; empty if it gives none, or the program lists no symmetries."""
    found = answer.symmetry if answer.net.provenance.group else None
    return told_group(answer.net, found.order, len(found.graph.vertices)) if found else ""


def told_group(net: Net, order: int, vertices: int) -> str:
    """Whether the group that the block of a net gives is that of the net, which has so many operations and vertices in its
    primitive cell: `Fd-3m, that of the net`, or `P 21 21 21, of index 12 in that of the net`. Empty if it gives none.

    The block has the vertices of a primitive cell of its group, and the net those of a smaller one at times: the index
    counts the operations of both for one vertex."""
    given = net.provenance.group
    if not given or not order:
        return ""
    index = Fraction(order * len(net.graph.vertices), given.order * vertices)
    return f"{given.name}, that of the net" if index == 1 else f"{given.name}, of index {index} in that of the net"


def symmetry_on(answer: Answer) -> NetSymmetry | None:
    """The symmetries of the net of an answer, in its smaller cell if it has a key in that alone."""
    if answer.key:
        return symmetry_of(answer.net)
    return symmetry_of(answer.small.net) if answer.small else None


def _symmetry(report: SymmetryReport) -> NetSymmetry:
    d = report.dimension
    operations = []
    for row in report.operations:
        matrix = tuple(row[k * d:(k + 1) * d] for k in range(d))
        operations.append(Operation(matrix, _place(row[d * d:], report.denominator)))
    orbits = tuple(EdgeOrbit((edge[0], edge[1], edge[2:]), size) for edge, size in report.edge_orbits)
    return NetSymmetry(tuple(operations), orbits, report)


def _place(row: tuple[int, ...], denominator: int) -> Place:
    return tuple(Fraction(part, denominator) for part in row)

