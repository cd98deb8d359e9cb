"""NET blocks: nodes and edges by the operations of a group, without coordinates of their own.

A node has a site, an affine map as `3/8,3/8,3/8` or `x,0,0`: two operations carry it to one vertex where they carry
its site to one map. An edge has two nodes and an operation of the group, and joins the first to the image of the
second."""

from __future__ import annotations

import math
from dataclasses import dataclass
from fractions import Fraction

from ..graph import Edge, edge
from ..net import Net
from ..provenance import GivenGroup
from ..refusal import Refused
from ..texts.net_text import MOST_EDGES, MOST_VERTICES

from .crystal import Fields
from .groups import Group
from .made_net import net_made
from .operations import Affine, affine, identity, snapped
from .tokens import Row, Token, number_of, shown

Image = tuple[int, tuple[int, ...]]  # a vertex and its cell


@dataclass(frozen=True)
class SymbolicNode:
    """A node with its site, in units of the primitive basis."""

    name: str
    site: Affine
    degree: int | None
    line: int


def symbolic_net(fields: Fields) -> Net:
    """The net of a NET block; refused by the line where it has no form."""
    dimension = _dimension(fields)
    group = fields.group(dimension)
    basis = Basis(group)
    nodes = {node.name: node for node in (_node(row, basis) for row in fields.of("NODE"))}
    if len(nodes) < len(fields.of("NODE")):
        raise fields.of("NODE")[-1].refused("two nodes have one name")
    vertices = Vertices(basis, list(nodes.values()))
    edges: set[Edge] = set()
    for row in fields.of("EDGE"):
        first, second, across = _edge(row, nodes, basis)
        target = across.after(second.site)
        for operation, (u, start) in zip(basis.operations, vertices.images[first.name]):
            v, end = vertices.of(second.name, operation.after(target))
            shift = tuple(y - x for x, y in zip(start, end))
            if u == v and not any(shift):
                raise row.refused("both ends of an edge are one vertex")
            edges.add(edge(u, v, shift))
        if len(edges) > MOST_EDGES:
            raise row.refused(f"more than {MOST_EDGES} edges in a primitive cell")
    vertices.check_degrees(edges)
    given = GivenGroup(group.name, len(group.rotations))
    return net_made(fields.name, dimension, vertices.names, edges, f"{given.name}, edges by operations", given)


def _dimension(fields: Fields) -> int:
    """2 or 3, by the first operation, or the coordinates of the first node."""
    for row, names in [(row, 1) for row in fields.of("NODE")] + [(row, 2) for row in fields.of("EDGE")]:
        commas = sum(token.text.count(",") for token in row.tokens[names:])
        if commas in (1, 2):
            return commas + 1
    for row in fields.of("EDGE"):
        if len(row) in (4, 5):
            return len(row) - 2
    raise Refused("there are no nodes with a site, and no edges with an operation")


class Basis:
    """The operations of a group, and maps of the block, in exact units of its primitive basis."""

    def __init__(self, group: Group) -> None:
        self.dimension = group.dimension
        rows = [[Fraction(float(x)).limit_denominator(1000) for x in row] for row in group.basis]
        inverse = [[Fraction(int(x)) for x in row] for row in group.to_basis]
        zero = (Fraction(0),) * group.dimension
        self.to_basis = Affine(tuple(zip(*inverse)), zero)
        self.to_cell = Affine(tuple(zip(*rows)), zero)
        self.operations = [
            Affine(tuple(tuple(Fraction(int(x)) for x in column) for column in zip(*rotation)),
                   tuple(Fraction(int(t), group.denominator) for t in translation))
            for rotation, translation in zip(group.rotations.tolist(), group.translations.tolist())]
        self.moves = {operation.rotation: operation.translation for operation in self.operations}

    def site(self, text: str) -> Affine:
        return self.to_basis.after(affine(text))

    def operation(self, text: str) -> Affine:
        """The operation of the group that a text writes out; ValueError where the group has it not."""
        found = self.to_basis.after(affine(text)).after(self.to_cell)
        move = self.moves.get(found.rotation)
        if move is None or any((t - m).denominator != 1 for t, m in zip(found.translation, move)):
            raise ValueError(f"{shown(text)} is no operation of the group")
        return found


def _node(row: Row, basis: Basis) -> SymbolicNode:
    """A name, and a site as one map or as coordinates; before it a degree may stand."""
    tokens, degree = row.tokens[1:], None
    if len(tokens) > 1 and len(tokens) != basis.dimension and tokens[0].text.isdecimal():
        degree, tokens = int(row.number(tokens[0])), tokens[1:]
    try:
        return SymbolicNode(row.tokens[0].text, _site(row, tokens, basis), degree, row.line)
    except ValueError as error:
        raise row.refused(str(error)) from error


def _site(row: Row, tokens: tuple[Token, ...], basis: Basis) -> Affine:
    if not tokens:
        return identity(basis.dimension)
    if len(tokens) == basis.dimension and all(number_of(token.text) is not None for token in tokens):
        place = Affine(((Fraction(0),) * basis.dimension,) * basis.dimension,
                       tuple(snapped(row.number(token)) for token in tokens))
        return basis.to_basis.after(place)
    text = "".join(token.text for token in tokens)
    if text.count(",") != basis.dimension - 1:
        raise ValueError(f"{shown(text)} has not {basis.dimension} parts")
    return basis.site(text)


def _edge(row: Row, nodes: dict[str, SymbolicNode], basis: Basis) -> tuple[SymbolicNode, SymbolicNode, Affine]:
    """Two nodes, and an operation, or the whole parts of a shift, or nothing."""
    if len(row) < 2:
        raise row.refused("an edge has two nodes and an operation")
    for token in row.tokens[:2]:
        if token.text not in nodes:
            raise row.refused(f"there is no node {shown(token.text)}")
    first, second = (nodes[token.text] for token in row.tokens[:2])
    rest = row.tokens[2:]
    parts = [number_of(token.text) for token in rest]
    try:
        if len(rest) == basis.dimension and all(part is not None and part.denominator == 1 for part in parts):
            text = ",".join(f"{variable}+{token.text}".replace("+-", "-").replace("++", "+")
                            for variable, token in zip("xyz", rest))
        else:
            text = "".join(token.text for token in rest) or ",".join("xyz"[:basis.dimension])
        if text.count(",") != basis.dimension - 1:
            raise ValueError(f"{shown(text)} has not {basis.dimension} parts")
        return first, second, basis.operation(text)
    except ValueError as error:
        raise row.refused(str(error)) from error


class Vertices:
    """The images of the nodes, by their maps up to translations."""

    def __init__(self, basis: Basis, nodes: list[SymbolicNode]) -> None:
        self.names: list[str] = []
        self.nodes: list[SymbolicNode] = []
        self.number: dict[tuple[str, Affine], int] = {}
        self.images: dict[str, list[Image]] = {}  # of each node under each operation
        for node in nodes:
            sites = [operation.after(node.site) for operation in basis.operations]
            for count, site in enumerate(dict.fromkeys(site.wrapped() for site in sites), start=1):
                self.number[node.name, site] = len(self.names)
                self.names.append(f"{node.name}_{count}" if count > 1 else node.name)
                self.nodes.append(node)
            if len(self.names) > MOST_VERTICES:
                raise Refused(f"more than {MOST_VERTICES} vertices in a primitive cell", node.line)
            self.images[node.name] = [self.of(node.name, site) for site in sites]

    def of(self, name: str, site: Affine) -> Image:
        """The vertex that an image of a node is, and its cell."""
        return self.number[name, site.wrapped()], tuple(math.floor(t) for t in site.translation)

    def check_degrees(self, edges: set[Edge]) -> None:
        """Refuses a node whose degree is another than is stated."""
        count = [0] * len(self.names)
        for u, v, _ in edges:
            count[u] += 1
            count[v] += 1
        for node, found in zip(self.nodes, count):
            if node.degree not in (None, found):
                raise Refused(f"the node {shown(node.name)} has {found} neighbours by its edges, {node.degree} are stated",
                              node.line)
