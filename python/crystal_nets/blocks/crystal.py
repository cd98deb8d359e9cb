"""The rows of a CRYSTAL or TILING block: name, group, cell, nodes with degrees, edges as pairs of places."""

from __future__ import annotations

from collections.abc import Container, Iterator
from dataclasses import dataclass, field

import numpy as np

from ..provenance import DROPPED, Note
from ..refusal import Refused

from .groups import UnknownGroup, Group, group_by_name, group_of_operations, settings_of
from .groups import MOST_STRAIN, find_space_group
from .operations import affine
from .plane_groups import BY_NAME
from .sections import Part, Sections, are_numbers
from .tokens import Row, Token, number_of, shown

MOST_ROWS = 16_384   # of nodes and edges: a block has at most 4,096 edges, in a cell with at most four lattice points
FARTHEST = 1000.0    # in edges of the cell, a place from the origin
MOST_DEGREE = 4096
CELL_FORMS = {3: 2, 6: 3}  # numbers of a CELL row, and the dimension that they are for


@dataclass(frozen=True)
class Node:
    """A vertex as the block lists it."""

    name: str
    degree: int | None  # None where the block states none
    place: np.ndarray   # (d,), in fractions of the cell
    line: int


@dataclass(frozen=True)
class Bond:
    """An edge as the block lists it: the places of its ends, in fractions of the cell."""

    ends: tuple[np.ndarray, np.ndarray]
    line: int


@dataclass
class CrystalBlock:
    """What a block lists, with its group and the products of the edges of its cell."""

    name: str
    group: Group
    gram: np.ndarray       # (d, d)
    has_cell: bool
    nodes: list[Node]
    bonds: list[Bond]
    has_edges: bool        # whether they are listed, so that none are to be found by distance
    stated: list[Part] = field(default_factory=list)  # what is to be true of the net
    notes: list[str | Note] = field(default_factory=list)

    @property
    def dimension(self) -> int:
        return self.group.dimension


class Fields:
    """The rows of a block by their keywords."""

    def __init__(self, sections: Sections) -> None:
        self.rows: dict[str, list[Row]] = {}
        self.keywords = sections.keywords
        self.passed = sections.passed
        count = 0
        for row in sections.rows:
            count += row.keyword in ("NODE", "EDGE", "FACE")
            if count > MOST_ROWS:
                raise row.refused(f"more than {MOST_ROWS} nodes and edges")
            self.rows.setdefault(row.keyword, []).append(row)

    def of(self, keyword: str) -> list[Row]:
        return self.rows.get(keyword, [])

    def dropped(self, used: Container[str], compared: Container[str]) -> list[Note]:
        """What no net is made of or compared with: the parts that are passed over, and the rows of keywords that are not
        used. The parts are given that the net is compared with."""
        notes = [(part.line, part.note) for part in self.passed if part.checks not in compared]
        for keyword, rows in self.rows.items():
            if keyword not in used:
                strange = next((row for row in rows if not are_numbers(row.tokens)), None)
                if strange and keyword == "FACE":
                    raise strange.refused(f"{shown(strange.text)} stands under {keyword}, and is no row of it")
                text = f"line {rows[0].line}: {keyword} is not used here, with {len(rows)} row{'s' * (len(rows) > 1)}"
                notes.append((rows[0].line, Note(DROPPED, text)))
        return [note for _, note in sorted(notes)]

    def single(self, keyword: str) -> Row | None:
        """The only row of a keyword; refused where there is a second."""
        rows = self.of(keyword)
        if len(rows) > 1:
            raise rows[1].refused(f"a second {keyword}")
        return rows[0] if rows else None

    @property
    def name(self) -> str:
        row = self.single("NAME")
        return row.text if row else ""

    def group(self, dimension: int) -> Group:
        """The group that the block names, or whose operations it writes out; P 1 where it does neither."""
        rows = self.of("GROUP") + self.of("OPERATION")
        written = [row for row in rows if row.keyword == "OPERATION" or "," in row.text.partition("(")[0]]
        named = [row for row in self.of("GROUP") if row not in written]
        if len(named) > 1 or (named and written):
            raise (named[1] if len(named) > 1 else written[0]).refused("a second GROUP")
        if written:
            return _group_of_rows(written, dimension)
        if not named:
            return group_by_name("p1" if dimension == 2 else "P 1", dimension)
        try:
            return group_by_name(named[0].text, dimension)
        except UnknownGroup as error:
            raise named[0].refused(str(error)) from error


def _group_of_rows(rows: list[Row], dimension: int) -> Group:
    """The group that the operations of some rows generate."""
    try:
        operations = [affine(text) for row in rows for text in operation_texts(row.tokens)]
        if any(operation.dimension != dimension for operation in operations):
            raise ValueError(f"an operation has not {dimension} parts")
        return group_of_operations(operations, dimension)
    except ValueError as error:
        raise rows[0].refused(str(error)) from error


def operation_texts(tokens: tuple[Token, ...]) -> Iterator[str]:
    """The operations of a row: each one token, or all of them with blanks and a semicolon between any two."""
    if len({token.text.count(",") for token in tokens}) == 1:
        yield from (token.text.strip(";,") for token in tokens)
    else:
        yield from (part for part in "".join(token.text for token in tokens).split(";") if part)


def crystal_of(fields: Fields, is_tiling: bool, notes: list[str | Note]) -> CrystalBlock:
    """The crystal of a block; refused by the line where it has no form."""
    dimension = _dimension(fields, is_tiling)
    group = fields.group(dimension)
    cell = fields.single("CELL")
    gram = _gram(cell, dimension) if cell else np.eye(dimension)
    if cell:
        _check_cell(group, gram, cell)
    nodes = [_node(row, dimension) for row in fields.of("NODE")]
    if is_tiling:
        bonds = [bond for row in fields.of("FACE") for bond in _sides(row, dimension)]
    else:
        if not nodes:
            raise Refused("there are no nodes")
        bonds = [_bond(row, nodes, dimension) for row in fields.of("EDGE")]
    has_edges = is_tiling or "EDGE" in fields.keywords
    stated = [part for part in fields.passed if part.checks]
    return CrystalBlock(fields.name, group, gram, cell is not None, nodes, bonds, has_edges, stated, notes)


def _dimension(fields: Fields, is_tiling: bool) -> int:
    """2 or 3, by the numbers of the cell, or else of the first node or face."""
    cell, nodes = fields.single("CELL"), fields.of("NODE")
    if cell:
        if len(cell) not in CELL_FORMS:
            raise cell.refused("CELL has 3 numbers in the plane, and 6 in space")
        return CELL_FORMS[len(cell)]
    if nodes:
        if len(nodes[0]) not in (4, 5):
            raise nodes[0].refused("a node has a name, a degree, and 2 or 3 coordinates")
        return len(nodes[0]) - 2
    if is_tiling and fields.of("FACE"):
        return _dimension_of_faces(fields)
    raise Refused("there are no nodes")


def _dimension_of_faces(fields: Fields) -> int:
    """2 or 3, by the count of corners that stands before them, or else by the name of a plane group, which begins with a
    small letter where a space group has the same."""
    row = fields.of("FACE")[0]
    count = number_of(row.tokens[0].text)
    if count is not None and count.denominator == 1 and count >= 3 and len(row) - 1 in (2 * count, 3 * count):
        return 2 if len(row) - 1 == 2 * count else 3
    name = fields.of("GROUP")[0].text if fields.of("GROUP") else ""
    is_of_plane = "".join(name.split()).lower() in BY_NAME and (name[:1].islower() or find_space_group(name) is None)
    return 2 if is_of_plane and len(row) % 2 == 0 else 3


def _gram(row: Row, dimension: int) -> np.ndarray:
    """The products of the edges of the cell: of a, b, gamma in the plane, of a, b, c, alpha, beta, gamma in space."""
    numbers = row.numbers(row.tokens)
    lengths, angles = np.array(numbers[:dimension]), np.radians(numbers[dimension:])
    cosines = np.eye(dimension)
    for angle, (i, j) in zip(angles, ((0, 1),) if dimension == 2 else ((1, 2), (0, 2), (0, 1))):
        cosines[i, j] = cosines[j, i] = np.cos(angle)
    is_cell = np.all((lengths > 1e-3) & (lengths < 1e6)) and np.all((angles > 0) & (angles < np.pi))
    if not is_cell or np.linalg.det(cosines) < 1e-6:
        raise row.refused("these numbers are no cell")
    return cosines * np.outer(lengths, lengths)


def _check_cell(group: Group, gram: np.ndarray, row: Row) -> None:
    """Refuses a cell that has not the symmetry of the group, with a setting that it has."""
    if group.strain(gram) <= MOST_STRAIN:
        return
    setting = find_space_group(group.name) if group.dimension == 3 else None
    others = [other.xhm() for other in (settings_of(setting.number) if setting else [])
              if group_by_name(other.xhm(), 3).strain(gram) <= MOST_STRAIN]
    raise row.refused(f"the cell does not fit {group.name}" + (f"; it fits {others[0]}" if others else ""))


def _node(row: Row, dimension: int) -> Node:
    if len(row) != dimension + 2:
        raise row.refused(f"a node has a name, a degree and {dimension} coordinates")
    degree = row.number(row.tokens[1])
    if degree.denominator != 1 or not 0 <= degree <= MOST_DEGREE:
        raise row.refused(f"{shown(row.tokens[1].text)} is no degree")
    return Node(row.tokens[0].text, int(degree), _place(row, row.tokens[2:]), row.line)


def _place(row: Row, tokens: tuple[Token, ...]) -> np.ndarray:
    place = np.array(row.numbers(tokens))
    if np.any(np.abs(place) > FARTHEST):
        raise row.refused(f"a coordinate is beyond {FARTHEST:g}")
    return place


def _bond(row: Row, nodes: list[Node], dimension: int) -> Bond:
    """Two places, a node and a place, or two nodes, by how many words the row has."""
    tokens = row.tokens
    if len(tokens) == 2 * dimension:
        ends = (_place(row, tokens[:dimension]), _place(row, tokens[dimension:]))
    elif len(tokens) == dimension + 1:
        named = _node_named(row, tokens[0], nodes)
        if named is not None or are_numbers(tokens[1:]) and not are_numbers(tokens[:1]):
            ends = (_known_node(row, tokens[0], nodes).place, _place(row, tokens[1:]))
        else:
            ends = (_place(row, tokens[:-1]), _known_node(row, tokens[-1], nodes).place)
    elif len(tokens) == 2:
        first, second = (_known_node(row, token, nodes) for token in tokens)
        ends = (first.place, second.place)
    else:
        raise row.refused(f"an edge has 2 nodes, a node and {dimension} coordinates, or {2 * dimension} coordinates")
    return Bond(ends, row.line)


def _node_named(row: Row, token: Token, nodes: list[Node]) -> Node | None:
    named = [node for node in nodes if node.name == token.text]
    if len(named) > 1:
        raise row.refused(f"there are {len(named)} nodes {shown(token.text)}")
    return named[0] if named else None


def _known_node(row: Row, token: Token, nodes: list[Node]) -> Node:
    node = _node_named(row, token, nodes)
    if node is None:
        raise row.refused(f"there is no node {shown(token.text)}")
    return node


def _sides(row: Row, dimension: int) -> Iterator[Bond]:
    """The sides of a face, whose corners stand in their order, after their number where that is given."""
    tokens = row.tokens
    count = number_of(tokens[0].text)
    if count is not None and len(tokens) == count * dimension + 1:
        tokens = tokens[1:]
    if len(tokens) % dimension or len(tokens) < 3 * dimension:
        raise row.refused(f"a face has the number of its corners, three or more, and {dimension} coordinates of each")
    corners = [_place(row, tokens[k:k + dimension]) for k in range(0, len(tokens), dimension)]
    for corner, following in zip(corners, corners[1:] + corners[:1]):
        yield Bond((corner, following), row.line)
