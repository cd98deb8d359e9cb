"""The sections of a block: which of its lines are rows, and of which keyword, and what is passed over.

A vertex may be called Cs, Ring, Body or Tile, as a keyword is. So within the nodes and the edges a line that has the
form of a row, with the words of known nodes, is a row before it is anything else."""

from __future__ import annotations

import re
from collections.abc import Iterable
from dataclasses import dataclass, field

from ..provenance import DROPPED, Note
from ..refusal import Refused

from .tokens import CHECKED, PASSED_OVER, Row, Token, number_of, shown, tokens_of

OPENERS = ("CRYSTAL", "NET", "TILING", "PERIODIC_GRAPH")
OF_ONE_ROW = ("NAME", "CELL")
Line = tuple[int, tuple[Token, ...]]


@dataclass
class Part:
    """A part of a block that no net is made of."""

    line: int
    word: str
    is_known: bool
    rows: int = 0
    content: list[Row] = field(default_factory=list)  # of a part that the net is compared with

    @property
    def checks(self) -> str:
        """What of the net it is compared with; empty, if with nothing."""
        return CHECKED.get(self.word.upper(), "")

    def add(self, line: int, tokens: tuple[Token, ...]) -> None:
        """Takes a row; an empty one, as behind a keyword alone, is none."""
        if not tokens:
            return
        self.rows += 1
        if self.checks:
            self.content.append(Row(line, self.checks, tokens))

    @property
    def note(self) -> Note:
        what = "is" if self.is_known else "is no keyword, and is"
        rows = f", with {self.rows} row{'s' * (self.rows != 1)}" if self.rows else ""
        return Note(DROPPED, f"line {self.line}: {shown(self.word)[1:-1]} {what} passed over{rows}")


@dataclass
class Sections:
    """The rows of a block under their keywords.

    rows        in their order
    keywords    those that stand in the block, also without a row
    passed      the parts that no net is made of"""

    nodes: set[str]
    dimension: int = 0  # 0 where it is not known before the rows
    rows: list[Row] = field(default_factory=list)
    keywords: set[str] = field(default_factory=set)
    passed: list[Part] = field(default_factory=list)
    current: str = ""
    part: Part | None = None

    def take(self, line: int, tokens: tuple[Token, ...]) -> None:
        """Takes the tokens of a line."""
        first = tokens[0]
        is_opener = first.is_word and first.text.upper() in OPENERS and (self.part is None or len(tokens) == 1)
        if not self._is_row(tokens) and (first.keyword or is_opener or (first.is_word and self.part is None)):
            self._open(first.keyword, first.text, line, is_node_row(tokens, self.dimension))
            tokens = tokens[1:]
        if tokens:
            self._add(line, tokens)

    def _open(self, keyword: str, word: str, line: int, is_row: bool) -> None:
        """Begins the part of a keyword; one that is none opens a part that is passed over. It is given whether the line
        has the form of a node."""
        if word.upper() in OPENERS:
            raise Refused(f"{word} begins before the END of this block", line)
        if keyword == "NAME" and self.current == "NODE" and is_row:
            raise Refused(f"the line may be a name or a node {word}: a node of this name is to stand in quotes", line)
        self.current, self.part = keyword, None
        self.keywords.add(keyword)
        if not keyword or keyword in PASSED_OVER:
            self.part = Part(line, word, bool(keyword))
            self.passed.append(self.part)

    def _add(self, line: int, tokens: tuple[Token, ...]) -> None:
        if self.part:
            self.part.add(line, tokens)
            return
        if not self.current:
            raise Refused(f"{shown(tokens[0].text)} stands under no keyword", line)
        if self.current == "NODE":
            self.nodes.add(tokens[0].text)
        row = Row(line, self.current, tokens)
        self.rows.append(row)
        if self.current in OF_ONE_ROW or (self.current == "GROUP" and "," not in row.text.partition("(")[0]):
            self.current = ""

    def _is_row(self, tokens: tuple[Token, ...]) -> bool:
        """Whether the line is a row of the section that is open, whatever its first word means elsewhere."""
        first = tokens[0]
        if self.current == "NODE":
            if not first.keyword:  # a number that is none is told by its line, and not taken for a part
                return len(tokens) > 2 and ("," in tokens[1].text or are_numbers(tokens[1:2]))
            if first.keyword == "NAME" and "NAME" in self.keywords:
                return is_node_row(tokens, self.dimension)
            return is_node_row(tokens, self.dimension) and not is_own_row(tokens, self.dimension)
        if self.current == "EDGE":
            words = edge_words(tokens)
            return words is not None and (not first.keyword or all(word in self.nodes for word in words))
        return False


def sections_of(lines: list[tuple[int, str]]) -> Sections:
    """The sections of a block, of whose lines the first is not given. The nodes are found first, since they may stand
    after the edges."""
    read = [(number, tokens) for number, text in lines if (tokens := tokens_of(text, number))]
    dimension = _dimension_of(read)
    return _read(read, dimension, _read(read, dimension, set()).nodes)


def _read(lines: Iterable[Line], dimension: int, nodes: set[str]) -> Sections:
    sections = Sections(nodes, dimension)
    for number, tokens in lines:
        sections.take(number, tokens)
    return sections


def _dimension_of(lines: list[Line]) -> int:
    """2 or 3, by a row of the cell, or else by the first row that can only be a node; 0 where there is none."""
    for _, tokens in lines:
        if tokens[0].keyword == "CELL" and len(tokens) in (4, 7):
            return 2 if len(tokens) == 4 else 3
    for _, tokens in lines:
        row = tokens[1:] if tokens[0].keyword == "NODE" else tokens
        if row and not row[0].keyword and is_node_row(row, 0) and len(row) in (4, 5):
            return len(row) - 2
    return 0


def are_numbers(tokens: Iterable[Token]) -> bool:
    return all(not token.is_quoted and number_of(token.text) is not None for token in tokens)


def is_node_row(tokens: tuple[Token, ...], dimension: int) -> bool:
    """Whether a line has the form of a node: a name, a degree and coordinates; or a name and a site as `x,0,0`."""
    rest = tokens[1:]
    if any("," in token.text for token in rest):
        return all("," in token.text or are_numbers([token]) for token in rest)
    if len(tokens) - 2 not in ((dimension,) if dimension else (2, 3)) or not are_numbers(rest):
        return False
    degree = number_of(rest[0].text)
    return degree is not None and degree.denominator == 1 and degree >= 0


def edge_words(tokens: tuple[Token, ...]) -> list[str] | None:
    """The words of a line that has the form of an edge: two nodes, a node and a place, or two nodes and an operation.
    None where it has not that form."""
    if len(tokens) == 2 and not are_numbers(tokens[1:]):
        return [token.text for token in tokens]
    if len(tokens) > 2 and any("," in token.text for token in tokens[2:]):
        return [token.text for token in tokens[:2]]
    if len(tokens) in (3, 4) and are_numbers(tokens[1:]):
        return [tokens[0].text]
    if len(tokens) in (3, 4) and are_numbers(tokens[:-1]):
        return [tokens[-1].text]
    return [token.text for token in tokens[:2]] if len(tokens) in (4, 5) and are_numbers(tokens[2:]) else None


def is_own_row(tokens: tuple[Token, ...], dimension: int) -> bool:
    """Whether a line that has the form of a node, and begins with a keyword, is a row of that keyword."""
    keyword, rest = tokens[0].keyword, tokens[1:]
    if keyword == "NODE":
        return is_node_row(rest, dimension)
    if keyword == "FACE":
        return len(rest) >= 6 or tokens[0].text.upper() in ("FACE", "FACES")
    if keyword == "CELL":
        return len(rest) in (3, 6)
    if keyword == "OPERATION":
        return any("," in token.text for token in rest)
    if keyword in PASSED_OVER:
        return "_" in keyword or is_sequence(rest)
    return True


def is_sequence(tokens: tuple[Token, ...]) -> bool:
    """Whether the numbers may be a coordination sequence: whole, positive and rising."""
    numbers = [int(token.text) if re.fullmatch(r"[0-9]{1,9}", token.text) else 0 for token in tokens]
    return all(before < after for before, after in zip([0, *numbers], numbers))
