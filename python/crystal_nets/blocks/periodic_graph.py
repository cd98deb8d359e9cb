"""PERIODIC_GRAPH blocks as other programs write them: vertices that are words without quotes, names of several words,
and parts that the program does not read."""

from __future__ import annotations

import re
from collections.abc import Iterable
from dataclasses import dataclass, field
from itertools import count

from ..errors import NotANet
from ..provenance import DOUBT, Note
from ..refusal import Refused
from ..texts.graph_text import LONGEST_NAME as LONGEST_LABEL
from ..texts.graph_text import LONGEST_STEM, UNWRITABLE, cut, graph_of_text, plain, written_name

from .sections import Part, is_sequence
from .stated import check_stated
from .tokens import OF_GRAPH, PASSED_OVER, TOKEN, Token, decoded, tokens_of

WHOLE = re.compile(r"[+-]?[0-9]+")
LONGEST_NAME = 200  # bytes
QUOTED = "vertices without quotes are written with them"
WITHOUT_EDGES = "rows stand before a section, and are taken as edges, as Systre takes them"
NO_TOKEN = Token("", True)


def rewritten(lines: list[bytes], notes: list[str | Note], opening_line: int = 1) -> list[bytes]:
    """The lines of a block, with those changed that the program would not read; the others byte for byte."""
    return _Rewriting(lines, opening_line, notes).result


@dataclass
class _Rewriting:
    """The lines of a block, rewritten one after the other."""

    lines: list[bytes]
    opening_line: int
    notes: list[str | Note]
    result: list[bytes] = field(default_factory=list)
    section: str = ""          # EDGE, another keyword, or nothing yet
    part: Part | None = None   # that is passed over

    def __post_init__(self) -> None:
        read = [_tokens(line) for line in self.lines]
        rows = [tokens[1:] if tokens and tokens[0].keyword == "EDGE" else tokens for tokens in read[1:]]
        plain = [tokens for tokens in rows if _has_form(tokens) and not tokens[0].keyword]
        self.dimension = len(plain[0]) - 2 if plain else 0
        self.vertices = {token.text for tokens in plain for token in tokens[:2]}
        self.notes += _spellings(token.text for tokens in rows if _has_form(tokens) for token in tokens[:2])
        self.labels = _labels([token for tokens in rows if _has_form(tokens) for token in tokens[:2]])
        self.has_name = False
        parts: list[Part] = []
        self.result.append(self.lines[0])
        for number, (line, tokens) in enumerate(zip(self.lines[1:], read[1:]), start=self.opening_line + 1):
            before = self.part
            self.result.append(self._rewritten(line, tokens, number))
            if self.part is not None and self.part is not before:
                parts.append(self.part)
        self.notes += self._compared(parts)

    def _compared(self, parts: list[Part]) -> list[Note]:
        """Notes on the parts that are passed over, and on those that the net is compared with; refused by a row that it
        contradicts."""
        stated = [row for part in parts if part.checks in OF_GRAPH for row in part.content]
        try:
            graph = graph_of_text(b"".join(self.result)) if stated else None
        except NotANet:  # the program says why
            graph = None
        if graph is None or not graph.edges:
            return [part.note for part in parts]
        return [part.note for part in parts if part.checks not in OF_GRAPH] + check_stated(stated, graph)

    def _rewritten(self, line: bytes, tokens: tuple[Token, ...], number: int) -> bytes:
        first = tokens[0] if tokens else NO_TOKEN
        keyword = "" if self._is_row(tokens) else first.keyword
        if keyword == "NAME":
            self.has_name = True
            return _name_line(first, tokens[1:], line)
        if keyword == "EDGE":
            self.section, self.part = "EDGE", None
            return self._row_line(first.text + " ", tokens[1:], line)
        if keyword in PASSED_OVER or keyword in ("NODE", "FACE", "GROUP", "CELL", "OPERATION"):
            self.section, self.part = keyword, Part(number, first.text, True)
            self.part.add(number, tokens[1:])
            return b"# " + line
        if not tokens or first.text.upper() == "END" and not first.is_quoted:
            return line
        if not self.section and _has_form(tokens):
            self.section = "EDGE"
            self.notes.append(WITHOUT_EDGES)
            return self._row_line("EDGES ", tokens, line, is_new=True)
        if self.section == "EDGE":
            return self._row_line("", tokens, line)
        if self.part is not None and not first.is_word:
            self.part.add(number, tokens)
            return b"# " + line
        return line

    def _is_row(self, tokens: tuple[Token, ...]) -> bool:
        """Whether a line is an edge though its first word is a keyword elsewhere, as a vertex may be called."""
        if self.section not in ("", "EDGE") or not _has_form(tokens) or len(tokens) - 2 != (self.dimension or len(tokens) - 2):
            return False
        keyword = tokens[0].keyword
        if keyword == "NAME" and self.section == "EDGE":
            return self.has_name or any(token.text in self.vertices for token in tokens[:2])
        if keyword in ("NAME", "EDGE", "GROUP") or "_" in keyword:
            return False
        if tokens[0].text in self.vertices or not WHOLE.fullmatch(tokens[1].text):
            return True
        return not is_sequence(tokens[1:]) if keyword in PASSED_OVER else keyword in ("NODE", "FACE")

    def _row_line(self, start: str, tokens: tuple[Token, ...], line: bytes, is_new: bool = False) -> bytes:
        """A row with its vertices in quotes, where they are words; what is no row stays as it is."""
        is_whole = [not token.is_quoted and WHOLE.fullmatch(token.text) is not None for token in tokens]
        if not _has_form(tokens) or all(whole or token.is_quoted for token, whole in zip(tokens[:2], is_whole)):
            return start.encode() * is_new + line
        if QUOTED not in self.notes:
            self.notes.append(QUOTED)
        vertices = [token.text if whole else f'"{self.labels[token.text]}"' for token, whole in zip(tokens[:2], is_whole)]
        comments = (found[0] for found in TOKEN.finditer(decoded(line)) if found[0].startswith("#"))
        row = " ".join([*vertices, *(token.text for token in tokens[2:]), next(comments, "").strip()]).rstrip()
        return f"{start}{row}\n".encode(errors="surrogateescape")


def _spellings(vertices: Iterable[str]) -> list[Note]:
    """A hint that one number is written in two ways, as 1 and 01: these are two vertices."""
    spelled: dict[int, set[str]] = {}
    for text in vertices:
        if WHOLE.fullmatch(text) and len(text) <= 9:
            spelled.setdefault(int(text), set()).add(text)
    return [Note(DOUBT, f"{' and '.join(sorted(texts))} are different vertices, as they are spelled")
            for texts in spelled.values() if len(texts) > 1]


def _labels(vertices: list[Token]) -> dict[str, str]:
    """What is written of the vertices of a block, no two alike: each as it stands, where the program reads it so."""
    quoted = {token.text for token in vertices if token.is_quoted}
    taken = {token.text for token in vertices}
    labels: dict[str, str] = {}
    for text in dict.fromkeys(token.text for token in vertices):
        label = text
        if text not in quoted and not _is_written_so(text):
            stem = cut(plain(text), LONGEST_STEM)
            label = next(label for k in count(1) if (label := f"{stem}_{k}" if k > 1 else stem) not in taken)
            taken.add(label)
        labels[text] = label
    return labels


def _is_written_so(text: str) -> bool:
    return len(text.encode(errors="surrogateescape")) <= LONGEST_LABEL and not UNWRITABLE.search(text)


def _tokens(line: bytes) -> tuple[Token, ...]:
    try:
        return tokens_of(decoded(line))
    except Refused:  # a quote without its partner: the program says so
        return ()


def _has_form(tokens: tuple[Token, ...]) -> bool:
    """Whether a line has the form of an edge: two vertices, and a shift of two or three whole numbers."""
    return len(tokens) in (4, 5) and all(not token.is_quoted and WHOLE.fullmatch(token.text) for token in tokens[2:])


def _name_line(keyword: Token, tokens: tuple[Token, ...], line: bytes) -> bytes:
    """The line of a name, in quotes where it is more than a word; a comment where there is none."""
    name = " ".join(token.text for token in tokens)
    if len(tokens) == 1 and len(name.encode(errors="surrogateescape")) <= LONGEST_NAME:
        return line
    return f'{keyword.text} "{written_name(name)}"\n'.encode() if name else b"# " + line
