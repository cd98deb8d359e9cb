"""Tokens of a line, keywords with their synonyms, and numbers, as Systre reads them."""

from __future__ import annotations

import re
from dataclasses import dataclass
from fractions import Fraction

from ..refusal import Refused

TOKEN = re.compile(r'"([^"\n]*)"|#.*|([^\s"#]+)|(")', re.ASCII)
NUMBER = re.compile(r"([+-]?(?:\d+\.?\d*|\.\d+)(?:[eE][+-]?\d{1,2})?)(?:/(\d+\.?\d*))?(?:\(\d+\))?")
LONGEST_NUMBER = 60
SYNONYMS = {"VERTEX": "NODE", "VERTICES": "NODE", "VERTEXES": "NODE", "NODES": "NODE", "ATOM": "NODE", "ATOMS": "NODE",
            "EDGES": "EDGE", "BOND": "EDGE", "BONDS": "EDGE", "FACES": "FACE", "RING": "FACE", "RINGS": "FACE",
            "ID": "NAME", "SPACEGROUP": "GROUP", "SPACE_GROUP": "GROUP", "PLANEGROUP": "GROUP", "PLANE_GROUP": "GROUP",
            "OPERATION": "OPERATION", "OPERATIONS": "OPERATION", "OPERATOR": "OPERATION", "OPERATORS": "OPERATION",
            "SYMOP": "OPERATION", "SYMOPS": "OPERATION", "SYMMETRY": "OPERATION", "GENERATORS": "OPERATION",
            "UNITCELL": "CELL", "UNIT_CELL": "CELL"}
KEYWORDS = {"NAME", "GROUP", "CELL", "NODE", "EDGE", "FACE", "OPERATION"}
PASSED_OVER = {"EDGE_CENTER", "EDGE_CENTERS", "EDGE_CENTRE", "EDGE_CENTRES", "EDGECENTER", "EDGECENTERS",
               "COORDINATION_SEQUENCE", "COORDINATION_SEQUENCES", "COORDINATIONSEQUENCE", "COORDINATIONSEQUENCES",
               "CS", "TD10", "TILE", "TILES", "BODY", "BODIES", "POINT_SYMBOL", "POINT_SYMBOLS", "VERTEX_SYMBOL",
               "VERTEX_SYMBOLS", "SCHLAEFLI_SYMBOL", "TRANSITIVITY", "DENSITY", "KEYWORDS", "REFERENCE", "REFERENCES",
               "COMMENT", "COMMENTS"}


CENTRES, SEQUENCES, TD10, DENSITY = "EDGE_CENTER", "COORDINATION_SEQUENCE", "TD10", "DENSITY"
# the parts that a net is compared with, and with what of it
CHECKED = {**{word: CENTRES for word in PASSED_OVER if word.startswith("EDGE")},
           **{word: SEQUENCES for word in PASSED_OVER if word.startswith("COORDINATION")}, "CS": SEQUENCES,
           TD10: TD10, DENSITY: DENSITY}
OF_GRAPH = frozenset((SEQUENCES, TD10))             # of them those that need no places
OF_PLACES = OF_GRAPH | {CENTRES, DENSITY}


@dataclass(frozen=True)
class Token:
    """A word, a number, or what stood in quotes."""

    text: str
    is_quoted: bool = False

    @property
    def keyword(self) -> str:
        """The keyword that the token is, in its first spelling; or an empty text."""
        word = "" if self.is_quoted else self.text.upper()
        word = SYNONYMS.get(word, word)
        return word if word in KEYWORDS or word in PASSED_OVER else ""

    @property
    def is_word(self) -> bool:
        """Whether it looks as a keyword does: letters and underscores, three or more."""
        return not self.is_quoted and re.fullmatch(r"[A-Za-z_]{3,}", self.text) is not None


@dataclass(frozen=True)
class Row:
    """The tokens of one line, without the keyword that it belongs to."""

    line: int
    keyword: str
    tokens: tuple[Token, ...]

    def __len__(self) -> int:
        return len(self.tokens)

    @property
    def text(self) -> str:
        return " ".join(token.text for token in self.tokens)

    def refused(self, reason: str) -> Refused:
        return Refused(reason, self.line)

    def numbers(self, tokens: tuple[Token, ...]) -> list[float]:
        """The values of the tokens; refused by this line where one is no number."""
        return [float(self.number(token)) for token in tokens]

    def number(self, token: Token) -> Fraction:
        value = number_of(token.text)
        if value is None:
            raise self.refused(f"{shown(token.text)} is no number")
        return value


def decoded(line: bytes) -> str:
    return line.decode("utf-8", errors="surrogateescape")


def tokens_of(text: str, line: int = 0) -> tuple[Token, ...]:
    """The tokens of a line, without its comment; refused where a quote has no partner."""
    found = []
    for match in TOKEN.finditer(text):
        quoted, word, quote = match.groups()
        if quote:
            raise Refused("a quote without its partner", line)
        if quoted is not None:
            found.append(Token(quoted, True))
        elif word:
            found.append(Token(word))
    return tuple(found)


def number_of(text: str) -> Fraction | None:
    """The value of a decimal, a fraction, or a number with an exponent or a standard uncertainty."""
    match = NUMBER.fullmatch(text) if len(text) <= LONGEST_NUMBER and text.isascii() else None
    if match is None:
        return None
    below = Fraction(match[2] or 1)
    return Fraction(match[1]) / below if below else None


def shown(text: str, most: int = 40) -> str:
    """A piece of the text as a message may have it."""
    plain = text.encode("utf-8", errors="replace").decode("utf-8", errors="replace")
    plain = "".join(c if c.isprintable() else "?" for c in plain)
    return f"{plain[:most]!r}" + (" .." if len(plain) > most else "")
