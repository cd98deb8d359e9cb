"""Items of key lines, as Systre's archives (.arc) have them: each is a graph."""

from __future__ import annotations

from ..graph import Edge, edge
from ..net import Net
from ..provenance import DROPPED, Note
from ..refusal import Refused
from ..texts.net_text import BESIDE_ITEMS, GREATEST_SHIFT, KEY_IS_ONE_LINE, MOST_EDGES, MOST_VERTICES

from .made_net import net_made
from .periodic_graph import WHOLE
from .sections import OPENERS
from .tokens import Token, number_of, shown, tokens_of

LONGEST_NUMBER = 20
BESIDE = tuple(word.decode() for word in BESIDE_ITEMS)


def net_of_item(lines: list[tuple[int, str]], notes: list[str | Note]) -> Net:
    """The net of an item, up to its `end` line; refused by the line as `union` refuses it, and where a key goes on in
    another line, of which `union` takes the first. A line of another word is reported."""
    key: tuple[int, tuple[Token, ...]] | None = None
    name: tuple[int, str] | None = None
    for number, text in lines:
        tokens = tokens_of(text, number)
        word = "" if not tokens or tokens[0].is_quoted else tokens[0].text.upper()
        if word == "KEY":
            if key:
                raise Refused("a second key line", number)
            key = (number, tokens[1:])
        elif word == "ID":
            if name:
                raise Refused("a second id line", number)
            name = (number, " ".join(token.text for token in tokens[1:]))
            if not name[1]:
                raise Refused("an id line without a name", number)
        elif word in OPENERS:
            raise Refused(f"{tokens[0].text} begins before the end of this item", number)
        elif tokens and word not in BESIDE:
            if number_of(tokens[0].text) is not None:
                raise Refused(KEY_IS_ONE_LINE, number)
            notes.append(Note(DROPPED, f"line {number}: {shown(tokens[0].text)[1:-1]} is passed over"))
    if key is None or name is None:
        raise Refused(f"the item has no {'id' if key else 'key'} line")
    dimension, edges = _edges(*key)
    vertices = 1 + max(v for _, v, _ in edges)
    return net_made(name[1], dimension, [str(k + 1) for k in range(vertices)], edges, "its graph")


def _edges(line: int, tokens: tuple[Token, ...]) -> tuple[int, set[Edge]]:
    """The dimension and the edges of a key line."""
    if not all(WHOLE.fullmatch(token.text) and len(token.text) < LONGEST_NUMBER for token in tokens):
        raise Refused("a key line has whole numbers", line)
    numbers = [int(token.text) for token in tokens]
    dimension = numbers[0] if numbers else 0
    width = dimension + 2
    if dimension not in (2, 3) or len(numbers) < 1 + width or (len(numbers) - 1) % width:
        raise Refused("a key line has its dimension, and two vertices and a shift for each edge", line)
    edges: set[Edge] = set()
    for k in range(1, len(numbers), width):
        u, v, *shift = numbers[k:k + width]
        if not (1 <= u <= MOST_VERTICES and 1 <= v <= MOST_VERTICES):
            raise Refused(f"a vertex is not from 1 to {MOST_VERTICES}", line)
        if any(abs(part) > GREATEST_SHIFT for part in shift):
            raise Refused(f"a part of a shift is beyond {GREATEST_SHIFT}", line)
        if u == v and not any(shift):
            raise Refused("both ends of an edge are one vertex", line)
        edges.add(edge(u - 1, v - 1, tuple(shift)))
    if len(edges) > MOST_EDGES:
        raise Refused(f"more than {MOST_EDGES} edges", line)
    return dimension, edges
