"""What the program answers to one net."""

from __future__ import annotations

import json
import re
from collections.abc import Iterator, Sequence
from dataclasses import dataclass, field
from enum import StrEnum
from fractions import Fraction
from functools import cached_property
from math import nan
from typing import TYPE_CHECKING, Any, overload

from .errors import PackageMissing, in_one_line
from .graph import LabelledEdge, Vertex
from .net import Net
from .outcome import Outcome
from .program import reading_report
from .provenance import BuildingUnit, Interpenetration, StructurePiece, told_copies, told_doubts
from .symbols import rcsr_address, symbols_of
from .texts.graph_text import vertex_of
from .texts.net_text import NetReport, nets_of_report

if TYPE_CHECKING:
    from .embedding.embedding import Embedding
    import networkx
    import pandas

    from .symmetries import NetSymmetry
    from .topology import Topology
    from .wide.sites import Fibres

SHELLS = re.compile(rb"(?m)^shells \d+ ?(.*)$")
CLASSES = re.compile(rb"(?m)^primitive vertices=(\d+) ")
DENOMINATOR = re.compile(rb"(?m)^placement D0=(\d+)$")
Sequences = tuple[tuple[int, ...], ...]


@dataclass(frozen=True)
class Placement:
    """Where the vertices stand: each at the mean of its neighbours, the first in the origin. This barycentric
    placement is unique up to translation (O. Delgado-Friedrichs and M. O'Keeffe, Acta Cryst. A59 (2003) 351).

    denominator  D0, the least common denominator of all positions
    positions    of each vertex its position in units of 1/D0, 2 or 3 whole numbers

    >>> Placement(4, {1: (0, 0, 0), 2: (-1, -1, -1)})[2]
    (Fraction(-1, 4), Fraction(-1, 4), Fraction(-1, 4))"""

    denominator: int
    positions: dict[Vertex, tuple[int, ...]] = field(hash=False)

    def __repr__(self) -> str:
        return f"<Placement: {len(self.positions)} vertices, D0={self.denominator}>"

    def __getitem__(self, vertex: Vertex) -> tuple[Fraction, ...]:
        """The position of a vertex in fractions of the cell."""
        return tuple(Fraction(part, self.denominator) for part in self.positions[vertex])

    @property
    def fractions(self) -> dict[Vertex, tuple[Fraction, ...]]:
        """The positions of all vertices in fractions of the cell."""
        return {vertex: self[vertex] for vertex in self.positions}


@dataclass(frozen=True)
class PrimitiveGraph:
    """The net over the lattice of all its translations. Its vertices are classes, 1 to `vertices`: two vertices share
    one where a translation of the net moves one onto the other.

    basis  2 or 3 rows, a basis of that lattice in units of 1/D0 of the cell that was given
    edges  (class, class, shift), the shift in steps of that basis"""

    vertices: int
    basis: tuple[tuple[int, ...], ...]
    edges: tuple[LabelledEdge, ...]

    def __repr__(self) -> str:
        return f"<PrimitiveGraph: {self.vertices} classes, {len(self.edges)} edges, dimension {len(self.basis)}>"

    @property
    def net(self) -> Net:
        return Net(self.edges)

    def to_networkx(self) -> networkx.MultiDiGraph[Any]:
        """A `networkx.MultiDiGraph` with the attribute `shift` of each edge."""
        return self.net.to_networkx()


class By(StrEnum):
    """By what the names of a net are certain: a text, so that `answer.by == "verified map"`.

    KEY            the names are those of exactly the entries with the net's key
    SMALLER_CELL   the net has no key in the cell that it was given in, and one on the lattice of all its translations.
                   `verify` has taken the map to it, so this key is that of the net, and its names are complete
    VERIFIED_MAP   `verify` has taken a map from the net to the block of each name. There may be further names: that a net
                   of an archive is another one is not proved
    UNPROVED_CELL  the cell has more than 512 vertices or 4,096 edges, which the program does not read. Its smaller cell
                   was found in Python, and that it is the same net nothing proves
    NONE           nothing was found, and that proves nothing"""

    KEY = "key"
    SMALLER_CELL = "key of a smaller cell"
    VERIFIED_MAP = "verified map"
    UNPROVED_CELL = "unproved cell"
    NONE = ""


@dataclass(frozen=True)
class Naming:
    """What was found of a net that the program refuses a key.

    names        in the archives
    by           by what they are certain, also where there are none: SMALLER_CELL stands with a key that no archive has
    certificate  a text that `net_tool verify` takes; empty where there is none
    index        32 digits that are equal for isomorphic nets in whatever cells; not proved
    small        the answer to the net in its smaller cell, where that has a key
    note         why nothing was found"""

    names: tuple[str, ...] = ()
    by: By = By.NONE
    certificate: str = field(default="", repr=False)
    index: str = ""
    small: Answer | None = None
    note: str = ""


NOTHING_FOUND = Naming()


@dataclass(frozen=True)
class Answer:
    """What the program says of one net.

    Proved: the outcome and its values are true of the block that the program read; the placement and the primitive
    graph are those of the net; two keys are equal if and only if the nets are isomorphic; the sequences are those of
    the classes. Not proved: how the block was made of a structure or another file, and this reading of the report.
    The names are those of exactly the entries that have this key, whose keys the program computed anew from their
    edges; that a name fits its edges is for the archive's author to know. Where there is no key, `by` says by what the
    names are certain.

    net        the net that was asked about
    outcome    `accepted`, or why there is no key
    key        a text of whole numbers, the canonical form of the net; empty where there is none
    names      in the archive
    dimension  2 or 3; 0 where the block is no graph
    vertices, edges  of the quotient graph; 0 where the block is no graph
    notes      what a reader should know of how the net was read
    text       what the program printed of the net, as of the first one, where `identify` was asked for
    naming     what was found beside that, where the program refuses a key

    Placement, primitive graph and sequences are read from the text when they are asked for."""

    net: Net
    outcome: Outcome
    key: str = ""
    names: tuple[str, ...] = ()
    dimension: int = 0
    vertices: int = 0
    edges: int = 0
    notes: tuple[str, ...] = ()
    text: bytes = field(default=b"", repr=False)
    naming: Naming = NOTHING_FOUND

    @property
    def by(self) -> By:
        """By what the names are certain."""
        return By.KEY if self.accepted else self.naming.by

    @property
    def certificate(self) -> str:
        """A text for `net_tool verify`, by which the names of a net without a key are certain; empty where there is none."""
        return self.naming.certificate

    @property
    def index(self) -> str:
        """32 digits that are equal for isomorphic nets in whatever cells, of a net without a key; not proved. Empty where
        they were not asked for."""
        return self.naming.index

    @property
    def small(self) -> Answer | None:
        """The answer to the net in a smaller cell, where it has a key there and none in its own: placement, sequences and
        picture are those of the same net."""
        return self.naming.small

    @cached_property
    def report(self) -> NetReport | None:
        """The text by its form; None where there is none."""
        if not self.text:
            return None
        with reading_report("identify"):
            report, = nets_of_report(self.text.splitlines(keepends=True))
            return report

    @cached_property
    def placement(self) -> Placement | None:
        """Where the vertices stand; None where that was not asked for, or there is no key."""
        return placement_of(self.report) if self.key and self.report else None

    @cached_property
    def primitive(self) -> PrimitiveGraph | None:
        """The primitive graph; None where it was not asked for, or there is no key."""
        return primitive_of(self.report) if self.key and self.report else None

    @cached_property
    def sequences(self) -> Sequences:
        """For each class its coordination sequence: how many neighbours, new neighbours of these and so on, up to 10
        shells (W. M. Meier and H. J. Moeck, J. Solid State Chem. 27 (1979) 349)."""
        rows = SHELLS.findall(self.text)
        found = {row: tuple(map(int, row.split())) for row in set(rows)}
        return tuple(found[row] for row in rows)

    @property
    def classes(self) -> int:
        """The vertices of the primitive graph; 0 where it was not asked for, or there is no key."""
        found = CLASSES.search(self.text)
        return int(found[1]) if found else 0

    @property
    def denominator(self) -> int:
        """D0, the least common denominator of the positions; 0 where they were not asked for, or there is no key."""
        found = DENOMINATOR.search(self.text) if self.key else None
        return int(found[1]) if found else 0

    @cached_property
    def topology(self) -> Topology | None:
        """What databases list of the net: group, kinds of vertices and edges, point symbols, vertex symbols, density. It is computed
        when it is asked for. Of a net with a key the kinds are proved, and nothing else; None where the net is not connected, or it takes too long."""
        from .topology import topology_of
        return topology_of(self.net.graph) if self.dimension else None

    @cached_property
    def symmetry(self) -> NetSymmetry | None:
        """All symmetries of the net, as the program lists them: operations, orbits of vertices and edges, which are proved, and
        the symbols of groups, which are looked up. None if the net has no key, or its primitive graph is past the limits."""
        from .symmetries import symmetry_on
        return symmetry_on(self)

    @property
    def given_group(self) -> str:
        """Whether the group of a block CRYSTAL is that of its net, as `Fd-3m, that of the net`, or of which index in it. Empty
        if the block gives none, or the program lists no symmetries."""
        from .symmetries import given_group
        return given_group(self)

    @cached_property
    def embedding(self) -> Embedding | None:
        """The standard realization: usual cell and group, positions and edges, each vertex at the mean of its neighbours. It is
        made of the key, so that isomorphic nets have one, and read back as the net; it is not proved. None if the net has no
        key, or no group is found that is that of the net."""
        from .embedding.reading_back import embedding_on
        return embedding_on(self, "barycentric")

    @cached_property
    def relaxed(self) -> Embedding | None:
        """The same, with edges as equal as they can be. Its `certainty` is `equal edges, certified` if it is the only one of
        greatest volume with no edge longer than 1, which its `certificate` shows; or `best found`; or `standard realization`,
        if edges can be made equal in a flat cell alone."""
        from .embedding.reading_back import embedding_on
        return embedding_on(self, "relaxed")

    @property
    def name(self) -> str:
        """What the net is called where it came from."""
        return self.net.name

    @property
    def symbol(self) -> str:
        """The symbol that its names begin with, as `dia` of `dia, diamond`; empty where there is none. Where there are
        several, it is the first in the order of the archives, and `symbols` has all."""
        return next(iter(self.symbols), "")

    @property
    def symbols(self) -> tuple[str, ...]:
        return symbols_of(self.names)

    @property
    def rcsr(self) -> str:
        """The address of RCSR's page on the net; empty where none of its names is known to be a symbol of RCSR for it: a name of
        another archive may only look like one. Nothing is asked there."""
        return rcsr_address(self.names, self.key or (self.small.key if self.small else ""), self.dimension)

    @property
    def copies(self) -> int:
        """How many nets alike interpenetrate in the structure, of which this is one. It is not proved."""
        return self.net.copies

    @property
    def interpenetration(self) -> Interpenetration | None:
        """How the nets alike are carried into each other, with their class; None where that is of no such nets. It is not
        proved."""
        return self.net.interpenetration

    @property
    def accepted(self) -> bool:
        """Whether the net has a key."""
        return self.outcome.accepted

    @property
    def fibres(self) -> Fibres | None:
        """Of a net that collides: in how many places the vertices of its cell stand, and how many at most in one; None for other
        nets. It is not proved."""
        from .twins import fibres_on
        return None if self.accepted else fibres_on(self.net, self.outcome)

    @property
    def advice(self) -> str:
        """What may be done where two vertices come to stand in one place; empty for other nets."""
        from .twins import advice_on
        return "" if self.accepted else advice_on(self.net, self.outcome)

    @property
    def doubts(self) -> tuple[str, ...]:
        """Those of the notes that tell where another reading gives another net."""
        return self.net.doubts

    @property
    def left_out(self) -> tuple[str, ...]:
        """Those of the notes that tell what of the structure the net has not."""
        return self.net.left_out

    @property
    def convention(self) -> str:
        """What became the vertices, as `all-atoms`; empty where the net is of no structure."""
        return self.net.convention

    @property
    def components(self) -> tuple[StructurePiece, ...]:
        """The pieces of the structure, molecules and rods among them."""
        return self.net.components

    @property
    def units(self) -> tuple[BuildingUnit, ...]:
        """What each vertex stands for: its atoms, their formula and its connectivity."""
        return self.net.units

    def to_dict(self, topology: bool = False) -> dict[str, Any]:
        """All of it as JSON has it, with `topology` where that is wanted; `from_dict` makes the answer of it."""
        from .json_forms import fields_of_answer
        fields = fields_of_answer(self)
        if topology:
            fields["topology"] = self.topology.to_dict() if self.topology else None
        return fields

    def as_dict(self) -> dict[str, Any]:
        """The same with module and class, as MSONable of monty and pymatgen has it."""
        from .json_forms import with_class
        return with_class(self, self.to_dict())

    def to_json(self, topology: bool = False) -> str:
        return json.dumps(self.to_dict(topology))

    @classmethod
    def from_dict(cls, fields: dict[str, Any]) -> Answer:
        """The answer of what `to_dict` or `as_dict` gave. NotANet where these are no such fields."""
        from .json_forms import answer_of_fields
        return answer_of_fields(fields)

    def __repr__(self) -> str:
        return in_one_line(f"<Answer {self}>")

    def __str__(self) -> str:
        what = "; ".join(self.names) or ("no name in the archive" if self.accepted else str(self.outcome))
        told = f" ({self.by}; {self.outcome})" if self.names and not self.accepted else ""
        woven = f", {told_copies(self.copies, self.interpenetration)}" if self.copies > 1 else ""
        advice = f"; {self.advice}" if self.advice and not self.names else ""
        return f"{self.name or 'net'}: {what}{told}{woven}{advice}{told_doubts(self.doubts)}"

    def _repr_svg_(self) -> str | None:
        from .drawing import svg_of_answer
        return svg_of_answer(self)

    def _repr_html_(self) -> str:
        from .drawing import html_of_answer
        return html_of_answer(self)


class Answers(Sequence[Answer]):
    """The answers to several nets, in their order."""

    def __init__(self, answers: Sequence[Answer]) -> None:
        self._answers = tuple(answers)

    @overload
    def __getitem__(self, place: int) -> Answer: ...
    @overload
    def __getitem__(self, place: str) -> Answer: ...
    @overload
    def __getitem__(self, place: slice) -> Answers: ...
    def __getitem__(self, place: int | str | slice) -> Answer | Answers:
        """The answer in a place, those of a slice, or the first one to a net of this name. KeyError if none has it."""
        if isinstance(place, str):
            found = next((answer for answer in self._answers if answer.name == place), None)
            if found is None:
                raise KeyError(place)
            return found
        return Answers(self._answers[place]) if isinstance(place, slice) else self._answers[place]

    def __len__(self) -> int:
        return len(self._answers)

    def __iter__(self) -> Iterator[Answer]:
        return iter(self._answers)

    def __eq__(self, other: object) -> bool:
        return isinstance(other, Answers) and self._answers == other._answers

    def __hash__(self) -> int:
        return hash(self._answers)

    def to_json(self, topology: bool = False) -> str:
        """A list of what `Answer.to_dict` gives."""
        return json.dumps([answer.to_dict(topology) for answer in self])

    def __repr__(self) -> str:
        with_key = sum(answer.accepted for answer in self)
        doubted = sum(bool(answer.doubts) for answer in self)
        return f"<Answers: {len(self)} nets, {with_key} with a key{f', {doubted} in doubt' if doubted else ''}>"

    @property
    def accepted(self) -> Answers:
        """Those of nets with a key."""
        return Answers([answer for answer in self if answer.accepted])

    def to_pandas(self, topology: bool = False) -> pandas.DataFrame:
        """A table with a row for each net; `crystal_nets.to_pandas` has the columns."""
        return to_pandas(self, topology)

    def _repr_html_(self) -> str:
        from .drawing import html_of_answers
        return html_of_answers(self)


COLUMNS = ("name", "outcome", "names", "symbol", "by", "dimension", "vertices", "edges", "classes", "D0", "copies", "key",
           "sequences", "notes", "doubts", "left_out", "convention", "components", "units")
OF_TOPOLOGY = ("point_symbol", "vertex_symbols", "td10", "transitivity", "space_group")


def to_pandas(answers: Sequence[Answer], topology: bool = False) -> pandas.DataFrame:
    """A `pandas.DataFrame` with a row for each answer. The columns:

    name, outcome   texts; the outcome is `accepted`, or as `refused 5 Collision`
    names           in the archive, joined by `; `
    symbol          that the first name with one begins with
    by              by what they are certain: `key`, `key of a smaller cell`, `verified map`, `unproved cell`
    dimension, vertices, edges   of the quotient graph
    classes, D0     of the primitive graph and the placement; 0 where they were not asked for
    copies          how many nets alike interpenetrate in the structure, of which this is one
    key             a text, since its numbers may have 128 bits
    sequences       the different coordination sequences, in rising order, joined by `; `, as `4 10 20; 4 12 30`
    notes           all of them, joined by `; `
    doubts, left_out  those of the notes that are doubts, and on what was left out
    convention      what became the vertices
    components      of the structure, as `1 net in space Zn4O13C24H12, 2 molecules CH4O`
    units           what the vertices stand for, each kind once, joined by `; `, as `Zn4O(CO2)6, 6-connected`

    and, where `topology` is wanted, which takes some hundredths of a second for a net, and more for large ones:

    point_symbol    of the net, as `{4.6^2}2{4^2.6^10.8^3}`
    vertex_symbols  those of the kinds of vertices, joined by `; `
    td10            the topological density
    transitivity    how many kinds of vertices and of edges there are
    space_group     its symbol, or that of the plane group; empty if the net has no key, or python3-spglib is not there

    All are texts and numbers, so that `to_sql`, `to_parquet` and `to_csv` take them; `Answer` has tuples."""
    try:
        import pandas
    except ImportError:
        raise PackageMissing("pandas is not there; apt-get install python3-pandas") from None
    rows = list(map(row_of, answers))
    if not topology:
        return pandas.DataFrame(rows, columns=list(COLUMNS))
    return pandas.DataFrame([row + listed_of(answer.topology) for row, answer in zip(rows, answers)],
                            columns=[*COLUMNS, *OF_TOPOLOGY])


def row_of(answer: Answer) -> tuple[str | int, ...]:
    """What the columns `COLUMNS` have."""
    sequences = (" ".join(map(str, sequence)) for sequence in sorted(set(answer.sequences)))
    return (answer.name, short_outcome(answer.outcome), "; ".join(answer.names), answer.symbol, str(answer.by),
            answer.dimension, answer.vertices, answer.edges, answer.classes, answer.denominator, answer.copies, answer.key,
            "; ".join(sequences), "; ".join(answer.notes), "; ".join(answer.doubts),
            "; ".join(answer.left_out), answer.convention, told_components(answer.components), told_units(answer.units))


def listed_of(topology: Topology | None) -> tuple[str, str, float, str, str]:
    """What the columns `OF_TOPOLOGY` have."""
    if topology is None:
        return "", "", nan, "", ""
    symbols = "; ".join(kind.vertex_symbol or "none" for kind in topology.kinds)
    return topology.point_symbol, symbols, float(topology.td10), topology.transitivity, topology.space_group


def told_components(components: Sequence[StructurePiece]) -> str:
    return ", ".join(map(str, components))


def told_units(units: Sequence[BuildingUnit]) -> str:
    """Each kind of building unit once."""
    return "; ".join(dict.fromkeys(f"{unit.formula}, {unit.connectivity}-connected" for unit in units))


def short_outcome(outcome: Outcome) -> str:
    """The outcome in the words of a row: `refused 5 Collision`."""
    return f"{outcome.kind} {outcome.number} {outcome.name}" if outcome.number else outcome.kind


def placement_of(report: NetReport) -> Placement:
    words = [word for word, _ in report.positions]
    vertices: list[Vertex] = [vertex_of(word) for word in words]
    if len(set(vertices)) < len(words):  # as 01 and "01", which are two vertices
        vertices = [word.decode(errors="surrogateescape") for word in words]
    return Placement(report.scale, {vertex: tuple(place) for vertex, (_, place) in zip(vertices, report.positions)})


def primitive_of(report: NetReport) -> PrimitiveGraph:
    edges = tuple((u, v, tuple(shift)) for u, v, *shift in report.edges)
    return PrimitiveGraph(report.classes, tuple(map(tuple, report.basis)), edges)
