"""A net, as the text of a block that the program reads, and as edges."""

from __future__ import annotations

import json
import operator
from collections.abc import Iterable
from typing import TYPE_CHECKING, Any, Unpack

from .errors import NotANet, PackageMissing, in_one_line
from .graph import LabelledEdge, QuotientGraph, Vertex
from .options import StructureOptions
from .provenance import BuildingUnit, Interpenetration, Note, Provenance, StructurePiece, notes_of
from .texts.graph_text import graph_of_text, text_of_graph, vertex_word, written_name
from .texts.net_text import MOST_BYTES

if TYPE_CHECKING:
    import networkx
    from os import PathLike

TOO_LONG = f"the block has more than {MOST_BYTES:,} bytes"
NOTHING_KNOWN = Provenance()


class Net:
    """A periodic net in the plane or in space, by its labelled quotient graph.

    Each edge is `(u, v, shift)`: the vertex u in cell 0 is joined to the vertex v in the cell `shift`, a tuple of 2 or
    3 whole numbers in lattice steps (the vector method of S. J. Chung, Th. Hahn and W. E. Klee, Acta Cryst. A40 (1984)
    42). Vertices are whole numbers or texts. An edge stands once, in either direction.

    >>> dia = Net([(1, 2, (0, 0, 0)), (1, 2, (1, 0, 0)), (1, 2, (0, 1, 0)), (1, 2, (0, 0, 1))], name="dia")
    >>> dia.dimension, len(dia.vertices), len(dia.edges)
    (3, 2, 4)

    What the program would refuse is taken here, and refused as a value of the answer: a net may have too many
    vertices, fall into pieces, or have shifts of several lengths. NotANet is raised where there are no edges of this
    form at all.

    A net does not change. Two are equal where they are written alike, which is less than to be isomorphic: `same`
    tells that."""

    __slots__ = ("_block", "_graph", "name", "provenance", "refusal")

    name: str                 # what answers call it
    provenance: Provenance    # how it was made of a structure or a block
    refusal: str              # why a structure or a block gave no net; empty where it gave one
    _block: bytes | None          # what the program is given; None until it is asked for
    _graph: QuotientGraph | None  # the same as a graph; one of the two is always there

    def __init__(self, edges: Iterable[tuple[Vertex, Vertex, Iterable[int]]], name: str = "",
                 notes: Iterable[str] = ()) -> None:
        if not isinstance(name, str):
            raise NotANet(f"the name of a net is a text, and not {name!r:.60}")
        graph = QuotientGraph.of_labelled(_checked(edges), written_name(name))
        block = text_of_graph(graph)
        self._set(block, graph, name, Provenance(notes_of(notes)), TOO_LONG if len(block) > MOST_BYTES else "")

    def _set(self, block: bytes | None, graph: QuotientGraph | None, name: str, provenance: Provenance,
             refusal: str) -> None:
        for field, value in zip(Net.__slots__, (block, graph, name, provenance, refusal)):
            object.__setattr__(self, field, value)

    def __setattr__(self, field: str, value: object) -> None:
        raise AttributeError(f"a net does not change: {field} cannot be set")

    @classmethod
    def _made(cls, block: bytes | None, graph: QuotientGraph | None, name: str, provenance: Provenance,
              refusal: str = "") -> Net:
        net = cls.__new__(cls)
        net._set(block, graph, name, provenance, refusal)
        return net

    @classmethod
    def of_graph(cls, graph: QuotientGraph, name: str | None = None, provenance: Provenance = NOTHING_KNOWN) -> Net:
        """The net of a quotient graph, under its name where no other is given. Name and labels of the graph are to be
        such as a block may have them."""
        return cls._made(None, graph, graph.name if name is None else name, provenance)

    @classmethod
    def from_block(cls, block: bytes, name: str = "", notes: Iterable[str] = ()) -> Net:
        """A net of one block PERIODIC_GRAPH, which the program is given byte for byte. NotANet where the text is not
        one block with its END."""
        from .reading import want_one_block
        want_one_block(block)
        return cls._of(block, name, Provenance(notes_of(notes)))

    @classmethod
    def _of(cls, block: bytes, name: str, provenance: Provenance = NOTHING_KNOWN) -> Net:
        """A net of what is known to be one block; its last line gets its line feed, as others follow it."""
        return cls._made(block if block.endswith(b"\n") else block + b"\n", None, name, provenance)

    @classmethod
    def refused(cls, reason: str, name: str = "", notes: Iterable[str | Note] = ()) -> Net:
        """What stands in the place of a net, where a structure or a block gave none."""
        return cls._made(b"", None, name, Provenance(notes_of(notes)), reason)

    def named(self, name: str) -> Net:
        """The same net under another name; its block stays as it is."""
        return Net._made(self._block, self._graph, name, self.provenance, self.refusal)

    def commented(self, comment: str) -> Net:
        """The same net with a comment of one line before its block."""
        return Net._made(f"# {comment}\n".encode() + self.block, self._graph, self.name, self.provenance, self.refusal)

    def of_provenance(self, provenance: Provenance) -> Net:
        """The same net, made in this way."""
        return Net._made(self._block, self._graph, self.name, provenance, self.refusal)

    def noted(self, before: Iterable[Note] = (), after: Iterable[Note] = ()) -> Net:
        """The same net with more notes, before and after those that it has."""
        return self.of_provenance(self.provenance.noted(before, after))

    @classmethod
    def from_cgd(cls, text: str | bytes | PathLike[str], name: str | None = None) -> Net:
        """The one net of a text of blocks, or of a file, of any kind that net_tool convert reads.

        >>> Net.from_cgd("PERIODIC_GRAPH\\nNAME sql\\nEDGES\\n1 1 1 0\\n1 1 0 1\\nEND\\n")
        <Net sql: 1 vertex, 2 edges, dimension 2>"""
        from .reading import one_net, nets_of_cgd
        return one_net(nets_of_cgd(text), name)

    @classmethod
    def from_file(cls, path: str | PathLike[str], name: str | None = None, **options: Unpack[StructureOptions]) -> Net:
        """The one net of a file of any kind that is read."""
        from pathlib import Path
        from .reading import one_net, read
        return one_net(read(Path(path), **options), name)

    def write(self, path: str | PathLike[str]) -> None:
        """Writes its block to a file, as the program reads it. NotANet if there is no net."""
        from .files import checked_path, write_whole
        if self.refusal:
            raise NotANet(f"there is no net: {self.refusal}")
        write_whole(checked_path(path, NotANet), self.block)

    @classmethod
    def from_cif(cls, text: str | bytes | PathLike[str], name: str | None = None, **options: Unpack[StructureOptions]) -> Net:
        """The one net of a CIF file, or of its text; `crystal_nets.read` gives all of several.

        The options are those of `StructureOptions`, as `convention="single-nodes"` or `leave_out={"Na"}`. Which atoms
        are joined is chemistry, and not proved."""
        from .reading import one_net, nets_of_cif
        return one_net(nets_of_cif(text, options), name)

    @classmethod
    def from_ase(cls, atoms: Any, name: str | None = None, **options: Unpack[StructureOptions]) -> Net:
        """The one net of an `ase.Atoms`; along axes without periodicity it is bounded. Options as for `from_cif`."""
        from .reading import one_net, nets_of_ase
        return one_net(nets_of_ase(atoms, options), name)

    @classmethod
    def from_pymatgen(cls, structure: Any, name: str | None = None, **options: Unpack[StructureOptions]) -> Net:
        """The one net of a `pymatgen.core.Structure`. Options as for `from_cif`."""
        from .reading import one_net, nets_of_pymatgen
        return one_net(nets_of_pymatgen(structure, options), name)

    @classmethod
    def from_networkx(cls, graph: networkx.DiGraph[Any], name: str | None = None) -> Net:
        """The net of a directed `networkx` graph whose edges have a shift: as the attribute `shift`, or `to_jimage`,
        as in the graphs of pymatgen. The direction of an edge says which end the shift is seen from."""
        from .reading import net_of_networkx
        return net_of_networkx(graph, name)

    @property
    def notes(self) -> tuple[str, ...]:
        """What a reader should know of it, as how a structure was read."""
        return self.provenance.texts

    @property
    def doubts(self) -> tuple[str, ...]:
        """Where another reading of the structure gives another net."""
        return self.provenance.doubts

    @property
    def left_out(self) -> tuple[str, ...]:
        """What of the structure the net has not."""
        return self.provenance.left_out

    @property
    def convention(self) -> str:
        """What became its vertices, as `all-atoms`; empty where it is of no structure."""
        return self.provenance.convention

    @property
    def components(self) -> tuple[StructurePiece, ...]:
        """The pieces of the structure, molecules and rods among them."""
        return self.provenance.components

    @property
    def units(self) -> tuple[BuildingUnit, ...]:
        """What each vertex stands for: its atoms, their formula and its connectivity."""
        return self.provenance.units

    @property
    def copies(self) -> int:
        """How many nets alike interpenetrate in the structure that it was read from, this one among them: 2 for
        cuprite. It is 1 for other nets, and for layers, which lie beside each other."""
        copies = self.provenance.copies
        return copies if copies > 1 and not self.refusal and self.graph.dimension == 3 else 1

    @property
    def interpenetration(self) -> Interpenetration | None:
        """How the nets alike of its structure are carried into each other, with their class; None where it interpenetrates
        with none alike, and where that is not known, as of a block."""
        return self.provenance.interpenetration

    @property
    def block(self) -> bytes:
        """The text that the program is given: one block PERIODIC_GRAPH."""
        if self._block is None:
            object.__setattr__(self, "_block", text_of_graph(self.graph))
        assert self._block is not None
        return self._block

    @property
    def graph(self) -> QuotientGraph:
        """The labelled quotient graph. NotANet where there is no net, or the block has a line that is no row."""
        if self.refusal:
            raise NotANet(f"there is no net: {self.refusal}")
        if self._graph is None:
            object.__setattr__(self, "_graph", graph_of_text(self.block, self.name))
        assert self._graph is not None
        return self._graph

    @property
    def edges(self) -> tuple[LabelledEdge, ...]:
        """The edges in their order, each once. NotANet where there are none, or the block has a line that is no row."""
        edges = self.graph.labelled_edges
        if not edges:
            raise NotANet("the block has no edges")
        return edges

    @property
    def vertices(self) -> tuple[Vertex, ...]:
        """The vertices in the order in which they appear, as the program numbers them."""
        return self.graph.canonical().vertices

    @property
    def dimension(self) -> int:
        """2 or 3: the length of the shifts."""
        return len(self.edges[0][2])

    @property
    def degrees(self) -> dict[Vertex, int]:
        """How many ends of edges each vertex has; a loop has two."""
        found = dict.fromkeys(self.vertices, 0)
        for u, v, _ in self.edges:
            found[u] += 1
            found[v] += 1
        return found

    def to_dict(self) -> dict[str, Any]:
        """Its name, block, refusal and provenance, as JSON has them; `from_dict` makes the net of them."""
        from .json_forms import fields_of_net
        return fields_of_net(self)

    def as_dict(self) -> dict[str, Any]:
        """The same with module and class, as MSONable of monty and pymatgen has it."""
        from .json_forms import with_class
        return with_class(self, self.to_dict())

    def to_json(self) -> str:
        return json.dumps(self.to_dict())

    @classmethod
    def from_dict(cls, fields: dict[str, Any]) -> Net:
        """The net of what `to_dict` or `as_dict` gave. NotANet where these are no such fields."""
        from .json_forms import net_of_fields
        return net_of_fields(fields)

    def to_networkx(self) -> networkx.MultiDiGraph[Any]:
        """A `networkx.MultiDiGraph` with the attribute `shift` of each edge, and the name of the net as its own."""
        try:
            import networkx
        except ImportError:
            raise PackageMissing("networkx is not there; apt-get install python3-networkx") from None
        graph = networkx.MultiDiGraph(name=self.name)
        graph.add_nodes_from(self.vertices)
        graph.add_edges_from((u, v, {"shift": shift}) for u, v, shift in self.edges)
        return graph

    def __eq__(self, other: object) -> bool:
        return isinstance(other, Net) and (self.block, self.name, self.refusal) == (
            other.block, other.name, other.refusal)

    def __hash__(self) -> int:
        return hash((self.block, self.name))

    def __reduce__(self) -> tuple[Any, ...]:
        return Net._made, (self._block, self._graph, self.name, self.provenance, self.refusal)

    def __repr__(self) -> str:
        name = f" {self.name}" if self.name else ""
        if self.refusal:
            return in_one_line(f"<Net{name}: unreadable, {self.refusal}>")
        try:
            vertices, edges = len(self.vertices), len(self.edges)
            sizes = f"{vertices} {'vertex' if vertices == 1 else 'vertices'}, {edges} edge{'s' * (edges != 1)}"
            return in_one_line(f"<Net{name}: {sizes}, dimension {self.dimension}>")
        except (NotANet, IndexError):
            return in_one_line(f"<Net{name}: a block of {len(self.block)} bytes>")

    def _repr_svg_(self) -> str | None:
        from .drawing import svg_or_none
        return svg_or_none(self)

    def _repr_html_(self) -> str:
        from .drawing import html_of_net
        return html_of_net(self)


def _checked(edges: Iterable[tuple[Vertex, Vertex, Iterable[int]]]) -> Iterable[LabelledEdge]:
    """The edges with whole numbers of Python. NotANet where an item is none."""
    known: dict[Vertex, Vertex] = {}
    for k, item in enumerate(edges):
        try:
            u, v, shift = item
            for end in (u, v):
                if end not in known:
                    known[end] = end if isinstance(end, str) else operator.index(end)
                    vertex_word(known[end])
            parts = tuple(operator.index(part) for part in shift)
        except (TypeError, ValueError) as fault:
            raise NotANet(f"edge {k} is {item!r:.80}, and not (vertex, vertex, shift): {fault}") from None
        yield known[u], known[v], parts
