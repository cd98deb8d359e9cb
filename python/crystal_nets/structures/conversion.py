"""From the content of a file to the text of its nets, and what is reported of it."""

from __future__ import annotations

import json
from dataclasses import dataclass, field, replace
from pathlib import Path
from typing import Any

from ..errors import NotANet, PackageMissing
from ..files import content_of_file
from ..net import Net
from ..provenance import DOUBT, LEFT_OUT, OTHER, REFUSED, TOLD, Note
from ..reading import unpacked
from ..refusal import Refused
from ..texts.graph_text import plain
from ..texts.net_text import GREATEST_SHIFT, MOST_EDGES, MOST_VERTICES
from .atoms.crystal import Crystal
from .nets.choice import Options, nets_of
from .nets.translations import divided_by_maps, divided_by_translations
from .reading.formats import Structure, structures_of


@dataclass(frozen=True)
class Source:
    """A file by its path, and the names that it has in what is written."""

    path: str   # - is standard input
    label: str  # how notes name it
    stem: str   # what names of nets begin with
    is_found: bool = False  # in a folder, where a pipe is not waited for

    def content(self) -> bytes:
        return content_of_file(self.path) if self.is_found else Path(self.path).read_bytes()


@dataclass
class Conversion:
    """What became of a file: all that is written, and all that is reported."""

    source: Source
    nets: list[Net] = field(default_factory=list)
    notes: list[tuple[str, Note]] = field(default_factory=list)  # with what they are of: the file, a block, a net

    def refuse(self, what: str, reason: object) -> None:
        self.notes.append((what, Note(REFUSED, " ".join(str(reason).split()))))

    @property
    def is_refused(self) -> bool:
        """Whether the file, or one of its blocks, gave no net."""
        return any(note.kind == REFUSED for _, note in self.notes)

    @property
    def text(self) -> bytes:
        """The blocks of the nets, each below a line that tells how it was made."""
        label = plain(self.source.label)
        return b"".join(f"# {label}: {line}\n".encode() if line else net.block
                        for net in self.nets for line in (*_comments_of(net), ""))

    def told(self, is_quiet: bool) -> list[str]:
        """The lines for standard error; where it is quiet, those alone that are reported in any case."""
        return [f"{what or '.'}: {'refused: ' if note.kind == REFUSED else ''}{note.text}"
                for what, note in self.notes if note.kind in TOLD or not is_quiet]

    def json_line(self) -> str:
        """One line of JSON: the file, its nets, what is in doubt, what was left out, why it is refused."""
        of_kind = {kind: [note.text for _, note in self.notes if note.kind == kind]
                   for kind in (DOUBT, LEFT_OUT, REFUSED)}
        others = [note.text for _, note in self.notes if note.kind not in of_kind]
        return json.dumps({"file": self.source.path, "nets": list(map(_described, self.nets)), "doubts": of_kind[DOUBT],
                           "left_out": of_kind[LEFT_OUT], "notes": others, "refused": of_kind[REFUSED]})


def convert(source: Source, content: bytes, options: Options) -> Conversion:
    """The nets of a file. No fault of one block ends the others."""
    done = Conversion(source)
    try:
        structures = structures_of(content, source.path, source.stem)
    except Refused as reason:
        done.refuse(source.label, reason)
        return done
    for structure in structures:
        block = structure.block if len(structures) > 1 else ""
        what = f"{source.label} {block}".rstrip()
        try:
            convert_structure(structure, what, options, done)
        except MemoryError:
            done.refuse(what, "there is not enough memory")
        except PackageMissing as reason:
            done.refuse(what, reason)
    return done


def convert_structure(structure: Structure, what: str, options: Options, done: Conversion) -> None:
    """Adds the nets of one structure, or why it gives none. A lack of memory, or of a package, is no fault of it, and is
    raised."""
    try:
        _add_nets(structure, what, options, done)
    except Refused as reason:
        done.refuse(what, reason)
    except (MemoryError, PackageMissing):
        raise
    except Exception as fault:  # of net_tool convert itself, or of a library: the next file may still be read
        done.refuse(what, f"the reading failed: {type(fault).__name__} {fault}")


def _add_nets(structure: Structure, what: str, options: Options, done: Conversion) -> None:
    """Adds the nets of one structure, once all of them are known to be within the limits; its notes
    are added in any case."""
    notes = structure.notes
    try:
        crystal = structure.crystal()
        notes = crystal.notes
        nets = nets_of_crystal(crystal, options, notes)
    finally:
        done.notes += [(what, note) for note in notes]
    for net in nets:
        done.notes += [(f'{what}: net "{net.name}"', note) for note in net.provenance.notes]
    done.nets += nets


def nets_of_crystal(crystal: Crystal, options: Options, notes: list[Note]) -> list[Net]:
    """The nets of a crystal, each within the limits of net_tool; notes on all of it come to the notes."""
    return [within_limits(net) for net in nets_of(crystal, options, notes)]


def within_limits(net: Net) -> Net:
    """The net, over all its own translations where it is past the limits of net_tool otherwise."""
    count = len(net.graph.vertices)
    if count > MOST_VERTICES:
        graph, after = divided_by_translations(net.graph), []
        if len(graph.vertices) > MOST_VERTICES:
            graph = divided_by_maps(graph)
        if len(graph.vertices) < count:
            times = count // len(graph.vertices)
            after.append(Note(OTHER, f"the cell is {times} times the primitive one of the net"))
        net = Net.of_graph(graph, net.name, net.provenance.noted(after=after))
    _check_limits(net)
    return net


def _check_limits(net: Net) -> None:
    """Raises Refused where net_tool would refuse the block for its size."""
    vertices, edges = net.graph.vertices, net.graph.edges
    if len(vertices) > MOST_VERTICES:
        raise Refused(f"{len(vertices)} vertices, at most {MOST_VERTICES} are read")
    if len(edges) > MOST_EDGES:
        raise Refused(f"{len(edges)} edges, at most {MOST_EDGES} are read")
    if any(abs(part) > GREATEST_SHIFT for edge in edges for part in edge.shift):
        raise Refused(f"a shift beyond {GREATEST_SHIFT}")


def _comments_of(net: Net) -> list[str]:
    """How the net was made, of how many copies it is, with their class, its doubts, and each kind of building unit."""
    kinds = dict.fromkeys(f"{unit.formula}, {unit.connectivity}-connected" for unit in net.units)
    return [plain(line) for line in (
        net.provenance.made, *([f"one of {net.copies} copies"] if net.copies > 1 else []),
        *([str(net.interpenetration)] if net.interpenetration else []),
        *(f"doubt: {doubt}" for doubt in net.doubts),
        *([f"vertices: {'; '.join(kinds)}"] if net.convention not in ("", "all-atoms") else []))]


def _described(net: Net) -> dict[str, Any]:
    """The net in JSON: its doubts and what was left out beside its other notes, and what its vertices stand for."""
    fields = net.provenance.to_dict()
    return {"name": net.name, "convention": net.convention, "dimension": net.graph.dimension,
            "vertices": len(net.graph.vertices), "edges": len(net.graph.edges), "copies": net.copies,
            "notes": list(net.provenance.remarks), "doubts": fields["doubts"], "left_out": fields["left_out"],
            "components": fields["components"], "units": fields["units"], "interpenetration": fields["interpenetration"]}


def read_and_convert(source: Source, options: Options, stdin: bytes = b"") -> Conversion:
    """The same of a file that is still to be read."""
    done = Conversion(source)
    try:
        content = stdin if source.path == "-" else source.content()
        content, path = unpacked(content, source.path)
    except OSError as error:
        done.refuse(source.label, f"not readable: {error.strerror}")
        return done
    except NotANet as reason:
        done.refuse(source.label, reason)
        return done
    return convert(replace(source, path=path), content, options)
