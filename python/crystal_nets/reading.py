"""From what a user has to nets: edges, files and texts, atoms of ase and pymatgen, graphs of networkx.

None of this is proved: what is proved of an answer begins at the block of a net."""

from __future__ import annotations

import gzip
import os
import re
import zlib
from collections.abc import Callable, Iterable, Iterator, Mapping
from contextlib import contextmanager
from io import BytesIO
from pathlib import Path, PurePath
from typing import TYPE_CHECKING, Any, Unpack

from .errors import NotANet, PackageMissing, lacking
from .files import GZIP, checked_path, content_of_file, in_plain_bytes
from .formats import ARCHIVE, JSON, format_of, is_known, is_structure_file, stem_of
from .net import TOO_LONG, Net
from .other_forms import is_structure, structure_of_fields, structure_of_json
from .options import BLOCK_PACKAGES, STRUCTURE_PACKAGES, StructureOptions, check_names, checked_options
from .provenance import REFUSED, Note, notes_of
from .texts.archive_text import entries_of
from .texts.net_text import (BYTE_ORDER_MARK, FIRST_TOKEN, HEADER, MOST_BYTES, OPENERS, OTHER_TEXTS, Chunk, NoReport, chunks_of,
                             first_word, told_of_stray)

if TYPE_CHECKING:
    import networkx

    from .structures.nets.choice import Options
    from .structures.conversion import Conversion
    from .structures.atoms.crystal import Crystal

ROW = rb'(?:[+-]?\d++|"[^"\n]*+")[ \t]++(?:[+-]?\d++|"[^"\n]*+")[ \t]++[-+\d \t]++'
HEAD_LINE = rb'END|(?:NAME|ID)[ \t]++(?:"[^"\n]*+"|[^\s"#]++)|'  # or nothing
LINE_END = rb'[ \t\r]*+(?:#[^\n]*+)?\n'
PLAIN_BLOCK = re.compile(  # line by line, from EDGES on with rows. ++ and *+ never take back what they took
    rb'[ \t]*+(?i:PERIODIC_GRAPH)' + LINE_END +
    rb'(?:[ \t]*+(?i:' + HEAD_LINE + rb')' + LINE_END + rb')*+'
    rb'(?:[ \t]*+(?i:EDGES?|BONDS?)(?:[ \t]++' + ROW + rb')?' + LINE_END +
    rb'(?:[ \t]*+(?:' + ROW + rb'|(?i:(?:EDGES?|BONDS?)(?:[ \t]++' + ROW + rb')?|' + HEAD_LINE + rb'))'
    + LINE_END + rb')*+)?')
NAME_LINE = re.compile(rb'(?i)[ \t]*(?:NAME|ID)[ \t]+(?:"([^"\n]*)"|([^\s"#]+))')
MOST_UNPACKED = 1 << 28  # bytes of a gzip file


def read(source: Any, name: str = "", **options: Unpack[StructureOptions]) -> list[Net]:
    """All nets of what is given.

    source   a `Net`; a path of a file; a text, which is a str with a line feed, or bytes; an open file; an `ase.Atoms`; a
             `pymatgen` Structure or StructureGraph, or the dict of one; a directed `networkx` graph with shifts; or edges
             (u, v, shift)
    name     what a text is called, as its file would be: `quartz.cif`; its ending tells the kind
    options  of structures, as `StructureOptions` has them

    A file may be a CIF, a POSCAR, an extended XYZ, the JSON of a `pymatgen` Structure, or one of blocks or key lines as
    `.cgd` and `.arc`;
    each may be packed by gzip. Of a folder all files of such names are read. Where a block or a structure gives no net, a Net
    with its `refusal` stands in its place. NotANet is raised where the source is of no such kind, and OSError where a file
    cannot be read.

    >>> read("PERIODIC_GRAPH\\nNAME sql\\nEDGES\\n1 1 1 0\\n1 1 0 1\\nEND\\n")
    [<Net sql: 1 vertex, 2 edges, dimension 2>]"""
    check_names(options)
    if isinstance(source, Net):
        return [source]
    if isinstance(source, (str, bytes, os.PathLike)):
        return _nets_of_text(source, name, options)
    if hasattr(source, "read"):
        return _nets_of_open(source, name, options)
    if hasattr(source, "get_scaled_positions"):
        return nets_of_ase(source, options)
    if hasattr(source, "frac_coords"):
        return nets_of_pymatgen(source, options)
    if isinstance(source, Mapping) and is_structure(source):
        return nets_of_pymatgen(structure_of_fields(source), options)
    if hasattr(source, "graph") and hasattr(source, "structure"):
        return _without_options([net_of_networkx(source.graph)], options)
    if hasattr(source, "is_directed") and hasattr(source, "edges"):
        return _without_options([net_of_networkx(source)], options)
    if isinstance(source, Iterable) and not isinstance(source, Mapping):
        return _without_options([Net(source)], options)
    raise NotANet(f"no net is read from {type(source).__name__}")


def _nets_of_open(source: Any, name: str, options: Mapping[str, object]) -> list[Net]:
    """The nets of what is left of an open file, or of a text in memory that is read as one."""
    content = source.read()
    if not isinstance(content, (str, bytes)):
        raise NotANet(f"no net is read from {type(source).__name__}: it gives {type(content).__name__}")
    file = getattr(source, "name", "")
    named = name or (os.path.basename(file) if isinstance(file, str) else "")
    text = content.encode(errors="surrogateescape") if isinstance(content, str) else content
    return _nets_of_content(*unpacked(text, named), options)


def _nets_of_text(source: str | bytes | os.PathLike[str], name: str, options: Mapping[str, object]) -> list[Net]:
    """The nets of a text, of a file, or of all files of a folder."""
    if not isinstance(source, bytes) and "\n" not in str(source) and os.path.isdir(source):
        files = [file for file in sorted(Path(source).iterdir()) if is_known(file.name) and not file.is_dir()]
        return [net for file in files for net in _nets_found(file, options)]
    content, file = _content_of(source)
    content, named = unpacked(content, name or file)
    nets = _nets_of_content(content, named, options)
    return _read_from(source, nets) if file else nets


def _nets_found(file: Path, options: Mapping[str, object]) -> list[Net]:
    """The nets of a file of a folder. OSError where it is a pipe, which is not waited for."""
    content, named = unpacked(content_of_file(file), file.name)
    return _read_from(file, _nets_of_content(content, named, _options_for(file.name, options)))


def _read_from(file: str | bytes | os.PathLike[str], nets: list[Net]) -> list[Net]:
    """Nets that know their file."""
    return [net.of_provenance(net.provenance.read_from(os.fsdecode(file))) for net in nets]


def _nets_of_content(content: bytes, file: str, options: Mapping[str, object]) -> list[Net]:
    form = format_of(content, file)
    if form is JSON:
        nets = nets_of_pymatgen(structure_of_json(content), options)
        return [net.named(PurePath(file).stem) if file else net for net in nets]
    if form.is_structure:
        return nets_of_cif(content, options, file)
    return _without_options(nets_of_archive(content, file) if form is ARCHIVE else nets_of_cgd(content), options)


def nets_of_file(content: bytes, file: str, options: Mapping[str, object]) -> list[Net]:
    """The nets of the bytes of a file, packed by gzip or not; the options count where it is a structure. NotANet where it
    is damaged, or a text of another kind."""
    content, file = unpacked(content, file)
    return _nets_of_content(content, file, options if format_of(content, file).is_structure else {})


def unpacked(content: bytes, file: str, most: int = MOST_UNPACKED) -> tuple[bytes, str]:
    """The content without gzip and in UTF-8, and the name without gzip. NotANet where it is cut, has more than so many
    bytes, or is in another encoding that is not read."""
    if not content.startswith(GZIP):
        return in_plain_bytes(content, "the file"), file
    try:
        with gzip.open(BytesIO(content)) as packed:
            plain = packed.read(most + 1)
    except (OSError, EOFError, zlib.error) as fault:
        raise NotANet(f"the file is packed by gzip, and damaged: {fault}") from None
    if len(plain) > most:
        raise NotANet(f"the file has more than {most >> 20} MB, unpacked")
    return in_plain_bytes(plain, "the file"), file[:-3] if file.lower().endswith(".gz") else file


def _options_for(file: str, options: Mapping[str, object]) -> Mapping[str, object]:
    """The options, where the file is a structure."""
    return options if is_structure_file(file) else {}


def _without_options(nets: list[Net], options: Mapping[str, object]) -> list[Net]:
    if options:
        raise TypeError(f"these options are for structures alone: {', '.join(sorted(options))}")
    return nets


def one_net(nets: list[Net], name: str | None = None) -> Net:
    """The only net of a list, under a name where one is given. NotANet where there are none or several."""
    if len(nets) != 1:
        told = ", ".join(net.name or "?" for net in nets[:5]) + (" .." if len(nets) > 5 else "")
        raise NotANet(f"there are {len(nets)} nets, and one is asked for; read gives all: {told}" if nets
                      else "there is no net")
    net, = nets
    if net.refusal:
        raise NotANet(net.refusal)
    return net if name is None else net.named(name)


def _content_of(source: str | bytes | os.PathLike[str]) -> tuple[bytes, str]:
    """The bytes of a text or of a file, and the name of the file; a text has none."""
    if isinstance(source, bytes):
        return source, ""
    if isinstance(source, str) and ("\n" in source or not source.strip()):
        return source.encode(errors="surrogateescape"), ""
    path = checked_path(source, NotANet)
    return path.read_bytes(), path.name


@contextmanager
def _packages_of(what: str, advice: str = STRUCTURE_PACKAGES) -> Iterator[None]:
    """PackageMissing with what to install, where a package of Python is not there."""
    try:
        yield
    except ModuleNotFoundError as missing:
        raise PackageMissing(f"{what}: {lacking(missing, advice)}") from missing


def nets_of_archive(content: bytes, file: str) -> list[Net]:
    """The nets of an archive under their names. Nothing but names and edges is taken, so that whatever is said of these nets is
    computed from their edges. NotANet if it is damaged."""
    try:
        return [Net.of_graph(entry.graph) for entry in entries_of(content.splitlines(keepends=True), file or "archive")]
    except NoReport as fault:
        raise NotANet(str(fault)) from None


def nets_of_cgd(source: str | bytes | os.PathLike[str]) -> list[Net]:
    """The nets of a text of blocks or key lines. A block PERIODIC_GRAPH that the program reads is left byte for byte."""
    content, _ = _content_of(source)
    return [net_of_chunk(chunk) for chunk in chunks_of(BytesIO(content)) if chunk.opening_line]


def net_of_chunk(chunk: Chunk) -> Net:
    """The net of one block, or why it gives none. NotANet where a text of another kind begins there."""
    net = _net_of_chunk(chunk)
    return net.of_provenance(net.provenance.at_line(chunk.opening_line))


def _net_of_chunk(chunk: Chunk) -> Net:
    lines = chunk.block_lines
    if chunk.opening_line == 1:
        lines[0] = lines[0].removeprefix(BYTE_ORDER_MARK)
    word = lines[0].split(None, 1)[0].upper() if lines[0].strip() else b""
    kind = "a report of net_tool" if HEADER.fullmatch(lines[0]) else OTHER_TEXTS.get(word)
    if kind:
        raise NotANet(f"line {chunk.opening_line} begins {kind}")
    if chunk.size > MOST_BYTES:
        return Net.refused(f"line {chunk.opening_line}: {TOO_LONG}")
    if chunk.is_stray and (first_word(lines[0]) not in OPENERS or not is_ended(lines)):
        return Net.refused(f"line {chunk.opening_line}: {told_of_stray(chunk.opening_line, len(lines), lines[0])}")
    if not is_ended(lines):
        return Net.refused(f"line {chunk.opening_line}: the block has no END", name_of_block(lines))
    text = b"".join(lines)
    text = text if text.endswith(b"\n") else text + b"\n"
    if word.startswith(b"PERIODIC_GRAPH") and PLAIN_BLOCK.fullmatch(text):
        return Net._of(text, name_of_block(lines))
    with _packages_of("a block that is no plain PERIODIC_GRAPH", BLOCK_PACKAGES):
        return _net_of_block(chunk, lines)


def _net_of_block(chunk: Chunk, lines: list[bytes]) -> Net:
    """The net of a block of another kind, as net_tool convert reads it."""
    from .blocks.converter import KINDS, MOST_LINES, Block, net_of_block
    from .blocks.converter import MOST_BYTES as MOST_OF_A_BLOCK
    from .refusal import Refused
    kind = KINDS[first_word(lines[0])]
    block = Block(kind, chunk.opening_line, lines, chunk.size)
    if len(lines) > MOST_LINES or chunk.size > MOST_OF_A_BLOCK:
        return Net.refused(f"line {chunk.opening_line}: more than {MOST_LINES} lines, or {MOST_OF_A_BLOCK} bytes")
    notes: list[str | Note] = []
    name = block.name
    try:
        net = net_of_block(block, notes)
    except Refused as reason:
        return Net.refused(f"line {reason.line or chunk.opening_line}: {reason.reason}", name, notes)
    except (MemoryError, ModuleNotFoundError):
        raise
    except Exception as fault:  # of the reader, or of a library: the next block may still be read
        return Net.refused(f"line {chunk.opening_line}: {type(fault).__name__} {fault}", name, notes)
    return net.named(name).noted(after=notes_of(notes))


def is_plain(chunk: Chunk) -> bool:
    """Whether the program reads a block as it stands. One PERIODIC_GRAPH that is broken otherwise than by words of other
    programs is for the program to tell."""
    lines = chunk.block_lines
    if first_word(lines[0]) != b"PERIODIC_GRAPH" or chunk.is_stray:
        return False
    text = b"".join(lines)
    return not is_ended(lines) or PLAIN_BLOCK.fullmatch(text if text.endswith(b"\n") else text + b"\n") is not None


def want_one_block(text: bytes) -> None:
    """NotANet where a text is not one block PERIODIC_GRAPH with its END."""
    chunks = list(chunks_of(BytesIO(text)))
    if len(chunks) != 1 or not chunks[0].opening_line:
        raise NotANet(f"a net is one block, and not {sum(chunk.opening_line > 0 for chunk in chunks)}")
    lines = chunks[0].block_lines
    if lines[0].split(None, 1)[0].upper() != b"PERIODIC_GRAPH" or not is_ended(lines):
        raise NotANet("a net is a block that begins with PERIODIC_GRAPH and ends with END")


def is_ended(lines: list[bytes]) -> bool:
    """Whether the last line of a block ends it."""
    found = FIRST_TOKEN.match(lines[-1])
    return len(lines) > 1 and found is not None and (found[1] or b"").upper() == b"END"


def name_of_block(lines: list[bytes]) -> str:
    for line in lines[1:]:
        found = NAME_LINE.match(line)
        if found:
            return (found[1] if found[1] is not None else found[2]).decode(errors="surrogateescape")
    return ""


def nets_of_cif(source: str | bytes | os.PathLike[str], options: Mapping[str, object], name: str = "") -> list[Net]:
    """The nets of all structures of a file, as net_tool convert reads them; the name is that of the file."""
    content, file = _content_of(source)
    content, file = unpacked(content, name or file)
    wanted = checked_options(options)
    with _packages_of("a structure file"):
        from .structures.conversion import Conversion, Source, convert_structure
        from .structures.reading.formats import structures_of
        from .refusal import Refused
    stem = stem_of(file) if file else "structure"
    try:
        structures = structures_of(content, file, stem)
    except Refused as reason:
        return [Net.refused(str(reason), stem)]
    nets: list[Net] = []
    for structure in structures:
        done = Conversion(Source(file or "-", stem, stem))
        convert_structure(structure, structure.name, wanted, done)
        nets += [net.of_provenance(net.provenance.read_from(block=structure.block))
                 for net in _nets_of_conversion(done, structure.name)]
    return nets


def _nets_of_conversion(done: Conversion, name: str) -> list[Net]:
    """The nets of one block, each with the notes on the block and its own; or why it gives none."""
    reasons = [note.text for _, note in done.notes if note.kind == REFUSED]
    general = [note for what, note in done.notes if what == name and note.kind != REFUSED]
    if reasons:
        return [Net.refused("; ".join(reasons), name, general)]
    return [_as_written(net).noted(before=general) for net in done.nets]


def _as_written(net: Net) -> Net:
    """The net under the name that its block has."""
    return net.named(net.graph.name)


def nets_of_ase(atoms: Any, options: Mapping[str, object]) -> list[Net]:
    """The nets of an `ase.Atoms`."""
    wanted = checked_options(options)
    name = str(atoms.info.get("name") or atoms.get_chemical_formula(empirical=True))
    with _packages_of("a structure"):
        from .structures.reading.given import bounded_cell, crystal_of_atoms
    cell, places = bounded_cell(atoms.cell.array, atoms.get_positions(), atoms.pbc)
    contents = [{symbol: 1.0} for symbol in atoms.get_chemical_symbols()]
    return _nets_of_crystal(lambda: crystal_of_atoms(name, cell, contents, places), name, wanted)


def nets_of_pymatgen(structure: Any, options: Mapping[str, object]) -> list[Net]:
    """The nets of a `pymatgen` structure; a site may have several elements with their occupancies."""
    wanted = checked_options(options)
    name = str(structure.composition.reduced_formula)
    with _packages_of("a structure"):
        from .structures.reading.given import crystal_of_pymatgen
    return _nets_of_crystal(lambda: crystal_of_pymatgen(structure, name), name, wanted)


def _nets_of_crystal(make: Callable[[], Crystal], name: str, options: Options) -> list[Net]:
    """The nets of a crystal, or why it gives none."""
    from .refusal import Refused
    from .structures.conversion import nets_of_crystal
    notes: list[Note] = []
    try:
        crystal = make()
        nets = nets_of_crystal(crystal, options, notes)
    except Refused as reason:
        return [Net.refused(str(reason), name, notes)]
    except MemoryError:
        raise
    except Exception as fault:  # of the reader, or of a library, as with places that are no numbers
        return [Net.refused(f"{type(fault).__name__} {fault}", name)]
    return [_as_written(net).noted(before=[*crystal.notes, *notes]) for net in nets]


def net_of_networkx(graph: networkx.DiGraph[Any], name: str | None = None) -> Net:
    """The net of a directed graph with shifts; its vertices are numbered in order where a node is no number and no
    text."""
    if not graph.is_directed():
        raise NotANet("the graph has no directions, so that a shift has no meaning: make it a MultiDiGraph")
    nodes = list(graph.nodes)
    is_plain = all(isinstance(node, str) or (isinstance(node, int) and not isinstance(node, bool)) for node in nodes)
    words: dict[Any, Any] = {node: node if is_plain else k for k, node in enumerate(nodes, start=1)}
    edges = []
    for u, v, data in graph.edges(data=True):
        shift = data.get("shift", data.get("to_jimage"))
        if shift is None:
            raise NotANet(f"the edge from {u!r} to {v!r} has no attribute shift or to_jimage")
        edges.append((words[u], words[v], shift))
    lonely = [node for node in nodes if graph.degree(node) == 0]
    if lonely:
        raise NotANet(f"the vertex {lonely[0]!r} has no edge")
    notes = () if is_plain else ("vertices are numbered in the order of the nodes",)
    return Net(edges, str(graph.graph.get("name") or "") if name is None else name, notes)
