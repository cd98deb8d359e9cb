"""The blocks of a CIF file: encodings, spellings of tags, and kinds of files that are not read."""

from __future__ import annotations

import codecs
import re
from dataclasses import dataclass, field

import gemmi

from ...provenance import DROPPED, OTHER, Note
from ...refusal import Refused

# A tag of which a second value could be meant.
OF_CONCERN = re.compile(r"_(cell_(length|angle)|symmetry|space_group|atom_site|chemical_formula_sum)", re.IGNORECASE)
# Tags with a dot, as in the dictionaries of DDLm and mmCIF: _cell.length_a is _cell_length_a.
DOTTED = re.compile(r"(_(?<!\S_)(?:cell|symmetry|space_group|atom_site|chemical_formula)[A-Za-z_]*)\.(?=[A-Za-z])",
                    re.IGNORECASE)
# What publishers set for a minus sign, and for a blank. The names of groups have no other sign: P -1 is no P 1.
PLAIN = dict.fromkeys(map(ord, "\u2010\u2011\u2012\u2013\u2014\u2212\ufe63\uff0d"), "-") | {0xa0: " "}
TRIPLE = re.compile(r"(\"\"\"|''')(.*?)\1", re.DOTALL)
STRANGE = re.compile(r"[^\x01-\x7f]")
# Structures that have no space group of the usual kind, by tags that only they have.
MAGNETIC = re.compile(r"_(space_group_symop_magn|symmetry_equiv_pos_as_xyz_magn|space_group_magn"
                      r"|space_group_symop\.magn|parent_space_group)", re.IGNORECASE)
OTHER_KINDS = (
    (re.compile(r"_(space_group_ssg|space_group_symop_ssg|cell_modulation_dimension|cell_wave_vector"
                r"|atom_site_fourier_wave|atom_site_displace_fourier)", re.IGNORECASE),
     "a modulated structure, with a superspace group"),
)


@dataclass
class Block:
    """A block that has atoms; the name is the file's, with the block's where there are several."""

    name: str
    cif: gemmi.cif.Block
    notes: list[Note] = field(default_factory=list)


def blocks_of(content: bytes, stem: str) -> list[Block]:
    """The blocks of a file that have atoms."""
    text = text_of_file(content)
    document = gemmi.cif.Document()
    try:
        document.parse_string(DOTTED.sub(r"\1_", _in_text_fields(text)))
    except (ValueError, RuntimeError) as error:
        version = " (CIF 2.0)" if _is_version_2(text) else ""
        raise Refused(f"no CIF{version}: {str(error).replace('string:', 'line ')}") from error
    blocks = [block for block in document if _has_places(block)]
    if not blocks:
        raise Refused("no atoms with fractional coordinates")
    named = _named(blocks, stem, text)
    named[0].notes += [Note(DROPPED, f"the block {block.name} has atoms without coordinates, and is passed over")
                       for block in document if _has_tag(block, "_atom_site_label") and not _has_places(block)]
    return named


def _is_version_2(text: str) -> bool:
    return text.lstrip().startswith("#\\#CIF_2.0")


def _in_text_fields(text: str) -> str:
    """The text with what CIF 2.0 has in three quotes as a text field, which older readers know."""
    return TRIPLE.sub(lambda found: f"\n;{found[2]}\n;\n", text) if _is_version_2(text) else text


def text_of_file(content: bytes) -> str:
    """The text without a byte order mark, with the line ends, minus sign and blank of this system, and ~ for what a CIF
    file may not have: no name of a group and no operation has that."""
    text = _decoded(content).replace("\r\n", "\n").replace("\r", "\n")
    return STRANGE.sub("~", text.translate(PLAIN))


def _decoded(content: bytes) -> str:
    """The text without a byte order mark, as UTF-8, or else as Windows has it."""
    plain = content.removeprefix(codecs.BOM_UTF8)
    try:
        return plain.decode()
    except UnicodeDecodeError:
        return plain.decode("cp1252", errors="replace")


def is_magnetic(block: gemmi.cif.Block) -> bool:
    """Whether a block has a tag that only magnetic structures have."""
    tags = (tag for item in block for tag in ([item.pair[0]] if item.pair else item.loop.tags if item.loop else []))
    return any(map(MAGNETIC.match, tags))


def _has_places(block: gemmi.cif.Block) -> bool:
    return _has_tag(block, "_atom_site_fract_x") or _has_tag(block, "_atom_site_Cartn_x")


def _has_tag(block: gemmi.cif.Block, tag: str) -> bool:
    return bool(block.find_values(tag))


def _lines_of_block(text: str, name: str) -> list[int]:
    """The lines that open a block of a name, in letters of any size."""
    opening = f"data_{name}".lower()
    return [number for number, line in enumerate(text.splitlines(), 1)
            if line[:5].lower() == "data_" and line.split()[0].lower() == opening]


def _named(blocks: list[gemmi.cif.Block], stem: str, text: str) -> list[Block]:
    """The blocks with names of their own; a name that stands twice is reported, with its lines."""
    named, seen = [], set()
    for number, block in enumerate(blocks, 1):
        name = stem if len(blocks) == 1 else f"{stem} {block.name}"
        notes = []
        if name in seen:
            name = f"{name} ({number})"
            where = ", ".join(map(str, _lines_of_block(text, block.name)))
            notes.append(Note(OTHER, f"several blocks are named {block.name}, in lines {where}"))
        seen.add(name)
        named.append(Block(name, block, notes))
    return named


def check_block(block: Block) -> None:
    """Raises Refused where the block is of a kind that is not read, or has a tag of concern
    twice; another tag that stands twice is reported."""
    lines: dict[str, int] = {}
    for item in block.cif:
        tags = [item.pair[0]] if item.pair else item.loop.tags if item.loop else []
        plain = [tag.lower() for tag in tags]
        for tag, name in zip(tags, plain):
            _check_kind(tag)
            first = lines.setdefault(name, item.line_number)
            in_one_loop = len(tags) > 1 and plain.count(name) > 1
            if in_one_loop or first != item.line_number:
                told = f"the tag {tag} stands twice, in " + (
                    f"the loop of line {first}" if in_one_loop else f"lines {first} and {item.line_number}")
                if OF_CONCERN.match(tag):
                    raise Refused(told)
                block.notes.append(Note(OTHER, told))
    if is_magnetic(block.cif):
        block.notes.append(Note(OTHER, "a magnetic structure: the average is read, without moments"))


def _check_kind(tag: str) -> None:
    for pattern, kind in OTHER_KINDS:
        if pattern.match(tag):
            raise Refused(f"{kind} ({tag}): such files are not read")
