"""How a net was made of a structure or of a block: what travels with the net to its answer."""

from __future__ import annotations

from collections.abc import Iterable
from dataclasses import asdict, dataclass, replace
from typing import Any, NamedTuple

SYMMETRY = "symmetry"      # where it was taken from
LEFT_OUT = "left out"      # atoms and pieces that no net has
DISORDER = "disorder"      # which of several alternatives was taken
CONVENTION = "convention"  # what became vertices
DOUBT = "doubt"            # where another reading gives another net
DROPPED = "dropped"        # rows and parts of a text that are passed over
COPIES = "copies"          # of how many nets alike in the cell one is given
WOVEN = "interpenetration"  # how interpenetrating nets alike are carried into each other
OTHER = "other"
REFUSED = "refused"        # why there is no net
# what is reported of a net or a file in any case: what may make it another net, and what it has not
TOLD = (REFUSED, DOUBT, DROPPED, LEFT_OUT, DISORDER, COPIES, WOVEN)
# of the components of a structure, by their dimension
KINDS = ("molecule", "rod", "layer", "net in space")
PLURALS = ("molecules", "rods", "layers", "nets in space")


class Note(NamedTuple):
    """What a reader should know of a net or a file; the kind is one of the words above."""

    kind: str
    text: str


def notes_of(notes: Iterable[str | Note]) -> tuple[Note, ...]:
    """Notes, where some are texts alone."""
    return tuple(note if isinstance(note, Note) else Note(OTHER, note) for note in notes)


@dataclass(frozen=True)
class StructurePiece:
    """Pieces of a structure: their dimension, 0 for molecules and 1 for rods, how many of them a cell has, and what one
    of them is made of."""

    dimension: int
    count: int
    formula: str

    def __str__(self) -> str:
        return f"{self.count} {(PLURALS if self.count > 1 else KINDS)[self.dimension]} {self.formula}"


@dataclass(frozen=True)
class BuildingUnit:
    """What a vertex of a net stands for.

    vertex        its label
    formula       of the atoms, as `Zn4O(CO2)6`
    connectivity  the number of its edges
    atoms         their names in the structure"""

    vertex: str
    formula: str
    connectivity: int
    atoms: tuple[str, ...] = ()

    def __str__(self) -> str:
        return f"{self.vertex}: {self.formula}, {self.connectivity}-connected"


@dataclass(frozen=True)
class Interpenetration:
    """How the interpenetrating nets alike of a structure are carried into each other (V. A. Blatov, L. Carlucci, G. Ciani
    and D. M. Proserpio, CrystEngComm 6 (2004) 378). It is not proved.

    copies         Z, how many nets there are, with all translates
    translational  Zt, how many of them translations of the structure carry into each other
    by_operations  Zn, how many such families other operations of its space group carry into each other; Z = Zt Zn. It is 1
                   where translations suffice, and 0 where there is no class
    symbol         the class: Ia and Ib by translations alone, IIa and IIb by other operations alone, IIIa and IIIb by both.
                   a is where one generates all, b where several are needed. Empty where there is no class
    remark         why there is no class, or what it holds of; empty where it is that of the space group"""

    copies: int
    translational: int
    by_operations: int
    symbol: str = ""
    remark: str = ""

    def __str__(self) -> str:
        """The number of nets and their class, with Z = Zt x Zn where both are more than 1."""
        if not self.symbol:
            return f"{self.copies} interpenetrating nets, no class: {self.remark}"
        product = f", {self.translational} by translations times {self.by_operations} by other operations"
        return (f"{self.copies} interpenetrating nets, class {self.symbol}" + (f" {self.remark}" if self.remark else "")
                + (product if self.symbol.startswith("III") else ""))

    @classmethod
    def from_dict(cls, fields: dict[str, Any]) -> Interpenetration:
        """What `dataclasses.asdict` gave. KeyError, TypeError or ValueError where these are no such fields."""
        copies, translational, by_operations = (int(fields[name]) for name in ("copies", "translational", "by_operations"))
        return cls(copies, translational, by_operations, str(fields["symbol"]), str(fields["remark"]))


class GivenGroup(NamedTuple):
    """The group that a block gives its net: its name, and how many operations it has, one for each coset of its
    translations."""

    name: str
    order: int


def told_copies(copies: int, woven: Interpenetration | None) -> str:
    """Of how many interpenetrating nets alike one is given, with their class where that is known; empty where it is alone."""
    if copies < 2:
        return ""
    return f"one of {copies} interpenetrating copies" + (f", class {woven.symbol}" if woven and woven.symbol else "")


@dataclass(frozen=True)
class Provenance:
    """What is known of how a net was made. Whatever else a reader of structures finds out stands here, too.

    notes       what a reader of the net should know, with the doubts and what was left out among them, in order
    convention  what became its vertices, as `all-atoms`; empty where the net is of no structure
    made        of how many atoms, or by which group and edges; empty where the block was written out
    copies      how many nets alike are woven into each other in the structure, of which this is one
    line        of the text that it was read from, which opens its block; 0 where it is of no block
    components  the pieces of the structure that the net is of, molecules and rods among them
    units       what each vertex stands for; empty where the net is of no structure
    file        that it was read from, as it was named; empty where it is of no file
    block       of that file, as a CIF names it
    source      of several that were given: its key or its place; empty where one was given
    interpenetration  how the nets alike are carried into each other; None where it is of no interpenetrating nets
    group       that a block CRYSTAL or TILING gives; None if it is of no such block. The vertices are those of a primitive
                cell of this group"""

    notes: tuple[Note, ...] = ()
    convention: str = ""
    made: str = ""
    copies: int = 1
    line: int = 0
    components: tuple[StructurePiece, ...] = ()
    units: tuple[BuildingUnit, ...] = ()
    file: str = ""
    block: str = ""
    source: str = ""
    interpenetration: Interpenetration | None = None
    group: GivenGroup | None = None

    @classmethod
    def from_dict(cls, fields: dict[str, Any]) -> Provenance:
        """What `to_dict` gave. ValueError where these are no such fields."""
        try:
            notes = tuple(Note(str(kind), str(text)) for kind, text in fields["notes"])
            components = tuple(StructurePiece(int(part["dimension"]), int(part["count"]), str(part["formula"]))
                               for part in fields.get("components", ()))
            units = tuple(BuildingUnit(str(unit["vertex"]), str(unit["formula"]), int(unit["connectivity"]),
                                       tuple(map(str, unit["atoms"]))) for unit in fields.get("units", ()))
            woven, group = fields.get("interpenetration"), fields.get("group")
            return cls(notes, str(fields["convention"]), str(fields["made"]), int(fields["copies"]), int(fields["line"]),
                       components, units, str(fields.get("file", "")), str(fields.get("block", "")),
                       str(fields.get("source", "")), Interpenetration.from_dict(woven) if woven else None,
                       GivenGroup(str(group[0]), int(group[1])) if group else None)
        except (KeyError, IndexError, TypeError, AttributeError) as fault:
            raise ValueError(f"no provenance: {fault}") from None

    def to_dict(self) -> dict[str, Any]:
        """The fields as JSON has them, and beside the notes those that are doubts, and what was left out."""
        return {**asdict(self), "doubts": list(self.doubts), "left_out": list(self.left_out)}

    @property
    def texts(self) -> tuple[str, ...]:
        return tuple(note.text for note in self.notes)

    @property
    def told(self) -> tuple[str, ...]:
        """The notes that a command tells in any case."""
        return tuple(note.text for note in self.notes if note.kind in TOLD)

    @property
    def doubts(self) -> tuple[str, ...]:
        """The notes on where another reading gives another net."""
        return self._of_kind(DOUBT)

    @property
    def left_out(self) -> tuple[str, ...]:
        """The notes on atoms and pieces that the net has not."""
        return self._of_kind(LEFT_OUT)

    @property
    def remarks(self) -> tuple[str, ...]:
        """The notes that are no doubts and tell of nothing that was left out."""
        return tuple(note.text for note in self.notes if note.kind not in (DOUBT, LEFT_OUT))

    def _of_kind(self, kind: str) -> tuple[str, ...]:
        return tuple(note.text for note in self.notes if note.kind == kind)

    def of_components(self, components: Iterable[StructurePiece]) -> Provenance:
        """The same of a structure with these pieces."""
        return replace(self, components=tuple(components))

    def of_interpenetration(self, woven: Interpenetration | None) -> Provenance:
        """The same of a net of nets that interpenetrate in this way."""
        return replace(self, interpenetration=woven)

    def at_line(self, line: int) -> Provenance:
        """The same of a net whose block opens at this line."""
        return replace(self, line=line)

    def read_from(self, file: str = "", block: str = "", source: str = "") -> Provenance:
        """The same of a net of this file, block and source; what is empty stays as it is."""
        return replace(self, file=file or self.file, block=block or self.block, source=source or self.source)

    def noted(self, before: Iterable[Note] = (), after: Iterable[Note] = ()) -> Provenance:
        """The same with more notes before and after those that it has."""
        return replace(self, notes=(*before, *self.notes, *after))


def told_doubts(doubts: Iterable[str]) -> str:
    """Doubts at the end of a line; nothing where there are none."""
    texts = "; ".join(doubts)
    return f"; in doubt: {texts}" if texts else ""


def shorten(text: str, most: int = 100) -> str:
    return text if len(text) <= most else text[:most] + " .."
