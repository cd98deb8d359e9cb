"""A text of blocks, line by line, with each block written as what the program reads."""

from __future__ import annotations

from collections.abc import Callable, Iterator
from dataclasses import dataclass, field
from typing import BinaryIO

from ..net import Net
from ..provenance import DROPPED, REFUSED, Note, notes_of
from ..refusal import Refused
from ..texts.graph_text import plain
from ..texts.net_text import ALONE, BYTE_ORDER_MARK, ends_stray, first_word, is_stray, opens_block, told_of_stray

from .key_lines import net_of_item
from .periodic_graph import rewritten
from .sections import are_numbers, sections_of
from .tokens import OF_GRAPH, OF_PLACES, decoded, number_of, shown, tokens_of

MOST_LINES = 40_000
MOST_BYTES = 1 << 22
LONGEST_LINE = 1 << 20
NO_END = "there is no END"
MORE_WORDS = "more words than {} stand in the line that opens the block"
TOO_LONG = f"more than {MOST_LINES} lines, {MOST_BYTES} bytes, or {LONGEST_LINE} bytes in a line"
USED = {"CRYSTAL": ("NAME", "GROUP", "OPERATION", "CELL", "NODE", "EDGE"),  # the keywords whose rows make the net
        "TILING": ("NAME", "GROUP", "OPERATION", "CELL", "NODE", "FACE"),
        "NET": ("NAME", "GROUP", "OPERATION", "CELL", "NODE", "EDGE")}
KINDS = {b"CRYSTAL": "CRYSTAL", b"NET": "NET", b"TILING": "TILING", b"PERIODIC_GRAPH": "PERIODIC_GRAPH",
         b"KEY": "key line", b"ID": "key line"}


@dataclass
class Block:
    """The lines of a block, as far as they are read."""

    kind: str
    line: int  # of the file, that opens it
    lines: list[bytes] = field(default_factory=list)
    size: int = 0
    is_stray: bool = False  # whether its first line has more than the word of its kind

    @property
    def numbered(self) -> list[tuple[int, str]]:
        return [(self.line + k, decoded(line)) for k, line in enumerate(self.lines)]

    def add(self, line: bytes) -> None:
        self.lines.append(line)
        self.size += len(line)

    @property
    def name(self) -> str:
        """The name that the block has, where it can be read."""
        is_before_rows = True
        for _, text in self.numbered:
            try:
                tokens = tokens_of(text)
            except Refused:
                continue
            keyword = tokens[0].keyword if tokens else ""
            if keyword == "NAME" and (is_before_rows or len(tokens) < 4 or not are_numbers(tokens[2:])):
                return " ".join(token.text for token in tokens[1:])
            is_before_rows = is_before_rows and keyword not in ("NODE", "EDGE")
        return ""


def lines_of(stream: BinaryIO) -> Iterator[tuple[bytes, bool]]:
    """The lines of a stream, long ones in pieces, and whether a piece goes on with the line before."""
    is_rest = False
    while line := stream.readline(LONGEST_LINE + 1):
        yield line, is_rest
        is_rest = not line.endswith(b"\n")


class Converter:
    """Writes a text with its blocks turned into graphs. What a reader should know of a block, and why one is refused,
    is reported in one line each, with the kind of the note."""

    def __init__(self, source: str, write: Callable[[bytes], object], tell: Callable[[str, str], None]) -> None:
        self.source, self.write, self._tell = source, write, tell
        self.number = 0
        self.block: Block | None = None
        self.is_passing = False   # within a block that is written as it is
        self.stray: Block | None = None  # that one, where a line opens it that opens none that is read
        self.is_draining = False  # within a block that is refused already
        self.is_after_item = False
        self.turned = self.refused = 0

    def convert(self, stream: BinaryIO) -> None:
        """Reads a stream to its end."""
        for line, is_rest in lines_of(stream):
            self.push(line, is_rest)
        self.finish()

    def push(self, line: bytes, is_rest: bool = False) -> None:
        """Takes one line, or the rest of a long one."""
        if not is_rest:
            self.number += 1
            if self.number == 1:
                line = line.removeprefix(BYTE_ORDER_MARK)
        first = b"" if is_rest else first_word(line)
        is_end = first == b"END"
        if self.is_draining:
            self.write(line if is_rest else b"# " + line)
            self.is_draining = not is_end
        elif self.block is None:
            self._outside(line, first)
        elif self.block.is_stray and ends_stray(line, first, self.block.kind.encode()):
            block, self.block = self.block, None
            self._refuse(block, Refused(MORE_WORDS.format(block.kind), block.line))
            self._outside(line, first)
        else:
            self._inside(self.block, line, is_end)

    def _outside(self, line: bytes, first: bytes) -> None:
        """Takes a line that stands in no block that is turned; `first` is its first word, empty where it has none."""
        if self.stray is not None and ends_stray(line, first, first_word(self.stray.lines[0])):
            self._leave_stray(self.number - 1)
            self.write(b"END\n")  # so that the program reads the block that begins
        kind = "" if self.is_passing else KINDS.get(first, "")
        if kind:
            self.is_after_item = kind == "key line"
            self.block = Block(kind, self.number, is_stray=is_stray(line, first))
            self._inside(self.block, line, False)
            return
        is_opener = not self.is_passing and first != b"" and opens_block(first, self.is_after_item)
        is_beside = not (self.is_passing or is_opener) and first not in (b"", b"END")  # of an item, and no block for the program
        self.write(b"# " * is_beside + line)
        if self.is_passing and first == b"END":
            self._leave_stray(self.number)
        elif is_opener:
            self.is_passing, self.is_after_item = True, False
            self.stray = Block("", self.number, [line])

    def _leave_stray(self, last: int) -> None:
        """Ends what is written as it is; where no block that is read was opened there, it is reported, with its last line."""
        block, self.stray, self.is_passing = self.stray, None, False
        if block is not None:
            self.refused += 1
            self.tell(block, Note(REFUSED, f"refused: {told_of_stray(block.line, last - block.line + 1, block.lines[0])}"))

    def _inside(self, block: Block, line: bytes, is_end: bool) -> None:
        block.add(line)
        if is_end:
            self.block = None
            self._turn(block)
        elif len(line) > LONGEST_LINE or len(block.lines) > MOST_LINES or block.size > MOST_BYTES:
            self.block = None
            if block.kind == "PERIODIC_GRAPH":
                self.is_passing = True
                self.stay(block, TOO_LONG)
            else:
                self.is_draining = True
                self._refuse(block, Refused(TOO_LONG, self.number))

    def finish(self) -> None:
        """Takes the end of the text."""
        block, self.block = self.block, None
        if block is not None and block.kind == "PERIODIC_GRAPH":
            self.stay(block, NO_END)
        elif block is not None:
            self._refuse(block, Refused(NO_END))
        self._leave_stray(self.number)

    def stay(self, block: Block, reason: str) -> None:
        """Takes a block PERIODIC_GRAPH that stays as it is for a reason of which the program tells, too."""
        self.write(b"".join(block.lines))

    def _turn(self, block: Block) -> None:
        """Writes the graph of a whole block, or the block as a comment."""
        notes: list[str | Note] = []
        try:
            text = text_of_block(block, notes)
        except Refused as reason:
            self._tell_notes(block, notes)
            self._refuse(block, reason)
            return
        except ModuleNotFoundError:  # of a package, without which no such block is read
            raise
        except Exception as fault:  # of this tool, or of a library: the next block may still be read
            self._refuse(block, Refused(f"the reading failed: {type(fault).__name__} {fault}"))
            return
        self._tell_notes(block, notes)
        self.turned += 1
        self.put(block, text)

    def put(self, block: Block, text: bytes) -> None:
        """Writes what a block was turned into."""
        self.write(text)

    def _refuse(self, block: Block, reason: Refused) -> None:
        self.refused += 1
        place = f"line {reason.line}: " if reason.line else ""
        text = f"refused: {place}{' '.join(reason.reason.split())}"
        self.tell(block, Note(REFUSED, text))
        self.write(f"# {text}\n".encode(errors="replace"))
        self.write(b"".join(b"# " + line for line in block.lines))
        if not block.lines[-1].endswith(b"\n") and not self.is_draining:
            self.write(b"\n")

    def _tell_notes(self, block: Block, notes: list[str | Note]) -> None:
        for note in notes_of(notes):
            self.tell(block, note)

    def tell(self, block: Block, note: Note) -> None:
        name = shown(block.name, 60).strip("'")
        self._tell(f'{self.source}: line {block.line} "{name}": {note.text}', note.kind)


def text_of_block(block: Block, notes: list[str | Note]) -> bytes:
    """What is written of a block; refused by the line where it gives no net."""
    return _lines_as_read(block, notes) if block.kind == "PERIODIC_GRAPH" else net_of_block(block, notes).block


def net_of_block(block: Block, notes: list[str | Note]) -> Net:
    """The net of a block, with a comment that tells how it was made; of a PERIODIC_GRAPH its lines, as far as the
    program reads them."""
    if block.kind == "PERIODIC_GRAPH":
        return Net._of(_lines_as_read(block, notes), "")
    _check_end(block, notes)
    net = _net_made_of(block, notes)
    return net.commented(f"line {block.line}: {block.kind}, {plain(net.provenance.made)}")


def _lines_as_read(block: Block, notes: list[str | Note]) -> bytes:
    """The lines of a PERIODIC_GRAPH, as far as the program reads them. A block that begins before its END is reported, as the
    program takes it for a part of this one, and refuses both."""
    _check_end(block, notes)
    inside = next((k for k, line in enumerate(block.lines) if k and ALONE.fullmatch(line)), 0)
    if inside:
        word = first_word(block.lines[inside]).decode()
        notes.append(Note(DROPPED, f"line {block.line + inside}: {word} begins before the END of this block: both are read as one"))
    return b"".join(rewritten(block.lines, notes, block.line))


def _check_end(block: Block, notes: list[str | Note]) -> None:
    """Refuses a row that ends the block, as that of a vertex END without quotes; tells of other words behind END."""
    line, text = block.numbered[-1]
    rest = tokens_of(text, line)[1:]
    if any("," in token.text or number_of(token.text) is not None for token in rest):
        raise Refused("a row begins with END, which ends the block: a vertex of this name is to stand in quotes", line)
    if rest:
        words = " ".join(token.text for token in rest)
        notes.append(Note(DROPPED, f"line {line}: behind END {shown(words)} is passed over"))


def _net_made_of(block: Block, notes: list[str | Note]) -> Net:
    numbered = block.numbered
    if block.kind == "key line":
        return net_of_item(numbered[:-1], notes)
    if len(tokens_of(numbered[0][1], block.line)) > 1:
        raise Refused(MORE_WORDS.format(block.kind), block.line)
    from .crystal import Fields, crystal_of  # whose packages no text of other blocks needs
    from .expansion import net_of_crystal_block
    from .stated import check_stated
    from .symbolic import symbolic_net
    fields = Fields(sections_of(numbered[1:-1]))
    notes += fields.dropped(USED[block.kind], OF_GRAPH if block.kind == "NET" else OF_PLACES)
    if block.kind == "NET":
        net = symbolic_net(fields)
        notes += check_stated((row for part in fields.passed for row in part.content), net.graph)
        return net
    return net_of_crystal_block(crystal_of(fields, block.kind == "TILING", notes))
