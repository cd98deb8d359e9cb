"""The texts around net_tool: files of blocks (.cgd) or of key lines (.arc), and the reports on them.

Both are handled as bytes, as the program handles them, since a name may hold nearly any.
What opens a block, what ends it, and what a report says, stands in docs/FORMATS.md. A report is
read whole and line by line: one that is cut, or changed in its form, is refused with its line."""

from __future__ import annotations

import re
from collections.abc import Iterable, Iterator
from dataclasses import dataclass, field
from io import BytesIO

from ..files import told_encoding
from ..kinds import kind_of

MOST_BLOCKS = 4_096
MOST_BYTES = 16_777_216
MOST_VERTICES = 512
MOST_EDGES = 4_096
MOST_SHELLS = 10
GREATEST_SHIFT = 500  # of a part of a shift, in absolute value
WIDEST = 1 << 60  # no position of a report is as wide

# the first token of a line, where it has one: a word or number, or else any other byte
FIRST_TOKEN = re.compile(rb'[ \t\v\f\r]*(?:([^\x00-\x20"#\x7f]+)|([^#\n \t\v\f\r]))')
OPENERS = (b"CRYSTAL", b"NET", b"TILING", b"PERIODIC_GRAPH")  # of the blocks that are read, alone in their lines
ALONE = re.compile(rb"[ \t\v\f\r]*(?:%s)[ \t\v\f\r]*(?:#[^\n]*)?\n?" % b"|".join(OPENERS), re.IGNORECASE)
KEY_LINE = re.compile(rb"[ \t\v\f\r]*KEY[ \t\v\f\r]+[+-]?\d", re.IGNORECASE)
NUMBER_FIRST = re.compile(rb"[ \t\v\f\r]*[+-]?\d")
ITEM_WORDS = (b"KEY", b"ID")  # begin an item of key lines
KEY_IS_ONE_LINE = "numbers begin a line: a key is one line"
BESIDE_ITEMS = (b"VERSION", b"CHECKSUM")  # of an item, where they stand after it
BYTE_ORDER_MARK = b"\xef\xbb\xbf"
OTHER_TEXTS = {b"NET_ARCHIVE": "an archive; net_tool convert writes its nets as blocks",
               b"NET_MAPS": "a text of maps; net_tool verify reads it"}

LIST = rb"-?\d+(?: -?\d+)*"
VERTEX = rb'(?:"[^"\n]*"|[+-]?\d+)'
COUNT = rb"(\d{1,18})"
HEADER = re.compile(rb'net %s line %s(?: "([^"\n]*)")?\n' % (COUNT, COUNT))
GRAPH = re.compile(rb"d=([23]) vertices=%s edges=%s repeats=%s" % (COUNT, COUNT, COUNT))
AT = re.compile(rb"(%s) (%s)" % (VERTEX, LIST))
MALFORMED = re.compile(rb"line=%s (\d+ [A-Za-z]+)" % COUNT)
REASONS = tuple(re.compile(form) for form in (
    rb"1 Disconnected q=\d+ c=" + LIST + rb" h=" + LIST,
    rb"2 Degenerate q=0 c=" + LIST + rb" h=" + LIST,
    rb"4 WidePlacement denominator u=" + VERTEX + rb" c=\d+ value=\d+",
    rb"4 WidePlacement arc u=" + VERTEX + rb" v=" + VERTEX + rb" s=" + LIST + rb" c=\d+ value=-?\d+",
    rb"4 WidePlacement beyond part=\d+ k=\d+ i=\d+ j=\d+ c=\d+",
    rb"5 Collision u=" + VERTEX + rb" v=" + VERTEX + rb" t=" + LIST,
    rb"6 TooMuch starts=\d+ counted=\d+",
    rb"7 NoModulus pivots=" + LIST))


@dataclass
class Chunk:
    """A block with the lines before it that belong to no other; or what follows the last block."""

    first_line: int         # counted from 1
    opening_line: int = 0   # the line that opens the block; 0 where there is none
    lines: list[bytes] = field(default_factory=list)
    is_item: bool = False   # whether it is an item of key lines
    is_stray: bool = False  # whether the line that opens it opens no block that is read

    @property
    def size(self) -> int:
        return sum(map(len, self.lines))

    @property
    def block_lines(self) -> list[bytes]:
        """The lines of the block alone."""
        return self.lines[self.opening_line - self.first_line:]


def opens_block(word: bytes, after_item: bool) -> bool:
    """Whether a line outside of all blocks opens one, or an item, by its first token in capital letters. After an item
    what Systre writes beside a key line is none."""
    return word != b"END" and not (after_item and word in BESIDE_ITEMS)


def is_stray(line: bytes, word: bytes) -> bool:
    """Whether a line that stands outside of all blocks opens none that is read, by its first word in capital letters:
    no item of key lines begins, and it is not the kind of a block alone."""
    return word not in ITEM_WORDS and not ALONE.fullmatch(line)


def ends_stray(line: bytes, word: bytes, opening: bytes) -> bool:
    """Whether a line opens a block or an item though a stray one, whose first word is given, has no END yet. In an
    archive and in a report a key is no item."""
    if word in OPENERS:
        return ALONE.fullmatch(line) is not None
    return word == b"KEY" and KEY_LINE.match(line) is not None and opening not in (*OPENERS, *OTHER_TEXTS, b"ENTRY")


def chunk_at(line: int, text: bytes) -> Chunk:
    """The piece that was cut out of a longer text, from the line on that opens its block or item."""
    lines = list(BytesIO(text))
    word = first_word(lines[0])
    return Chunk(line, line, lines, word in ITEM_WORDS, is_stray(lines[0], word))


def told_of_stray(line: int, count: int, opening: bytes) -> str:
    """The reason why a block gives no net whose first line, of so many, opens none that is read. The first line of a file
    may tell what that is."""
    kind = kind_of(opening) if line == 1 else ""
    if kind and first_word(opening) not in OTHER_TEXTS:
        return f"it is {kind}"
    words = opening.strip()[:40].decode(errors="replace")
    return f"a block {words!r} is not read" + f", up to line {line + count - 1}" * (count > 1)


def chunks_of(lines: Iterable[bytes], after_item: bool = False) -> Iterator[Chunk]:
    """The text in pieces of one block or item each, so that all of them joined are the text. Blocks and items may follow
    each other in any order: the first token of each decides. A stray line lasts as a block does, but up to a line before
    its END that opens a block. Of a text that is cut out of a longer one, whether it follows an item is to be given."""
    chunk, opening = Chunk(1), b""
    for number, line in enumerate(lines, start=1):
        plain = line.removeprefix(BYTE_ORDER_MARK) if number == 1 else line
        word = first_word(plain)
        if chunk.is_stray and word and ends_stray(plain, word, opening):
            yield chunk
            chunk, after_item = Chunk(number), False
        chunk.lines.append(line)
        if not word:
            continue
        if not chunk.opening_line:
            if opens_block(word, after_item):
                chunk.opening_line, chunk.is_item, opening = number, word in ITEM_WORDS, word
                chunk.is_stray = is_stray(plain, word)
        elif word == b"END":
            yield chunk
            after_item = chunk.is_item
            chunk = Chunk(number + 1)
    if chunk.lines:
        yield chunk


def chunks_as_read(lines: Iterable[bytes], is_items: bool | None = None) -> Iterator[Chunk]:
    """The text in pieces as one command of the program counts them. Where the first token is `key` or `id` it is one of
    key lines, which `union` reads, and no other lines begin an item; else, and for all other commands, each first token
    opens a block."""
    chunk = Chunk(1)
    for number, line in enumerate(lines, start=1):
        chunk.lines.append(line)
        word = first_word(line)
        if not word:
            continue
        if is_items is None:
            is_items = word in ITEM_WORDS
        if word != b"END":
            if not is_items or word in ITEM_WORDS:
                chunk.opening_line = chunk.opening_line or number
        elif chunk.opening_line:
            yield chunk
            chunk = Chunk(number + 1)
    if chunk.lines:
        yield chunk


def continued_key(chunk: Chunk) -> int:
    """The line of an item that a number begins, as where its key goes on there; 0 where there is none, or it is no item.
    `union` passes over such a line, and so reads another net."""
    lines = chunk.block_lines if chunk.opening_line else []
    if not lines or first_word(lines[0]) not in ITEM_WORDS:
        return 0
    return next((number for number, line in enumerate(lines, start=chunk.opening_line) if NUMBER_FIRST.match(line)), 0)


def first_word(line: bytes) -> bytes:
    """The first word of a line in capital letters, another first token as it is, or nothing."""
    match = FIRST_TOKEN.match(line)
    return (match[1] or match[2]).upper() if match else b""


class NoReport(Exception):
    """The text has not the form that is asked for; the first bad line is named."""


def key_numbers(text: bytes) -> list[int]:
    """The numbers of a key: dimension, classes, scale, and rows of two classes and a vector.

    ValueError where it has another form, as where it was cut within a row."""
    numbers = _numbers(text)
    dimension, classes, scale = numbers[:3]
    if dimension not in (2, 3) or not 1 <= classes <= MOST_VERTICES or scale < 1:
        raise ValueError("a key of another form")
    size = dimension + 2
    if len(numbers) == 3 or (len(numbers) - 3) % size:
        raise ValueError("a key that is cut")
    tails, heads = numbers[3::size], numbers[4::size]
    if tails != sorted(tails) or min(tails) != 1 or max(heads) > classes or any(map(int.__gt__, tails, heads)):
        raise ValueError("a key of another form")
    return numbers


@dataclass
class NetReport:
    """What a report says of one block. Fields that it does not speak of are empty."""

    number: int
    line: int
    name: bytes
    outcome: bytes = b"accepted"  # or as `refused 5 Collision`, `malformed 8 TooManyVertices`
    told: bytes = b""             # the whole line of a block that was not accepted
    graph: dict[bytes, int] = field(default_factory=dict)  # d, vertices, edges, repeats
    scale: int = 0                # D0
    positions: list[tuple[bytes, list[int]]] = field(default_factory=list)
    classes: int = 0
    rows: int = 0                 # edges of the primitive graph
    basis: list[list[int]] = field(default_factory=list)
    edges: list[list[int]] = field(default_factory=list)  # of the primitive graph
    key: bytes = b""
    shells: list[list[int]] = field(default_factory=list)
    entries: int = 0              # of the archive, of which it is the net
    names: list[bytes] = field(default_factory=list)
    command: bytes = b""          # that reports so, where it can be reported: check, place, key, identify
    following: tuple[bytes, ...] = (b"unsupported", b"malformed", b"graph")  # first words; empty: the end

    def read(self, line: bytes) -> None:
        """Takes the next line; ValueError where it may not stand there, or is cut."""
        word, _, rest = line.partition(b" ")
        if word == b"connected\n":
            word, rest = b"connected", b"\n"
        if not word or word not in self.following or not rest.endswith(b"\n"):
            raise ValueError("it may not stand there, or is cut")
        self.following = getattr(self, "_" + word.decode())(rest[:-1])

    @property
    def is_whole(self) -> bool:
        return b"" in self.following

    def _unsupported(self, rest: bytes) -> tuple[bytes, ...]:
        return self._not_accepted(b"unsupported", rest, b"unsupported", rest != b"")

    def _malformed(self, rest: bytes) -> tuple[bytes, ...]:
        found = MALFORMED.fullmatch(rest)
        return self._not_accepted(b"malformed", rest, b"malformed " + found[2] if found else b"",
                                  found is not None and int(found[1]) >= self.line)

    def _refused(self, rest: bytes) -> tuple[bytes, ...]:
        return self._not_accepted(b"refused", rest, b"refused " + b" ".join(rest.split()[:2]),
                                  any(reason.fullmatch(rest) for reason in REASONS))

    def _not_accepted(self, word: bytes, rest: bytes, outcome: bytes, is_right: bool) -> tuple[bytes, ...]:
        _want(is_right)
        self.told, self.outcome = word + b" " + rest, outcome
        return (b"",)

    def _graph(self, rest: bytes) -> tuple[bytes, ...]:
        found = _matched(GRAPH.fullmatch(rest))
        self.graph = dict(zip((b"d", b"vertices", b"edges", b"repeats"), map(int, found.groups())))
        _want(1 <= self.graph[b"vertices"] <= MOST_VERTICES and 1 <= self.graph[b"edges"] <= MOST_EDGES)
        return b"refused", b"connected", b"placement", b"key"

    def _connected(self, rest: bytes) -> tuple[bytes, ...]:
        _want(not rest)
        self.command = b"check"
        return (b"",)

    def _placement(self, rest: bytes) -> tuple[bytes, ...]:
        self.scale = _counts(rest, b"D0")[0]
        self.command = b"place"
        return (b"at",)

    def _at(self, rest: bytes) -> tuple[bytes, ...]:
        found = _matched(AT.fullmatch(rest))
        self.positions.append((found[1], self._vector(found[2])))
        return (b"at",) if len(self.positions) < self.graph[b"vertices"] else (b"primitive", b"")

    def _primitive(self, rest: bytes) -> tuple[bytes, ...]:
        self.classes, self.rows = _counts(rest, b"vertices", b"edges")
        _want(self.classes <= self.graph[b"vertices"] and self.rows <= self.graph[b"edges"])
        self.command = b"identify"
        return (b"basis",)

    def _basis(self, rest: bytes) -> tuple[bytes, ...]:
        row, place = self._vector(rest), len(self.basis)
        _want(not any(row[:place]) and row[place] > 0)
        self.basis.append(row)
        return (b"basis",) if len(self.basis) < self.graph[b"d"] else (b"edge",)

    def _edge(self, rest: bytes) -> tuple[bytes, ...]:
        tail, head, *shift = row = _numbers(rest)
        _want(1 <= tail <= head <= self.classes and len(shift) == self.graph[b"d"] and max(abs(part) for part in shift) < WIDEST)
        self.edges.append(row)
        return (b"edge",) if len(self.edges) < self.rows else (b"key",)

    def _key(self, rest: bytes) -> tuple[bytes, ...]:
        numbers = key_numbers(rest)
        rows = (len(numbers) - 3) // (numbers[0] + 2)
        _want(numbers[0] == self.graph[b"d"])
        if self.command:
            _want(numbers[1] == self.classes and rows == self.rows)
        _want(numbers[1] <= self.graph[b"vertices"] and rows <= self.graph[b"edges"])
        self.key = rest
        if self.command:
            return (b"shells",)
        self.command = b"key"
        return (b"",)

    def _shells(self, rest: bytes) -> tuple[bytes, ...]:
        number, *shells = _numbers(rest)
        self.shells.append(shells)
        _want(number == len(self.shells) and len(shells) <= MOST_SHELLS and all(shell > 0 for shell in shells))
        return (b"shells",) if number < self.classes else (b"names",)

    def _names(self, rest: bytes) -> tuple[bytes, ...]:
        _want(re.fullmatch(rb"\d+", rest) is not None)
        self.entries = int(rest)
        return (b"name",) if self.entries else (b"",)

    def _name(self, rest: bytes) -> tuple[bytes, ...]:
        _want(re.fullmatch(rb'"[^"]+"', rest) is not None)
        self.names.append(rest[1:-1])
        return (b"name",) if len(self.names) < self.entries else (b"",)

    def _vector(self, text: bytes) -> list[int]:
        vector = _numbers(text)
        _want(len(vector) == self.graph[b"d"] and max(abs(part) for part in vector) < WIDEST)
        return vector


def _want(is_right: bool) -> None:
    if not is_right:
        raise ValueError("it has not the form of a line that may stand there")


def _matched(found: re.Match[bytes] | None) -> re.Match[bytes]:
    if found is None:
        raise ValueError("it has not the form of a line that may stand there")
    return found


def _numbers(text: bytes) -> list[int]:
    if text.translate(None, b"0123456789- "):
        raise ValueError("other signs than those of whole numbers")
    return [int(part) for part in text.split(b" ")]


def _counts(text: bytes, *names: bytes) -> list[int]:
    """The numbers from 1 on of a line `NAME=NUMBER NAME=NUMBER`."""
    found = _matched(re.fullmatch(b" ".join(name + rb"=([1-9]\d*)" for name in names), text))
    return [int(number) for number in found.groups()]


def nets_of_report(lines: Iterable[bytes]) -> Iterator[NetReport]:
    """The nets that a report of check, place, key or identify speaks of, in order, or those of
    several reports of one command, one after the other.

    NoReport with the number of the first line that may not stand where it stands, also after the
    last one where the text is cut: a net that is given is whole."""
    net, command, count = None, b"", 0
    number = line_number = 0  # of the last header
    for count, line in enumerate(lines, start=1):
        header = HEADER.fullmatch(line)
        if header is None:
            _read(net, line, count)
            continue
        if net:
            command = _ended(net, command, count)
            yield net
        net = NetReport(int(header[1]), int(header[2]), header[3] or b"")
        if not (net.number == number + 1 and net.line > line_number) and not (net.number == 1 and net.line >= 1):
            raise NoReport(f"line {count}: net {net.number} at line {net.line} does not follow: {line[:60]!r}")
        number, line_number = net.number, net.line
    if net:
        _ended(net, command, count + 1)
        yield net


def _read(net: NetReport | None, line: bytes, count: int) -> None:
    if net is None:
        raise NoReport(f"line {count}: this begins no report of check, place, key or identify: {line[:60]!r}"
                       + told_encoding(line))
    try:
        net.read(line)
    except ValueError:
        told = f"{line[:60]!r} may not stand there, or is cut"
        raise NoReport(f"line {count}: no report of check, place, key or identify: {told}") from None


def _ended(net: NetReport, command: bytes, count: int) -> bytes:
    """The command of the report, where it is known."""
    if not net.is_whole:
        raise NoReport(f"line {count}: the report on net {net.number} is cut before this line")
    if command and net.command not in (b"", command):
        told = f"net {net.number} is reported by {net.command.decode()}, others by {command.decode()}"
        raise NoReport(f"line {count}: {told}")
    return command or net.command
