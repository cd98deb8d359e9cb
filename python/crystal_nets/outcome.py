"""What became of a net: that it was answered, or why it was not, by values that are true of it."""

from __future__ import annotations

import re
from dataclasses import dataclass, field
from math import ceil

from .graph import Vertex
from .texts.graph_text import vertex_of
from .texts.net_text import LIST, VERTEX

Value = int | tuple[int, ...] | Vertex

WORDS = re.compile(rb"(refused|malformed) (?:line=(\d+) )?(\d+) ([A-Za-z]+)((?: .*)?)")
TIME_OVER = re.compile(r"no answer came within ([0-9.e+-]+) seconds")
VALUE = re.compile(rb" ([A-Za-z0-9]+)=(" + VERTEX + rb"(?= [a-z]+=|$)|" + LIST + rb")")


@dataclass(frozen=True)
class Outcome:
    """What became of a net.

    kind    `accepted`, `refused`, `malformed`, `unsupported`; `unreadable`, where a structure or a block gave no
            net before the program saw one; or `stopped`, where the time of a net was over, or what worked on it
            failed each time
    number  of a refusal or a fault, as docs/FORMATS.md has them; 0 where there is none
    name    its word, as `Collision`
    values  what is true of the net, as {'u': 'Si1', 'v': 'Si2', 't': (0, 0, 1)}: vertices, cells in lattice steps,
            and numbers. That they are true is proved for `refused` and `malformed`
    text    the line of the report, or the reason"""

    kind: str = "accepted"
    number: int = 0
    name: str = ""
    values: dict[str, Value] = field(default_factory=dict, hash=False)
    text: str = ""

    @property
    def accepted(self) -> bool:
        return self.kind == "accepted"

    def __str__(self) -> str:
        return self.text or self.kind


ACCEPTED = Outcome()


def unreadable(reason: str) -> Outcome:
    return Outcome("unreadable", text=reason)


def of_refusal(reason: str) -> Outcome:
    """The outcome of what gave no net for this reason: that its time was over, or another one."""
    found = TIME_OVER.fullmatch(reason)
    return stopped(float(found[1])) if found else unreadable(reason)


def stopped(seconds: float) -> Outcome:
    """The outcome of a net whose time was over."""
    return Outcome("stopped", ceil(seconds), "Seconds", text=f"no answer came within {seconds:g} seconds")


def failed(tries: int, reason: str) -> Outcome:
    """The outcome of a source whose work failed as often as it was tried, the last time for this reason."""
    return Outcome("stopped", tries, "Tries", text=f"{tries} tries failed: {reason}")


def outcome_of(line: bytes, lines_before: int = 0) -> Outcome:
    """The outcome of a line that begins with `refused`, `malformed` or `unsupported`. The lines before the block are
    taken off from the number of a line, so that the first line of the block is 1."""
    text = line.decode(errors="replace")
    found = WORDS.fullmatch(line)
    if found is None:
        return Outcome(text.partition(" ")[0], text=text)
    kind, at, number, name, rest = found.groups()
    values: dict[str, Value] = {}
    if at:
        values["line"] = int(at) - lines_before
        text = f"malformed line={values['line']} {number.decode()} {name.decode()}"
    word = rest.split()[0].decode() if rest.strip() and b"=" not in rest.split()[0] else ""
    if word:
        values["what"] = word
    for letter, value in VALUE.findall(rest):
        values[letter.decode()] = _value(letter, value)
    return Outcome(kind.decode(), int(number), name.decode(), values, text)


def _value(letter: bytes, value: bytes) -> Value:
    """A vertex under u and v, a list under those letters that are lists, and else a number."""
    if letter in (b"u", b"v"):
        return vertex_of(value)
    numbers = tuple(int(part) for part in value.split())
    is_list = letter in (b"h", b"s", b"t", b"pivots") or len(numbers) > 1
    return numbers if is_list else numbers[0]
