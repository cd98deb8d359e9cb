"""Reads a text of proofs: its declarations, what they cite, and what its imports bring."""

from __future__ import annotations

import dataclasses
import itertools
import re
from collections.abc import Iterable, Iterator
from pathlib import Path

MOST_COLUMNS = 160
DECLARED = re.compile(r"^( *)((?:(?:pub|abbrev|unfoldable|opaque) +)*)([^\s:(){},.\[\]=]+) +: +(\S.*)$")
WORD = re.compile(r"[^\s(){}\[\],;.←]+")
COMMENT = re.compile(r"(?:(?<=[ (){};,])|^)--.*")
IMPORT = re.compile(r"(?ms)^(pub )?use +([^\s{]+?)\.\{(.*?)\}\n")
# what names no argument
TAKEN = ("_", "tt", "zero", "none", "true", "false")
# what no import brings, and what begins no lemma
NO_NAMES = set("use mod module record data where let in elim as ruleset unfolding at λ".split())


def indent_of(line: str) -> int:
    return len(line) - len(line.lstrip(" "))


def words_of(line: str) -> list[str]:
    """Returns the words of a line of proofs, without its comment."""
    return WORD.findall(COMMENT.sub("", line))


@dataclasses.dataclass(frozen=True)
class Declaration:
    """A name with its type and its equations, as lines of a text: from `first` to before `end`."""

    name: str
    marks: frozenset[str]
    indent: int
    first: int
    signature_end: int
    body: int
    end: int
    lines: list[str] = dataclasses.field(repr=False, compare=False)
    is_inner: bool = False

    @property
    def signature(self) -> str:
        """The type, on one line."""
        opening = self.lines[self.first].split(" : ", 1)[1]
        return " ".join(line.strip() for line in [opening, *self.lines[self.first + 1 : self.signature_end]])

    @property
    def equations(self) -> list[str]:
        return self.lines[self.body : self.end]

    @property
    def is_lemma(self) -> bool:
        """Whether another body would do: it is no definition that opens, no type and no operator."""
        opens = self.marks & {"abbrev", "unfoldable"}
        return not opens and "◌" not in self.name and re.search(r"Type \d$", self.signature) is None

    @property
    def words(self) -> list[str]:
        """The words of the type and the equations."""
        return [word for line in self.lines[self.first : self.end] for word in words_of(line)]

    @property
    def size(self) -> int:
        """How many lines of the equations hold something."""
        return sum(1 for line in self.equations if line.strip())

    def is_head(self, line: str) -> bool:
        """Whether a line begins an equation of this declaration."""
        return begins_equation(line, self.name, self.indent)

    @property
    def comment(self) -> int:
        """The line at which the comment above the declaration begins."""
        at = self.first
        while at and self.lines[at - 1].startswith(" " * self.indent + "-- "):
            at -= 1
        return at


def begins_equation(line: str, name: str, indent: int) -> bool:
    head = " " * indent + name
    return line.startswith(head) and line[len(head) : len(head) + 1] in (" ", "") and not DECLARED.match(line)


def deeper_end(lines: list[str], at: int, indent: int) -> int:
    """Returns the line behind those that go on deeper than an indentation, without an empty one between."""
    while at < len(lines) and lines[at].strip() and indent_of(lines[at]) > indent:
        at += 1
    return at


def equations_end(lines: list[str], at: int, name: str, indent: int) -> int:
    """Returns the line behind the equations of a name: deeper lines, further equations, closing brackets."""
    end = at + 1
    for place in range(at + 1, len(lines)):
        line = lines[place]
        if not line.strip():
            continue
        is_own = indent_of(line) > indent or begins_equation(line, name, indent)
        if not is_own and not (indent_of(line) == indent and line.strip()[0] in "})]-"):
            break
        if not line.startswith(" " * indent + "-- "):
            end = place + 1
    return end


def declaration_at(lines: list[str], first: int) -> Declaration | None:
    """Returns the declaration whose type begins at a line, or None where none begins or it has no equations."""
    found = DECLARED.match(lines[first])
    if not found or found[3] in NO_NAMES:
        return None
    indent, name = len(found[1]), found[3]
    signature_end = deeper_end(lines, first + 1, indent)
    body, lead = signature_end, " " * indent
    while body < len(lines) and lines[body].startswith((lead + "unfolding ", lead + "-- ")):
        body += 1
    if body == len(lines) or not begins_equation(lines[body], name, indent):
        return None
    end = equations_end(lines, body, name, indent)
    return Declaration(name, frozenset(found[2].split()), indent, first, signature_end, body, end, lines)


def declarations_of(text: str) -> list[Declaration]:
    """Returns the declarations of a text in their order; those in a `where` block of another are inner ones."""
    lines = text.split("\n")
    found: list[Declaration] = []
    outer_end = 0
    for first in range(len(lines)):
        declaration = declaration_at(lines, first)
        if declaration is None:
            continue
        found.append(dataclasses.replace(declaration, is_inner=first < outer_end))
        outer_end = max(outer_end, declaration.end)
    return found


def types_of(text: str) -> list[Declaration]:
    """Returns the records and data types of a text in their order."""
    lines, found = text.split("\n"), list[Declaration]()
    for first, line in enumerate(lines):
        opening = re.match(r"( *)(?:pub )?(?:record|data) ([^\s:(){}]+) .*: Type \d", line)
        if opening:
            end = deeper_end(lines, first + 1, len(opening[1]))
            found.append(Declaration(opening[2], frozenset(), len(opening[1]), first, first + 1, first + 1, end, lines))
    return found


def top_words(text: str) -> Iterator[str]:
    """Yields the words of a text, each bracket with all that it holds as one."""
    depth, word = 0, ""
    for letter in text + " ":
        depth += (letter in "({[") - (letter in ")}]")
        if letter != " " or depth:
            word += letter
        elif word:
            yield word
            word = ""


def arguments_of(signature: str) -> list[str]:
    """Returns the names of the explicit arguments that a type shows; one that it leaves open is empty."""
    names, part = list[str](), list[str]()
    for word in top_words(signature):
        if word != "→":
            part.append(word)
            continue
        groups = [re.match(r"([({])([^(){}:]+?) :\s", group) for group in part]
        if all(groups):
            names += [name for group in groups if group and group[1] == "(" for name in group[2].split()]
        else:
            names.append("")
        part = []
    return names


def patterns_of(declaration: Declaration) -> str:
    """Returns names for all arguments of a declaration, to stand before ` = ` of one equation."""
    text = " ".join(line.strip() for line in declaration.equations)
    words = list(top_words(text[len(declaration.name) :]))
    shown = words[: words.index("=")] if "=" in words else []
    is_single = sum(map(declaration.is_head, declaration.equations)) == 1
    explicit = [word for word in shown if not word.startswith("{")]
    names = names_for(declaration, explicit if is_single else [""] * len(explicit))
    patterns = list[str]()
    for word in shown:
        if not word.startswith("{"):
            patterns.append(names.pop(0))
        elif is_single and re.fullmatch(r"\{[^\s{}()=]+( = [^\s{}()=]+)?\}", word):
            patterns.append(word)
    return " ".join([*patterns, *names])


def names_for(declaration: Declaration, shown: list[str]) -> list[str]:
    """Returns a name for each explicit argument: that of a pattern, that of the type, or a letter."""
    named = arguments_of(declaration.signature)
    letters = "hklpqrstuvwxyzabcdefgijmno"
    possible = itertools.chain(letters, (f"{letter}{digit}" for digit in range(1, 9) for letter in letters))
    free = [name for name in possible if name not in (*named, *shown, *declaration.words)]
    names = list[str]()
    for own, given in itertools.zip_longest(shown, named, fillvalue=""):
        plain = [name for name in (own, given) if re.fullmatch(r"[^\W\d][\w']*", name) and name not in (*TAKEN, *names)]
        names.append(plain[0] if plain else free.pop(0))
    return names


def name_of(item: str) -> str:
    """Returns the name that an item of an import brings: of `a`, `a as b`, `M.a` and an operator."""
    return item.split(" as ")[-1].strip().rsplit(".", 1)[-1]


def imports_of(text: str) -> dict[str, str]:
    """Returns the names that the imports of a text bring, with their modules."""
    brought = {}
    for found in IMPORT.finditer(text + "\n"):
        for item in filter(None, map(str.strip, found[3].split(","))):
            inner, _, _ = item.split(" as ")[0].rpartition(".")
            brought[name_of(item)] = f"{found[2]}.{inner}" if inner else found[2]
    return brought


def add_import(text: str, module: str, name: str) -> str:
    """Returns the text with a name of a module, which it may have already."""
    if name in imports_of(text):
        return text
    for found in IMPORT.finditer(text):
        longer = found[0].replace("}\n", f", {name}}}\n")
        if not found[1] and found[2] == module and is_narrow(longer):
            return text[: found.start()] + longer + text[found.end() :]
    ends = [found.end() for found in IMPORT.finditer(text)]
    comment = re.match(r"(--.*\n)*", text)
    at = ends[-1] if ends else comment.end() if comment else 0
    return f"{text[:at]}use {module}.{{{name}}}\n{text[at:]}"


def drop_imports(text: str, names: Iterable[str]) -> str:
    """Returns the text without the imports of those names, or of operators of them, that nothing else in it has."""
    rest, asked = IMPORT.sub("", text), set(names)
    used = {word for line in rest.split("\n") for word in words_of(line)}

    def is_needless(item: str) -> bool:
        name = name_of(item)
        parts = set(filter(None, name.split("◌")))
        if "◌" in name:
            return bool(parts & asked) and not all(part in rest for part in parts)
        return name in asked and name not in used

    def thinned(found: re.Match[str]) -> str:
        items = [item.strip() for item in found[3].split(",") if item.strip()]
        kept = [item for item in items if not is_needless(item)]
        if found[1] or kept == items:
            return found[0]
        return filled_import(found[2], kept) if kept else ""

    return IMPORT.sub(thinned, text)


def with_joined_imports(text: str) -> str:
    """Returns the text with one import for each module, where it has several and one takes fewer lines."""
    plain = [found for found in IMPORT.finditer(text) if not found[1]]
    for module in {found[2] for found in plain}:
        found = [each for each in IMPORT.finditer(text) if not each[1] and each[2] == module]
        items = [item.strip() for each in found for item in each[3].split(",") if item.strip()]
        joined = filled_import(module, list(dict.fromkeys(items)))
        if joined.count("\n") < sum(each[0].count("\n") for each in found):
            for each in reversed(found[1:]):
                text = text[: each.start()] + text[each.end() :]
            text = text[: found[0].start()] + joined + text[found[0].end() :]
    return text


def filled_import(module: str, names: list[str]) -> str:
    """Returns an import, on as few lines as the columns allow."""
    lines = [f"use {module}.{{{names[0]}"]
    for name in names[1:]:
        longer = f"{lines[-1]}, {name}"
        if len(longer) < MOST_COLUMNS - 1:
            lines[-1] = longer
        else:
            lines[-1] += ","
            lines.append(f"    {name}")
    return "\n".join(lines) + "}\n"


def is_narrow(text: str) -> bool:
    """Whether no line of a text has more columns than a line may have."""
    return all(len(line) <= MOST_COLUMNS for line in text.split("\n"))


def proof_files(folder: Path) -> list[Path]:
    """Returns the files of proofs below a crate's folder, in their order."""
    return sorted((folder / "proofs").rglob("*.antt"))


def is_of_tests(path: Path) -> bool:
    """Whether a file belongs to tests, of which a check of the crate reads nothing."""
    return any("tests" in part for part in path.parts)


def is_instance(path: Path) -> bool:
    """Whether a file holds instances, which nothing has to cite."""
    return "examples" in (path.stem, *path.parts)
