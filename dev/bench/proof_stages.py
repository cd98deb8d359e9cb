"""The stages of dev/bench/shorten: each changes the copy of a crate, and says what it took where the copy is accepted."""

from __future__ import annotations

import collections
import dataclasses
import re
from collections.abc import Container, Iterator
from pathlib import Path

from proof_units import (
    IMPORT,
    Declaration,
    add_import,
    declarations_of,
    drop_imports,
    imports_of,
    is_instance,
    is_of_tests,
    is_narrow,
    patterns_of,
    types_of,
    with_joined_imports,
    words_of,
)
from proof_workshop import Outcome, Workshop, say

COMMON = "Rattle.std.proofs.Common"
NEEDED = {"arith": COMMON, "common_steps": "Rattle.std.proofs.lemmas.Grind"}
# words of terms that are no lemmas
PLAIN = set("""refl sym ap subst absurd inl inr tt zero suc pos negsuc arith rules ints common_steps yes no true false
    some none record let in where λ elim as rw simp cc search grind omega by ring linear steps""".split())
DEFINED = re.compile(r"(?m)^\s*(?:pub )?(?:(?:abbrev|unfoldable)(?: pub)?|record|data) ([^\s:(){}]+)")
MOST_CITED = 12
MOST_TURNS = 6
UNUSED_LET = re.compile(r"^\s*let (\S+)( : .*)? = .* in( \()?$")
OF_FUNCTIONS = ("Answers.antt", "Invariants.antt", "Proof.antt")


Place = tuple[Path, int]  # of a declaration: its file and the line of its type


@dataclasses.dataclass(frozen=True)
class Trial:
    """Another body for a declaration, as it is tried, and the lines, from 1, at which its copy stands."""

    declaration: Declaration
    kind: str
    body: list[str]
    tried: list[str]
    first: int = 0
    last: int = 0


@dataclasses.dataclass(frozen=True)
class Shorter:
    """What a stage took out of the copy, in words, and the whole check, from nothing, that accepts it."""

    what: str
    outcome: Outcome


def defined_in(crates: Path) -> set[str]:
    """Returns the names of definitions and types of all crates, which are no lemmas."""
    names = set()
    for part in ("specs", "proofs"):
        for path in crates.glob(f"*/{part}/**/*.antt"):
            names.update(DEFINED.findall(path.read_text()))
    return names


def lemmas_cited(declaration: Declaration, brought: dict[str, str], own: set[str], definitions: set[str]) -> list[str]:
    """Returns the lemmas that the equations of a declaration cite: of its file, above it, or imported."""
    cited = []
    for word in dict.fromkeys(word for line in declaration.equations for word in words_of(line)):
        module = brought.get(word, "")
        if word in PLAIN or word in definitions or word == declaration.name or "◌" in word or word[:1].isupper():
            continue
        if module == COMMON and "-" not in word:
            continue
        if word in own or ".proofs." in module or "borrow." in module:
            cited.append(word)
    return cited[:MOST_CITED]


def tactics_for(cited: list[str], brought: dict[str, str], is_answer: bool) -> Iterator[tuple[str, bool]]:
    """Yields proofs of one tactic, the cheap ones first, and whether each has a number of steps as its limit."""
    more = "".join(f", {name}" for name in cited)
    yield "cc", False
    yield f"omega (arith{more})" if cited else "omega arith", False
    if "ring" in brought and "linear" in brought:
        yield "simp ring (omega (arith, linear))", False
    if cited:
        yield f"simp ({more[2:]})", False
    yield f"search (arith{more})" if cited else "search arith", True
    yield f"grind (arith{more})" if cited else "grind arith", True
    if is_answer:
        yield f"grind (arith, common_steps{more})", True


def one_tactic(declaration: Declaration, tactic: str) -> list[str]:
    """Returns the lines of an equation whose right side is a tactic."""
    lead = " " * declaration.indent
    head = f"{lead}{declaration.name} {patterns_of(declaration)}".rstrip()
    line = f"{head} = {tactic}"
    return [line] if is_narrow(line) else [f"{head} =", f"{lead}    {tactic}"]


def without_lets(declaration: Declaration) -> Iterator[list[str]]:
    """Yields the equations without the names, each on a line, that nothing in them cites: without all, and each one."""
    lines = declaration.equations
    cited = collections.Counter(word for line in lines for word in words_of(line))
    needless = [
        place
        for place, line in enumerate(lines)
        if (found := UNUSED_LET.match(line)) and cited[found[1]] == 1 and not found[3]
    ]
    sets = [set(needless), *({place} for place in needless[:3] if len(needless) > 1)]
    for gone in filter(None, sets):
        yield [line for place, line in enumerate(lines) if place not in gone]


def trials_of(
    outer: Declaration, declaration: Declaration, tactics: Iterator[tuple[str, bool]], steps: int
) -> Iterator[Trial]:
    """Yields shorter bodies of a declaration in which it, or an inner one of it, is proved otherwise.

    An inner one that fails would take the outer one along, so each is tried in a copy of the outer one."""
    above = outer.lines[outer.body : declaration.body] if declaration is not outer else []
    below = outer.lines[declaration.end : outer.end] if declaration is not outer else []
    for tactic, is_limited in tactics:
        body = one_tactic(declaration, tactic)
        if len(body) < declaration.size and is_narrow("\n".join(body)):
            limited = [*body[:-1], f"{body[-1]} steps {steps}"] if is_limited else body
            yield Trial(outer, tactic.partition(" ")[0], [*above, *body, *below], [*above, *limited, *below])
    for body in without_lets(declaration):
        whole = [*above, *body, *below]
        yield Trial(outer, "fewer lets", whole, whole)


def copy_lines(trial: Trial, number: int) -> list[str]:
    """Returns the lines of a copy of a declaration under a name of its own, with the body that is tried."""
    old = trial.declaration
    lead, name = " " * old.indent, f"try{number}_{old.name}"
    opening = old.lines[old.first].split(" : ", 1)[1]
    between = [line for line in old.lines[old.signature_end : old.body] if line.startswith(lead + "unfolding ")]
    body = [lead + name + line[len(lead + old.name) :] if old.is_head(line) else line for line in trial.tried]
    return ["", f"{lead}{name} : {opening}", *old.lines[old.first + 1 : old.signature_end], *between, *body]


class Lemmas:
    """Bodies of two lines or more become one tactic, or lose the names that nothing in them cites."""

    def __init__(self, workshop: Workshop, steps: int) -> None:
        self.workshop, self.steps = workshop, steps
        self.definitions = defined_in(workshop.top / "crates")

    def candidates(self, path: Path, text: str) -> list[Trial]:
        """Returns what is tried in a file."""
        if path.name in ("Invariants.antt", "Lib.antt", "CallerLemmas.antt") or is_of_tests(path):
            return []
        brought, own, trials = imports_of(text), set[str](), list[Trial]()
        outer = None
        for declaration in declarations_of(text):
            outer = outer if outer and declaration.is_inner else declaration
            if outer.is_lemma and declaration.is_lemma and declaration.size > 1:
                cited = lemmas_cited(declaration, brought, own, self.definitions)
                tactics = tactics_for(cited, brought, path.name == "Answers.antt")
                trials += trials_of(outer, declaration, tactics, self.steps)
            own.add(declaration.name)
        return trials

    def with_imports(self, path: Path, text: str) -> str:
        """Returns a text with what the tactics need."""
        text = add_import(text, COMMON, "arith")
        return add_import(text, NEEDED["common_steps"], "common_steps") if path.name == "Answers.antt" else text

    def tried(self, places: Container[Place] | None) -> dict[Place, Trial]:
        """Checks shorter bodies of the declarations at these places, or of all; returns the best that holds of each."""
        self.workshop.put_back()
        written = {}
        for path, text in self.workshop.accepted.items():
            text = self.with_imports(path, text)
            found = self.candidates(path, text)
            trials = [trial for trial in found if places is None or (path, trial.declaration.first) in places]
            if trials:
                lines, written[path] = with_copies(text.split("\n"), trials)
                self.workshop.write({path: "\n".join(lines)})
        say(f"  {sum(map(len, written.values()))} bodies are tried, {self.steps} steps for each")
        outcome = self.workshop.check()
        if "logic=" not in outcome.text:
            say(f"  the check of the trials ended without a word on them: {outcome.text[-300:]}")
            return {}
        return held_of(written, outcome)

    def write_held(self, held: dict[Place, Trial]) -> None:
        """Writes the accepted files with the bodies that held."""
        self.workshop.put_back()
        for path in {path for path, _ in held}:
            text = self.with_imports(path, self.workshop.accepted[path])
            lines, gone = text.split("\n"), set(NEEDED)
            chosen = [trial for (file, _), trial in held.items() if file == path]
            for trial in sorted(chosen, key=lambda trial: -trial.declaration.first):
                gone.update(trial.declaration.words)
                lines[trial.declaration.body : trial.declaration.end] = trial.body
            self.workshop.write({path: drop_imports("\n".join(lines), gone)})

    def run(self) -> Shorter | None:
        """Tries all; returns what went, or None where nothing did. What is slow is tried again with fewer steps."""
        held = self.tried(None)
        for _ in range(MOST_TURNS):
            say(f"  {len(held)} declarations are shorter")
            if not held:
                return None
            self.write_held(held)
            outcome = self.workshop.check_anew()
            if not outcome.is_proved:
                files = {file for file, _ in outcome.refused}
                left = {place: trial for place, trial in held.items() if str(place[0]) not in files}
                held = left if len(left) < len(held) else {}
            elif not self.workshop.is_slow(outcome):
                kinds = collections.Counter(trial.kind for trial in held.values())
                return Shorter(", ".join(f"{count} by {kind}" for kind, count in kinds.most_common()), outcome)
            else:
                say(f"  the check takes {outcome.seconds:.0f} s")
                self.steps //= 10
                held = self.tried(held)
        return None


def held_of(written: dict[Path, list[Trial]], outcome: Outcome) -> dict[Place, Trial]:
    """Returns the shortest trial of each declaration, of several the first, that was not refused."""
    held: dict[Place, Trial] = {}
    for path, trials in written.items():
        refused = [line for file, line in outcome.refused if file == str(path)]
        for trial in sorted(trials, key=lambda trial: len(trial.body)):
            if not any(trial.first <= line <= trial.last for line in refused):
                held.setdefault((path, trial.declaration.first), trial)
    return held


def with_copies(lines: list[str], trials: list[Trial]) -> tuple[list[str], list[Trial]]:
    """Returns the lines with the copies behind their declarations, and the trials with their places."""
    of_end = collections.defaultdict(list)
    for trial in trials:
        of_end[trial.declaration.end].append(trial)
    made: list[str] = []
    placed: list[Trial] = []
    for number, line in enumerate([*lines, ""]):
        for count, trial in enumerate(of_end.get(number, [])):
            copy = copy_lines(trial, count)
            placed.append(dataclasses.replace(trial, first=len(made) + 2, last=len(made) + len(copy)))
            made += copy
        made.append(line)
    return made[:-1], placed


def without(text: str, gone: list[Declaration]) -> str:
    """Returns a text without declarations, the comments above them, and the imports that they alone used."""
    if not gone:
        return text
    lines = text.split("\n")
    for declaration in reversed(gone):
        del lines[declaration.comment : declaration.end]
    thinner = re.sub(r"\n{3,}", "\n\n", "\n".join(lines)).rstrip("\n") + "\n"
    return drop_imports(thinner, {word for declaration in gone for word in declaration.words})


def cited_words(top: Path, crate: str) -> collections.Counter[str]:
    """Returns how often each word is cited: in definitions, proofs, sources, planted edits, and names in documents.

    An import of the crate itself cites nothing, but for one that passes its names on or gives them another name."""
    words: collections.Counter[str] = collections.Counter()
    for path in (top / "crates").rglob("*"):
        place = path.relative_to(top / "crates").parts
        if path.suffix in (".antt", ".rt", ".edit", ".md") and "out" not in place:
            words.update(words_of_file(path.suffix, path.read_text(), place[0] == crate))
    for path in [*top.glob("*.md"), *top.glob("docs/*.md")]:
        words.update(words_of_file(".md", path.read_text(), False))
    return words


def words_of_file(suffix: str, text: str, is_own: bool) -> Iterator[str]:
    """Yields the words by which a file, of the crate itself or another, may cite a lemma."""
    if suffix == ".md":
        for code in re.findall(r"`([^`]+)`", text):
            yield from re.split(r"[^\w'◌-]+", code)
    elif suffix == ".antt":
        for found in IMPORT.finditer(text + "\n"):
            is_citing = not is_own or found[1] or " as " in found[3]
            yield from re.split(r"[\s,.]+", found[3]) if is_citing else ()
        for line in IMPORT.sub("", text + "\n").split("\n"):
            yield from words_of(line)
    else:
        yield from re.split(r"[^\w'◌-]+", text)


class Uncited:
    """Declarations and types of proofs that nothing cites go, with their comments, until none is left."""

    def __init__(self, workshop: Workshop) -> None:
        self.workshop = workshop

    def thinned(self, text: str, words: collections.Counter[str], spared: set[str]) -> tuple[str, list[Declaration]]:
        """Returns a text without what nothing cites, and what went."""
        gone = [
            found
            for found in sorted([*declarations_of(text), *types_of(text)], key=lambda found: found.first)
            if not found.is_inner and not found.signature.startswith("goal.") and "◌" not in found.name
            if found.name not in spared and words[found.name] == found.words.count(found.name)
        ]
        return without(text, gone), gone

    def thin_all(self, spared: set[str]) -> list[tuple[Path, Declaration]]:
        """Thins the copy to a fixed point; returns all that went."""
        gone: list[tuple[Path, Declaration]] = []
        words = cited_words(self.workshop.top, self.workshop.name)
        while True:
            before = len(gone)
            for path, text in self.workshop.texts().items():
                if path.name in (*OF_FUNCTIONS[1:], "Lib.antt", "CallerLemmas.antt"):
                    continue
                if is_instance(path) or is_of_tests(path):
                    continue
                thinner, taken = self.thinned(text, words, spared)
                self.workshop.write({path: thinner} if taken else {})
                gone += [(path, declaration) for declaration in taken]
            if len(gone) == before:
                return gone
            for _, declaration in gone[before:]:
                words.subtract(declaration.words)

    def run(self) -> Shorter | None:
        """Takes them out; returns what went, or None where nothing did."""
        spared: set[str] = set()
        for _ in range(MOST_TURNS):
            self.workshop.put_back()
            gone = self.thin_all(spared)
            if not gone:
                return None
            outcome = self.workshop.check_anew()
            if outcome.is_proved:
                return Shorter(f"{len(gone)} that nothing cites", outcome)
            files = {file for file, _ in outcome.refused}
            needed = {declaration.name for path, declaration in gone if str(path) in files}
            spared |= needed or {declaration.name for _, declaration in gone}
        self.workshop.put_back()
        return None


DONE = re.compile(r"no holes|depends on a hole|proved")
WAITS = re.compile(r"no proof: it (calls|names)")
OPEN = re.compile(r"`search` did not prove (.*)$")


class Answers:
    """Answers that the search finds by itself go, also with half its counts; and files that then hold none.

    All are taken out at once: the check names those of each function that the search did not find, and they come back.
    A function that calls one without a proof is only told of that, and waits for the next check."""

    def __init__(self, workshop: Workshop) -> None:
        self.workshop = workshop

    def function_of(self, path: Path) -> str:
        return "::".join([self.workshop.name, *path.parts[1:-1]])

    def settle(self, tried: dict[Path, str], *flags: str) -> set[Path]:
        """Puts back the texts of functions that are not proved without them; returns the files that stay changed."""
        left = dict(tried)
        for _ in range(MOST_TURNS):
            outcome = self.workshop.check("--allow-holes", *flags)
            functions, refused = outcome.functions, {file for file, _ in outcome.refused}
            said = {path: functions.get(self.function_of(path), "") for path in left}
            waiting = {path for path in left if WAITS.search(said[path])}
            failed = {path for path in left if not DONE.match(said[path]) or str(path) in refused} - waiting
            self.workshop.write({path: left.pop(path) for path in failed or waiting})
            if not (failed and waiting):
                break
        return set(left)

    def leave_out_invariants(self) -> int:
        """Takes out files of invariants that are not needed and stand beside no answers; returns how many went."""
        texts = self.workshop.texts()
        tried = {
            path: text
            for path, text in texts.items()
            if path.name == "Invariants.antt" and path.with_name("Answers.antt") not in texts and not is_of_tests(path)
        }
        self.workshop.write(dict.fromkeys(tried))
        gone = self.settle(tried) if tried else set()
        say(f"  {len(gone)} of {len(tried)} files of invariants are not needed")
        return len(gone)

    def leave_out_answers(self) -> int:
        """Takes out the answers that are not needed; returns how many went."""
        read = {path: text for path, text in self.workshop.texts().items() if not is_of_tests(path)}
        of_functions = {path: text for path, text in read.items() if path.name == "Answers.antt"}
        answers = {path: found for path, text in of_functions.items() if (found := answers_of(text))}
        texts = {path: of_functions[path] for path in answers}
        self.workshop.write({path: without(text, answers[path]) for path, text in texts.items()})
        count, waiting = 0, set(texts)
        for _ in range(MOST_TURNS):
            told = self.needed(waiting, answers)
            if not told:
                break
            waiting -= told.keys()
            for path, needed in told.items():
                gone = [answer for answer in answers[path] if answer.name not in needed]
                self.workshop.write({path: without(texts[path], gone) if needed else None})
                count += len(gone)
        self.workshop.write({path: texts[path] for path in waiting})
        say(f"  {count} of {sum(map(len, answers.values()))} answers are not needed")
        return count

    def needed(self, waiting: set[Path], answers: dict[Path, list[Declaration]]) -> dict[Path, set[str]]:
        """Checks the copy; returns the names of the answers that are needed in each file of which the check tells."""
        outcome = self.workshop.check("--allow-holes", "--margin")
        refused, found = {file for file, _ in outcome.refused}, dict[Path, set[str]]()
        for path in waiting:
            said, names = outcome.functions.get(self.function_of(path), ""), {answer.name for answer in answers[path]}
            told = OPEN.search(said)
            if WAITS.search(said):
                continue
            needed = set(re.findall(r"`([^`]+)`", told[1])) if told else set[str]() if DONE.match(said) else names
            found[path] = needed if needed <= names and str(path) not in refused else names
        return found

    def run(self) -> Shorter | None:
        """Tries all; returns what went, or None where nothing did."""
        answers = self.leave_out_answers()
        files = self.leave_out_invariants()
        texts, accepted = self.workshop.texts(), self.workshop.accepted
        changed = {path: text for path, text in accepted.items() if texts.get(path) != text}
        kept = self.settle(changed, "--margin") if changed else set()
        if not kept:
            return None
        outcome = self.workshop.check_anew()
        return Shorter(f"{answers} answers and {files} files of invariants", outcome) if outcome.is_proved else None


def answers_of(text: str) -> list[Declaration]:
    """Returns the answers of a text, without the lemmas beside them."""
    return [found for found in declarations_of(text) if not found.indent and found.signature.startswith("goal.")]


class Layout:
    """Imports that nothing uses go, and imports of one module become one."""

    def __init__(self, workshop: Workshop) -> None:
        self.workshop = workshop

    def run(self) -> Shorter | None:
        """Takes them out; returns what went, or None where nothing did."""
        before = self.workshop.size()
        self.workshop.check("--fix-imports")
        self.workshop.write({path: with_joined_imports(text) for path, text in self.workshop.texts().items()})
        if self.workshop.size() >= before:
            return None
        outcome = self.workshop.check_anew()
        return Shorter("imports", outcome) if outcome.is_proved else None
