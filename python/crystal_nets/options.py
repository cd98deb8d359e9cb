"""The options of structures: how they are read, by the same names as those of net_tool convert."""

from __future__ import annotations

from collections.abc import Iterable, Mapping
from contextlib import suppress
from numbers import Real
from typing import TYPE_CHECKING, Any, Literal, TypedDict, get_args

from .errors import NotAnOption, PackageMissing, lacking
from .side_by_side import processors

if TYPE_CHECKING:
    from .structures.nets.choice import Options

ConventionName = Literal["all-atoms", "single-nodes", "all-nodes", "pe", "pem", "standard", "auto"]
CONVENTION_NAMES: tuple[str, ...] = get_args(ConventionName)
ModeName = Literal["", "zeolite", "intermetallic"]
WayName = Literal["rules", "file", "both"]
CHOICES = {"mode": get_args(ModeName), "bonds": get_args(WayName)}
# the options that are on or off, with what each does
SWITCHES = {"keep_ions": "keep the cations that a framework holds as guests",
            "hydrogen_bonds": "hydrogen bonds are edges (in ices they always are)",
            "partial_as_full": "take partly occupied atoms of a net as full",
            "accept_misfit": "take atoms that do not fit the formula, or are too near",
            "every_copy": "give each of several nets of the same atoms"}
LONGEST_BOND = 20.0  # angstrom
STRUCTURE_PACKAGES = "apt-get install python3-gemmi python3-numpy python3-scipy"
BLOCK_PACKAGES = "apt-get install python3-gemmi python3-numpy"


class StructureOptions(TypedDict, total=False):
    """How structures are read; `python/crystal_nets/structures/README.md` has what each does.

    convention       what is a vertex; `auto` gives the nets of those that apply and differ. Where none is named, it is auto
                     for organic carbon with metals, and else all-atoms
    mode             `zeolite`: tetrahedral atoms and their oxygens alone; `intermetallic`: all contacts up to a gap
    bonds            by the `rules`, where no way is named, by the `file`, or by `both`, to see where they differ
    leave_out        elements of no concern: {"Na"}, ("Na", "Cl") or "Na,Cl"
    lengths          of two elements the longest bond in angstrom, and there are no others: {("Ba", "O"): 3.4}; a pair
                     may also be written frozenset(("Ba", "O")) or "Ba-O"
    keep_ions        keep the cations that a framework holds as guests
    hydrogen_bonds   hydrogen bonds are edges
    partial_as_full  take partly occupied atoms as full
    accept_misfit    take atoms that do not fit the formula, or are too near
    every_copy       give each of several nets of the same atoms"""

    convention: ConventionName
    mode: ModeName
    bonds: WayName
    leave_out: Iterable[str]
    lengths: Mapping[tuple[str, str], float] | Mapping[frozenset[str], float] | Mapping[str, float]
    keep_ions: bool
    hydrogen_bonds: bool
    partial_as_full: bool
    accept_misfit: bool
    every_copy: bool


def check_names(options: Mapping[str, object]) -> None:
    """TypeError with the names that there are, where an option has another."""
    known = list(StructureOptions.__annotations__)
    unknown = sorted(set(options) - set(known))
    if unknown:
        raise TypeError(f"there is no option {unknown[0]!r}; there are {', '.join(known)}")


def check_options(options: Mapping[str, object]) -> None:
    """The same as `checked_options` does, also where no source is a structure: a misspelt word is never taken in silence.
    Values are looked at if the packages that read structures are there."""
    check_names(options)
    if options:
        with suppress(PackageMissing):
            checked_options(options)


def processes_of(number: int | None) -> int:
    """How many processes are meant: as many as there are processors, if None. ValueError for less than 1."""
    if number is None:
        return processors()
    if isinstance(number, bool) or not isinstance(number, int) or number < 1:
        raise ValueError(f"processes is {number!r}, and not a whole number from 1 on, or None for as many as processors")
    return number


def option_word(name: str) -> str:
    """An option as the command line has it: --leave-out for `leave_out`, and --bond for `lengths`."""
    return "--bond" if name == "lengths" else "--" + name.replace("_", "-")


def idle_option(options: Mapping[str, object]) -> tuple[str, str]:
    """An option of structures that does nothing beside another one, and that one, by their names; empty where there is
    none. Bonds of the file are taken as they are listed, contacts by gaps are no hydrogen bonds, and a zeolite has no
    ions."""
    if options.get("bonds") == "file":
        by_rules = {name: options.get(name) for name in ("lengths", "hydrogen_bonds")}
        idle = next((name for name, value in by_rules.items() if value), "")
        idle = idle or "mode" * (options.get("mode") == "intermetallic")
        if idle:
            return idle, "bonds"
    of_mode = {"zeolite": "keep_ions", "intermetallic": "hydrogen_bonds"}.get(str(options.get("mode")), "")
    return (of_mode, "mode") if of_mode and options.get(of_mode) else ("", "")


def told_idle(options: Mapping[str, object]) -> str:
    """The same as the command line tells it; empty where each option has its effect."""
    idle, other = idle_option(options)
    return f"{option_word(idle)} has no effect with {option_word(other)} {options[other]}" if idle else ""


def checked_options(options: Mapping[str, object]) -> Options:
    """The options as the reader of structures takes them. TypeError where there is no such option, and NotAnOption
    where its value is none, or has no effect beside another one."""
    check_names(options)
    try:
        from .structures.nets.choice import Options
        values = {name: _checked(name, value) for name, value in options.items()}
    except ModuleNotFoundError as missing:
        raise PackageMissing(f"a structure: {lacking(missing, STRUCTURE_PACKAGES)}") from missing
    idle, other = idle_option(values)
    if idle:
        raise NotAnOption(f"{idle} has no effect with {other}={values[other]!r}")
    return Options(**values)


def _checked(name: str, value: object) -> Any:
    if name == "convention":
        return _convention(value)
    if name in CHOICES:
        if value not in CHOICES[name]:
            raise NotAnOption(f"{name} is one of {', '.join(filter(None, CHOICES[name]))}, and not {value!r:.60}")
        return value
    if name == "leave_out":
        return elements_of(value)
    if name == "lengths":
        return lengths_of(value)
    if not isinstance(value, bool):
        raise NotAnOption(f"{name} is True or False, and not {value!r:.60}")
    return value


def _convention(value: object) -> str:
    """The name of a convention, also as others spell it, as AllNodes."""
    from .structures.units.conventions import convention_named
    try:
        return convention_named(value if isinstance(value, str) else repr(value))
    except ValueError as reason:
        raise NotAnOption(str(reason)) from None


def elements_of(value: object) -> frozenset[str]:
    """The elements of a text, as Na,Cl, or of several symbols. NotAnOption where one is none."""
    words = value.replace(",", " ").split() if isinstance(value, str) else value
    if not isinstance(words, Iterable) or (isinstance(value, str) and not words):
        raise NotAnOption(f"{value!r:.60} has not the form Na,Cl")
    return frozenset(_element(word, value) for word in words)


def _element(word: object, value: object) -> str:
    """The symbol of an element, as it is usually written; deuterium is read as hydrogen."""
    if not isinstance(word, str) or not _is_element(word):
        raise NotAnOption(f"{value!r:.60} has an unknown element, {word!r:.20}")
    return "H" if word == "D" else word


def _is_element(word: str) -> bool:
    try:
        import gemmi
    except ModuleNotFoundError as missing:
        raise PackageMissing(f"elements: {lacking(missing, 'apt-get install python3-gemmi')}") from missing
    element = gemmi.Element(word)
    return bool(element.atomic_number > 0 and element.name == word)


def lengths_of(value: object) -> dict[frozenset[str], float]:
    """Of pairs of elements the longest bond. NotAnOption where these are no pairs with lengths."""
    if not isinstance(value, Mapping):
        raise NotAnOption(f'{value!r:.60} has not the form {{("Ba", "O"): 3.4}}')
    found: dict[frozenset[str], float] = {}
    for words, length in value.items():
        pair = _pair(words)
        is_length = isinstance(length, Real) and not isinstance(length, bool) and 0 <= float(length) <= LONGEST_BOND
        if not is_length:
            raise NotAnOption(f"the length {length!r:.40} of {words!r:.40} is not from 0 to {LONGEST_BOND:g} angstrom")
        if found.setdefault(pair, float(length)) != float(length):
            raise NotAnOption(f"{'-'.join(sorted(pair))} has several lengths")
    return found


def twice_given(bonds: Iterable[tuple[frozenset[str], float]]) -> str:
    """A pair of elements that has two lengths, as Ba-O; empty where there is none."""
    found: dict[frozenset[str], float] = {}
    return next(("-".join(sorted(pair)) for pair, length in bonds if found.setdefault(pair, length) != length), "")


def _pair(words: object) -> frozenset[str]:
    """The elements of a pair; of Fe-Fe, or of a set that has Fe alone, there is one."""
    parts = words.split("-") if isinstance(words, str) else words
    if isinstance(parts, frozenset) and len(parts) == 1:
        parts = (*parts, *parts)
    if not isinstance(parts, (tuple, list, frozenset)) or len(parts) != 2:
        raise NotAnOption(f'{words!r:.40} is no pair of elements, as ("Ba", "O")')
    return frozenset(_element(part, words) for part in parts)
