"""The elements of atoms and formulas, and what kind of element they are."""

from __future__ import annotations

import re
from functools import cache

import gemmi

from ...refusal import Refused

ANION_FORMERS = frozenset("H C N O F P S Cl As Se Br Te I At".split())
LAST = 99  # the number of einsteinium: the elements behind it have no crystals, and OG1, CN1 and NO1 are labels
FORMULA = re.compile(r"(?:([(\[])|([A-Z][a-z]?)|([)\]]))(\d+\.?\d*|\.\d+)?")
WATER = re.compile(r"wat|ow\d*$", re.IGNORECASE)
HYDROGEN = re.compile(r"HOH?\d*[A-Z]?\d*$")  # labels of hydrogens on oxygen, in capitals: holmium is Ho


@cache
def is_element(symbol: str) -> bool:
    """Whether a symbol of a formula is that of an element, and not a placeholder such as M or Ln."""
    return gemmi.Element(symbol).atomic_number > 0


@cache
def is_metal(element: str) -> bool:
    """Whether it is joined, in a compound with nonmetals, to these alone."""
    return gemmi.Element(element).is_metal


def makes_anions(element: str) -> bool:
    """Whether it makes anions beside metals, so that bonds are those of metals to it."""
    return element in ANION_FORMERS


def is_water(label: str) -> bool:
    """Whether a label is one that is used for a water molecule, as Wat3 or OW1."""
    return WATER.match(label) is not None


def elements_of_formula(text: str) -> dict[str, float]:
    """How many of each element a formula has, also within parentheses, as (N H4)2 Pt Cl6."""
    levels: list[dict[str, float]] = [{}]
    for opens, element, closes, count in FORMULA.findall(text):
        times = float(count or 1)
        if opens:
            levels.append({})
        elif element:
            _add(levels[-1], element, times)
        elif closes and len(levels) > 1:
            for inner, number in levels.pop().items():
                _add(levels[-1], inner, number * times)
    for left in levels[1:]:  # which no parenthesis closes
        for element, number in left.items():
            _add(levels[0], element, number)
    return levels[0]


def _add(counts: dict[str, float], element: str, count: float) -> None:
    counts[element] = counts.get(element, 0.0) + count


def element_of(symbol: str, label: str, formula: dict[str, float]) -> str:
    """The element by the type symbol, else by the label."""
    if is_water(symbol) or is_water(label) or _is_w_of_water(label, formula):
        return "O"
    if not symbol and "Ho" not in formula and HYDROGEN.match(label):
        return "H"
    found = _reading(symbol, formula, is_symbol=True) or _reading(label, formula)
    if not found:
        raise Refused(f"the element of atom {label!r} is not known" if label else
                      "an atom has neither a label nor a type symbol")
    return "H" if found == "D" else found


def is_ambiguous(symbol: str, label: str, formula: dict[str, float]) -> bool:
    """Whether a label in capitals spells two elements, as CD1 cadmium or a carbon, and neither a symbol nor a formula
    tells which."""
    if symbol or formula or is_water(label) or HYDROGEN.match(label):
        return False
    letters = label[:2]
    readings = (letters.capitalize(), letters[:1])
    return letters.isalpha() and letters.isupper() and all(0 < gemmi.Element(e).atomic_number <= LAST for e in readings)


def _is_w_of_water(label: str, formula: dict[str, float]) -> bool:
    """Whether W1 is water, and not tungsten: by the formula, where there is one."""
    return re.fullmatch(r"W\d+", label) is not None and bool(formula) and "W" not in formula


def _reading(text: str, formula: dict[str, float], is_symbol: bool = False) -> str:
    """The element that the letters at the start are. Of two readings, as CO1 for cobalt or carbon, the one that the
    formula has, and else the longer one. Elements without crystals are read in symbols of their spelling alone."""
    found = re.match(r"[A-Za-z]*", text.strip())
    letters = found.group() if found else ""
    readings = [e for e in (letters[:2].capitalize(), letters[:1].upper())
                if e and gemmi.Element(e).atomic_number > 0
                and (gemmi.Element(e).atomic_number <= LAST or (is_symbol and letters.startswith(e)))]
    return next((e for e in readings if e in formula), readings[0] if readings else "")
