"""What vertices stand for: the formulas of building units, with carboxylates and the like as groups."""

from __future__ import annotations

from collections import Counter

from ...graph import QuotientGraph
from ...provenance import BuildingUnit
from ..atoms.elements import is_metal
from .conventions import UnitNet

CENTRES = frozenset("C P S As Se".split())  # of groups such as CO2, PO3, SO4


def building_units(whole: QuotientGraph, units: UnitNet, simple: QuotientGraph, element: dict[str, str]
                   ) -> tuple[BuildingUnit, ...]:
    """What each vertex of a simplified net stands for. The whole has all atoms, those on ends among them: each of these
    belongs to the unit that it hangs on."""
    degrees = simple.degrees()
    atoms = _with_ends(whole, units)
    neighbours = _neighbours(whole)
    return tuple(BuildingUnit(str(vertex), formula_of(atoms[str(vertex)], neighbours, element), degree,
                              tuple(atoms[str(vertex)])) for vertex, degree in zip(simple.vertices, degrees))


def _neighbours(whole: QuotientGraph) -> dict[str, list[str]]:
    names = list(map(str, whole.vertices))
    return {names[v]: [names[w] for w, _ in near] for v, near in enumerate(whole.arcs())}


def _with_ends(whole: QuotientGraph, units: UnitNet) -> dict[str, list[str]]:
    """The atoms of each unit, with the ends that hang on them."""
    unit = {atom: vertex for vertex, atoms in units.atoms.items() for atom in atoms}
    found = {vertex: list(atoms) for vertex, atoms in units.atoms.items()}
    neighbours = _neighbours(whole)
    reached = list(unit)
    for atom in reached:
        for other in neighbours.get(atom, ()):
            if other not in unit:
                unit[other] = unit[atom]
                found[unit[atom]].append(other)
                reached.append(other)
    return found


def formula_of(atoms: list[str], neighbours: dict[str, list[str]], element: dict[str, str]) -> str:
    """Metals first, then what is in no group, then groups of a carbon, phosphorus or sulfur with its oxygens; without
    metals carbon and hydrogen first (E. A. Hill, J. Am. Chem. Soc. 22 (1900) 478)."""
    inside = set(atoms)
    has_metals = any(is_metal(element[atom]) for atom in atoms)
    groups: Counter[str] = Counter()
    rest = Counter(element[atom] for atom in atoms)
    for atom in atoms if has_metals else []:
        if element[atom] in CENTRES:
            oxygens = {other for other in neighbours.get(atom, ()) if other in inside and element[other] == "O"}
            if len(oxygens) >= 2:
                groups[f"{element[atom]}O{len(oxygens)}"] += 1
                rest[element[atom]] -= 1
                rest["O"] -= len(oxygens)
    if any(count < 0 for count in rest.values()):  # oxygens that two of the groups share
        groups, rest = Counter(), Counter(element[atom] for atom in atoms)
    order = sorted((e for e in rest if rest[e] > 0), key=_first_metals if has_metals else _carbon_first)
    plain = "".join(f"{e}{rest[e] if rest[e] > 1 else ''}" for e in order)
    return plain + "".join(f"({group}){count if count > 1 else ''}" if count > 1 or plain else group
                           for group, count in sorted(groups.items()))


def plain_formula(elements: list[str]) -> str:
    """The formula of some atoms, metals first."""
    counts = Counter(elements)
    has_metals = any(map(is_metal, counts))
    order = sorted(counts, key=_first_metals if has_metals else _carbon_first)
    return "".join(f"{e}{counts[e] if counts[e] > 1 else ''}" for e in order)


def _first_metals(element: str) -> tuple[int, str]:
    return 0 if is_metal(element) else 1, element


def _carbon_first(element: str) -> tuple[int, str]:
    return {"C": 0, "H": 1}.get(element, 2), element
