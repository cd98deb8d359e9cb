"""What the formula and Z of a file say of the atoms of its cell."""

from __future__ import annotations

from collections.abc import Collection
from dataclasses import dataclass
from statistics import median

from .elements import is_element, is_metal, makes_anions

OTHER = 1.4  # times: so many more or fewer are reported
SOME = 0.05  # of the atoms of an element: so many may lack, as by rounded occupancies
NEAR = 1.15  # times: between the atoms of a cell and those of Z formulas
ANIONS = frozenset("N O F Cl Br I S Se Te".split())  # which make no net of their own beside what they are bonded to


@dataclass(frozen=True)
class Expected:
    """The formula of a file, and how many of it a cell has; no Z is 0."""

    formula: dict[str, float]
    formulas: float

    def factor_of(self, counts: dict[str, float]) -> float:
        """How many times the atoms of Z formulas a cell has, in the median of its elements other than H; 0 if that is not
        known."""
        ratios = self._ratios(counts)
        return median(ratios) if ratios else 0.0

    def doubt_of(self, counts: dict[str, float]) -> str:
        """What is to be reported if all elements are there another number of times than Z says."""
        ratios = self._ratios(counts)
        if not ratios or max(ratios) > NEAR * min(ratios) or 1 / OTHER <= min(ratios) <= OTHER:
            return ""
        return f"the cell has {median(ratios):.2g} times the atoms that the formula and Z say"

    def doubt_of_some(self, counts: dict[str, float]) -> str:
        """What is to be reported if the cell has all atoms of an element that the formula and Z say, and less of another one.
        Beside carbon these may be of solvents."""
        wanted = {element: self.formula.get(element, 0.0) * self.formulas for element in counts if element != "H"}
        whole = [e for e in wanted if wanted[e] > 0 and abs(counts[e] - wanted[e]) <= SOME * wanted[e]]
        fewer = [e for e in wanted if counts[e] < (1 - SOME) * wanted[e]]
        if not whole or not fewer or "C" in counts:
            return ""
        return f"the cell has {' and '.join(f'{counts[e]:g} of {wanted[e]:g} {e}' for e in fewer)} that the formula and Z say"

    def _ratios(self, counts: dict[str, float]) -> list[float]:
        """Of each element other than H its atoms in the cell over those in Z formulas; none if Z is not known."""
        if self.formulas <= 0:
            return []
        return [count / (self.formula[element] * self.formulas) for element, count in counts.items()
                if element != "H" and self.formula.get(element, 0.0) > 0]

    def doubt_of_elements(self, present: Collection[str]) -> str:
        """What is to be reported if the formula has elements of which no atom has a place, or the cell has others than the
        formula. Hydrogen does not count: most files leave it out."""
        if not self.formula:
            return ""
        lacking, foreign = self._lacking(present), sorted(set(present) - set(self.formula) - {"H"})
        told = [f"no atom is {' or '.join(lacking)}, which the formula has"] * bool(lacking)
        told += [f"the cell has {' and '.join(foreign)}, which the formula has not"] * bool(foreign)
        return "; ".join(told)

    def misfit_of_anions(self, present: Collection[str]) -> str:
        """Why these are not the atoms of the compound, if all that makes anions beside its metals lacks, as where a file
        lists the zinc of ZnO alone."""
        anions = [element for element in self._known() if makes_anions(element)]
        if not anions or not all(map(is_metal, present)) or set(anions) & set(present):
            return ""
        return f"no atom is {' or '.join(sorted(anions))}, which the formula has beside {' and '.join(sorted(present))}"

    def misfit_of_cations(self, present: Collection[str]) -> str:
        """Why these are not the atoms of the compound, if it is one of anions, without hydrogen, and a file lists these alone,
        as the oxygens of quartz: packings of anions are no structures of the compound."""
        lacking = self._lacking(present)
        if not lacking or len(present) != 1 or not ANIONS.issuperset(present) or not {"H", "D"}.isdisjoint(self.formula):
            return ""
        return f"no atom is {' or '.join(lacking)}, which the formula has beside {''.join(present)}"

    def _known(self) -> list[str]:
        return [element for element, count in self.formula.items() if element not in ("H", "D") and count > 0 and is_element(element)]

    def _lacking(self, present: Collection[str]) -> list[str]:
        return sorted(element for element in self._known() if element not in present)

    def fits(self, counts: dict[str, float]) -> bool:
        """Whether the cell has as many atoms as the formula and Z say."""
        return 1 / NEAR <= self.factor_of(counts) <= NEAR
