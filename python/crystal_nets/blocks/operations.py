"""Affine maps that are written out, as `1-x,y+1/2,z`, in exact fractions."""

from __future__ import annotations

import re
from collections.abc import Iterable
from dataclasses import dataclass
from fractions import Fraction

TERM = re.compile(r"([+-]?)(\d+\.?\d*|\.\d+)?(?:/(\d+))?\*?([xyz])?(?:/(\d+))?")
LONGEST = 200                # characters of a map
SNAP = 24                    # symmetry elements of the groups stand at multiples of 1/24
NEAR = Fraction(1, 1000)     # a decimal is taken for such a multiple that is nearer
MOST_OPERATIONS = 192        # of a space group in any of its usual cells
Matrix = tuple[tuple[Fraction, ...], ...]
Vector = tuple[Fraction, ...]


@dataclass(frozen=True)
class Affine:
    """x goes to rotation·x + translation. The rotation of a site need not be invertible."""

    rotation: Matrix
    translation: Vector

    @property
    def dimension(self) -> int:
        return len(self.translation)

    def after(self, first: Affine) -> Affine:
        """The map that is `first` and then this one."""
        columns = list(zip(*first.rotation))
        rotation = tuple(tuple(_dot(row, column) for column in columns) for row in self.rotation)
        translation = tuple(_dot(row, first.translation) + t for row, t in zip(self.rotation, self.translation))
        return Affine(rotation, translation)

    def wrapped(self) -> Affine:
        """The same map up to a translation of the cell."""
        return Affine(self.rotation, tuple(t % 1 for t in self.translation))


def _dot(u: Iterable[Fraction], v: Iterable[Fraction]) -> Fraction:
    return sum((x * y for x, y in zip(u, v)), Fraction(0))


def identity(dimension: int) -> Affine:
    rows = tuple(tuple(Fraction(int(i == j)) for j in range(dimension)) for i in range(dimension))
    return Affine(rows, (Fraction(0),) * dimension)


def affine(text: str) -> Affine:
    """The map that a text writes out, in two or three parts; ValueError where it has not that form."""
    parts = text.lower().replace(" ", "").split(",")
    if len(text) > LONGEST or len(parts) not in (2, 3):
        raise ValueError(f"{text[:40]!r} is no operation as x,y+1/2,z")
    rows = [_row(part, len(parts)) for part in parts]
    return Affine(tuple(row for row, _ in rows), tuple(constant for _, constant in rows))


def _row(part: str, dimension: int) -> tuple[tuple[Fraction, ...], Fraction]:
    """The coefficients and the constant of one part."""
    coefficients, constant, at = [Fraction(0)] * dimension, Fraction(0), 0
    while at < len(part):
        match = TERM.match(part, at)
        sign, number, below, variable, divisor = match.groups() if match else ("", None, None, None, None)
        if not match or not (number or variable) or (at and not sign) or (below and not number):
            raise ValueError(f"{part[:40]!r} is no part of an operation")
        if int(below or 1) == 0 or int(divisor or 1) == 0:
            raise ValueError(f"{part[:40]!r} divides by 0")
        value = Fraction(number or 1) / int(below or 1) / int(divisor or 1) * (-1 if sign == "-" else 1)
        if variable:
            if "xyz".index(variable) >= dimension:
                raise ValueError(f"{part[:40]!r} has {variable} in two dimensions")
            coefficients["xyz".index(variable)] += value
        else:
            constant += value
        at = match.end()
    if not part:
        raise ValueError("an operation has an empty part")
    return tuple(coefficients), snapped(constant)


def snapped(value: Fraction) -> Fraction:
    """The multiple of 1/24 that a decimal stands for, as 1/3 for 0.3333; or the value itself."""
    near = Fraction(round(value * SNAP), SNAP)
    return near if abs(value - near) < NEAR else value


def closure(operations: Iterable[Affine]) -> list[Affine]:
    """The group that operations generate, up to translations of the cell; ValueError where it is none."""
    generators = [operation.wrapped() for operation in operations]
    for generator in generators:
        if any(x.denominator != 1 for row in generator.rotation for x in row) or abs(_det(generator.rotation)) != 1:
            raise ValueError("an operation is no symmetry of a lattice")
    found = {identity(generators[0].dimension)}
    todo = list(found)
    while todo:
        operation = todo.pop()
        for generator in generators:
            product = generator.after(operation).wrapped()
            if product not in found:
                found.add(product)
                todo.append(product)
        if len(found) > MOST_OPERATIONS:
            raise ValueError(f"the operations generate more than {MOST_OPERATIONS} others")
    return sorted(found, key=lambda a: (a.rotation, a.translation), reverse=True)


def _det(m: Matrix) -> Fraction:
    if len(m) == 2:
        return m[0][0] * m[1][1] - m[0][1] * m[1][0]
    return sum((m[0][i] * (m[1][(i + 1) % 3] * m[2][(i + 2) % 3] - m[1][(i + 2) % 3] * m[2][(i + 1) % 3])
                for i in range(3)), Fraction(0))
