"""How short a bond of two elements can be, and the single bonds of metals.

The radii are those of single, double and triple bonds: P. Pyykkö and M. Atsumi, Chem. Eur. J. 15 (2009) 186 and 12770;
P. Pyykkö, S. Riedel and M. Patzschke, Chem. Eur. J. 11 (2005) 3511. They are fitted to the shortest bonds of each kind
that are known, as C-N 1.14 in cyanides, V-O 1.59 in vanadyls. Where an atom has others beside it at such a length, it
has no triple bond: so an oxygen between two metals is not as near as in a vanadyl. Nor have two nonmetals of the third
row or below one: so As-S is not as near as C-S."""

from __future__ import annotations

from functools import cache

from .contacts import radius

SHARE = 1.2          # times a bond: another one of the same atom up to here takes its part of the bonding
OF_NONMETALS = 0.92  # of the sum of these radii; thermal motion makes bonds look shorter
OF_METALS = 0.95
SECOND_ROW = frozenset("B C N O F".split())
MOST_OF_TRIPLE = 1   # neighbours beside a triple bond that an atom of the second row can have

# single, double and triple, in picometres
RADII = {symbol: tuple(map(int, radii)) for symbol, *radii in (line.split() for line in """
H 32
He 46
Li 133 124
Be 102 90 85
B 85 78 73
C 75 67 60
N 71 60 54
O 63 57 53
F 64 59 53
Ne 67 96
Na 155 160
Mg 139 132 127
Al 126 113 111
Si 116 107 102
P 111 102 94
S 103 94 95
Cl 99 95 93
Ar 96 107 96
K 196 193
Ca 171 147 133
Sc 148 116 114
Ti 136 117 108
V 134 112 106
Cr 122 111 103
Mn 119 105 103
Fe 116 109 102
Co 111 103 96
Ni 110 101 101
Cu 112 115 120
Zn 118 120
Ga 124 117 121
Ge 121 111 114
As 121 114 106
Se 116 107 107
Br 114 109 110
Kr 117 121 108
Rb 210 202
Sr 185 157 139
Y 163 130 124
Zr 154 127 121
Nb 147 125 116
Mo 138 121 113
Tc 128 120 110
Ru 125 114 103
Rh 125 110 106
Pd 120 117 112
Ag 128 139 137
Cd 136 144
In 142 136 146
Sn 140 130 132
Sb 140 133 127
Te 136 128 121
I 133 129 125
Xe 131 135 122
Cs 232 209
Ba 196 161 149
La 180 139 139
Ce 163 137 131
Pr 176 138 128
Nd 174 137
Pm 173 135
Sm 172 134
Eu 168 134
Gd 169 135 132
Tb 168 135
Dy 167 133
Ho 166 133
Er 165 133
Tm 164 131
Yb 170 129
Lu 162 131 131
Hf 152 128 122
Ta 146 126 119
W 137 120 115
Re 131 119 110
Os 129 116 109
Ir 122 115 107
Pt 123 112 110
Au 124 121 123
Hg 133 142
Tl 144 142 150
Pb 144 135 137
Bi 151 141 135
Po 145 135 129
At 147 138 138
Rn 142 145 133
Fr 223 218
Ra 201 173 159
Ac 186 153 140
Th 175 143 136
Pa 169 138 129
U 170 134 118
Np 171 136 116
Pu 172 135
Am 166 135
""".strip().splitlines())}


@cache
def _shortest_radius(element: str, order: int) -> float:
    """The shortest radius of bonds up to an order, in angstrom."""
    return min(RADII[element][:order]) / 100 if element in RADII else 0.75 * radius(element)


def single_bond(one: str, other: str) -> float:
    """The length of a single bond, in angstrom."""
    return _shortest_radius(one, 1) + _shortest_radius(other, 1)


def shortest_of_nonmetals(one: str, other: str, beside_one: int = 0, beside_other: int = 0) -> float:
    """The shortest bond of two nonmetals that have so many other neighbours, in angstrom."""
    is_heavy = one not in SECOND_ROW and other not in SECOND_ROW
    return OF_NONMETALS * (_shortest_radius(one, _highest_order(one, beside_one, is_heavy))
                           + _shortest_radius(other, _highest_order(other, beside_other, is_heavy)))


def shortest_in_shell(one: str, other: str) -> float:
    """The shortest bond of two elements that both have many neighbours, in angstrom."""
    return OF_METALS * (_shortest_radius(one, 2) + _shortest_radius(other, 2))


def shortest_of_metal(metal: str, nonmetal: str, beside: int = 0) -> float:
    """The shortest bond of a metal and a nonmetal that has so many other bonds about as short, in angstrom."""
    order = 2 if beside else 3
    return OF_METALS * (_shortest_radius(metal, order) + _shortest_radius(nonmetal, order))


def _highest_order(element: str, beside: int, is_heavy: bool) -> int:
    return 2 if is_heavy or (element in SECOND_ROW and beside > MOST_OF_TRIPLE) else 3
