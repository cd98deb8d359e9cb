"""Bond valences of metals: how strong a bond is, by its length.

s = exp((R0 - d) / 0.37), with R0 for oxygen of I. D. Brown and D. Altermatt, Acta Cryst. B41 (1985) 244. For other
anions R0 is longer by a step that is about the same for all metals: the mean of what M. O'Keeffe and N. E. Brese
(J. Am. Chem. Soc. 113 (1991) 3226) give. It errs by some 0.1 to 0.2 where a metal has several valences."""

from __future__ import annotations

from math import exp

from .contacts import radius

SOFTNESS = 0.37  # angstrom
# for bonds to oxygen, in angstrom, of the usual valence of each
OF_OXIDES = {name: float(length) for name, length in (word.split(":") for word in """
Li:1.466 Na:1.803 K:2.132 Rb:2.263 Cs:2.417 Be:1.381 Mg:1.693 Ca:1.967 Sr:2.118 Ba:2.285 Ag:1.842 Tl:2.124 Pb:2.112
La:2.172 Ce:2.151 Pr:2.135 Nd:2.117 Sm:2.088 Eu:2.076 Gd:2.065 Tb:2.049 Dy:2.036 Ho:2.023 Er:2.010 Tm:2.000 Yb:1.985
Lu:1.971 Y:2.014 Sc:1.849 Bi:2.094 Al:1.651 Ga:1.730 In:1.902 Zn:1.704 Cd:1.904 Hg:1.972 Cu:1.679 Ni:1.654 Co:1.692
Fe:1.759 Mn:1.790 Cr:1.724 V:1.784 Ti:1.815 Zr:1.937 Hf:1.923 Nb:1.911 Ta:1.920 Mo:1.907 W:1.921 Sn:1.905 Ge:1.748
Sb:1.942 Te:1.977 U:2.075 Th:2.167 Re:1.930 Ru:1.834 Rh:1.793 Pd:1.792 Os:1.811 Ir:1.870 Pt:1.879 Au:1.833
""".split())}
LONGER = {"O": 0.0, "F": -0.10, "N": 0.12, "C": 0.22, "Cl": 0.37, "Br": 0.52, "I": 0.73, "S": 0.44, "Se": 0.57,
          "Te": 0.77, "P": 0.53, "As": 0.63, "H": -0.16}


def valence(metal: str, anion: str, length: float) -> float:
    """The strength of a bond of so many angstrom."""
    reference = OF_OXIDES.get(metal, radius(metal) + radius("O") - 0.3)
    return exp((reference + LONGER.get(anion, 0.4) - length) / SOFTNESS)
