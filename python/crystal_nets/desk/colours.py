"""The colours of elements, which are those of Jmol (jmol.sourceforge.net/jscolors)."""

from __future__ import annotations

COLOURS = dict(pair.split(":") for pair in """
H:e8e8e8 Li:cc80ff Be:c2ff00 B:ffb5b5 C:909090 N:3050f8 O:ff0d0d F:90e050 Na:ab5cf2 Mg:8aff00 Al:bfa6a6 Si:f0c8a0 P:ff8000
S:e6e630 Cl:1ff01f K:8f40d4 Ca:3dff00 Sc:e6e6e6 Ti:bfc2c7 V:a6a6ab Cr:8a99c7 Mn:9c7ac7 Fe:e06633 Co:f090a0 Ni:50d050 Cu:c88033
Zn:7d80b0 Ga:c28f8f Ge:668f8f As:bd80e3 Se:ffa100 Br:a62929 Rb:702eb0 Sr:00ff00 Y:94ffff Zr:94e0e0 Nb:73c2c9 Mo:54b5b5
Tc:3b9e9e Ru:248f8f Rh:0a7d8c Pd:006985 Ag:c0c0c0 Cd:ffd98f In:a67573 Sn:668080 Sb:9e63b5 Te:d47a00 I:940094 Cs:57178f Ba:00c900
La:70d4ff Ce:ffffc7 Hf:4dc2ff Ta:4da6ff W:2194d6 Re:267dab Os:266696 Ir:175487 Pt:d0d0e0 Au:ffd123 Hg:b8b8d0 Tl:a6544d
Pb:575961 Bi:9e4fb5 Th:00baff U:008fff""".split())
OTHER = "61ffc7"


def colour_of(element: str) -> str:
    return f"#{COLOURS.get(element, OTHER)}"
