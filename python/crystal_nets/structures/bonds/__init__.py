"""Which atoms are joined.

contacts  distances, and the radii that they are judged by
listed    bonds that the file lists
valences  how strong the bonds of metals are
lengths   the shortest bonds of two elements, and single bonds
rules     the rules by which atoms are joined
shells    elements and intermetallics: nearest shells
metals    two metals beside anions
zintl     Zintl phases: the bonds of their anions
ices      nets of water
hydrogen  hydrogen bonds"""
