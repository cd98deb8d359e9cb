"""The atoms of a crystal.

crystal   sites, atoms, and the crystal that they make
elements  the elements of labels and formulas
places    images of sites, and what stands in one place
disorder  which of several alternatives is taken
formula   what formula and Z say of a cell
sanity    whether the atoms can be right"""
