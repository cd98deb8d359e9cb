"""From a file, or from atoms of another program, to a crystal.

formats    kinds of files
poscar     POSCAR texts, as ase reads them
document   the blocks of a file, and kinds of files that are not read
sites      the atoms as a block lists them
names      spellings of the names of space groups
symmetry   the operations of a block, and the primitive lattice
structure  the crystal of a block
given      the crystal of atoms that another program holds"""
