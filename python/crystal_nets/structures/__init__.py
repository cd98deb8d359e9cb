"""The underlying nets of crystal structures: what the command net_tool convert is made of.

The way of one structure, a room for each step:
reading   the blocks of a file, its atoms as listed and its operations, to a crystal; atoms of other programs
atoms     the crystal: its atoms, their elements, places and disorder, and whether they can be right
bonds     distances, and the rules by which atoms are joined
units     building units, and what is a vertex by the conventions of the field
nets      pieces, simplification and translations of quotient graphs, and the nets that are chosen
conversion, files, command  what became of a file, files and their names, the words of the command line"""
