"""Embeddings of a net that has a key: its usual cell and group, its positions and edges.

placed        the primitive graph of a net with its barycentric positions, out of a report or of a key
metric        the shape of the cell in the standard realization (Kotani and Sunada), short bases
symmetry      all symmetries of a placed net, its crystal system, orbits
listed        the operations that the program lists of a net, and the symbols of their groups
cell          the cell that a chemist would draw
settings      the group of a net in its usual setting: by spglib in space, one of 17 in the plane
relaxing      the shape of greatest volume with no edge longer than 1, or edges as equal as were found
certificate   weights by which anybody can check that no embedding has a greater volume
measures      lengths, angles, density and degrees of freedom, as Systre prints them
embedding     the value that all of these make
crystal_text  an embedding as a block CRYSTAL, and as a CIF
other_forms   an embedding as atoms of ase, as a structure of pymatgen, and as JSON
reading_back  crystals read back, and compared with their net by the key

All of it is computed in floating-point numbers and not proved; what is certified is checked in exact numbers."""
