"""Names for nets that net_tool refuses a key, certified by `net_tool verify`. Nothing here is proved, and nothing here need
be: what is found is a text that the proved program takes or refuses.

elimination  the barycentric placement modulo a prime
placed       a placed net, and its metric
colours      numbers of vertices that do not depend on the cell and the numbering
folding      leaves and twins, folded into the vertices that they hang on
sites        the vertices gathered at the places where they stand, and what is the same of a net in whatever cell
frames       the linear parts that a map between two nets may have
walking      the images of all sites, from that of one and the linear part
over_sites   two nets over the same sites, on a torus or a patch of cells
refinement   what of two graphs differs in the surroundings of their vertices
parities     two vertices in one place: equations over the field of two elements
fibres       the map of the vertices of each place
lifting      the period that such a map needs, and whether there is any
matching     find_map: a map from one net to another
primitive    the net over all its translations, on a short basis, with the map to it
shortening   short bases of lattices
periodic_map a map as `net_tool verify` reads it, and a check of it in Python
certificate  what the program is asked, and what it has taken
archive      archives of nets without a key, with an index
index_command the command net_tool archive index
naming       the names of a net without a key, and by what they are certain
meeting      two nets in any cells: a small net, and a map of each to it
grouping     groups of nets without a key
exact_key    the key in whole numbers of any size, from its definition alone"""
