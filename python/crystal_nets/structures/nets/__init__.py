"""The nets that a crystal consists of.

pieces           connected components, each over its own lattice
interpenetration the class of nets alike, by which operations carry them into each other
simplification   ends left out, and vertices with two neighbours made edges
translations     the net of a cell that is several times the primitive one
guests           cations that are no part of a framework
readings         doubts: other readings of the contacts that give another net
laid_out         the atoms and bonds of a net in space, for pictures
known            names of nets by their coordination sequences
choice           which nets are written, and what a reader should know of each"""
