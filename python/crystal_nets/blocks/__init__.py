"""The blocks of the field's .cgd and .arc files as nets: what the command net_tool convert is made of.

The way of a text, a module for each step:
converter                 the text cut into blocks, and each written as what the program reads
tokens                    words, numbers and keywords of a line, as Systre reads them
sections                  which lines are rows, of which keyword, and what is passed over
operations, plane_groups  affine maps that are written out, and the 17 plane groups
groups                    space groups by name, Hall symbol, number, or operations
crystal                   the rows of a CRYSTAL or TILING block
orbits, neighbours        orbits of its nodes and edges, and edges that are to be found by distance
expansion                 its net, with each degree as stated
checks, stated            what it states of its net, compared: middles of edges and densities; sequences and TD10
symbolic                  NET blocks
periodic_graph, key_lines PERIODIC_GRAPH blocks of other programs, and items of Systre's archives
made_net                  the net that is made of them, within the limits of the program
command                   the words of the command line of net_tool convert
archives_command          the words of net_tool archive make
rcsr_command              the words of net_tool archive rcsr
collection                archives of many nets, and what is refused"""
