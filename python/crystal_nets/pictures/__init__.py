"""Pictures of nets from the report of `net_tool identify`. Cells, symmetries and crystals are those of `embedding`.

shape       all that a picture needs: sites, axes, kinds of vertices, what stands in a window
view        from which side a net is seen, and how much of it
text        colours, and the words below a picture
svg, page   the two forms of pictures that are written
drawn       what is written of the nets of a report
command     the command net_tool draw
gallery     the command net_tool gallery: a page for each archive"""
