"""The texts around net_tool.

graph_text      quotient graphs as blocks: the writer and the reader
net_text        files of nets, and reports of check, place, key and identify
report_lines    the lines of a report
component_text  reports of components
symmetry_text   reports of symmetry
archive_text    archives
key_graph       the graph of a key"""
