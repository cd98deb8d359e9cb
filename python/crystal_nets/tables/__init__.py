"""Tables of many nets, which net_tool table makes.

source    the files of a source, and whether they are still those that were planned
plan      what there is to do: files and parts of files, in pieces that one process does at a time
piece     the rows of one piece, which are kept until all are there
made      which tools and which program have made the rows
listed    what databases list of the net of a row
columns   the columns of the table, and how it is read
sorting   lines sorted by `sort`, which uses the disk
database  a table as a database: its rows, and its nets, each of which stands once
parquet   the files of a table in that form, by pyarrow
join      the table, groups, names and refusals, from the rows of all pieces
command   the words of the command line, processes side by side"""
