"""Crystal nets in Python, by the proved program net_tool.

>>> import crystal_nets
>>> square = crystal_nets.Net([(1, 1, (1, 0)), (1, 1, (0, 1))], name="square")
>>> crystal_nets.identify(square, archive=None).sequences
((4, 8, 12, 16, 20, 24, 28, 32, 36, 40),)

What is proved of an answer, each docstring says. It begins at the block of a net: how that was made of a structure is
chemistry, and no theorem.

The modules that a user calls:
net        a net, from edges and whatever else there is
reading    files, atoms of ase and pymatgen, graphs of networkx
formats    the formats of files, in one table, and which of them a file has
other_forms  the JSON of pymatgen
kinds      what a file is that has no net
sources    many sources, read in several processes
tasks      what a worker does of some sources
journal    a file of what was done, so that a run that broke off goes on
file_parts  long files of nets in parts
limits     how long a call may take
apart      work in a process that can be ended
options    how structures are read
asking     identify, identify_all, keys
streams    identify_each: answers as they come, by any executor
maps       same: whether two nets are isomorphic, with the map
parts      components: what interpenetrates
covers     cover: a net on a larger cell
symmetries all symmetries of a net, its orbits, and the symbols of its groups
groups     group: which of many nets are the same
twins      without_twins: vertices with the same neighbours made one
archive    archives of named nets, in memory
json_forms  nets and answers as dicts, and back
symbols    the symbols that names begin with, as dia
answers    what is answered, and tables of it; outcome: what became of a net
drawing    pictures
errors     what is raised
program    where net_tool is, and how it is run

What they are made of:
graph       the labelled quotient graph, the one form of a net
lattice     lattices of whole vectors
provenance  how a net was made: what travels with it to its answer
refusal     why a structure or a block gives no net

What the subcommands share:
commands      the subcommands, by the table commands.tsv, and how they are started
__main__      `python3 -m crystal_nets SUBCOMMAND`
names         names FILE..: the names of nets
conversions   convert FILE..: which reader a file is for
archive_list  archive list: where names are looked up
command_line  what the words of all commands have, as --version
progress      how far some work is, on a terminal
files         paths, and files that are written whole or not at all
side_by_side  work in several processes

The packages under them:
tables      tables of many nets, as `net_tool table` makes them; read_table for pandas
topology    what databases list: point symbols, vertex symbols, density, kinds of vertices and edges
different   certificates that two nets are different, which anybody can check by counting
wide        names of nets that have no key: a search that nobody need trust, with maps that `net_tool verify` takes
texts       the texts around net_tool: files of nets, reports, rows, archives, the graph of a key
structures  from structure files to nets
blocks      from .cgd and .arc files to nets
desk        the page in the browser and its server
embedding   cell, group, positions and edges of a net: the standard realization, or relaxed
pictures    nets drawn, and written as crystals"""

from __future__ import annotations

from importlib import import_module
from typing import TYPE_CHECKING, Any

if TYPE_CHECKING:
    from .answers import Answer, Answers, By, Placement, PrimitiveGraph, to_pandas
    from .archive import Archive
    from .asking import identify, identify_all, keys
    from .checking import check
    from .covers import Cover, cover
    from .drawing import svg
    from .errors import (CrystalNetsError, NotAJournal, NotANet, NotAnArchive, NotAnOption, NotATable, PackageMissing,
                         ProgramFailed, ProgramNotFound, ProgramTimedOut)
    from .groups import Group, Groups, group
    from .maps import Meeting, NetMap, Sameness, same
    from .net import Net
    from .options import StructureOptions
    from .outcome import Outcome
    from .parts import Component, Components, components, net_of_key
    from .program import find_program
    from .reading import read
    from .streams import identify_each
    from .symmetries import NetSymmetry
    from .tables.columns import read_table
    from .twins import without_twins

__version__ = "2.0"  # of all tools and of the release, as CHANGELOG.md begins
__all__ = ["Answer", "Answers", "Archive", "By", "Component", "Components", "Cover", "CrystalNetsError", "Group", "Groups",
           "Meeting", "Net", "NetMap", "NetSymmetry", "NotAJournal", "NotANet", "NotATable", "NotAnArchive", "NotAnOption", "Outcome",
           "PackageMissing", "Placement", "PrimitiveGraph", "ProgramFailed", "ProgramNotFound", "ProgramTimedOut", "Sameness",
           "StructureOptions", "check", "components", "cover", "find_program", "group", "identify", "identify_all",
           "identify_each", "keys", "net_of_key", "read", "read_table", "same", "svg", "to_pandas", "without_twins"]

HOMES = {"answers": "Answer Answers By Placement PrimitiveGraph to_pandas", "archive": "Archive",
         "asking": "identify identify_all keys", "checking": "check", "covers": "Cover cover", "drawing": "svg",
         "errors": "CrystalNetsError NotAJournal NotANet NotAnArchive NotAnOption NotATable PackageMissing ProgramFailed "
                   "ProgramNotFound ProgramTimedOut",
         "groups": "Group Groups group", "maps": "Meeting NetMap Sameness same", "net": "Net",
         "options": "StructureOptions", "outcome": "Outcome",
         "parts": "Component Components components net_of_key", "program": "find_program", "reading": "read",
         "streams": "identify_each", "symmetries": "NetSymmetry",
         "tables.columns": "read_table", "twins": "without_twins"}
HOME_OF = {name: module for module, names in HOMES.items() for name in names.split()}


def __getattr__(name: str) -> Any:
    """Loads a module where it is asked for first: subcommands start thousands of times, and need few."""
    if name not in HOME_OF:
        raise AttributeError(f"module {__name__!r} has no attribute {name!r}")
    value = getattr(import_module(f".{HOME_OF[name]}", __name__), name)
    globals()[name] = value
    return value


def __dir__() -> list[str]:
    return sorted({*globals(), *__all__})
