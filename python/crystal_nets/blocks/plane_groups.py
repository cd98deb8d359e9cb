"""The 17 plane groups by their usual names, with generators: International Tables for Crystallography A, part 6."""

from __future__ import annotations

CENTRED = "x+1/2,y+1/2"
# number, names (short, full, older, other axes by their own generators below), Conway's orbifold symbol, generators
TABLE = (
    (1, "p1", "o", ()),
    (2, "p2 p211", "2222", ("-x,-y",)),
    (3, "pm p1m1", "**", ("-x,y",)),
    (4, "pg p1g1", "xx", ("-x,y+1/2",)),
    (5, "cm c1m1", "*x", ("-x,y", CENTRED)),
    (6, "p2mm pmm pmm2", "*2222", ("-x,-y", "-x,y")),
    (7, "p2mg pmg pmg2", "22*", ("-x,-y", "-x+1/2,y")),
    (8, "p2gg pgg pgg2", "22x", ("-x,-y", "-x+1/2,y+1/2")),
    (9, "c2mm cmm cmm2", "2*22", ("-x,-y", "-x,y", CENTRED)),
    (10, "p4", "442", ("-y,x",)),
    (11, "p4mm p4m", "*442", ("-y,x", "-x,y")),
    (12, "p4gm p4g", "4*2", ("-y,x", "-x+1/2,y+1/2")),
    (13, "p3", "333", ("-y,x-y",)),
    (14, "p3m1", "*333", ("-y,x-y", "-y,-x")),
    (15, "p31m", "3*3", ("-y,x-y", "y,x")),
    (16, "p6", "632", ("x-y,x",)),
    (17, "p6mm p6m", "*632", ("x-y,x", "-y,-x")),
)
# with the axes exchanged
OTHER_AXES = {
    "p11m": ("x,-y",), "p11g": ("x+1/2,-y",), "c11m": ("x,-y", CENTRED),
    "p2gm": ("-x,-y", "x,-y+1/2"), "pgm": ("-x,-y", "x,-y+1/2"),
}


def _by_name() -> dict[str, tuple[str, tuple[str, ...]]]:
    names = {}
    for number, spellings, orbifold, generators in TABLE:
        first = spellings.split()[0]
        for name in (*spellings.split(), orbifold, str(number)):
            names[name] = (first, generators)
    return names | {name: (name, generators) for name, generators in OTHER_AXES.items()}


BY_NAME = _by_name()  # the first name and the generators, by each name in small letters without blanks
