"""Small structure files of many kinds, and what their nets are, told by numbers of neighbours and coordination
sequences, without the program. The coordinates are those of the structure types, or of ideal geometry."""

from __future__ import annotations

import unittest

from structures import cif_text

from crystal_nets.net import Net
from crystal_nets.structures.conversion import Conversion, Source, convert
from crystal_nets.structures.nets.choice import Options
from crystal_nets.structures.nets.simplification import shells

# the first four shells of nets with one kind of vertex (dev/archives/sequences.tsv has more)
SEQUENCES = {"pcu": (6, 18, 38, 66), "dia": (4, 12, 24, 42), "bcu": (8, 26, 56, 98), "fcu": (12, 42, 92, 162),
             "sod": (4, 10, 20, 34), "sql": (4, 8, 12, 16), "hcb": (3, 6, 9, 12), "fes": (3, 5, 8, 11),
             "hxl": (6, 12, 18, 24), "qtz": (4, 12, 30, 52), "kgm": (4, 8, 14, 18)}


def cubic(edge: float) -> tuple[float, ...]:
    return edge, edge, edge, 90, 90, 90


def converted(text: str, **options: object) -> Conversion:
    return convert(Source("test.cif", "test.cif", "test"), text.encode(), Options(**options))


class Kinds(unittest.TestCase):
    """What a file gives, and what is reported."""

    def nets(self, text: str, **options: object) -> list[Net]:
        done = converted(text, **options)
        self.assertFalse(done.is_refused, done.told(is_quiet=False))
        return done.nets

    def net(self, text: str, **options: object) -> Net:
        nets = self.nets(text, **options)
        self.assertEqual(len(nets), 1, [net.name for net in nets])
        return nets[0]

    def doubts(self, text: str, **options: object) -> str:
        done = converted(text, **options)
        return "\n".join(note.text for _, note in done.notes if note.kind == "doubt")

    def refusal(self, text: str, **options: object) -> str:
        done = converted(text, **options)
        self.assertTrue(done.is_refused, [net.name for net in done.nets])
        return "\n".join(done.told(is_quiet=True))

    def assert_net(self, symbol: str, text: str, **options: object) -> None:
        graph = self.net(text, **options).graph
        self.assertEqual({sequence[:4] for sequence in shells(graph, 4)}, {SEQUENCES[symbol]})


__all__ = ["SEQUENCES", "Kinds", "cif_text", "converted", "cubic"]
