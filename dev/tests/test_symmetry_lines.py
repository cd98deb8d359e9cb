"""The lines of `symmetry`: checked by themselves, and beside a search that knows no frames, lists or keys."""

from __future__ import annotations

import copy
import unittest
from collections.abc import Callable, Iterator

from symmetry_lines import Operation, Told, all_faults, faults, is_small, read, searched
from testing import PROGRAM, TOP, long_test, need_program, run

EXAMPLES = sorted((TOP / "examples").glob("*.cgd"))

HONEYCOMB = """net 1 line 1 "hcb"
graph d=2 vertices=2 edges=3 repeats=0
primitive vertices=2 edges=3
basis 3 0
basis 0 3
edge 1 2 0 0
edge 1 2 0 1
edge 1 2 1 0
key 2 2 1 1 2 -1 -1 1 2 0 1 1 2 1 0
placement D=3
at 1 0 0
at 2 -1 -1
operations 12
operation 1 0 0 1 0 0
operation -1 -1 0 1 0 0
operation -1 -1 1 0 0 0
operation -1 0 0 -1 -1 -1
operation -1 0 1 1 -1 -1
operation 0 -1 -1 0 -1 -1
operation 0 -1 1 1 -1 -1
operation 0 1 -1 -1 0 0
operation 0 1 1 0 0 0
operation 1 0 -1 -1 0 0
operation 1 1 -1 0 -1 -1
operation 1 1 0 -1 -1 -1
vertices 1
orbit 1 size=2 order=6
edges 1
orbit 1 2 0 0 size=3
"""


def symmetry(*words: object, stdin: bytes = b"") -> list[Told]:
    return list(read(run(PROGRAM, "symmetry", *words, stdin=stdin, status=None).stdout.decode()))


class Checker(unittest.TestCase):
    """The check finds each kind of fault in lines that are right but for it."""

    def setUp(self) -> None:
        self.told, = read(HONEYCOMB)

    def test_right_lines_pass(self) -> None:
        self.assertEqual(list(faults(self.told)), [])
        self.assertTrue(is_small(self.told))
        self.assertEqual(searched(self.told), self.told.operations)

    def changed(self) -> Iterator[tuple[str, Told]]:
        """Yields lines with one fault each, and what is said of it."""
        changes: list[tuple[str, Callable[[Told], object]]] = [
            ("missing", lambda told: told.places.pop(2)),
            ("mean of its neighbours", lambda told: told.places.update({2: (-1, 0)})),
            ("identity", lambda told: told.operations.reverse()),
            ("rise", lambda told: told.operations.append(told.operations.pop(3))),
            ("rise", lambda told: told.operations.append(told.operations[-1])),
            ("not go to a vertex of cell 0", lambda told: told.operations.append(Operation(((2, 0), (0, 1)), (5, 5)))),
            ("no symmetry", lambda told: told.operations.append(Operation(((2, 0), (0, 1)), (0, 0)))),
            ("is not there", lambda told: told.operations.pop(5)),
            ("orbits of vertices", lambda told: told.vertex_orbits.append((2, 1, 12))),
            ("size times an order", lambda told: told.vertex_orbits.append((1, 2, 12))),
            ("orbits of edges", lambda told: told.edge_orbits.pop()),
        ]
        for said, change in changes:
            told = copy.deepcopy(self.told)
            change(told)
            yield said, told

    def test_each_fault_is_found(self) -> None:
        for said, told in self.changed():
            self.assertIn(said, "; ".join(faults(told)))

    def test_the_search_misses_none(self) -> None:
        self.told.operations = [self.told.operations[0], self.told.operations[3]]
        self.assertIn("net 1: the search finds other operations", list(all_faults([self.told])))


class Reports(unittest.TestCase):
    """What the program prints of examples and archives."""

    def setUp(self) -> None:
        need_program()

    def check(self, nets: list[Told]) -> None:
        self.assertEqual(list(all_faults(nets)), [])

    def test_examples(self) -> None:
        nets = [net for path in EXAMPLES for net in symmetry(path)]
        self.assertGreater(len(nets), 8)
        self.check(nets)

    def test_archives(self) -> None:
        for name in ("common", "zeolites"):  # nearly all layers have no key
            nets = symmetry(TOP / "archives" / f"{name}.cgd")
            self.assertGreater(len(nets), 100, name)
            self.check(nets[::20])

    @long_test
    def test_whole_archives(self) -> None:
        for name in ("common", "layers", "zeolites"):
            self.check(symmetry(TOP / "archives" / f"{name}.cgd"))

    def test_presentations_have_one_group(self) -> None:
        for path in EXAMPLES:
            larger = run(PROGRAM, "cover", path, "--cell", cell_of(path), status=None).stdout
            counts = [len(net.operations) for net in symmetry(path)]
            if larger.startswith(b"PERIODIC_GRAPH"):
                self.assertEqual([len(net.operations) for net in symmetry("-", stdin=larger)], counts, path)


def cell_of(path: object) -> str:
    """The rows of a cell of twice the volume, for the dimension of the first net of a file."""
    is_flat = b"graph d=2" in run(PROGRAM, "check", path, status=None).stdout
    return "2,1,0,1" if is_flat else "2,1,0,0,1,1,0,0,1"
