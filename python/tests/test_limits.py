"""Seconds and memory are bounded, of whatever is at work: the program, a search in Python, a reader."""

from __future__ import annotations

import os
import random
import resource
import signal
import subprocess
import sys
import time
import unittest.mock

from testing import PATIENCE, PROGRAM, TOP, FolderTest, need_modules, need_program, wait_until

need_program()
import crystal_nets  # noqa: E402
from crystal_nets import (Net, ProgramFailed, ProgramTimedOut, components, cover, group, identify, identify_all,  # noqa: E402
                          identify_each, keys, same)
from crystal_nets.apart import Child, ForkedExecutor  # noqa: E402
from crystal_nets.limits import in_time, within  # noqa: E402
from crystal_nets.tables import listed, piece  # noqa: E402
from crystal_nets.topology import topology_of  # noqa: E402
from crystal_nets.topology.infinite import InfiniteNet  # noqa: E402
from crystal_nets.wide.placed import NotFound  # noqa: E402
from crystal_nets.wide.walking import Work  # noqa: E402

SQUARE = Net([(1, 1, (1, 0)), (1, 1, (0, 1))], name="square")
COLLIDES = Net([("c", "l1", (0, 0)), ("c", "l2", (0, 0)), ("c", "c", (1, 0)), ("c", "c", (0, 1))], name="leaves")
LONG = 2 * PATIENCE  # seconds of what takes too long
PLENTY = 5  # seconds: far more than a small net takes that is answered, also on a machine that has much to do
EARLY = """
import time
import crystal_nets
from crystal_nets.wide import naming
naming.naming_of = lambda *words: time.sleep({long})
collides = [("c", "l1", (0, 0)), ("c", "l2", (0, 0)), ("c", "c", (1, 0)), ("c", "c", (0, 1))]
square = [(1, 1, (1, 0)), (1, 1, (0, 1))]
answers = crystal_nets.identify_each([square] * 300 + [collides] * 100, archive=None, processes=2)
print(next(answers).accepted)
"""


def dense_block(vertices: int, rows: int) -> Net:
    """A connected net with two vertices that have the same neighbours."""
    chance = random.Random(1)
    edges = [(chance.randrange(1, k), k, tuple(chance.randrange(-1, 2) for _ in range(3))) for k in range(2, vertices - 1)]
    while len(edges) < rows - 8:
        u, v, shift = (chance.randrange(1, vertices - 1), chance.randrange(1, vertices - 1),
                       tuple(chance.randrange(-1, 2) for _ in range(3)))
        edges += [(u, v, shift)] if u != v or any(shift) else []
    for _ in range(4):
        end, shift = chance.randrange(1, vertices - 1), tuple(chance.randrange(-1, 2) for _ in range(3))
        edges += [(vertices - 1, end, shift), (vertices, end, shift)]
    return Net(list(dict.fromkeys(edges)), name="dense")


def too_long(*words: object) -> None:
    time.sleep(LONG)


class Seconds(FolderTest):
    """A search or a reader that takes too long is ended, as the program is."""

    def setUp(self):
        super().setUp()
        self.begun = time.monotonic()
        self.addCleanup(lambda: self.assertLess(time.monotonic() - self.begun, PATIENCE))

    def test_a_search_for_names(self):
        with unittest.mock.patch("crystal_nets.wide.naming.naming_of", too_long):
            for call in (identify, identify_all, keys, group):
                with self.assertRaises(ProgramTimedOut):
                    call([COLLIDES] if call is not identify else COLLIDES, None, timeout=0.3)
            told = [str(answer.outcome) for answer in identify_each([SQUARE, COLLIDES], archive=None, timeout=PLENTY)]
        self.assertEqual(told, ["accepted", f"no answer came within {PLENTY} seconds"])

    def test_a_search_for_a_meeting_and_a_reader(self):
        with unittest.mock.patch("crystal_nets.wide.meeting.certified_meeting", too_long):
            with self.assertRaises(ProgramTimedOut):
                same(COLLIDES, COLLIDES, timeout=0.3)
        with unittest.mock.patch("crystal_nets.reading.nets_of_cgd", too_long):
            for call in (lambda: components("x\n", None, timeout=0.3), lambda: cover("x\n", [(2, 0), (0, 1)], timeout=0.3)):
                with self.assertRaises(ProgramTimedOut):
                    call()
            told = [(answer.outcome.kind, answer.net.provenance.source)
                    for answer in identify_each([SQUARE, "x\n"], archive=None, timeout=PLENTY)]
        self.assertEqual(told, [("accepted", "0"), ("stopped", "1")])

    def test_what_is_answered_in_time_is_the_same(self):
        given = [SQUARE, COLLIDES]
        self.assertEqual(identify_all(given, None, timeout=60), identify_all(given, None))
        self.assertEqual(keys({"a": SQUARE}, timeout=60), keys({"a": SQUARE}))
        self.assertTrue(same(SQUARE, SQUARE, timeout=60).map.is_verified())
        self.assertEqual(cover(SQUARE, [(2, 0), (0, 1)], timeout=60).index, 2)
        self.assertEqual(components(SQUARE, None, timeout=60).pieces, 1)
        self.assertEqual(len(identify_all((net for net in given), None, timeout=60)), 2)
        with self.assertRaises(crystal_nets.NotANet):
            identify(7, timeout=60)

    def test_a_table_stops_what_databases_list_and_readers(self):
        settings = {"source": "nets.cgd", "at": str(self.folder), "options": {}, "seconds": PLENTY, "topology": True, "command": "key"}
        answer, = keys([SQUARE])
        with unittest.mock.patch.object(listed, "topology_of", too_long):
            self.assertEqual(piece._topology_of(answer, settings), listed.NOTHING)
        self.assertEqual(piece._topology_of(answer, settings)[0], "4^4.6^2")
        with unittest.mock.patch.object(piece, "net_of_chunk", lambda chunk: chunk.opening_line != 1 or too_long()):
            (self.folder / "nets.cgd").write_bytes(SQUARE.block * 2)
            from crystal_nets.tables.plan import BLOCKS, Portion
            from crystal_nets.file_parts import sum_of
            portion = Portion("nets.cgd", 0, 2 * len(SQUARE.block), 0, BLOCKS, sum_of(SQUARE.block * 2),
                              2 * len(SQUARE.block))
            first, second = piece.read_in_time(portion, settings).nets
        self.assertEqual((first.refusal, second), (f"no answer came within {PLENTY} seconds", True))

    def test_a_script_that_leaves_early_ends(self):
        done = subprocess.run([sys.executable, "-c", EARLY.format(long=LONG)], capture_output=True, timeout=PATIENCE,
                              env={**os.environ, "NET_TOOL": PROGRAM, "PYTHONPATH": os.pathsep.join(sys.path)})
        self.assertEqual((done.returncode, done.stdout, done.stderr), (0, b"True\n", b""))


class Processes(FolderTest):
    def test_memory_of_a_process_is_bounded(self):
        with within(60), self.assertRaises(MemoryError):
            in_time(lambda: len(bytearray(5 << 30)))

    def test_what_a_process_raises_and_how_it_ends(self):
        with Child(lambda: os.kill(os.getpid(), signal.SIGKILL)) as child, self.assertRaises(ProgramFailed) as caught:
            child.result()
        self.assertEqual(caught.exception.status, -9)
        with Child(lambda: 1 / 0) as child, self.assertRaisesRegex(ZeroDivisionError, "division") as caught:
            child.result()
        self.assertIn("1 / 0", "".join(caught.exception.__notes__))
        with Child(lambda: time.sleep(LONG)) as child:
            number = child.number
        with self.assertRaises(ProcessLookupError):
            os.kill(number, 0)

    def test_calls_side_by_side(self):
        """Each call ends when three are there, or six."""
        def square(k: int) -> int:
            (self.folder / str(k)).touch()
            wait_until(lambda: len(list(self.folder.iterdir())) >= k // 3 * 3 + 3)
            return k * k

        executor = ForkedExecutor(3)
        futures = [executor.submit(square, k) for k in range(6)]
        self.assertEqual([future.result() for future in reversed(futures)], [25, 16, 9, 4, 1, 0])
        begun = time.monotonic()
        executor.submit(too_long)
        executor.shutdown(cancel_futures=True)
        self.assertLess(time.monotonic() - begun, PATIENCE)


class Topology(FolderTest):
    def test_the_surroundings_of_vertices_are_counted(self):
        net = InfiniteNet(SQUARE.graph.canonical(), Work(1000))
        self.assertEqual(len(net.shell(0, 10)), 40)
        with self.assertRaises(NotFound):
            net.shell(0, 100)
        with unittest.mock.patch("crystal_nets.topology.infinite.MOST_HELD", 100), self.assertRaises(NotFound):
            InfiniteNet(SQUARE.graph.canonical(), Work()).shell(0, 10)
        self.assertIsNone(topology_of(SQUARE.graph, 100))

    def test_a_dense_block_takes_little_memory(self):
        """It took 8 GB and minutes."""
        _, hard = resource.getrlimit(resource.RLIMIT_AS)

        def bounded():
            resource.setrlimit(resource.RLIMIT_AS, (2 << 30, hard))
            return topology_of(dense_block(400, 1600).graph)

        with Child(bounded) as child:
            self.assertTrue(child.has_ended(PATIENCE))
            self.assertIsNone(child.result())


class Structures(FolderTest):
    def test_a_structure_in_time(self):
        need_modules("gemmi", "numpy", "scipy")
        quartz = TOP / "examples/quartz.cif"
        self.assertEqual(identify(quartz, None, timeout=60).key, identify(quartz, None).key)
        with unittest.mock.patch("crystal_nets.reading.nets_of_cif", too_long), self.assertRaises(ProgramTimedOut):
            identify(quartz, None, timeout=0.3)
