"""What is asked wrongly is reported before anything else, and a process without standard files is as good as another."""

from __future__ import annotations

import os
import subprocess
import sys
import tempfile
import threading
import time
import unittest.mock
from pathlib import Path

from testing import PATIENCE, PROGRAM, TOP, FolderTest, need_modules, need_program

need_program()
import crystal_nets  # noqa: E402
from crystal_nets import By, Net, NotAnArchive, identify, identify_all, identify_each, keys, same  # noqa: E402
from crystal_nets.reading import nets_of_cif  # noqa: E402

SQUARE = Net([(1, 1, (1, 0)), (1, 1, (0, 1))], name="square")
COMMON = TOP / "archives/common.archive"
CALLS = """
import crystal_nets as c
square = [(1, 1, (1, 0)), (1, 1, (0, 1))]
assert c.identify(square).names == ("sql, square lattice",)
assert c.keys([c.Net(square)])[0].key
assert c.same(square, square).same
assert c.components(square).parts
assert c.cover(square, [(2, 0), (0, 1)]).net
assert len(c.group([c.Net(square)])) == 1
assert [answer.accepted for answer in c.identify_each([square])] == [True]
"""


class Options(FolderTest):
    def test_misspelt_words_of_sources_that_are_nets(self):
        for wrong in ({"procesess": 4}, {"archiv": None}, {"conventon": "auto"}):
            for call in (identify, identify_all, keys, identify_each, lambda net, **words: same(net, net, **words),
                         crystal_nets.components, crystal_nets.group):
                with self.assertRaisesRegex(TypeError, "there is no option"):
                    call(SQUARE, **wrong)

    def test_options_of_structures_are_checked_for_nets(self):
        need_modules("gemmi", "numpy", "scipy")
        with self.assertRaises(crystal_nets.NotAnOption):
            identify(SQUARE, convention="bogus")

    def test_values_that_are_none(self):
        for processes in (0, -1, 1.5, True, "2"):
            with self.assertRaisesRegex(ValueError, "processes is"):
                identify_all([SQUARE], processes=processes)
        self.assertTrue(identify_all([SQUARE], processes=None)[0].accepted)
        with self.assertRaisesRegex(NotAnArchive, "a path is empty"):
            identify(SQUARE, archive="")

    def test_a_source_of_several_nets_comes_as_they_come(self):
        path = self.folder / "nets.cgd"
        path.write_bytes(b"".join(Net(SQUARE.edges, name=f"n{k}").block for k in range(3)))
        for source in (path, str(path), path.read_text()):
            self.assertEqual([answer.name for answer in identify_each(source, archive=None)], ["n0", "n1", "n2"])

    def test_by_what_names_are_certain_is_a_text(self):
        answer = identify(SQUARE, archive=COMMON)
        self.assertEqual(answer.by, "key")
        self.assertEqual(f"{By.VERIFIED_MAP}", "verified map")
        self.assertFalse(By.NONE)


class StandardFiles(FolderTest):
    def test_each_call_without_a_standard_file(self):
        for closed in ("<&-", ">&-", "2>&-", "<&- >&- 2>&-"):
            done = subprocess.run(["sh", "-c", f'exec "$0" -c "$1" {closed}', sys.executable, CALLS], timeout=PATIENCE,
                                  env={**os.environ, "NET_TOOL": PROGRAM, "PYTHONPATH": os.pathsep.join(sys.path)})
            self.assertEqual(done.returncode, 0, closed)


class Forks(FolderTest):
    def test_a_process_forked_while_archives_are_loaded(self):
        """The thread that holds the lock is not there in the child."""
        from crystal_nets import archive
        started, release = threading.Event(), threading.Event()

        def hold():
            with archive._loading:
                started.set()
                release.wait(2 * PATIENCE)

        thread = threading.Thread(target=hold)
        thread.start()
        started.wait(PATIENCE)
        child = os.fork()
        if not child:
            os._exit(0 if crystal_nets.Archive.default() else 1)
        try:
            until = time.monotonic() + PATIENCE
            while (ended := os.waitpid(child, os.WNOHANG)) == (0, 0) and time.monotonic() < until:
                time.sleep(0.05)
            self.assertEqual(ended, (child, 0))
        finally:
            release.set()
            thread.join()
            if ended == (0, 0):
                os.kill(child, 9)


class SideBySide(FolderTest):
    """Sources are read in processes, and their answers are the same."""

    def test_structures_in_processes(self):
        need_modules("gemmi", "numpy", "scipy")
        quartz = TOP / "examples/quartz.cif"
        broken = self.folder / "broken.cif"
        broken.write_text("data_x\n_cell_length_a 5\n")
        sources = [quartz, SQUARE, broken, *[quartz] * 20, [(1, 1, (1, 0)), (1, 1, (0, 1))]]
        alone, many = ([(answer.key, str(answer.outcome), answer.net.provenance.source) for answer in
                        identify_each(sources, archive=None, processes=count)] for count in (1, 3))
        self.assertEqual(alone, many)
        self.assertEqual([source for _, _, source in many], list(map(str, range(len(sources)))))
        with self.assertRaises(crystal_nets.NotANet):
            identify_all([quartz, 7], processes=2)

    def test_a_sequence_that_is_left_early_ends_its_processes(self):
        """Not all is read, and no process is left."""
        def noted(*words):
            tempfile.mkstemp(dir=self.folder)
            return nets_of_cif(*words)

        children = Path(f"/proc/{os.getpid()}/task/{threading.get_native_id()}/children")
        before = children.read_text()
        with unittest.mock.patch("crystal_nets.reading.nets_of_cif", noted):
            answers = identify_each([TOP / "examples/quartz.cif"] * 400, archive=None, processes=2)
            next(answers)
            answers.close()
        self.assertEqual(children.read_text(), before)
        self.assertLess(len(list(self.folder.iterdir())), 400)
