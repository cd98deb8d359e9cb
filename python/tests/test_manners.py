"""What the commands do where an output is full or closed, where a package is missing, and where the time is over."""

import sys
import time
import unittest
import unittest.mock

from testing import PATIENCE, TOP, FolderTest, command, need_modules, run, running_with, wait_until

import crystal_nets
from crystal_nets import Archive, Net, NetMap, ProgramTimedOut

SQUARE = Net([(1, 1, (1, 0)), (1, 1, (0, 1))], name="square")
CGD2NET, CIF2CGD = command("convert --as nets"), command("convert --as structure")
ARCHIVE_NETS = command("convert")


class Outputs(FolderTest):
    def ended(self, command: str) -> tuple[int, list[str]]:
        """The status of a command of the shell, and the last line of what it tells."""
        done = run("sh", "-c", command, status=None)
        told = done.stderr.decode()
        self.assertNotIn("Traceback", told)
        return done.returncode, told.splitlines()[-1:]

    def test_outputs_that_are_full_or_closed(self):
        need_modules("gemmi", "numpy", "scipy", "spglib")
        quartz, nets = TOP / "examples/quartz.cif", self.folder / "nets.cgd"
        nets.write_text("CRYSTAL\nNAME x\nGROUP p4mm\nCELL 1 1 90\nNODE V 4 0 0\nEND\n")
        archive = TOP / "archives/common.archive"
        for words in (f"{CGD2NET} {nets}", f"{CIF2CGD} {quartz}", f"{ARCHIVE_NETS} {archive}", f"{CGD2NET} --help"):
            name = "net_tool " + words.split()[0].rpartition("/")[2].replace(".", " ").replace(" --as nets", "").replace(" --as structure", "")
            self.assertEqual(self.ended(f"{words} >/dev/full"), (1, [f"{name}: standard output: No space left on device"]))
            self.assertEqual(self.ended(f"{words} >&-"), (1, [f"{name}: standard output: Bad file descriptor"]))
        self.assertEqual(self.ended(f"{CIF2CGD} --quiet --notes /dev/full {quartz} >/dev/null"),
                         (1, ["net_tool convert: /dev/full: No space left on device"]))
        self.assertEqual(self.ended(f"{CGD2NET} {self.folder}/absent {nets} >/dev/full")[1],
                         ["net_tool convert: standard output: No space left on device"])
        self.assertEqual(self.ended(f"{CGD2NET} {nets} 2>&- >/dev/null")[0], 0)

class Interpreters(FolderTest):
    def test_which_interpreter_lacks_which_module(self):
        bare = self.folder / "python3"
        bare.write_text(f"#!/bin/sh\nexec {sys.executable} -S \"$@\"\n")
        bare.chmod(0o755)
        told = run(bare, "-B", CGD2NET, TOP / "examples/embedded.cgd", status=1).stderr.decode()
        self.assertIn(f"net_tool convert: {sys.executable} has no module numpy; apt-get install python3-gemmi", told)
        code = ("import sys; sys.executable = '/opt/other/python3'\n"
                f"sys.argv = ['cgd2net']; sys.path.insert(0, {str(TOP / 'python')!r})\n"
                "from crystal_nets.commands import main; main()")
        crystals = (TOP / "examples/embedded.cgd").read_bytes()
        told = run(sys.executable, "-S", "-B", "-c", code, status=1, stdin=crystals).stderr.decode()
        self.assertIn("/opt/other/python3 has no module numpy", told)
        self.assertIn("gives it to /usr/bin/python3", told)


class Times(FolderTest):
    def setUp(self):
        super().setUp()
        self.program = self.folder / "program"
        self.program.write_text(f"#!/bin/sh\nexec sleep {2 * PATIENCE}\n")
        self.program.chmod(0o755)
        patch = unittest.mock.patch.dict("os.environ", NET_TOOL=str(self.program))
        patch.start()
        self.addCleanup(patch.stop)

    def test_each_call_can_be_stopped(self):
        archive = self.folder / "my.archive"
        archive.write_text("net_archive 1\n")
        identity = NetMap(1, {}, (), "net_maps 1\n")
        for call in (lambda: crystal_nets.identify(SQUARE, None, timeout=0.3),
                     lambda: crystal_nets.identify_all([SQUARE] * 40, None, 3, timeout=0.3),
                     lambda: crystal_nets.keys([SQUARE], timeout=0.3), lambda: crystal_nets.same(SQUARE, SQUARE, timeout=0.3),
                     lambda: crystal_nets.components(SQUARE, None, timeout=0.3),
                     lambda: crystal_nets.cover(SQUARE, [(2, 0), (0, 1)], timeout=0.3),
                     lambda: crystal_nets.group([SQUARE], timeout=0.3), lambda: Archive.of([SQUARE], timeout=0.3),
                     lambda: Archive.load(archive, timeout=0.3), lambda: identity.is_verified(timeout=0.3),
                     lambda: crystal_nets.identify(SQUARE, archive, timeout=0.3)):
            begun = time.monotonic()
            with self.assertRaises(ProgramTimedOut) as caught:
                call()
            self.assertLess(time.monotonic() - begun, PATIENCE)
            self.assertEqual(caught.exception.seconds, 0.3)
            wait_until(lambda: not running_with(f"NET_TOOL={self.program}"), "the program runs on")

    def test_timeouts_that_are_none(self):
        for timeout in (0, -1, float("nan"), "1"):
            with self.assertRaises((ValueError, TypeError)):
                crystal_nets.keys([SQUARE], timeout=timeout)

