"""The search for the blocks on which the program takes longest."""

from __future__ import annotations

import re

from testing import PROGRAM, TOP, FolderTest, need_program, run

CLIMB = TOP / "dev/bench/climb"


class Climbs(FolderTest):
    def setUp(self) -> None:
        super().setUp()
        need_program()

    def test_it_keeps_what_takes_longer_and_writes_a_block_that_is_accepted(self) -> None:
        first, second = self.folder / "first.cgd", self.folder / "second.cgd"
        told = run(CLIMB, "key", 4, 1, "--write", first).stderr.decode()
        costs = [float(cost) for cost in re.findall(r"try \d+: ([\d.e-]+), ", told)]
        self.assertEqual(costs, sorted(costs))
        self.assertRegex(told, r"\d+ tries\n$")
        self.assertIn(b"\nkey ", run(PROGRAM, "key", first).stdout)
        run(CLIMB, "key", 1, 2, "--begin", first, "--write", second)
        cost_of = [float(re.match(r"# key: ([\d.e-]+) seconds", file.read_text())[1]) for file in (first, second)]
        self.assertGreater(cost_of[1], 0.5 * cost_of[0])

    def test_each_command(self) -> None:
        for command in ("check", "place", "identify", "symmetry", "components", "cover", "same", "add"):
            self.assertTrue(run(CLIMB, command, 0.2, 1).stdout.startswith(f"# {command}: ".encode()))

    def test_words_and_programs_that_fail(self) -> None:
        run(CLIMB, "verify", 1, 1, status=2)
        run(CLIMB, "key", "x", 1, status=2)
        run(CLIMB, "key", 1, 1, status=1, NET_TOOL=str(self.folder / "absent"))
        failing = self.folder / "failing"
        failing.write_text("#!/bin/sh\nexit 7\n")
        failing.chmod(0o755)
        done = run(CLIMB, "key", 1, 1, status=1, NET_TOOL=str(failing), TMPDIR=str(self.folder))
        self.assertIn(b"net_tool key ended with 7", done.stderr)
        self.assertNotIn(b"Traceback", done.stderr)
