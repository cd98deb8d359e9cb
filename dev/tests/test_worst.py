"""The table of worst cases: a row for each command, of texts that the program takes."""

from __future__ import annotations

import re

from testing import PROGRAM, TOP, FolderTest, command, need_commands, need_program, run

WORST = TOP / "dev/bench/worst"
COMMANDS = re.findall(r"^(?:command_table=')?([a-z]+)\|[^|\n]*\|", (TOP / "front/words.sh").read_text(), re.MULTILINE)


class Worst(FolderTest):
    def setUp(self) -> None:
        super().setUp()
        need_commands("time")

    def test_each_command_has_a_row(self) -> None:
        program = self.folder / "program"
        program.write_text(f"#!/bin/sh\necho \"$@\" >>'{self.folder}/asked'\necho report\n")
        program.chmod(0o755)
        rows = run(TOP / "dev/bench/run", "--worst", 1, NET_TOOL=str(program)).stdout.decode().splitlines()[2:]
        found = re.findall(r"^\| `([a-z]+)` \|[^|]+\| \d+ \| [\d.]+ \| \d+ \| [\d.]+ \|$", "\n".join(rows), re.MULTILINE)
        self.assertEqual(len(found), len(rows))
        self.assertEqual(sorted(set(found)), sorted(COMMANDS))
        asked = (self.folder / "asked").read_text().splitlines()
        self.assertEqual([line.split()[0] for line in asked], found)

    def test_words_and_programs_that_fail(self) -> None:
        for words in (["0"], ["x"], ["4097"], ["-1"]):
            run(WORST, *words, status=2)
        run(WORST, 1, status=3, NET_TOOL=str(self.folder / "absent"))
        failing = self.folder / "failing"
        failing.write_text("#!/bin/sh\nexit 7\n")
        failing.chmod(0o755)
        run(WORST, 1, status=3, NET_TOOL=str(failing))

    def test_the_program_takes_the_texts(self) -> None:
        need_program()
        texts = f"top='{TOP}'; . '{TOP}/dev/bench/texts.sh'; "
        for text, command, told in (("stars 3", "check", b"connected\n"), ("parted_stars 2", "check", b"refused 1 Disconnected"),
                                    ("star_map 2", "verify", b"pair 2 verified\n"), ("diamond 8 8 4", "check", b"connected\n"),
                                    ("block 512 4096", "check", b"edges=4096")):
            made = run("sh", "-c", texts + text).stdout
            self.assertIn(told, run(PROGRAM, command, "-", stdin=made, status=None).stdout, text)
