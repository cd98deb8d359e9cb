"""The program at its limits: maps with wide numbers, and an archive that is too long in the newest format."""

from __future__ import annotations

from pathlib import Path

from testing import PROGRAM, TOP, FolderTest, need_program, run

need_program()
WIDE = TOP / "dev/bench" / "wide_maps"
MOST_BYTES = 16_777_216
MIGRATE_REFUSED = 10


def pair_lines(text: bytes) -> list[bytes]:
    """The lines of a text of maps that are no graph and no image."""
    return [line for line in text.splitlines() if not line.startswith((b"graph", b"edge", b"image"))]


class WideMaps(FolderTest):
    """Two nets of 512 vertices whose map has a number near 2^38, the limit of what is written.

    The numbers were worked out by a program of its own, in whole numbers without a bound."""

    def answer(self, name: str) -> bytes:
        return run(PROGRAM, "same", WIDE / f"{name}.cgd").stdout

    def test_cell_of_an_image_is_too_wide(self) -> None:
        self.assertEqual(pair_lines(self.answer("wide_image")), [b"net_maps 1", b"pair 2 wide value=-277244947169"])

    def test_base_row_is_too_wide(self) -> None:
        self.assertEqual(pair_lines(self.answer("wide_base")), [b"net_maps 1", b"pair 2 wide value=-291985136054"])

    def test_one_past_the_limit(self) -> None:
        self.assertEqual(pair_lines(self.answer("past_limit")), [b"net_maps 1", b"pair 2 wide value=-274877906945"])

    def test_at_the_limit_a_map_is_found_and_verified(self) -> None:
        text = self.answer("at_limit")
        self.assertEqual(pair_lines(text), [
            b"net_maps 1", b"pair 2 map", b"period 1", b"base -166362499 -1922370134 1732316449",
            b"base -185372957 -2142041846 1930270480", b"base -215047513 -2484940515 2239268728", b"end"])
        self.assertIn(b"274877906944", text)
        self.assertTrue(run(PROGRAM, "verify", "-", stdin=text).stdout)


class LongArchive(FolderTest):
    """An archive that fits in format 1 and not in format 2."""

    def entry(self) -> list[bytes]:
        """The lines of the entry, in format 2, of a square net whose cell is a row of 150 vertices."""
        rows = [f"{u} {u % 150 + 1} {int(u == 150)} 0\n{u} {u} 0 1\n" for u in range(1, 151)]
        block = "PERIODIC_GRAPH\nNAME row\nEDGES\n" + "".join(rows) + "END\n"
        return run(PROGRAM, "add", "-", stdin=block.encode()).stdout.splitlines(keepends=True)[1:]

    def test_migration_is_refused_with_the_length(self) -> None:
        newer = self.entry()
        older = [line for line in newer if not line.startswith((b"primitive", b"shells"))]
        size = sum(map(len, older)) + 4  # with the longest name
        count = (MOST_BYTES - len("net_archive 1\n")) // size
        self.assertLess(count, 4097)

        def text(version: int, lines: list[bytes]) -> bytes:
            entry = b"".join(lines)
            return b"net_archive %d\n" % version + b"".join(
                entry.replace(b'"row"', b'"row%d"' % number, 1) for number in range(1, count + 1))

        archive = Path(self.folder) / "rows.archive"
        archive.write_bytes(text(1, older))
        done = run(PROGRAM, "migrate", "--archive", archive, status=MIGRATE_REFUSED)
        self.assertGreater(len(text(2, newer)), MOST_BYTES)
        self.assertEqual(done.stdout, b"migrate refused 1 Full length=%d\n" % len(text(2, newer)))
