"""Unions of archives: that no name is lost or doubled, and that the nets of one key stand together."""

import re
from itertools import groupby

from testing import PROGRAM, TOP, FolderTest, need_program, run

COMMON = TOP / "archives/common.archive"
ZEOLITES = TOP / "archives/zeolites.archive"


def entries(text: bytes) -> list[tuple[bytes, bytes]]:
    """The name and the key of each entry, in the order of the archive."""
    return re.findall(rb'(?m)^entry "([^"]*)"\n(?:.*\n)*?(key .*)$', text)


class Unions(FolderTest):
    def setUp(self):
        super().setUp()
        need_program()
        self.union = run(PROGRAM, "union", ZEOLITES, "--archive", COMMON).stdout

    def test_each_name_stands_once(self):
        names = [name for file in (COMMON, ZEOLITES) for name, _ in entries(file.read_bytes())]
        self.assertEqual(sorted(name for name, _ in entries(self.union)), sorted(set(names)))

    def test_equal_keys_stand_together(self):
        keys = [key for key, _ in groupby(key for _, key in entries(self.union))]
        self.assertEqual(len(keys), len(set(keys)))

    def test_a_union_with_itself_changes_nothing(self):
        (self.folder / "both").write_bytes(self.union)
        again = run(PROGRAM, "union", self.folder / "both", "--archive", self.folder / "both").stdout
        self.assertEqual(again, self.union)

    def test_key_lines_are_nets(self):
        lines = []
        for entry in ZEOLITES.read_bytes().split(b"\nentry ")[1:]:
            name, graph, *rest = entry.splitlines()
            edges = [row.split(b" ", 1)[1] for row in rest if row.startswith(b"edge ")]
            lines.append(b" ".join([b"key", graph.split()[1], *edges]) + b"\n  id " + name + b"\nend\n")
        (self.folder / "empty").write_bytes(b"net_archive 1\n")
        told = entries(run(PROGRAM, "union", "-", "--archive", self.folder / "empty", stdin=b"".join(lines)).stdout)
        self.assertEqual(told, entries(ZEOLITES.read_bytes()))

    def test_no_more_than_an_archive_holds(self):
        """An archive has room for 4,096 entries, and a text of key lines for as many items."""
        def items(count: int) -> bytes:
            return b"".join(b"key 2 1 1 1 0 1 1 0 1\n  id net%d\nend\n" % k for k in range(count))

        def union(count: int, status: int) -> bytes:
            return run(PROGRAM, "union", "-", "--archive", self.folder / "one", stdin=items(count), status=status).stdout

        (self.folder / "one").write_bytes(b'net_archive 1\nentry "net0"\ngraph 2 1 2\nedge 1 1 0 1\nedge 1 1 1 0\n'
                                          b"key 2 1 1 1 1 0 1 1 1 1 0\nend\n")
        self.assertEqual(len(entries(union(4096, 0))), 4096)
        (self.folder / "one").write_bytes((self.folder / "one").read_bytes().replace(b"net0", b"other"))
        self.assertEqual(union(4096, 9), b"add refused 4096 3 Full\n")
        self.assertEqual(union(4097, 8), b"")
