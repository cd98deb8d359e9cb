"""The table of many pieces by several processes: rows that are made up, and groups as a dictionary has them."""

import os
import random
import subprocess
import sys
from pathlib import Path

from testing import IS_LONG, PATIENCE, TESTS, TOP, FolderTest, need_commands, wait_until

from crystal_nets.archive import Archive
from crystal_nets.net import Net
from crystal_nets.tables.columns import OF_A_PIECE, TABLE, escaped, line_of
from crystal_nets.tables.join import AT_A_TIME, FILES, join
from crystal_nets.tables.piece import path_of, with_head
from crystal_nets.tables.plan import Plan
from crystal_nets.tables.source import Failed

PIECES = 6 * AT_A_TIME if IS_LONG else 2 * AT_A_TIME + 3
ROWS = 1_000 if IS_LONG else 7
KINDS = PIECES * ROWS // 3


def key_of(kind: int) -> str:
    return f"2 1 1 1 1 0 1 1 1 {kind + 1} 1"


def made_up(work: Path) -> tuple[Plan, list[int | None]]:
    """A plan with the rows of its pieces, and the kind of each net; None where it has no key."""
    seed = random.Random(4)
    plan = Plan({"source": "x"}, [[] for _ in range(PIECES)])
    kinds: list[int | None] = []
    work.mkdir()
    for number in range(1, PIECES + 1):
        content = b""
        for _ in range(ROWS):
            kinds.append(seed.randrange(KINDS) if seed.random() < 0.9 else None)
            fields = dict.fromkeys(OF_A_PIECE, "")
            fields |= {"source": "x", "line": str(len(kinds)), "name": escaped(f"net;{len(kinds)}")}
            fields |= {"outcome": "refused 1 Disconnected", "reason": "why"} if kinds[-1] is None else {
                "outcome": "accepted", "key": key_of(kinds[-1])}
            content += line_of(tuple(fields[name] for name in OF_A_PIECE))
        path_of(work, number).write_bytes(with_head(plan.mark, content))
    return plan, kinds


def contents(folder: Path) -> dict[str, bytes]:
    return {name: (folder / name).read_bytes() for name in FILES}


class Joined(FolderTest):
    def setUp(self):
        super().setUp()
        need_commands("sort")
        self.work = self.folder / "work"
        self.plan, self.kinds = made_up(self.work)
        self.archive = Archive([("k; 1", key_of(1), Net([(1, 1, (1, 0)), (1, 1, (0, 1))]))])

    def test_groups_are_those_of_a_dictionary(self):
        join(self.folder, self.work, self.plan, self.archive, 1)
        groups: dict[int, list[int]] = {}
        for number, kind in enumerate(self.kinds, start=1):
            if kind is not None:
                groups.setdefault(kind, []).append(number)
        rows = [line.split("\t") for line in (self.folder / "groups.tsv").read_text().splitlines()]
        self.assertEqual(rows[0], ["group", "number", "name", "by"])
        wanted = [[str(group[0]), str(number), f"net\\;{number}", "key"]
                  for group in groups.values() if len(group) > 1 for number in group]
        self.assertEqual(rows[1:], sorted(wanted, key=lambda row: (int(row[0]), int(row[1]))))
        table = [line.split(b"\t") for line in (self.folder / "table.tsv").read_bytes().splitlines()[1:]]
        self.assertEqual([int(row[0]) for row in table], list(range(1, len(self.kinds) + 1)))
        group_at, names_at = TABLE.index("group"), TABLE.index("names")
        self.assertEqual([int(row[group_at] or 0) for row in table],
                         [groups[kind][0] if kind is not None else 0 for kind in self.kinds])
        self.assertEqual({row[names_at] for row, kind in zip(table, self.kinds) if kind == 1}, {b"k\\; 1"} if 1 in groups else set())
        self.assertEqual((self.folder / "refused.tsv").read_bytes().count(b"\n"), 1 + self.kinds.count(None))

    def test_processes_change_nothing_and_leave_nothing(self):
        counts = join(self.folder, self.work, self.plan, self.archive, 1)
        whole = contents(self.folder)
        for jobs in (2, 3):
            self.assertEqual(join(self.folder, self.work, self.plan, self.archive, jobs), counts)
            self.assertEqual(contents(self.folder), whole)
            self.assertEqual(list(self.folder.rglob("*.part")), [])

    def test_a_join_that_is_killed_leaves_the_table_before(self):
        join(self.folder, self.work, self.plan, None, 1)
        whole = contents(self.folder)
        code = (f"import sys; sys.path[:0] = [{str(TOP / 'python')!r}, {str(TESTS)!r}, {str(TESTS / 'tables')!r}]\n"
                "from pathlib import Path; from crystal_nets.tables import join; from crystal_nets.tables.plan import Plan\n"
                f"folder = Path({str(self.folder)!r}); plan = Plan({{'source': 'x'}}, [[] for _ in range({PIECES})])\n"
                f"join._put_together = lambda *_: __import__('time').sleep({2 * PATIENCE})\n"
                "print('begun', flush=True); join.join(folder, folder / 'work', plan, None, 2)")
        with subprocess.Popen([sys.executable, "-B", "-c", code], stdout=subprocess.PIPE) as child:
            self.assertEqual(child.stdout.readline(), b"begun\n")
            wait_until(lambda: list(self.work.glob("table.tsv.*.part")))
            child.kill()
        self.assertEqual(contents(self.folder), whole)
        join(self.folder, self.work, self.plan, None, 2)
        self.assertEqual(contents(self.folder), whole)
        self.assertEqual(list(self.folder.rglob("*.part")), [])

    def test_a_piece_that_is_missing_is_told(self):
        for jobs in (1, 2):
            os.replace(path_of(self.work, 5), self.folder / "away")
            with self.assertRaisesRegex(Failed, "piece 5 are not there"):
                join(self.folder, self.work, self.plan, None, jobs)
            os.replace(self.folder / "away", path_of(self.work, 5))
