"""Covers: that a net on a larger cell has its key, and stands on the usual cell where one is known."""


from testing import PROGRAM, TOP, FolderTest, need_program, run

from crystal_nets.texts.net_text import chunks_of, nets_of_report  # noqa: E402

COMMON = TOP / "archives/common.cgd"
FACE_CENTRED = "-1,1,1,1,-1,1,1,1,-1"
MOST_VERTICES, MOST_EDGES = 512, 4_096
# cells of index 2 to 8, in dimension 2 and in dimension 3
CELLS = {
    2: {2: "2,0,0,1", 3: "1,1,-2,1", 4: "2,0,0,-2", 5: "1,2,-2,1", 6: "3,1,0,2", 7: "2,1,-1,3", 8: "2,2,-2,2"},
    3: {2: "1,1,0,1,-1,0,0,0,1", 3: "1,1,0,0,1,1,1,0,2", 4: FACE_CENTRED, 5: "1,2,0,-2,1,0,0,0,1",
        6: "1,0,0,0,2,0,0,0,3", 7: "2,1,0,-1,3,0,5,5,1", 8: "2,0,0,0,2,0,0,0,2"},
}


def nets(report: bytes):
    return list(nets_of_report(report.splitlines(keepends=True)))


class Covers(FolderTest):
    def setUp(self):
        super().setUp()
        need_program()

    def test_each_cover_has_the_key_of_its_net(self):
        blocks = [b"".join(chunk.lines) for chunk in chunks_of(COMMON.read_bytes().splitlines(keepends=True))
                  if chunk.opening_line]
        known = nets(run(PROGRAM, "key", COMMON).stdout)
        self.assertEqual(len(blocks), len(known))
        for dimension, cells in CELLS.items():
            for index, cell in cells.items():
                small = [n for n, net in enumerate(known)
                         if net.graph[b"d"] == dimension and net.graph[b"vertices"] * index <= MOST_VERTICES
                         and net.graph[b"edges"] * index <= MOST_EDGES]
                text = b"".join(blocks[n] for n in small)
                covers = run(PROGRAM, "cover", f"--cell={cell}", stdin=text).stdout
                told = nets(run(PROGRAM, "key", stdin=covers).stdout)
                self.assertEqual([(net.name, net.key) for net in told], [(known[n].name, known[n].key) for n in small])
                self.assertEqual([net.graph[b"vertices"] for net in told],
                                 [known[n].graph[b"vertices"] * index for n in small])

    def test_diamond_on_its_cubic_cell(self):
        cover = run(PROGRAM, "cover", TOP / "examples/dia.cgd", f"--cell={FACE_CENTRED}").stdout
        (net,) = nets(run(PROGRAM, "identify", stdin=cover).stdout)
        self.assertEqual((net.graph[b"vertices"], net.graph[b"edges"]), (8, 16))
        self.assertEqual(net.classes, 2)
