"""Maps between nets: that what `same` writes is verified, for each common net and its covers."""


from testing import PROGRAM, TOP, FolderTest, need_program, run

from crystal_nets.texts.net_text import chunks_of, nets_of_report  # noqa: E402

COMMON = TOP / "archives/common.cgd"
EXAMPLES = TOP / "examples"
CELLS = {2: ("1,1,0,1", "1,1,-2,1"), 3: ("1,0,1,1,1,0,0,1,1", "1,1,0,1,-1,0,0,0,1")}


class Maps(FolderTest):
    def setUp(self):
        super().setUp()
        need_program()

    def verdicts(self, maps: bytes) -> set[bytes]:
        """What `verify` says of the items of a text, without their numbers."""
        return {line.split(b" ", 2)[2] for line in run(PROGRAM, "verify", stdin=maps).stdout.splitlines()}

    def test_examples_are_verified(self):
        for file in EXAMPLES.glob("*.maps"):
            self.assertEqual(self.verdicts(file.read_bytes()), {b"verified"}, file.name)

    def test_one_net_described_twice(self):
        maps = run(PROGRAM, "same", EXAMPLES / "twice.cgd").stdout
        self.assertEqual(maps, (EXAMPLES / "twice.maps").read_bytes())

    def test_each_net_is_mapped_to_its_covers(self):
        blocks = [b"".join(chunk.lines) for chunk in chunks_of(COMMON.read_bytes().splitlines(keepends=True))
                  if chunk.opening_line]
        known = nets_of_report(run(PROGRAM, "key", COMMON).stdout.splitlines(keepends=True))
        found = set()
        for net, block in zip(known, blocks):
            if int(net.graph[b"vertices"]) > 256:  # whose covers have more vertices than a block may
                continue
            covers = [run(PROGRAM, "cover", f"--cell={cell}", stdin=block).stdout for cell in CELLS[net.graph[b"d"]]]
            maps = run(PROGRAM, "same", stdin=block + b"".join(covers)).stdout
            self.assertNotIn(b" different\n", maps, net.name)
            told = self.verdicts(maps)
            self.assertLessEqual(told, {b"verified", b"unproved"}, net.name)
            found |= told
        self.assertIn(b"verified", found)

    def test_different_nets_have_no_map(self):
        text = (EXAMPLES / "sql.cgd").read_bytes() + (EXAMPLES / "hcb.cgd").read_bytes()
        maps = run(PROGRAM, "same", stdin=text).stdout
        self.assertTrue(maps.endswith(b"pair 2 different\n"))
        self.assertEqual(self.verdicts(maps), {b"unproved"})
