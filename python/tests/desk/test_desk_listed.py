"""What databases list of a net, as the card of a net shows it."""

import json
import unittest

from desk import need_desk
from testing import TOP, need_modules, need_program

need_desk()
from crystal_nets import Net, read  # noqa: E402
from crystal_nets.desk.listed import listed  # noqa: E402
from crystal_nets.topology.listed import NOT_THERE  # noqa: E402

NETS = {net.name.split(",")[0]: net for net in read(TOP / "archives/common.cgd")}
SIX_RINGS = ".".join(["6(2)"] * 6)


class Listed(unittest.TestCase):
    def test_what_is_known_of_nets(self):
        need_program()
        need_modules("numpy", "spglib")
        self.assertEqual(listed(NETS["dia"]), {
            "symmetry": "Fd-3m, 1 kind of vertices, 1 of edges", "group": "", "point_symbol": "6^6", "td10": "981.00",
            "transitivity": "11",
            "vertex_symbols": [{"symbol": SIX_RINGS, "vertices": 2, "connectivity": 4}]})
        told = listed(NETS["rtl"])
        self.assertEqual((told["point_symbol"], told["transitivity"]), ("{4.6^2}2{4^2.6^10.8^3}", "22"))
        self.assertEqual([(kind["vertices"], kind["connectivity"]) for kind in told["vertex_symbols"]], [(4, 3), (2, 6)])
        self.assertEqual([kind["symbol"] for kind in listed(NETS["bcu"])["vertex_symbols"]], [""])
        json.dumps(told)

    def test_the_group_of_a_block(self):
        need_program()
        need_modules("numpy", "spglib", "gemmi")
        net, *_ = read(TOP / "examples/embedded.cgd")
        self.assertEqual(listed(net)["group"], f"{net.provenance.group.name}, that of the net")

    def test_nets_of_which_there_is_none(self):
        woven = Net([(1, 1, (2, 0)), (1, 1, (0, 1))])
        block = Net.from_block(b"PERIODIC_GRAPH\nEDGES\n1 1 0 x\nEND\n")
        lengths = Net([(1, 1, (1, 0)), (1, 1, (0, 1, 0))])
        for net, reason in ((woven, NOT_THERE), (Net.refused("nothing"), "nothing"), (lengths, "its shifts have several lengths"),
                            (block, "line 3 of the block is no row: '1 1 0 x'")):
            self.assertEqual(listed(net), {"reason": reason})


if __name__ == "__main__":
    unittest.main()
