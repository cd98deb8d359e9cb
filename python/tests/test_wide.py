"""Nets without a key: what a search finds, and that only what the program has verified is reported."""

import random
import unittest
import unittest.mock
from itertools import combinations, product

from odd_cells import in_odd_cell, in_larger_cell
from testing import IS_LONG, PROGRAM, TOP, FolderTest, long_test, need_modules, need_program, run

from crystal_nets import (Archive, By, Net, NotAnArchive, NotANet, ProgramFailed, check, cover, group,  # noqa: E402
                          identify, identify_all, keys, read, same, svg)
from crystal_nets.different import check_different  # noqa: E402
from crystal_nets.lattice import adjugate, determinant  # noqa: E402
from crystal_nets.topology import topology_of  # noqa: E402
from crystal_nets.wide.archive import WideArchive, write_wide_archive  # noqa: E402
from crystal_nets.wide.certificate import as_read, certificate, holds, verified  # noqa: E402
from crystal_nets.wide.exact_key import exact_key  # noqa: E402
from crystal_nets.wide.matching import Verdict, find_map  # noqa: E402
from crystal_nets.wide.periodic_map import PeriodicMap, text_of_maps  # noqa: E402
from crystal_nets.wide.placed import NotFound, PlacedNet  # noqa: E402
from crystal_nets.wide.primitive import primitive_net  # noqa: E402

WIDE = ("BEA", "IMF", "SFG", "SFS", "STO", "STT", "SVR", "TUN")
TRIED = WIDE if IS_LONG else ("SVR",)
SMALL = ("pcu", "dia", "srs", "hcb", "sql", "nbo", "qtz", "sod")
ZEOLITES = {net.name: net for net in read(TOP / "archives/zeolites.cgd")}
COMMON = {net.name.split(",")[0]: net for net in read(TOP / "archives/common.cgd")}
# two bridges between the same atoms, which stand in one place
BRIDGED = Net([(1, 2, (0, 0)), (2, 1, (1, 0)), (1, 3, (0, 0)), (3, 1, (1, 0)), (1, 1, (0, 1))], name="bridged")


def setUpModule():
    need_program()


def fan(count):
    """A hub with a lattice of its own, joined to each vertex of a path. The positions of the path are quotients of Fibonacci
    numbers, and their denominator is the (2·count + 1)th one."""
    rows = [(1, 1, (1, 0)), (1, 1, (0, 1)), (count + 1, 1, (1, 0))]
    rows += [(1, k, (0, 0)) for k in range(2, count + 2)] + [(k - 1, k, (0, 0)) for k in range(3, count + 2)]
    return Net(rows, name="fan")


def strands(cells, goes_on, count=2, rungs=()):
    """Strands over each vertex of the square net, in a cell of so many columns and rows. `goes_on(column, row, axis)` has of each
    strand the one that it goes on in, to the next vertex along an axis; rungs join strands over one vertex."""
    rows = []
    for at in product(*map(range, cells)):
        rows += [(f"{at}.{i}", f"{at}.{k}", (0, 0)) for i, k in rungs]
        for axis in (0, 1):
            ahead = [x + (k == axis) for k, x in enumerate(at)]
            shift = tuple(x // size for x, size in zip(ahead, cells))
            there = tuple(x % size for x, size in zip(ahead, cells))
            rows += [(f"{at}.{i}", f"{there}.{goes_on(*at, axis)[i]}", shift) for i in range(count)]
    return Net(rows, name="strands")


def swapped_in(columns, twisted=0):
    """Two strands that are swapped along the second axis in the columns that have a 1, and in row `twisted` once more."""
    return lambda x, y, axis: (1, 0) if axis and (columns[x % len(columns)] == "1") != (y + 1 == twisted) else (0, 1)


def disguised(net, chance, most=4, name=None):
    """The net in an odd cell, up to so many times as large."""
    return Net(in_odd_cell(list(net.graph.canonical().edges), chance, most), name=name or net.name)


def placed(net):
    return PlacedNet(net.graph.canonical())


def fault_of(found, a, b):
    """What is wrong with a map, by the conditions of docs/FORMATS.md, written here once more; empty where it is right."""
    size, period, volume = a.dimension, found.period, abs(determinant(found.base))
    if len(found.images) != b.count * volume:
        return "Count"
    rows = adjugate(found.base)
    seen = {(v, tuple(sum(x * row[k] for x, row in zip(there, rows)) % volume for k in range(size)))
            for v, there in found.images.values()}
    if len(seen) < len(found.images):
        return "Doubled"

    def image(u, cell):
        whole, home = zip(*(divmod(part, period) for part in cell))
        v, there = found.images[u, home]
        return v, tuple(there[k] + sum(s * row[k] for s, row in zip(whole, found.base)) for k in range(size))

    for u, at in product(range(a.count), product(range(period), repeat=size)):
        v, there = found.images[u, at]
        wanted = set(b.arcs[v])
        if len(a.arcs[u]) != len(wanted):
            return "Degree"
        for w, shift in a.arcs[u]:
            end, cell = image(w, tuple(x + s for x, s in zip(at, shift)))
            if (end, tuple(x - y for x, y in zip(cell, there))) not in wanted:
                return "Arc"
    return ""


class Search(unittest.TestCase):
    """The search alone, without the program."""

    def test_the_index_is_that_of_the_net_in_any_cell(self):
        chance = random.Random(1)
        found = set()
        for name in (*SMALL, *TRIED):
            net = ZEOLITES.get(name) or COMMON[name]
            index = placed(net).index
            self.assertEqual({placed(disguised(net, chance, 3)).index for _ in range(3)}, {index}, name)
            found.add(index)
        self.assertEqual(len(found), len(SMALL) + len(TRIED))

    def test_the_lengths_are_those_of_the_net(self):
        """They are worked out by hand for the square net: S is the unit matrix times 2, so each edge has the square 1/2, and a
        vertex the square 1/4 of its area."""
        square = placed(Net([(1, 1, (1, 0)), (1, 1, (0, 1))]))
        half = pow(2, -1, square.prime)
        self.assertEqual((square.lengths, square.volume), ([[half] * 4], half * half % square.prime))

    def test_disguises_are_found(self):
        chance = random.Random(2)
        for name in (*SMALL, *TRIED):
            net = ZEOLITES.get(name) or COMMON[name]
            one, other = placed(disguised(net, chance)), placed(disguised(net, chance))
            small = primitive_net(other)
            self.assertEqual(other.count, small.index * len(small.graph.vertices))
            for target in (PlacedNet(small.graph), other):
                found = find_map(one, target)
                self.assertIs(found.verdict, Verdict.SAME, name)
                self.assertEqual(fault_of(found.map, one, target), "", name)
            self.assertEqual(fault_of(small.map, other, PlacedNet(small.graph)), "", name)

    def test_different_nets_have_no_map(self):
        chance = random.Random(3)
        names = TRIED if IS_LONG else SMALL
        nets = {name: placed(disguised(ZEOLITES.get(name) or COMMON[name], chance, 2)) for name in names}
        for one, other in combinations(names, 2):
            for pair in ((one, other), (other, one)):
                self.assertIs(find_map(*(nets[name] for name in pair)).verdict, Verdict.DIFFERENT, pair)

    def test_nets_with_collisions_are_found(self):
        chance = random.Random(4)
        for _ in range(20 if IS_LONG else 5):
            one, other = placed(disguised(BRIDGED, chance)), placed(disguised(BRIDGED, chance))
            found = find_map(one, other)
            self.assertIs(found.verdict, Verdict.SAME)
            self.assertEqual(fault_of(found.map, one, other), "")

    def test_a_search_that_takes_too_long_gives_up(self):
        one = placed(COMMON["pcu"])
        self.assertIs(find_map(one, one, most_work=2).verdict, Verdict.NOT_KNOWN)

    def test_exact_keys(self):
        """The key from its definition alone is what the program prints."""
        nets = read(TOP / "archives/common.cgd")[:40]
        nets += read(TOP / "archives/common.cgd")[40:] + list(ZEOLITES.values()) if IS_LONG else []
        compared = 0
        for answer in keys(nets, maps=False):
            if answer.accepted:
                self.assertTrue(check(answer), answer.name)
                compared += 1
        self.assertEqual(compared, 514 if IS_LONG else 40)

    def test_exact_keys_past_the_limits(self):
        """A net has one key there in whatever cell, and another net another. Some have numbers that the program has not."""
        chance = random.Random(5)
        found = set()
        for name in TRIED:
            told = {exact_key(disguised(ZEOLITES[name], chance, 2).graph.canonical()) for _ in range(2)}
            self.assertEqual(len(told), 1, name)
            found |= told
        self.assertEqual(len(found), len(TRIED))
        self.assertGreater(max(int(number) for key in found for number in key.split()), 2**40)


class Names(FolderTest):
    def setUp(self):
        super().setUp()
        self.archive = Archive.load(TOP / "archives/wide.index")

    def test_a_zeolite_without_a_key_is_named_by_a_verified_map(self):
        chance = random.Random(6)
        blocks = {name: net.block for name, net in WideArchive(TOP / "archives/wide.index").nets()}
        for name in TRIED:
            for _ in range(20 if IS_LONG else 1):
                answer = identify(disguised(ZEOLITES[name], chance, 4 if IS_LONG else 2, "x"), archive=self.archive)
                if answer.outcome.kind == "malformed":
                    self.assertEqual((answer.names, answer.by), ((name,), By.UNPROVED_CELL))
                    continue
                self.assertEqual((answer.outcome.number, answer.key, answer.accepted), (4, "", False))
                self.assertEqual((answer.names, answer.by), ((name,), By.VERIFIED_MAP))
                self.assertTrue(str(answer).startswith(f"x: {name} (verified map; refused 4 WidePlacement "))
                self.assertTrue(holds(answer.certificate, [answer.net.block, blocks[name]], 3))
                self.assertEqual(run(PROGRAM, "verify", "-", stdin=answer.certificate.encode()).stdout, b"pair 2 verified\n")

    def test_a_refusal_may_hang_on_the_cell(self):
        """24 vertices: a key in one basis, and none in another one of the same lattice."""
        known, skew = fan(23), cover(fan(23), [(1, 500), (0, 1)]).net
        archive = Archive.of([known])
        for answer in (identify(skew, archive=archive), keys([skew], archive=archive)[0]):
            self.assertEqual((answer.outcome.number, answer.names, answer.by), (4, ("fan",), By.SMALLER_CELL))
            self.assertEqual(answer.small.key, keys([known])[0].key)
            self.assertTrue(holds(answer.certificate, [skew.block, answer.small.net.block], 2))
        self.assertTrue(check(answer))
        answer = identify(skew, archive=None)
        self.assertEqual((answer.names, answer.by, answer.small.sequences[0][0]), ((), By.SMALLER_CELL, 28))
        self.assertIsNone(identify(skew, archive=archive, maps=False).small)
        self.assertEqual(identify(skew, archive=archive, maps=False).by, By.NONE)

    def test_the_denominator_hangs_on_the_cell(self):
        """30 vertices: the denominator is the Fibonacci number below 2^40, and in a doubled cell twice as large."""
        known = fan(29)
        self.assertEqual(identify(known, archive=None).denominator, 956_722_026_041)
        answer = identify(cover(known, [(2, 0), (0, 1)]).net, archive=Archive.of([known]))
        self.assertEqual((answer.outcome.name, answer.names, answer.by), ("WidePlacement", ("fan",), By.SMALLER_CELL))

    def test_a_cell_that_the_program_does_not_read(self):
        need_modules("numpy")
        large = Net(in_larger_cell(list(COMMON["dia"].graph.canonical().edges), [[5, 0, 0], [0, 5, 0], [0, 0, 3]]))
        answer = identify(large, archive=Archive.of([COMMON["dia"]]))
        self.assertEqual((answer.outcome.name, len(large.vertices)), ("TooManyVertices", 600))
        self.assertEqual((answer.names, answer.by, answer.certificate), ((COMMON["dia"].name,), By.UNPROVED_CELL, ""))
        self.assertIsNone(check(answer))
        self.assertIn("<svg", svg(answer))  # that of the smaller cell
        with self.assertRaises(NotANet):
            svg(BRIDGED)
        larger = Net(in_larger_cell(list(large.graph.canonical().edges), [[4, 0, 0], [0, 1, 0], [0, 0, 1]]))
        answer = identify(larger, archive=None)
        self.assertEqual((answer.by, answer.naming.note[:38]), (By.NONE, "a cell of more than 2,000 vertices or "))

    def test_nets_with_collisions_are_named(self):
        self.assertEqual(write_wide_archive(self.folder / "mine", [BRIDGED]), [])
        answer = identify(disguised(BRIDGED, random.Random(7), name="x"), archive=self.folder)
        self.assertEqual((answer.outcome.name, answer.names, answer.by), ("Collision", ("bridged",), By.VERIFIED_MAP))

    def test_nets_past_the_key_work_are_named(self):
        """A vertex with 110 loops, of which no two nets have one index."""
        chance = random.Random(8)
        near = [vector for vector in product(range(-3, 4), repeat=3) if vector > (0, 0, 1)]
        stars = [Net([(1, 1, vector) for vector in [(0, 0, 1), *chance.sample(near, 109)]], name=name) for name in ("one", "other")]
        self.assertEqual(write_wide_archive(self.folder / "mine", stars), [])
        for star in stars:
            answer = identify(disguised(star, chance, 2, "x"), archive=self.folder)
            self.assertEqual((answer.outcome.name, answer.names, answer.by), ("TooMuch", (star.name,), By.VERIFIED_MAP))

    def test_a_block_without_a_name_gives_none(self):
        write_wide_archive(self.folder / "mine", [Net(BRIDGED.edges)])
        answer = identify(BRIDGED, archive=self.folder)
        self.assertEqual((answer.names, answer.by, answer.certificate), ((), By.NONE, ""))

    def test_what_is_in_no_archive_has_no_name(self):
        write_wide_archive(self.folder / "mine", [BRIDGED])
        answer = identify(ZEOLITES["SVR"], archive=self.folder)
        self.assertEqual((answer.names, answer.by, answer.certificate), ((), By.NONE, ""))
        self.assertEqual(len(answer.index), 32)
        for net in (Net([(1, 1, (1, 0))]), Net([(1, 1, (0, 0))]), Net.refused("nothing")):
            self.assertEqual(identify_all([net], archive=self.archive)[0].by, By.NONE)


class Deceived(unittest.TestCase):
    """Connected nets of strands over the square net, which is what is left of them where the strands are laid together."""

    NETS = {"swapped in each second column": ((260, 1), swapped_in("01")),
            "swapped in each second column, in a small cell": ((8, 2), swapped_in("01")),
            "swapped in each fourth column": ((260, 1), swapped_in("0001")),
            "130 rows that close with a swap": ((2, 130), swapped_in("01", 130)),
            "rows that close with a swap, in a small cell": ((2, 6), swapped_in("01", 6)),
            "three strands, turned in each third column":
                ((174, 1), lambda x, y, axis: (1, 2, 0) if axis and x % 3 == 1 else (0, 1, 2), 3)}

    def test_none_is_the_square_net(self):
        archive = Archive.load(TOP / "archives")
        for what, told in self.NETS.items():
            answer = identify(strands(*told), archive=archive)
            self.assertEqual((answer.names, answer.accepted), ((), False), what)
            self.assertIsNone(answer.small, what)

    def test_none_has_the_key_or_the_kinds_of_the_square_net(self):
        square = topology_of(COMMON["sql"].graph)
        for what, told in self.NETS.items():
            graph = strands(*told).graph.canonical()
            with self.assertRaises(NotFound, msg=what):
                exact_key(graph)
            if len(graph.vertices) < 100:
                self.assertNotEqual(topology_of(graph).kinds[0].sequence, square.kinds[0].sequence, what)

    def test_interwoven_nets_are_not_one(self):
        """Two square nets, one moved from the other, in a cell that the program reads and one that it does not."""
        archive = Archive.load(TOP / "archives")
        for columns in (4, 520):
            rows = [(f"{x}", f"{(x + 1) % columns}", ((x + 1) // columns, 0)) for x in range(columns)]
            answer = identify(Net(rows + [(f"{x}", f"{x}", (0, 2)) for x in range(columns)]), archive=archive)
            self.assertEqual((answer.names, answer.small), ((), None), columns)

    def test_the_map_to_a_smaller_cell_is_right(self):
        for what, told in self.NETS.items():
            net = placed(strands(*told))
            small = primitive_net(net)
            self.assertEqual(fault_of(small.map, net, PlacedNet(small.graph)), "", what)

    def test_a_map_is_checked_as_the_program_does(self):
        """Of right maps and damaged ones, in Python and by the conditions written here once more."""
        chance = random.Random(20)
        one = placed(disguised(COMMON["nbo"], chance, 3))
        small = primitive_net(one)
        other = PlacedNet(small.graph)
        self.assertTrue(small.map.carries(one.graph, small.graph))
        for k in range(100):
            wrong = Trust.damaged(None, small.map, chance, k, other.count)
            self.assertEqual(wrong.carries(one.graph, small.graph), fault_of(wrong, one, other) == "", k)


class Trust(FolderTest):
    """What the search or the index gets wrong hides a name, and makes none."""

    NAMES = ("SVR", "SFS", "STT")

    def archive_with(self, change):
        """An archive of three nets whose index was changed."""
        path = self.folder / "lying"
        write_wide_archive(path, [ZEOLITES[name] for name in self.NAMES])
        index = path.with_suffix(".index")
        head, *lines = index.read_text().splitlines()
        index.write_text("\n".join([head, *change([line.split("\t") for line in lines])]) + "\n")
        return Archive.load(index)

    def names_by(self, archive):
        return [identify(ZEOLITES[name], archive=archive).names for name in (self.NAMES if IS_LONG else self.NAMES[:1])]

    def test_an_index_that_lies(self):
        def turned(rows):
            return ["\t".join([rows[(k + 1) % 3][0], *row[1:]]) for k, row in enumerate(rows)]

        def all_alike(rows):
            return ["\t".join([mine[0], *row[1:]]) for mine in rows for row in rows]

        def other_names(rows):
            return ["\t".join([*row[:3], "gold"]) for row in rows]

        def elsewhere(rows):
            return ["\t".join([row[0], str(int(row[1]) + 7), str(int(row[2]) - 7), row[3]]) for row in rows]

        count = len(self.names_by(None))
        rightly = [(name,) for name in self.NAMES[:count]]
        for change, wanted in ((turned, [()] * count), (all_alike, rightly), (other_names, rightly), (elsewhere, [()] * count)):
            self.assertEqual(self.names_by(self.archive_with(change)), wanted, change.__name__)

    def test_a_search_that_lies(self):
        """Whatever map is found, it counts only where the program takes it."""
        read_net = as_read(BRIDGED.block, 2)
        wrong = PeriodicMap(1, {(u, (0, 0)): (0, (u, 0)) for u in range(3)}, ((1, 0), (0, 1)))
        self.assertEqual(certificate(read_net, [(read_net, wrong)]).text, "")
        with unittest.mock.patch("crystal_nets.wide.naming.find_map") as liar:
            liar.return_value.map = PeriodicMap(1, {(u, (0, 0, 0)): (u, (0, 0, 0)) for u in range(46)},
                                                ((0, 1, 0), (1, 0, 0), (0, 0, 1)))
            answer = identify(ZEOLITES["SVR"], archive=Archive.load(TOP / "archives/wide.index"))
        self.assertEqual((answer.names, answer.by), ((), By.NONE))
        self.assertEqual(liar.call_count, 1)

    def test_a_certificate_of_other_blocks_does_not_hold(self):
        one, other = (disguised(BRIDGED, random.Random(seed), 2) for seed in (8, 9))
        first, second = (as_read(net.block, 2) for net in (one, other))
        found = find_map(PlacedNet(first.graph), PlacedNet(second.graph)).map
        text = certificate(first, [(second, found)]).text
        self.assertTrue(holds(text, [one.block, other.block], 2))
        for blocks in ([other.block, one.block], [one.block, one.block], [one.block], [], [one.block, b"nothing"],
                       [one.block, other.block, other.block]):
            self.assertFalse(holds(text, blocks, 2))
        self.assertFalse(holds(text.replace("image 1 ", "image 2 ", 1), [one.block, other.block], 2))
        self.assertFalse(holds("", [one.block, other.block], 2))

    def test_damaged_maps(self):
        """300 maps with one image, one part of a cell or a base row changed: the program refuses what is wrong."""
        chance = random.Random(10)
        one = as_read(disguised(COMMON["nbo"], chance, 3).block, 3)
        small = primitive_net(PlacedNet(one.graph))
        maps = [self.damaged(small.map, chance, k, len(small.graph.vertices)) for k in range(300)]
        told = verified(text_of_maps(one.graph, [(small.graph, found) for found in maps]), 300)
        wanted = [fault_of(found, PlacedNet(one.graph), PlacedNet(small.graph)) == "" for found in maps]
        self.assertEqual(list(told), wanted)
        self.assertEqual(sum(told), 0)
        self.assertEqual(verified(text_of_maps(one.graph, [(small.graph, small.map)]), 1), (True,))

    def damaged(self, found, chance, k, count):
        images, base = dict(found.images), list(found.base)
        place = chance.choice(list(images))
        v, cell = images[place]
        if k % 3 == 0:
            images[place] = (v + chance.randrange(1, count)) % count, cell
        elif k % 3 == 1:
            images[place] = v, tuple(x + (i == k % 2) for i, x in enumerate(cell))
        else:
            base[k % 2] = tuple(x + (i == 1) for i, x in enumerate(base[k % 2]))
        return PeriodicMap(1, images, tuple(base))

    def test_a_search_that_fails_costs_no_answer(self):
        for fault in (NotFound("x"), ProgramFailed("x"), OSError(5, "x")):
            with unittest.mock.patch("crystal_nets.wide.naming.primitive_net", side_effect=fault):
                answer = identify(BRIDGED, archive=None)
            self.assertEqual((answer.outcome.name, answer.by, bool(answer.naming.note)), ("Collision", By.NONE, True))
        self.assertEqual(verified("x" * (1 << 24) + "x", 2), (False, False))

    def test_damaged_indices(self):
        path = self.folder / "mine"
        write_wide_archive(path, [BRIDGED])
        index, blocks = path.with_suffix(".index"), path.with_suffix(".cgd")
        whole = index.read_bytes()
        index.write_bytes(b"wide_index 1 " + whole[13:])
        with self.assertRaisesRegex(NotAnArchive, "wide_index 1 of former releases; net_tool archive index makes it anew"):
            Archive.load(index)
        for content in (b"", b"wide_index 2 x\n", whole[:-1], whole + b"x\n", whole.replace(b"\t", b" "), whole + b"a\tb\tc\td\n",
                        whole + b"a\t-1\t5\td\n", whole + b"a\t1\t99999\td\n", whole + b"a\t1%s\t1\td\n" % (b"0" * 30),
                        whole[:40] + b"\xff" + whole[41:]):
            index.write_bytes(content)
            with self.assertRaises(NotAnArchive):
                Archive.load(index)
        index.write_bytes(whole)
        Archive.load(index)
        blocks.write_bytes(blocks.read_bytes() + b"\n")
        with self.assertRaises(NotAnArchive):
            Archive.load(self.folder)
        blocks.unlink()
        with self.assertRaises(OSError):
            Archive.load(self.folder)


class Pairs(unittest.TestCase):
    def test_nets_without_a_key_are_the_same_by_a_meeting(self):
        chance = random.Random(11)
        for name in TRIED:
            one, other = (disguised(ZEOLITES[name], chance, 2 if IS_LONG else 1) for _ in range(2))
            found = same(one, other)
            if "malformed" not in found.text:
                self.assertTrue(found)
                self.assertIsNone(found.map)
                for net, text in zip((one, other), found.meeting.certificates):
                    self.assertTrue(holds(text, [net.block, found.meeting.net.block], 3))

    def test_others_are_different_by_a_certificate_alone(self):
        """A coordination sequence tells them, which needs no key; without one, nothing is said to be different."""
        for other in (Net([*BRIDGED.edges, (1, 1, (1, 1))]), Net([(1, 1, (1, 0)), (1, 1, (0, 1))])):
            found = same(BRIDGED, other)
            self.assertEqual((found.same, found.meeting, found.hint), (False, None, ""))
            self.assertTrue(found.certificate.startswith("net_different 1\n"))
        with unittest.mock.patch("crystal_nets.different.certificates.told_by_shells", return_value=None):
            found = same(BRIDGED, Net([*BRIDGED.edges, (1, 1, (1, 1))]))
        self.assertEqual((found.same, found.meeting, found.hint), (None, None, "other by invariants that are not proved"))
        with self.assertRaises(NotANet):
            bool(found)

    def test_groups(self):
        chance = random.Random(12)
        skew = cover(fan(23), [(1, 500), (0, 1)]).net
        nets = [disguised(BRIDGED, chance), fan(23), Net([*BRIDGED.edges, (1, 1, (1, 1))]), skew, disguised(BRIDGED, chance)]
        found = group(nets)
        self.assertEqual([(one.places, one.by) for one in found], [((0, 4), By.VERIFIED_MAP), ((1, 3), By.KEY)])
        self.assertEqual([answer.net for answer in found.keyless], [nets[2]])
        self.assertEqual(found[0].key, "")
        for text in found[0].certificates:
            self.assertEqual(run(PROGRAM, "verify", "-", stdin=text.encode()).stdout, b"pair 2 verified\n")
        self.assertEqual([one.places for one in group(nets, maps=False)], [(1,)])


class Many(unittest.TestCase):
    @long_test
    def test_common_nets_agree_with_their_keys(self):
        """200 nets in disguise: a map is found exactly between those with one key."""
        chance = random.Random(13)
        nets = [disguised(net, chance, 2) for net in chance.sample(read(TOP / "archives/common.cgd"), 200)]
        answers = [answer for answer in keys(nets, maps=False) if answer.accepted]
        places = [placed(answer.net) for answer in answers]
        for (a, one), (b, other) in combinations(zip(answers, places), 2):
            is_same = one.index == other.index and find_map(one, other).verdict is Verdict.SAME
            self.assertEqual(is_same, a.key == b.key, (a.name, b.name))

    @long_test
    def test_each_zeolite_in_20_odd_cells(self):
        """Each is named rightly, by its key, by that of a smaller cell or by a verified map; none gets the name of another."""
        chance = random.Random(14)
        archive = Archive.load(TOP / "archives")
        nets = [disguised(net, chance, 4, name) for name, net in ZEOLITES.items() for _ in range(20)]
        told = {(answer.name, tuple(name for name in answer.names if name in ZEOLITES))
                for answer in identify_all(nets, archive=archive, processes=2)}
        self.assertEqual(told, {(name, (name,)) for name in ZEOLITES})

    @long_test
    def test_each_zeolite_by_its_key(self):
        """The frameworks that have a key are told by it in the cells of the archive, and only these."""
        answers = keys(list(ZEOLITES.values()), archive=Archive.load(TOP / "archives"))
        self.assertEqual({answer.name for answer in answers if answer.by == By.KEY}, ZEOLITES.keys() - set(WIDE))
        self.assertEqual([tuple(name for name in answer.names if name in ZEOLITES) for answer in answers],
                         [(name,) for name in ZEOLITES])

    @long_test
    def test_the_pairs_of_those_without_a_key(self):
        """Each of the 28 is different, by shells that the other net has not."""
        nets = dict(zip(WIDE, (disguised(ZEOLITES[name], random.Random(15), 2) for name in WIDE)))
        for one, other in combinations(WIDE, 2):
            found = same(nets[one], nets[other])
            self.assertEqual((found.same, found.hint), (False, ""), (one, other))
            blocks = (nets[one].block + nets[other].block).decode()
            self.assertEqual(check_different.check(found.certificate, blocks), [True], (one, other))
