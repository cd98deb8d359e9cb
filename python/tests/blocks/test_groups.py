"""All groups: each name that files have for them, and a net of a general and of a special position in each setting."""

import random
import sys
from fractions import Fraction

from testing import IS_LONG, PROGRAM, FolderTest, command, long_test, need_modules, need_program, run

need_modules("gemmi", "numpy", "scipy")
import gemmi  # noqa: E402
from crystal_nets.blocks.groups import UnknownGroup, find_space_group, group_by_name  # noqa: E402
from crystal_nets.blocks.plane_groups import BY_NAME, TABLE  # noqa: E402
from generated import (ALONG_THIRD_AXIS, UNIT, Generated, metric_of, operations_of, special_places)  # noqa: E402
from crystal_nets.texts.net_text import nets_of_report  # noqa: E402

COMMAND = command("convert --as nets")
SETTINGS = list(gemmi.spacegroup_table())
WITHOUT_FIXED_POINTS = (1, 4, 7, 9, 19, 29, 33, 76, 78, 144, 145, 169, 170)  # in which each position is general
MOST_PLACES = 400    # that are tried for a special position
LEAST_LENGTH = 0.1   # between images of a general position, in edges of the cell


def written(group) -> set:
    """The operations of a group of cgd2net as exact columns in the usual cell, translations of the cell aside."""
    den = group.denominator
    rows = [[Fraction(float(x)).limit_denominator(24) for x in row] for row in group.basis]
    inverse = [[int(x) for x in row] for row in group.to_basis]
    found = set()
    size = range(group.dimension)
    lattice = [(Fraction(0),) * group.dimension]
    for point in lattice:
        sums = (tuple((x + y) % 1 for x, y in zip(point, row)) for row in rows)
        lattice += [other for other in dict.fromkeys(sums) if other not in lattice]
    for turn, move in zip(group.rotations.tolist(), group.translations.tolist()):
        matrix = tuple(tuple(sum(inverse[j][a] * turn[a][b] * rows[b][i] for a in size for b in size) for j in size)
                       for i in size)
        shift = [sum(Fraction(move[a], den) * rows[a][i] for a in size) for i in size]
        found |= {(matrix, tuple((s + c) % 1 for s, c in zip(shift, centre))) for centre in lattice}
    return found


def exact(operations) -> set:
    return {(matrix, tuple(Fraction(t, UNIT) % 1 for t in vector)) for matrix, vector in operations}


class Names(FolderTest):
    def test_each_setting_has_its_operations_under_each_spelling(self):
        for k, setting in enumerate(SETTINGS):
            wanted = exact(operations_of(setting)) if IS_LONG or k % 4 == 0 else set()
            if wanted:
                self.assertEqual(written(group_by_name(setting.xhm(), 3)), wanted, setting.xhm())
                self.assertEqual(written(group_by_name("Hall: " + setting.hall, 3)), wanted, setting.hall)
            for spelling in (setting.xhm().replace(" ", ""), setting.xhm().lower(), setting.xhm().replace(" ", "_")):
                self.assertEqual(find_space_group(spelling).hall, setting.hall, spelling)

    def test_spellings(self):
        wanted = {"Fd-3m": "F d -3 m:2", "Fd-3m:1": "F d -3 m:1", "Fd3m": "F d -3 m:2", "Fd-3mS": "F d -3 m:1",
                  "F d -3 m Z": "F d -3 m:2", "fd3ms": None, "Im3m": "I m -3 m", "Pa3": "P a -3", "Ia3d": "I a -3 d",
                  "Pn3n": "P n -3 n:2", "R-3m": "R -3 m:H", "R-3m:R": "R -3 m:R", "R-3mH": "R -3 m:H", "R3R": "R 3:R",
                  "R -3 m : R": "R -3 m:R", "227": "F d -3 m:2", "227:1": "F d -3 m:1", "166": "R -3 m:H",
                  "14": "P 1 21/c 1", "P2(1)/c": "P 1 21/c 1", "P6(3)/mmc": "P 63/m m c", "P6_3/mmc": "P 63/m m c",
                  "P21/n": "P 1 21/n 1", "C2/c": "C 1 2/c 1", "Cmce": "C m c a", "Aem2": "A b m 2", "Ccce": "C c c a:2",
                  "P42/nmc": "P 42/n m c:2", "F-43m": "F -4 3 m", "P4132": "P 41 3 2", "p6/mmm": "P 6/m m m",
                  "231": None, "0": None, "": None, "Fd-3m:3": None, "P-1:2": None, "Q4": None}
        found = {name: find_space_group(name) for name in wanted}
        self.assertEqual({name: group.xhm() if group else None for name, group in found.items()}, wanted)

    def test_plane_groups_are_those_of_space_groups_along_an_axis(self):
        for name, space_group in ALONG_THIRD_AXIS.items():
            wanted = exact(operations_of(gemmi.find_spacegroup_by_name(space_group), 2))
            self.assertEqual(written(group_by_name(name, 2)), wanted, name)
        self.assertEqual({row[0] for row in BY_NAME.values()} - {"p11m", "p11g", "c11m", "p2gm", "pgm"},
                         set(ALONG_THIRD_AXIS))
        self.assertEqual([group_by_name(str(row[0]), 2).name for row in TABLE], [row[1].split()[0] for row in TABLE])
        for one, other in {"p4m": "p4mm", "P 6 m m": "p6mm", "cmm": "c2mm", "*442": "p4mm", "p1g1": "pg"}.items():
            self.assertEqual(written(group_by_name(one, 2)), written(group_by_name(other, 2)))
        self.assertRaises(UnknownGroup, group_by_name, "p5", 2)


class Nets(FolderTest):
    """The nets of generated positions: read from CRYSTAL blocks they have the keys of their graphs."""

    def setUp(self):
        super().setUp()
        need_program()

    def pairs(self, operations, chance):
        """A general and a special position, where there is one, each with its fewest shells that are connected."""
        metric, dimension = metric_of(operations, chance), len(operations[0][1])
        while True:
            place = tuple(chance.randint(50, 450) * UNIT // 1000 for _ in range(dimension))
            net = Generated(operations, place, metric)
            if not net.is_special and min(net.by_length) > LEAST_LENGTH:
                yield net
                break
        for _, place in zip(range(MOST_PLACES), special_places(dimension)):
            net = Generated(operations, place, metric)
            if net.is_special and next(net.fewest_shells(), 0):
                yield net
                return

    def check(self, groups):
        """Each net is read back as the graph that was computed; a few have no key, and are compared by their outcome.
        NET blocks come after the CRYSTAL blocks."""
        graphs, crystals, symbolic, chance = [], [], [], random.Random(5)
        for name, operations in groups:
            for net in self.pairs(operations, chance):
                count = next(net.fewest_shells())
                words = (f"{name} {len(graphs)}", name, count)
                graphs.append(net.graph(words[0], count))
                crystals.append(net.crystal(*words))
                symbolic.append(net.symbolic(*words))
        done = run(COMMAND, "--quiet", stdin="".join(crystals + symbolic).encode())
        wanted, found = (self.keys(text) for text in ("".join(graphs).encode(), done.stdout))
        self.assertEqual(len(found), 2 * len(graphs))
        for one, other in zip(wanted + wanted, found):
            self.assertEqual((one.name, one.key or one.outcome), (other.name, other.key or other.outcome))
        self.assertGreater(sum(bool(net.key) for net in wanted), 0.9 * len(wanted))
        return len(graphs)

    def keys(self, text):
        return list(nets_of_report(run(PROGRAM, "key", stdin=text, status=None).stdout.splitlines(keepends=True)))

    def test_plane_groups(self):
        """All 17; p1 and pg have no special position."""
        count = self.check((name, operations_of(gemmi.find_spacegroup_by_name(other), 2))
                           for name, other in ALONG_THIRD_AXIS.items())
        self.assertEqual(count, 2 * 17 - 2)

    def check_settings(self, settings):
        count = self.check((setting.xhm(), operations_of(setting)) for setting in settings)
        self.assertEqual(count, 2 * len(settings) - sum(setting.number in WITHOUT_FIXED_POINTS for setting in settings))

    def test_some_space_groups_and_origins(self):
        self.check_settings(SETTINGS[::7])
        self.check_settings([setting for setting in SETTINGS if setting.ext != "\0"][::3])

    @long_test
    def test_all_space_groups_in_all_settings(self):
        for k in range(0, len(SETTINGS), 280):
            self.check_settings(SETTINGS[k:k + 280])
