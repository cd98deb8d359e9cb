"""Kinds of files: packed ones, those of other programs, and what is reported of those without a net."""

import gzip
import io
import time
import unittest
import zipfile
from base64 import b64decode

from desk import need_desk
from testing import TOP

need_desk()
from crystal_nets import Net, NotANet  # noqa: E402
from crystal_nets.desk import files  # noqa: E402
from crystal_nets.desk.files import FITTING, MOST_BYTES, Unread, nets_of_file  # noqa: E402
from crystal_nets.desk.zips import unzip  # noqa: E402

QUARTZ = (TOP / "examples/quartz.cif").read_bytes()
SQL = b"PERIODIC_GRAPH\nNAME sql\nEDGES\n1 1 1 0\n1 1 0 1\nEND\n"
POSCAR = b"salt\n5.64\n0 .5 .5\n.5 0 .5\n.5 .5 0\nNa Cl\n1 1\nDirect\n0 0 0\n.5 .5 .5\n"
FRAMEWORK = b"""data_x
_cell_length_a 5
_cell_length_b 5
_cell_length_c 5
_cell_angle_alpha 90
_cell_angle_beta 90
_cell_angle_gamma 90
loop_
_atom_site_label
_atom_site_fract_x
_atom_site_fract_y
_atom_site_fract_z
Zn1 0 0 0
C1 .38 0 0
N1 .62 0 0
C2 0 .38 0
N2 0 .62 0
C3 0 0 .38
N3 0 0 .62
"""


def read_net(net: Net | Unread) -> Net:
    return net.net() if isinstance(net, Unread) else net


def zip_of(files: dict[str, bytes], method: int = zipfile.ZIP_DEFLATED) -> bytes:
    content = io.BytesIO()
    with zipfile.ZipFile(content, "w", method) as archive:
        for name, text in files.items():
            archive.writestr(name, text)
    return content.getvalue()


class Zips(unittest.TestCase):
    def test_the_files_in_their_order(self):
        told = unzip(zip_of({"b/quartz.cif": QUARTZ, "a.cgd": SQL, "empty/": b"", "__MACOSX/._a": b"x", ".hidden": b"x"}))
        self.assertEqual([file["name"] for file in told["files"]], ["quartz.cif", "a.cgd"])
        self.assertEqual([b64decode(file["content"]) for file in told["files"]], [QUARTZ, SQL])
        self.assertEqual(told["told"], "")

    def test_names_are_never_paths(self):
        told = unzip(zip_of({"../../etc/passwd": SQL, "/etc/x.cgd": SQL, "a\\..\\b.cgd": SQL}))
        self.assertEqual([file["name"] for file in told["files"]], ["passwd", "x.cgd", "b.cgd"])

    def test_each_way_to_pack(self):
        for method in (zipfile.ZIP_STORED, zipfile.ZIP_DEFLATED, zipfile.ZIP_BZIP2, zipfile.ZIP_LZMA):
            self.assertEqual(b64decode(unzip(zip_of({"a.cgd": SQL}, method))["files"][0]["content"]), SQL)

    def test_bombs(self):
        begun = time.process_time()
        for files in ({"a": bytes(MOST_BYTES + 1)}, {str(k): bytes(1 << 20) for k in range((MOST_BYTES >> 20) + 1)}):
            with self.assertRaisesRegex(NotANet, "more than 64 MB, unpacked"):
                unzip(zip_of(files))
        with self.assertRaisesRegex(NotANet, "more than 2000 files"):
            unzip(zip_of({f"{k}.cgd": b"" for k in range(2001)}))
        lie = bytearray(zip_of({"a": bytes(MOST_BYTES + 1)}))
        at = lie.rindex(b"PK\x01\x02")
        lie[at + 24:at + 28] = (100).to_bytes(4, "little")  # a size that is not true
        with self.assertRaisesRegex(NotANet, "damaged"):
            unzip(bytes(lie))
        self.assertLess(time.process_time() - begun, 60)

    def test_what_is_no_archive_of_files(self):
        for content, word in ((b"PK\x03\x04x", "damaged"), (zip_of({}), "no file"), (zip_of({"x/": b""}), "no file"),
                              (zip_of({"a.cgd": SQL})[:-30], "damaged"), (zip_of({"[Content_Types].xml": b"x"}), "office"),
                              (zip_of({"a.cgd": SQL}, zipfile.ZIP_STORED).replace(b"PERIODIC", b"PERIOXXX"), "damaged")):
            with self.assertRaisesRegex(NotANet, word):
                unzip(content)

    def test_a_password(self):
        locked = bytearray(zip_of({"a.cgd": SQL, "b.cgd": SQL}))
        for mark, at in ((b"PK\x03\x04", 6), (b"PK\x01\x02", 8)):
            locked[locked.index(mark) + at] |= 1
        told = unzip(bytes(locked))
        self.assertEqual([file["name"] for file in told["files"]], ["b.cgd"])
        self.assertIn("1 of its files have a password", told["told"])


class Kinds(unittest.TestCase):
    def test_packed_files(self):
        for name, content in (("a.cgd", SQL), ("quartz.cif", QUARTZ)):
            plain = nets_of_file(name, content, {})
            packed = nets_of_file(name + ".gz", gzip.compress(content), {})
            self.assertEqual(list(map(read_net, packed.nets)), list(map(read_net, plain.nets)))

    def test_packed_files_that_are_damaged_or_too_large(self):
        for content, word in ((gzip.compress(SQL)[:-9], "damaged"), (b"\x1f\x8bxxxx", "damaged"),
                              (gzip.compress(b" " * (MOST_BYTES + 1)), "more than 64 MB")):
            with self.assertRaisesRegex(NotANet, word):
                nets_of_file("a.cgd.gz", content, {})

    def test_files_without_a_net_are_named(self):
        for content, word in ((b"%PDF-1.5 x", "a PDF"), (b"PK\x03\x04x", "ZIP"), (b"\x89PNG\r\n", "picture"),
                              (b"<!DOCTYPE html><p>", "HTML"), (b'{"a": 1}', "JSON"), (b"net_archive 2\n", "an archive")):
            with self.assertRaisesRegex(NotANet, word):
                nets_of_file("x", content, {})

    def test_a_poscar(self):
        from testing import need_modules
        need_modules("ase")
        found = nets_of_file("POSCAR", POSCAR, {"convention": FITTING})
        self.assertEqual((found.total, len(found.nets[0].vertices)), (1, 2))

    def test_the_convention_that_fits(self):
        self.assertEqual(files.fitting({"convention": FITTING, "keep_ions": True}), {"keep_ions": True})
        self.assertEqual(files.fitting({"convention": "pe"}), {"convention": "pe"})
        told = [note for net in nets_of_file("f.cif", FRAMEWORK, {"convention": FITTING}).nets for note in net.notes]
        self.assertTrue(any("auto, as there is carbon with metals" in note for note in told), told)
        self.assertEqual(nets_of_file("q.cif", QUARTZ, {"convention": FITTING}).nets[0].provenance.convention, "all-atoms")
