"""Words that users of ase, pymatgen and networkx try first."""

from __future__ import annotations

import io
import json
import os
from contextlib import chdir

import crystal_nets
from testing import TOP, FolderTest, need_modules, need_program

need_program()
from crystal_nets import (Answer, Archive, Net, NotANet, components, identify, identify_all, identify_each, read,  # noqa: E402
                          same)

DIA = Net([(1, 2, (0, 0, 0)), (1, 2, (1, 0, 0)), (1, 2, (0, 1, 0)), (1, 2, (0, 0, 1))], name="dia")
SQUARE = Net([("a", "a", (1, 0)), ("a", "a", (0, 1))], name="square")


class Words(FolderTest):
    def test_a_net_is_written_and_read(self):
        DIA.write(self.folder / "dia.cgd")
        self.assertEqual((self.folder / "dia.cgd").read_bytes(), DIA.block)
        self.assertEqual(Net.from_file(self.folder / "dia.cgd"), DIA)
        self.assertEqual(Net.from_file(str(self.folder / "dia.cgd"), "other").name, "other")
        with self.assertRaises(NotANet):
            Net.refused("why").write(self.folder / "none.cgd")
        with self.assertRaises(OSError):
            Net.from_file("absent")

    def test_degrees(self):
        self.assertEqual((DIA.degrees, SQUARE.degrees), ({1: 4, 2: 4}, {"a": 4}))

    def test_names(self):
        answers = identify_all([DIA, SQUARE], None)
        self.assertEqual((len(answers), answers["square"].name, answers[0].name), (2, "square", "dia"))
        with self.assertRaises(KeyError):
            answers["nothing"]
        archive = Archive.load(TOP / "archives/common.archive")
        self.assertEqual(archive.get("dia"), archive["dia"])
        self.assertIsNone(archive.get("nothing"))
        self.assertIs(archive.get("nothing", DIA), DIA)

    def test_a_name_of_the_archives_is_a_net_for_same(self):
        """If no file has this name; a text that is neither is refused as both."""
        for name in ("dia", "dia, diamond"):
            self.assertTrue(same(DIA, name))
            self.assertTrue(same(name, DIA).map.is_verified())
        self.assertFalse(same("sql", DIA))
        self.assertTrue(same("MEP", "MEP", timeout=100))
        with chdir(self.folder):
            SQUARE.write("dia")
            self.assertFalse(same(DIA, "dia"))
            os.unlink("dia")
            for call in (lambda: same(DIA, "nothing"), lambda: same(DIA, os.path.abspath("dia"))):
                with self.assertRaisesRegex(FileNotFoundError, "no such file, and the archives have no net of this name"):
                    call()
            with self.assertRaises(FileNotFoundError):
                identify("dia")

    def test_nets_and_answers_as_monty_has_them(self):
        need_modules("monty")
        from monty.json import MontyDecoder, jsanitize
        answer = identify(DIA, Archive.of([DIA]))
        for value in (DIA, answer):
            fields = json.loads(json.dumps(value.as_dict()))
            self.assertEqual((fields["@module"], fields["@class"]), ("crystal_nets", type(value).__name__))
            self.assertEqual(type(value).from_dict(fields), value)
            self.assertEqual(type(value).from_dict(value.to_dict()), value)
            self.assertEqual({word: field for word, field in fields.items() if not word.startswith("@")},
                             json.loads(json.dumps(value.to_dict())))
        text = json.dumps(jsanitize({"one": [DIA, answer]}, strict=True))
        self.assertEqual(json.loads(text, cls=MontyDecoder), {"one": [DIA, answer]})
        for kind, other in ((Net, answer), (Answer, DIA)):
            with self.assertRaises(NotANet):
                kind.from_dict(other.as_dict())

    def test_a_component_is_one_thing(self):
        """Those of a net and the pieces of its structure have names of their own."""
        need_modules("gemmi", "numpy", "spglib")
        net, = read(TOP / "examples/quartz.cif")
        piece, = net.components
        part, = components(net, None).parts
        self.assertIs(type(part), crystal_nets.Component)
        self.assertEqual((type(piece).__name__, str(piece)), ("StructurePiece", "1 net in space O6Si3"))

    def test_open_files(self):
        path = self.folder / "nets.cgd"
        path.write_bytes(DIA.block + SQUARE.block)
        for opened in (open(path), open(path, "rb"), io.StringIO(path.read_text()), io.BytesIO(path.read_bytes())):
            with opened as source:
                self.assertEqual([one.name for one in identify_all(source, None)], ["dia", "square"])
        with open(path) as source:
            self.assertEqual([one.name for one in identify_each(source, None)], ["dia", "square"])
        with self.assertRaises(NotANet):
            identify(type("Odd", (), {"read": lambda self: 7})(), None)
        need_modules("gemmi", "numpy", "scipy")
        with open(TOP / "examples/quartz.cif") as source:
            self.assertEqual(identify(source, None).key, identify(TOP / "examples/quartz.cif", None).key)
