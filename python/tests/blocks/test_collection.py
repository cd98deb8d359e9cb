"""Archives of collections: what is taken and what is refused, more nets than an archive holds, and look-up over all."""

import random
import shutil
from pathlib import Path

from mutants import Script, mutant
from odd_cells import edges_of_archive
from testing import (IS_LONG, PROGRAM, PYTHON, TOP, FolderTest, command, need_modules, need_program, run,
                     run_on_terminal)
from test_blocks import ITEMS, KNOWN, WITH_EDGES, parts_of

need_modules("gemmi", "numpy", "scipy")
MAKE = command("archive make")
NAME = command("names")
REFUSED = """OTHER block
END
CRYSTAL
  NAME none
END
PERIODIC_GRAPH
  EDGES 1 1 1 0
  1 1 0 1
END
CRYSTAL
  NAME pcu
  CELL 1 1 1 90 90 90
  NODE 1 6 0 0 0
END
CRYSTAL
  NAME pcu
  CELL 1 1 90
  NODE 1 4 0 0
END
PERIODIC_GRAPH
  NAME apart
  EDGES 1 1 2 0
  1 1 0 1
END
"""


# two bridges between the same atoms, which stand in one place
BRIDGED = """PERIODIC_GRAPH
NAME bridged
EDGES
1 2 0 0
2 1 1 0
1 3 0 0
3 1 1 0
1 1 0 1
END
"""


def crystals() -> str:
    """The known embeddings without edges, each once."""
    blocks = {}
    for symbol, group, cell, nodes, _ in map(parts_of, KNOWN):
        blocks[symbol] = f"CRYSTAL\nNAME {symbol}\nGROUP {group}\nCELL {cell}\nNODE {nodes}\nEND\n"
    return "".join(blocks.values()) + WITH_EDGES


def items_of(archive: Path) -> str:
    """The nets of an archive as key lines."""
    text = ""
    for name, edges in edges_of_archive(archive).items():
        rows = " ".join(f"{u + 1} {v + 1} {' '.join(map(str, shift))}" for u, v, shift in edges)
        text += f'key {len(edges[0][2])} {rows}\n  version 1.0\n  id "{name}"\n  checksum 0\nend\n'
    return text


def entries(archive: Path) -> list[str]:
    return [line[7:-1] for line in archive.read_text().splitlines() if line.startswith("entry ")]


class Collections(FolderTest):
    def setUp(self):
        super().setUp()
        need_program()

    def write(self, name: str, text: str) -> Path:
        (self.folder / name).write_text(text)
        return self.folder / name

    def test_the_command_for_rcsr(self):
        """The archive lies beside the others, and each tool that looks names up finds it there."""
        shutil.copytree(TOP / "python/crystal_nets", self.folder / "python/crystal_nets", ignore=shutil.ignore_patterns("__pycache__"))
        (self.folder / "archives").mkdir()
        words = (PYTHON, "-m", "crystal_nets", "archive", "rcsr")
        here = {"PYTHONPATH": str(self.folder / "python")}
        file = self.write("RCSRnets.cgd", crystals())
        told = run(*words, file, **here).stdout.decode()
        archive = self.folder / "archives/rcsr.archive"
        self.assertIn("rcsr.archive: ", told)
        self.assertEqual((self.folder / "archives/rcsr.refused").read_text(), "")
        names = entries(archive)
        self.assertEqual(len(names), len({line.split(" ")[0] for line in KNOWN}) + 1)
        report = run(PROGRAM, "identify", TOP / "examples/mystery.cgd", "--archive", archive).stdout
        self.assertEqual(report.count(b'\nname "dia"\n'), 1)
        named = run(NAME, TOP / "examples/mystery.cgd", "--archive", self.folder / "archives").stdout.decode().splitlines()
        self.assertIn("1\tsample A\tdia\tkey", named)
        run(*words, status=2, **here)
        self.assertIn(b"net_tool archive rcsr", run(*words, "--help", **here).stdout)
        run(*words, self.folder / "absent", status=3, **here)

    def test_what_is_refused_stands_beside_with_reasons(self):
        file = self.write("nets.cgd", REFUSED)
        run(MAKE, self.folder / "nets", file, status=1)
        self.assertEqual(entries(self.folder / "nets.archive"), ["pcu"])
        told = (self.folder / "nets.refused").read_text().splitlines()
        self.assertEqual([line.removeprefix(f"{file}: line ") for line in told], [
            "1 \"\": refused: a block 'OTHER block' is not read, up to line 2",
            '3 "none": refused: there are no nodes',
            '6 "": PERIODIC_GRAPH: it has no name',
            f'15 "pcu": CRYSTAL: it is another net than {file} line 10 (CRYSTAL), which has its name',
            '20 "apart": PERIODIC_GRAPH: refused 1 Disconnected q=2 c=1 0 h=0'])

    def test_nets_without_a_key_make_an_archive_of_their_own(self):
        file = self.write("nets.cgd", REFUSED + BRIDGED + BRIDGED.replace("NAME bridged", "NAME pcu"))
        told = run(MAKE, self.folder / "nets", file, status=1).stdout.decode()
        self.assertIn("nets.wide.cgd: 1 nets without a key\n", told)
        self.assertIn('"bridged": PERIODIC_GRAPH: refused 5 Collision', (self.folder / "nets.refused").read_text())
        self.assertEqual((self.folder / "nets.wide.index").read_text().split("\t")[-1], "bridged\n")
        named = run(NAME, self.write("x.cgd", BRIDGED.replace("bridged", "x").replace("1 3", "3 1")), "--archive", self.folder).stdout
        self.assertEqual(named, b"1\tx\tbridged\tverified map\n")
        run(MAKE, self.folder / "nets", self.write("a.cgd", crystals()))
        self.assertEqual(list(self.folder.glob("nets.wide*")), [])

    def test_key_lines_and_blocks_of_one_name_are_compared(self):
        blocks, items = self.write("a.cgd", crystals()), self.write("b.arc", ITEMS + ITEMS.replace("id dia", "id srs"))
        run(MAKE, self.folder / "nets", blocks, items, status=1)
        told = (self.folder / "nets.refused").read_text()
        self.assertEqual(told.count("\n"), 1)
        self.assertIn(f'{items}: line 6 "srs": key line: it is another net than {blocks} line ', told)

    def test_key_lines_give_the_archive_that_they_are_from(self):
        for name in ("common", "zeolites"):
            archive = TOP / f"archives/{name}.archive"
            run(MAKE, self.folder / name, self.write(f"{name}.arc", items_of(archive)))
            self.assertEqual(*([line for line in path.read_text().splitlines() if line.startswith(("entry ", "key "))]
                               for path in (self.folder / f"{name}.archive", archive)))

    def test_more_nets_than_an_archive_holds(self):
        squares = "".join(ITEMS.replace("id dia", f"id net{k}") for k in range(4096))
        file = self.write("many.arc", squares + crystals())
        self.write("many.3.archive", "of an earlier collection\n")
        told = run(MAKE, self.folder / "many", file).stdout.decode().splitlines()
        self.assertEqual(told[0], f"{self.folder}/many.archive: 4096 nets")
        self.assertEqual(sorted(path.name for path in self.folder.glob("*.archive")),
                         ["many.2.archive", "many.archive"])
        self.assertEqual(len(entries(self.folder / "many.archive")), 4096)
        self.assertIn("srs", entries(self.folder / "many.2.archive"))
        named = run(NAME, TOP / "examples/mystery.cgd", "--archive", self.folder).stdout.decode().splitlines()
        self.assertIn("4\tsample D\tsrs\tkey", named)
        self.assertEqual(sum(line.startswith("1\tsample A\tnet") for line in named), 4096)

    def test_failures_make_nothing(self):
        file = self.write("a.cgd", crystals())
        failing = self.write("failing", "#!/bin/sh\necho no\nexit 7\n")
        failing.chmod(0o755)
        done = run(MAKE, self.folder / "nets", file, NET_TOOL=str(failing), status=3)
        self.assertIn(b"key ended with 7: no", done.stderr)
        other = self.write("other", "#!/bin/sh\necho net 1 x\n")
        other.chmod(0o755)
        done = run(MAKE, self.folder / "nets", file, NET_TOOL=str(other), status=3)
        self.assertIn(b"gave no report", done.stderr)
        run(MAKE, self.folder / "nets", self.write("empty.cgd", "# nothing\n"), status=3)
        run(MAKE, status=2)
        self.assertEqual(list(self.folder.glob("nets*")), [])

    def test_mutants(self):
        """Of a damaged file archives are made that the program reads, or nothing, and each refusal has its reason."""
        chance = random.Random(6)
        make = Script(MAKE, self.folder)
        texts = [(TOP / f"examples/{name}.cgd").read_bytes() for name in ("mystery", "embedded", "twice")]
        for _ in range(2_000 if IS_LONG else 25):
            file = self.folder / "x.cgd"
            file.write_bytes(mutant(chance.choice([*texts, ITEMS.encode(), REFUSED.encode()]), chance))
            done = make.run(self.folder / "nets", file)
            self.assertNotIn(b"Traceback", done.stderr)
            self.assertIn(done.status, (0, 1, 3), done)
            self.assertEqual(done.status == 3, done.stdout == b"", done)
            self.assertTrue(done.status < 3 or done.stderr, done)
            refused = self.folder / "nets.refused"
            archive = self.folder / "nets.archive"  # there is none where no net has a key
            self.assertEqual(archive.exists() or (self.folder / "nets.wide.index").exists(), done.status < 3, done)
            self.assertEqual(refused.exists() and refused.stat().st_size > 0, done.status == 1)
            if archive.exists():
                run(PROGRAM, "duplicates", "--archive", self.folder / "nets.archive")
            for path in self.folder.glob("nets.*"):
                path.unlink()

    def test_a_terminal_sees_a_bar(self):
        need_modules("tqdm")
        file = self.write("a.cgd", crystals())
        status, told = run_on_terminal(MAKE, self.folder / "nets", file)
        self.assertEqual(status, 0)
        self.assertIn(b"reading [====", told)
        self.assertIn(b"keys [====", told)
