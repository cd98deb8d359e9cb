"""The program on a small stack: 128 kB are enough for each command, on texts at its limits."""

import subprocess

from testing import PROGRAM, TOP, FolderTest, need_program

KILOBYTES = 128
VERTICES = 512
LIMITED = "ulimit -s \"$1\" && shift && exec \"$@\""


def block(name: str, rows: list[str]) -> str:
    return f"PERIODIC_GRAPH\nNAME {name}\nEDGES\n" + "".join(f"{row}\n" for row in rows) + "END\n"


def path(first: int, count: int) -> list[str]:
    """The rows of a net of the space: a path of so many vertices, and loops at its first one."""
    last = first + count - 1
    return [*(f"{vertex} {vertex + 1} 0 0 0" for vertex in range(first, last)),
            f"{first} {first} 1 0 0", f"{first} {first} 0 1 0", f"{last} {first} 0 0 1"]


def dense() -> list[str]:
    """The rows of a net of 512 vertices, each joined to the eight after it, so to sixteen."""
    edges = ((vertex, vertex + step) for vertex in range(VERTICES) for step in (1, 2, 3, 5, 8, 13, 21, 34))
    around = [f"{a + 1} {b % VERTICES + 1} {b // VERTICES} 0 0" for a, b in edges]
    return [*around[:-2], "1 1 0 1 0", "1 1 0 0 1"]


need_program()


class SmallStack(FolderTest):
    """Each command on the largest nets, with 128 kB of stack."""

    def write(self, name: str, text: str) -> str:
        (self.folder / name).write_text(text)
        return str(self.folder / name)

    def answer(self, *words: str, statuses: tuple[int, ...] = (0,)) -> str:
        """Returns what the program writes with so much stack; it ends with one of these statuses."""
        done = subprocess.run(["sh", "-c", LIMITED, "sh", str(KILOBYTES), PROGRAM, *words], capture_output=True, text=True, check=False)
        self.assertIn(done.returncode, statuses, (words, done.stderr))
        return done.stdout

    def test_reports_on_the_longest_path_and_a_dense_net(self):
        texts = self.write("nets.cgd", block("path", path(1, VERTICES)) + block("dense", dense()))
        archive = str(TOP / "archives/common.archive")
        for words in (["check"], ["place"], ["key"], ["identify", "--archive", archive]):
            self.answer(words[0], texts, *words[1:], statuses=(0, 1))
        self.assertIn("\nkey 3 ", self.answer("key", texts, statuses=(0, 1)))

    def test_components_of_two_paths(self):
        half = VERTICES // 2
        texts = self.write("two.cgd", block("two", path(1, half) + path(1 + half, half)))
        self.assertIn("components 2", self.answer("components", texts))

    def test_a_cover_of_512_vertices(self):
        self.answer("cover", self.write("half.cgd", block("half", path(1, VERTICES // 2))), "--cell", "2,0,0,0,1,0,0,0,1")

    def test_maps_of_the_longest_path(self):
        turned = [f"{VERTICES + 1 - int(u)} {VERTICES + 1 - int(v)} {x} {y} {z}" for u, v, x, y, z in map(str.split, path(1, VERTICES))]
        texts = self.write("same.cgd", block("one", path(1, VERTICES)) + block("other", turned))
        self.answer("verify", self.write("found.maps", self.answer("same", texts)))

    def test_archives_of_the_longest_path(self):
        texts = self.write("path.cgd", block("path", path(1, VERTICES)))
        archive = self.write("long.archive", self.answer("add", texts, "--archive", str(TOP / "archives/zeolites.archive"), "--name", "path"))
        self.answer("identify", texts, "--archive", archive)
        self.answer("duplicates", "--archive", archive)
        self.answer("migrate", "--archive", archive)
        self.answer("union", texts, "--archive", archive)

    def test_a_workload(self):
        self.answer("workload", "64")

    def test_the_limit_is_set(self):
        shown = subprocess.run(["sh", "-c", LIMITED, "sh", str(KILOBYTES), "sh", "-c", "ulimit -s"], capture_output=True, text=True, check=True)
        self.assertEqual(shown.stdout, f"{KILOBYTES}\n")
