"""The notebook of the examples runs, and shows what it says."""

import json
import shutil
import sys

from testing import PROGRAM, TOP, FolderTest, need_modules, need_program, run


class Notebook(FolderTest):
    def test_it_runs(self):
        need_program()
        need_modules("nbconvert", "ipykernel", "pandas", "gemmi", "numpy", "scipy")
        (self.folder / "tools").mkdir()
        for name in ("archives", "examples", "python"):
            (self.folder / name).symlink_to(TOP / name)
        (self.folder / "work").mkdir()
        shutil.copy(TOP / "examples/crystal_nets.ipynb", self.folder / "work")
        shutil.copy(TOP / "examples/quartz.cif", self.folder / "work")
        told = run(sys.executable, "-m", "nbconvert", "--to", "notebook", "--execute", "--stdout",
                   "--ExecutePreprocessor.startup_timeout=600", self.folder / "work/crystal_nets.ipynb",
                   seconds=1800, NET_TOOL=PROGRAM, HOME=str(self.folder)).stdout
        cells = [cell for cell in json.loads(told)["cells"] if cell["cell_type"] == "code"]
        outputs = ["".join(json.dumps(output) for output in cell["outputs"]) for cell in cells]
        self.assertFalse([text for text in outputs if '"error"' in text])
        for k, word in ((1, "qtz, quartz"), (1, "<svg"), (3, "dia, diamond"), (4, "Degenerate"),
                        (5, "verified map"), (6, "AEI"), (7, "accepted"), (9, "<svg")):
            self.assertIn(word, outputs[k])

    def test_it_is_kept_without_outputs(self):
        told = json.loads((TOP / "examples/crystal_nets.ipynb").read_text())
        self.assertFalse([cell for cell in told["cells"] if cell.get("outputs") or cell.get("execution_count")])
