"""Pictures: angles and lengths that are known, symmetries, and the files that are written."""

import glob
import json
import os
import random
import re
import signal
import subprocess
import xml.etree.ElementTree as ElementTree
from pathlib import Path
from shutil import which

from mutants import Script, mutant
from odd_cells import block, edges_of_archive, in_odd_cell
from testing import (IS_LONG, PATIENCE, PROGRAM, TOP, FolderTest, command, long_test, need_commands, need_modules,
                     need_program, run, run_on_terminal)

need_modules("numpy")
import numpy as np  # noqa: E402
from crystal_nets.embedding.placed import placed_net  # noqa: E402
from crystal_nets.pictures.shape import Shape  # noqa: E402
from crystal_nets.pictures.svg import SIZE, picture  # noqa: E402
from crystal_nets.pictures.view import hidden_share, view_of  # noqa: E402
from crystal_nets.texts.net_text import nets_of_report  # noqa: E402

DRAW = command("draw")
COMMON = TOP / "archives/common.cgd"
ARCHIVE = TOP / "archives/common.archive"
ZEOLITES = TOP / "archives/zeolites.archive"
HOSTILE = ['</script><b>', "a]]>&amp;\\u003c", "\r\x0b", "@NETS@ @TITLE@", "'; alert(1); '", "\xff\ufffe",
           "../../x", ""]

# Run in the page: opens a card, turns and enlarges it, looks for a name, and puts what it saw in the title.
VISIT = """<script>
addEventListener("load", () => {
  const cards = [...document.querySelectorAll("main button")];
  const large = document.getElementById("canvas");
  cards[0].click();
  const told = document.getElementById("told").textContent.includes("coordination sequence ");
  const at = (kind, x, y) => large.dispatchEvent(new PointerEvent(kind, { pointerId: 1, clientX: x, clientY: y }));
  large.setPointerCapture = () => {};
  at("pointerdown", 0, 0); at("pointermove", 50, 20); at("pointerup", 50, 20);
  large.dispatchEvent(new WheelEvent("wheel", { deltaY: 100, cancelable: true }));
  const painted = large.getContext("2d").getImageData(0, 0, 1200, 900).data.some(part => part < 200);
  const find = document.getElementById("find");
  const shown = wanted => {
    find.value = wanted;
    find.oninput();
    return cards.filter(card => !card.hidden).length;
  };
  document.getElementById("close").click();
  const closed = !document.getElementById("large").open;
  document.title = failed || `cards ${cards.length} painted ${painted} told ${told} closed ${closed} ` +
    `shown ${shown("cairo")} ${shown("DIAMOND")} ${shown("nothing has this name")}`;
});
</script></html>"""


def reports_on(cgd, *words) -> list:
    text = run(PROGRAM, "identify", cgd, *words, status=None).stdout
    return [net for net in nets_of_report(text.splitlines(keepends=True)) if net.key]


class Geometry(FolderTest):
    @classmethod
    def setUpClass(cls):
        need_program()
        cls.all_reports = reports_on(COMMON)
        cls.reports = {net.name.decode().split(",")[0]: net for net in cls.all_reports}

    def angles(self, symbol):
        shape = Shape(placed_net(self.reports[symbol]))
        lengths = shape.edge_lengths()
        self.assertLess(np.ptp(lengths), 1e-9, symbol)
        found = set()
        for arcs in shape.arcs:
            units = np.array(arcs) @ shape.axes / lengths[0]
            cosines = np.clip((units @ units.T)[np.triu_indices(len(arcs), 1)], -1, 1)
            found |= {round(float(angle), 4) for angle in np.degrees(np.arccos(cosines))}
        return found

    def test_angles_that_are_known(self):
        wanted = {"sql": {90, 180}, "hcb": {120}, "kgm": {60, 120, 180}, "pcu": {90, 180}, "dia": {109.4712},
                  "srs": {120}, "sod": {90, 120}, "hxl": {60, 120, 180}, "bcu": {70.5288, 109.4712, 180}}
        self.assertEqual({symbol: self.angles(symbol) for symbol in wanted}, wanted)

    def test_each_vertex_is_at_the_mean_of_its_neighbours(self):
        self.assertLess(max(placed_net(net).worst_mean() for net in self.reports.values()), 1e-9)

    def test_systems_and_orders_that_are_known(self):
        wanted = {"sql": ("square", 8, 1), "hcb": ("hexagonal", 12, 1), "cem": ("rectangular", 4, 1),
                  "mcm": ("square", 8, 2), "pcu": ("cubic", 48, 1), "dia": ("cubic", 48, 1),
                  "srs": ("cubic", 24, 1), "flu": ("cubic", 48, 2), "lon": ("hexagonal", 24, 1),
                  "qtz": ("hexagonal", 12, 1), "rtl": ("tetragonal", 16, 2), "cds": ("tetragonal", 16, 1),
                  "ant": ("tetragonal", 16, 2), "brookite": ("orthorhombic", 8, 3)}
        shapes = {symbol: Shape(placed_net(self.reports[symbol])) for symbol in wanted}
        self.assertEqual({s: (shape.system, shape.order, shape.kinds) for s, shape in shapes.items()}, wanted)

    def test_tilings_and_space_fillings_have_as_many_kinds_as_their_names_tell(self):
        wanted = {r"tiling \[": 2, r"rows of squares and triangles, (STT|STTT|SST|SSST)$": 2, r".* honeycomb$": 1,
                  r"prisms of (fes|hca|fxt|htb|cem|tts|fsz)$": 1, r"prisms of (kgd|mcm)$": 2, r"\w+-e, edges of qtz": 1}
        for pattern, kinds in wanted.items():
            nets = [net for net in self.all_reports if re.match(pattern, net.name.decode())]
            self.assertGreater(len(nets), 0, pattern)
            for net in nets:
                self.assertEqual(Shape(placed_net(net)).kinds, kinds, net.name)

    def test_zeolites_have_as_many_kinds_as_they_are_known_for(self):
        wanted = {"SOD": 1, "LTA": 1, "FAU": 1, "CHA": 1, "RHO": 1, "GME": 1, "CAN": 1, "LTL": 2, "MOR": 4, "FER": 4,
                  "HEU": 5, "MTT": 7, "MEL": 7, "MFI": 12}
        nets = edges_of_archive(ZEOLITES)
        file = self.folder / "zeolites.cgd"
        file.write_text("".join(block(code, nets[code]) for code in wanted))
        found = {net.name.decode(): Shape(placed_net(net)).kinds for net in reports_on(file)}
        self.assertEqual(found, wanted)

    @long_test
    def test_all_zeolites_have_as_many_kinds_as_their_files_have_sites(self):
        """But for RON: in it a T atom with two neighbours is an edge."""
        folders = glob.glob("/usr/share/avogadro*/crystals/zeolites")
        if not folders:
            self.skipTest("libavogadro-data is not there")
        for net in reports_on(TOP / "archives/zeolites.cgd"):
            code = net.name.decode()
            file = Path(folders[0]) / (f"{code}t.cif" if code == "CON" else f"{code}.cif")
            sites = re.findall(r"(?m)^\s*T\d+\s+[A-Z][a-z]?\s", file.read_text(errors="replace"))
            self.assertEqual(Shape(placed_net(net)).kinds, len(sites) - (code == "RON"), code)

    def test_the_shape_does_not_depend_on_the_cell(self):
        chance = random.Random(3)
        nets = {name: edges for name, edges in edges_of_archive(ARCHIVE).items() if len(edges) < 20}
        file = self.folder / "odd.cgd"
        file.write_text("".join(block(name, in_odd_cell(edges, chance)) for name, edges in nets.items()))
        usual = {net.name: net for net in self.all_reports}
        for net in reports_on(file):
            shape, other = Shape(placed_net(net)), Shape(placed_net(usual[net.name]))
            self.assertEqual((shape.system, shape.order, shape.kinds, len(shape.sites)),
                             (other.system, other.order, other.kinds, len(other.sites)), net.name)
            self.assertLess(np.abs(np.sort(shape.lengths) - np.sort(other.lengths)).max(), 1e-6, net.name)


class Views(FolderTest):
    def test_little_is_hidden_in_nets_that_look_poor_along_an_axis(self):
        need_program()
        text = COMMON.read_text().split("PERIODIC_GRAPH")
        symbols = ("rtl", "hcp", "hex", "acs", "bcu-x", "pcu", "lon", "qtz")
        file = self.folder / "nets.cgd"
        file.write_text("".join("PERIODIC_GRAPH" + part for part in text if any(f'"{s},' in part for s in symbols)))
        nets = reports_on(file)
        self.assertEqual(len(nets), len(symbols))
        for net in nets:
            view = view_of(Shape(placed_net(net)))
            self.assertLess(hidden_share(view.shape, view.window, view.frame), 0.2, net.name)
            self.assertLess(abs(view.frame @ view.frame.T - np.eye(3)).max(), 1e-9)
            ends = [float(x) for path in re.findall(r'd="M([^"]+)"', picture(view, "")) for x in re.split("[ L]", path)]
            self.assertTrue(0 <= min(ends) and max(ends) <= SIZE, f"{net.name}: an edge is cut")


class Files(FolderTest):
    @classmethod
    def setUpClass(cls):
        need_program()
        cls.report = run(PROGRAM, "identify", TOP / "examples/mystery.cgd", "--archive", ARCHIVE).stdout

    def draw(self, *words, report=None, status=0):
        return run(DRAW, *words, stdin=self.report if report is None else report, status=status)

    def test_each_net_has_a_picture(self):
        self.draw("--svg", self.folder)
        files = sorted(self.folder.iterdir())
        self.assertEqual([file.name for file in files], [f"000{k + 1}_sample_{'ABCDEFGH'[k]}.svg" for k in range(8)])
        for file in files:
            picture = ElementTree.parse(file).getroot()
            self.assertGreater(len(picture.findall(".//{*}circle")), 4)
            self.assertGreater(len(picture.findall(".//{*}path")), 8)

    def test_the_same_report_gives_the_same_picture(self):
        for name in ("one", "other"):
            self.draw("--svg", self.folder / name, "--page", self.folder / f"{name}.html", "--only", 5)
        self.assertEqual(*[(self.folder / name / "0005_sample_E.svg").read_bytes() for name in ("one", "other")])
        self.assertEqual(*[(self.folder / f"{name}.html").read_bytes() for name in ("one", "other")])

    def test_processes_side_by_side_write_the_same(self):
        report = run(PROGRAM, "identify", TOP / "examples/mystery.cgd").stdout
        for jobs in (1, 3):
            self.draw("--svg", self.folder / str(jobs), "--page", self.folder / f"{jobs}.html", "--jobs", jobs, report=report)
        pages = [(self.folder / f"{jobs}.html").read_bytes() for jobs in (1, 3)]
        self.assertEqual(*pages)
        files = [{file.name: file.read_bytes() for file in (self.folder / str(jobs)).iterdir()} for jobs in (1, 3)]
        self.assertEqual(*files)
        self.draw("--page", self.folder / "x", "--jobs", 0, status=2)

    def test_damaged_reports_are_refused_and_nothing_is_drawn(self):
        """One number of the report on a net is changed, or the report is cut."""
        report = run(PROGRAM, "identify", TOP / "examples/dia.cgd").stdout
        script, chance = Script(DRAW, self.folder), random.Random(4)
        spots = [found for found in re.finditer(rb"-?\d+", report[report.index(b"placement"):report.index(b"key")])]
        start = report.index(b"placement")
        for k in range(400 if IS_LONG else 40):
            spot, change = chance.choice(spots), chance.choice((-2, -1, 1, 3, 10**6, 10**30))
            damaged = report[:start + spot.start()] + b"%d" % (int(spot[0]) + change) + report[start + spot.end():]
            if k % 3 == 2:
                damaged = report[:chance.randrange(1, len(report) - 1)]
            done = script.run("--svg", self.folder / str(k), stdin=damaged)
            self.assertNotIn(b"Traceback", done.stderr)
            self.assertEqual((done.status, (self.folder / str(k)).exists()), (0, True) if done.status == 0 else (1, False))

    def test_mutants_of_reports(self):
        """Of a damaged report each net with a key is drawn, or nothing; what has no picture is reported."""
        script, chance = Script(DRAW, self.folder), random.Random(5)
        reports = [run(PROGRAM, "identify", TOP / f"examples/{name}.cgd", status=None).stdout for name in ("dia", "sql", "embedded")]
        for k in range(2_000 if IS_LONG else 12):
            damaged = mutant(b"".join(chance.sample(reports, 2)) if k % 2 else chance.choice(reports), chance)
            page, crystals = self.folder / f"{k}.html", self.folder / f"{k}.cgd"
            done = script.run("--jobs", 1, "--page", page, "--cgd", crystals, stdin=damaged)
            self.assertNotIn(b"Traceback", done.stderr)
            self.assertIn(done.status, (0, 1), done)
            self.assertEqual(done.status == 1, done.stderr != b"", done)
            if page.exists():
                count = len(json.loads(re.search(r"(?m)^const nets = (.*);$", page.read_text())[1]))
                missing = len(set(re.findall(rb"(?m)^net (\d+) .*: no picture", done.stderr)))
                self.assertEqual(count + missing, len(list(nets_of_report(damaged.splitlines(keepends=True)))))
                page.unlink()
            crystals.unlink(missing_ok=True)

    def test_mutants_of_archives(self):
        chance, text = random.Random(6), ARCHIVE.read_bytes()
        text = text[:text.index(b"end\n", 6_000) + 4]
        for k in range(200 if IS_LONG else 3):
            archive = self.folder / f"{k}.archive"
            archive.write_bytes(mutant(text, chance))
            done = run(command("gallery"), "--jobs", 1, self.folder / "pages", archive, status=None)
            self.assertNotIn(b"Traceback", done.stderr)
            self.assertEqual((done.returncode != 0, (self.folder / f"pages/{k}.html").exists()), (done.stderr != b"", done.stdout != b""))

    def test_help_makes_nothing(self):
        for word in ("--help", "-h"):
            for script in (DRAW, command("gallery")):
                self.assertIn(b"net", subprocess.run([script, word], cwd=self.folder, capture_output=True, check=True).stdout)
        run(command("gallery"), status=2)
        run(command("gallery"), "--other", status=2)
        self.assertEqual(list(self.folder.iterdir()), [])

    def test_pictures_of_the_documents_are_those_that_are_drawn(self):
        report = run(PROGRAM, "identify", COMMON).stdout
        files = [file for file in (TOP / "docs/pictures").glob("*.svg") if file.stem != "crates"]
        self.assertEqual(len(files), 5)
        for file in files:
            number = next(net.number for net in nets_of_report(report.splitlines(keepends=True))
                          if net.name.startswith(file.stem.encode() + b","))
            self.draw("--svg", self.folder, "--only", number, report=report)
            drawn, = self.folder.glob(f"*_{file.stem}_*.svg")
            self.assertEqual(parts_of(drawn), parts_of(file), file.name)

    def test_names_of_any_bytes(self):
        names = [name.encode() for name in HOSTILE] + [b"\xff\x80"]
        blocks = b"".join(b'PERIODIC_GRAPH\nNAME "%s"\nEDGES\n"a b" "a b" 1 0\n"a b" "a b" 0 1\nEND\n' % name
                          for name in names)
        report = run(PROGRAM, "identify", "-", stdin=blocks).stdout
        page = self.folder / "page.html"
        self.draw("--svg", self.folder / "svg", "--page", page, "--title", "</title>", report=report)
        for file in (self.folder / "svg").iterdir():
            ElementTree.parse(file)
        self.assertEqual(len(list((self.folder / "svg").iterdir())), len(names))
        text = page.read_text()
        self.assertEqual(text.count("</script>"), 1)
        self.assertEqual(text.count("</title>"), 1)
        nets = json.loads(re.search(r"(?m)^const nets = (.*);$", text)[1])
        self.assertEqual(len(nets), len(names))

    def test_nets_without_a_key_are_told(self):
        refused = run(PROGRAM, "identify", TOP / "examples/interpenetrating.cgd", status=1).stdout
        done = self.draw("--page", self.folder / "page.html", report=refused, status=1)
        self.assertEqual(done.stderr.count(b": no picture: refused"), 4)

    def test_a_terminal_sees_a_bar(self):
        need_modules("tqdm")
        for jobs in (1, 2):
            page = self.folder / f"{jobs}.html"
            status, told = run_on_terminal(DRAW, "--jobs", jobs, "--page", page, stdin=self.report)
            self.assertEqual((status, page.exists()), (0, True))
            self.assertRegex(told, rb"\rnet_tool draw \[=+ *\] \d/8 nets, (\?|\d+:\d+) left.*\r *\r$")

    def test_words_without_a_form(self):
        self.draw(status=2)
        for words, other in (("--title", "--page"), ("--width", "--png")):
            self.assertIn(f"{words} has no effect without {other}".encode(), self.draw("--svg", self.folder, words, 7, status=2).stderr)

    def test_a_net_that_the_report_has_not_is_told(self):
        report = run(PROGRAM, "identify", TOP / "examples/dia.cgd").stdout
        self.assertIn(b"the report has no net 2", self.draw("--svg", self.folder, "--only", 2, report=report, status=1).stderr)

    def test_reports_that_cannot_be_drawn(self):
        self.draw("--page", self.folder / "page.html", report=b"no report\n", status=1)
        keys = run(PROGRAM, "key", COMMON).stdout
        self.assertIn(b"not of `net_tool identify`", self.draw("--svg", self.folder, report=keys, status=1).stderr)

    def test_png(self):
        need_commands("rsvg-convert")
        self.draw("--png", self.folder, "--only", 1, "--width", 120)
        head = (self.folder / "0001_sample_A.png").read_bytes()[:24]
        self.assertEqual((head[:8], int.from_bytes(head[16:20], "big")), (b"\x89PNG\r\n\x1a\n", 120))

    def test_gallery_in_a_browser(self):
        need_commands("chromium")
        run(command("gallery"), "--jobs", 2, self.folder, ARCHIVE)
        page = self.folder / "common.html"
        count = ARCHIVE.read_text().count("\nentry ")
        diamonds = sum("diamond" in line.lower() for line in ARCHIVE.read_text().splitlines() if line.startswith("entry"))
        self.assertEqual(self.visit(page), f"cards {count} painted true told true closed true shown 1 {diamonds} 0")

    def test_names_in_the_archive_are_found_on_the_page(self):
        need_commands("chromium")
        page = self.folder / "page.html"
        self.draw("--page", page)
        self.assertEqual(self.visit(page), "cards 8 painted true told true closed true shown 0 1 0")

    def visit(self, page):
        heard = 'let failed = "";\nwindow.onerror = told => { failed = told; };'
        module = '<script type="module">'
        text = page.read_text().replace(module, f"<script>{heard}</script>\n{module}", 1)
        page.write_text(text.replace("</html>", VISIT))
        return self.title_in_browser(page)

    def title_in_browser(self, page):
        """The title of the page once it was visited; skips where the browser does not start here."""
        words = [which("chromium"), "--headless", "--no-sandbox", "--disable-gpu", "--disable-dev-shm-usage",
                 f"--user-data-dir={self.folder}/browser", "--virtual-time-budget=5000", "--dump-dom", page.as_uri()]
        browser = subprocess.Popen(words, stdout=subprocess.PIPE, stderr=subprocess.DEVNULL, start_new_session=True,
                                   env={**os.environ, "HOME": str(self.folder)})
        try:
            told = browser.communicate(timeout=PATIENCE)[0].decode(errors="replace")
        except subprocess.TimeoutExpired:
            told = ""
        finally:
            try:
                os.killpg(browser.pid, signal.SIGKILL)
            except ProcessLookupError:
                pass
            browser.wait()
        title = re.search(r"<title>(.*?)</title>", told)
        if title is None or title[1].startswith("Nets"):
            self.skipTest("chromium does not run here, or is too slow")
        return title[1]


def parts_of(file) -> list[int]:
    """How many vertices, lines and letters a picture has."""
    picture = ElementTree.parse(file).getroot()
    return [len(picture.findall(f".//{{*}}{part}")) for part in ("circle", "path", "text")]
