"""The page in a browser, as a user has it: by mouse, by the keyboard alone, at the width of a phone, in the dark."""

import csv
import io
import re
import unittest
import zipfile
from pathlib import Path

from browser import DROP, EXAMPLES, InBrowser
from desk import Server, memory_for_program
from selenium.webdriver import ActionChains, Keys
from selenium.webdriver.common.by import By

from crystal_nets import read  # noqa: E402

# The contrast of a text to what is behind it, as WCAG 2 has it.
CONTRAST = """const parts = colour => colour.match(/[\\d.]+/g).map(Number);
const linear = x => x <= 0.04045 ? x / 12.92 : ((x + 0.055) / 1.055) ** 2.4;
const light = colour => parts(colour).slice(0, 3).map(x => linear(x / 255))
  .reduce((sum, x, k) => sum + x * [0.2126, 0.7152, 0.0722][k], 0);
const element = document.querySelector(arguments[0]);
let behind = element;
while (behind !== document.body && parts(getComputedStyle(behind).backgroundColor)[3] === 0) behind = behind.parentElement;
const two = [getComputedStyle(element).color, getComputedStyle(behind).backgroundColor].map(light).sort((a, b) => a - b);
return (two[1] + 0.05) / (two[0] + 0.05);"""
# silicon, with longer bonds than it has
FAR = """data_far
_cell_length_a 6.9
_cell_length_b 6.9
_cell_length_c 6.9
_cell_angle_alpha 90
_cell_angle_beta 90
_cell_angle_gamma 90
_symmetry_space_group_name_H-M 'F d -3 m:1'
loop_
_atom_site_label
_atom_site_fract_x
_atom_site_fract_y
_atom_site_fract_z
Si 0 0 0
"""
TEXTS = ("body", "dt", ".dim", ".reason p", "summary", "button", ".names small", ".different, .unknown", ".opener", ".told .of-told")



def blocks_in(text: str) -> int:
    return len(read(text.encode()))


class Browser(InBrowser):
    def test_three_files_and_their_names(self):
        self.drop("quartz.cif", "dia.cgd", "interpenetrating.cgd")
        names = [item.text for item in self.all(".card .names li")]
        self.assertIn("qtz, quartz common", names)
        self.assertIn("dia, diamond common", names)
        self.assertEqual((len(self.all(".card")), len(self.rows())), (6, 6))
        told = self.driver.find_element(By.ID, "results").text
        for words in ("2 copies of dia, diamond", "The structure falls into pieces", "symmetry from name P 32 2 1",
                      "4 12 30 52 80 116 156 204 258 318", "2 interpenetrating copies", "hexagonal; a 1.633"):
            self.assertIn(words, told)
        self.assertNotIn("undefined", told)

    def test_what_databases_list_is_asked_for_when_it_is_opened(self):
        self.drop("dia.cgd", "interpenetrating.cgd")
        asked = "return performance.getEntriesByType('resource').filter(entry => entry.name.endsWith('topology')).length"
        self.assertEqual(self.driver.execute_script(asked), 0)
        dia, woven, *_ = self.all(".card details.listed")
        for box, wanted, count in ((dia, ("6^6", ".".join(["6(2)"] * 6), "981.00", "transitivity"), 1), (woven, ("not connected",), 2)):
            self.driver.execute_script("arguments[0].open = true", box)
            self.until(lambda: all(words in box.text for words in wanted), str(wanted))
            self.assertIn("All else is computed beside the program", box.text)
            self.assertEqual(self.driver.execute_script(asked), count)
        for is_open in (False, True):
            self.driver.execute_async_script(
                "const [box, is_open, done] = arguments; box.addEventListener('toggle', () => done(), { once: true }); box.open = is_open",
                dia, is_open)
        self.assertEqual(self.driver.execute_script(asked), 2)
        self.assertNotIn("undefined", dia.text)

    def test_a_net_is_turned(self):
        self.drop("dia.cgd")
        canvas, = self.all("canvas")
        self.driver.execute_script("arguments[0].scrollIntoView({ block: 'center' })", canvas)
        self.until(lambda: len(set(self.pixels(canvas).split(","))) > 10, "it is not painted")
        seen = [self.pixels(canvas)]
        ActionChains(self.driver).move_to_element(canvas).click_and_hold().move_by_offset(60, 25).release().perform()
        seen.append(self.pixels(canvas))
        for key in (Keys.ARROW_LEFT, Keys.ARROW_UP, "+"):
            canvas.send_keys(key)
            seen.append(self.pixels(canvas))
        self.assertEqual(len(set(seen)), len(seen))
        canvas.send_keys(Keys.HOME)
        self.assertEqual(self.pixels(canvas), seen[0])

    def test_two_side_by_side(self):
        self.drop("mystery.cgd", "quartz.cif")
        tick = lambda name: self.click(f"[aria-label='put {name} side by side']")  # noqa: E731
        verdict = lambda: self.driver.find_element(By.ID, "verdict").text  # noqa: E731
        tick("quartz")
        tick("sample F")
        self.until(lambda: verdict().startswith("same"))
        self.assertIn("verified edge by edge", verdict())
        self.assertRegex(verdict(), r"\d+ rows of the map")
        tick("sample A")  # quartz goes
        self.until(lambda: verdict().startswith("different"))
        self.assertIn("numbers of vertices: 3 and 2", verdict())
        self.until(lambda: len(self.all("#rows .chosen")) == 2)
        tick("sample A")
        self.assertFalse(self.driver.find_element(By.ID, "pair").is_displayed())

    def test_a_ball_is_not_cut_by_its_own_edge(self):
        """Of an edge that comes towards the reader, the paper round it stays outside the ball."""
        self.assertEqual(self.driver.execute_script("""
            const canvas = document.createElement('canvas');
            canvas.width = canvas.height = 600;
            const net = { vertices: [[0, 0, 0], [0.5, 0, 0.8]], edges: [[0, 1]], leaving: [], outline: [], kinds: [0, 0],
                          ball: 0.25, frame: [[1, 0, 0], [0, 1, 0], [0, 0, 1]] };
            const { Picture, LIGHT } = modules.viewer, picture = new Picture(canvas, net, modules.canvases.palette, LIGHT);
            picture.paint();
            const data = canvas.getContext('2d').getImageData(0, 0, 600, 600).data, centre = picture.points[0];
            let cut = 0;
            for (let x = 0; x < 600; x += 1) for (let y = 0; y < 600; y += 1) {
              if (Math.hypot(x - centre.x, y - centre.y) > 0.9 * picture.ball) continue;
              const at = 4 * (600 * y + x);
              if (data[at] === 255 && data[at + 1] === 255 && data[at + 2] === 255) cut += 1;
            }
            return cut;"""), 0)

    def test_what_is_read_can_be_stopped_and_goes_on(self):
        text = (EXAMPLES.parent / "archives/common.cgd").read_text()
        nets = blocks_in(text)
        self.driver.execute_script("""const inner = window.fetch, opened = new Promise(done => { window.open = done; });
            window.fetch = async (...given) => { if (given[0] === 'rows') await opened; return inner(...given); };""")
        self.driver.execute_script(DROP, [["common.cgd", text * 8]])
        stop = self.driver.find_element(By.ID, "stop")
        self.until(lambda: f"24 of {8 * nets:,} nets" in self.driver.find_element(By.ID, "progress").text)
        stop.click()
        self.until(lambda: not stop.is_displayed())
        self.driver.execute_script("window.open()")
        self.assertIn("was stopped", self.driver.find_element(By.ID, "stopped").text)
        stopped = "return modules.sources.sources[0].entries.filter(entry => entry.state === 'stopped').length"
        self.assertGreater(self.driver.execute_script(stopped), 0)
        self.driver.find_element(By.ID, "go-on").click()
        self.ready(1)
        self.assertEqual(self.driver.execute_script(stopped), 0)
        self.assertIn(f"{8 * nets:,} nets", self.driver.find_element(By.ID, "counts").text)

    def test_a_hundred_files_in_their_order(self):
        names = [f"{k:03}{name}" for k in range(25) for name in ("sql.cgd", "quartz.cif", "dia.cgd", "srs.cgd")]
        files = [[name, (EXAMPLES / name[3:]).read_text()] for name in names]
        self.driver.execute_script(DROP, files)
        self.ready(100)
        self.assertEqual(self.files(), names)
        self.assertLess(self.driver.execute_script("return document.documentElement.scrollHeight / innerHeight"), 5)
        self.assertEqual(self.all("article"), [])

    def test_the_table_sorts_and_filters(self):
        self.drop("mystery.cgd", "interpenetrating.cgd", "quartz.cif")
        given = self.nets()
        self.assertEqual((len(given), given[-1]), (len(self.rows()), "quartz"))
        button = self.all("#heads [data-column=name] button")[0]
        orders = [given]
        for wanted in ("ascending", "descending", "none"):
            button.click()
            self.assertEqual(self.all("#heads [data-column=name]")[0].get_attribute("aria-sort"), wanted)
            orders.append(self.nets())
        self.assertEqual(orders[1], sorted(given, key=str.lower))
        self.assertEqual((orders[2], orders[3]), (orders[1][::-1], given))
        self.assertEqual(self.driver.switch_to.active_element, button)
        box = self.driver.find_element(By.ID, "filter")
        box.send_keys("quartz 4")
        self.until(lambda: len(self.rows()) == 2)
        self.assertEqual(self.driver.switch_to.active_element, box)
        box.clear()
        self.driver.find_element(By.CSS_SELECTOR, "#kind option[value=keyless]").click()
        self.until(lambda: set(self.files()) == {"interpenetrating.cgd"})

    def test_many_nets_are_read_and_their_file_is_sent_once(self):
        blocks = (EXAMPLES.parent / "archives/common.cgd").read_text()
        times = 10_000 // blocks_in(blocks) + 1
        nets = times * blocks_in(blocks)
        self.driver.execute_script("""const sent = window.sent = [], inner = window.fetch;
            window.fetch = (path, request) => { sent.push([path, !!request?.body?.get?.('file')]); return inner(path, request); };""")
        self.driver.execute_script(DROP, [["many.cgd", blocks * times]])
        self.ready(1)
        self.assertEqual(self.driver.find_element(By.ID, "counts").text, f"{nets:,} nets")
        self.assertEqual([path for path, has_file in self.driver.execute_script("return sent") if has_file], ["nets"])
        self.assertEqual(len(self.rows()), 100)
        self.assertRegex(self.driver.find_element(By.ID, "page").text, f"rows 1 to 100 of {nets:,}")
        self.driver.find_element(By.ID, "after").click()
        self.assertRegex(self.driver.find_element(By.ID, "page").text, f"rows 101 to 200 of {nets:,}")

    def test_small_pictures_on_demand(self):
        self.drop("mystery.cgd", "sql.cgd")
        self.driver.find_element(By.ID, "with-pictures").click()
        for place in self.all("#rows .small"):
            self.driver.execute_script("arguments[0].scrollIntoView({ block: 'center' })", place)
            self.until(lambda: place.find_elements(By.TAG_NAME, "canvas"))  # noqa: B023
            canvas = place.find_element(By.TAG_NAME, "canvas")
            self.assertRegex(canvas.get_attribute("aria-label"), "picture of .+: .+-connected")
            self.until(lambda: len(set(self.pixels(canvas).split(","))) > 10, "it is not painted")  # noqa: B023

    def test_focus_and_place_are_kept(self):
        self.drop("quartz.cif", "dia.cgd", "sql.cgd")
        again = self.all("article .tools select")[0]
        self.driver.execute_script("arguments[0].focus()", again)
        for value in ("standard", "all-atoms"):
            self.driver.execute_script("arguments[0].value = arguments[1]; arguments[0].onchange()", again, value)
            self.ready(3)
            self.assertEqual(self.driver.switch_to.active_element, again)
        box = self.all("#rows input[type=checkbox]")
        self.driver.execute_script("arguments[0].scrollIntoView({ block: 'center' })", box[2])
        top = lambda: self.driver.execute_script("return arguments[0].getBoundingClientRect().top", box[2])  # noqa: E731
        before = top()
        box[2].send_keys(Keys.SPACE)
        self.driver.execute_script("arguments[0].click()", box[1])
        self.until(lambda: self.driver.find_element(By.ID, "verdict").text.startswith("different"))
        self.until(lambda: len(self.all("#pair-nets canvas")) == 2)
        self.assertLess(abs(top() - before), 3)
        self.assertEqual(self.driver.switch_to.active_element, box[2])

    def test_the_structure_beside_its_net(self):
        self.drop("quartz.cif")
        box, = self.all(".structure")
        self.driver.execute_script("arguments[0].scrollIntoView({ block: 'center' })", box)
        self.until(lambda: box.find_elements(By.TAG_NAME, "canvas"))
        canvas = box.find_element(By.TAG_NAME, "canvas")
        self.until(lambda: len(set(self.pixels(canvas).split(","))) > 10, "it is not painted")
        self.assertIn("picture of quartz with its atoms", canvas.get_attribute("aria-label"))
        before, chooser = self.pixels(canvas), box.find_element(By.TAG_NAME, "select")
        self.assertIn("Si1: Si, 4-connected", chooser.text)
        chooser.find_elements(By.TAG_NAME, "option")[1].click()
        lit = self.pixels(canvas)
        self.assertNotEqual(lit, before)
        chooser.find_elements(By.TAG_NAME, "option")[0].click()
        self.assertEqual(self.pixels(canvas), before)
        x, y = self.driver.execute_script("""const seen = modules.canvases.pictures.get(arguments[0]), frame = arguments[0].getBoundingClientRect();
            const front = seen.points.reduce((one, other) => one.z > other.z ? one : other), share = frame.width / arguments[0].width;
            return [front.x * share - frame.width / 2, front.y * share - frame.height / 2];""", canvas)
        ActionChains(self.driver).move_to_element_with_offset(canvas, round(x), round(y)).click().perform()
        self.until(lambda: chooser.get_attribute("value") != "-1")
        self.assertNotEqual(self.pixels(canvas), before)

    def test_nothing_is_clipped_however_it_is_turned(self):
        """A border of paper stays around all of each picture."""
        self.drop("quartz.cif", "interpenetrating.cgd")
        self.assertEqual(self.driver.execute_script("""let cut = 0;
            for (const picture of modules.canvases.pictures.values()) for (let k = 0; k < 24; k += 1) {
              picture.turn(0.7, 0.4);
              picture.paint();
              const { width, height } = picture.canvas, { data } = picture.canvas.getContext('2d').getImageData(0, 0, width, height);
              const isPaper = (x, y) => data[4 * (width * y + x)] === data[0] && data[4 * (width * y + x) + 1] === data[1];
              for (let m = 0; m < width; m += 1) cut += !isPaper(m, 0) + !isPaper(m, height - 1) + !isPaper(0, m) + !isPaper(width - 1, m);
            }
            return cut;"""), 0)

    def test_a_zip_archive(self):
        content = io.BytesIO()
        with zipfile.ZipFile(content, "w", zipfile.ZIP_DEFLATED) as archive:
            for name in ("quartz.cif", "dia.cgd"):
                archive.write(EXAMPLES / name, f"folder/{name}")
        files = [["both.zip", list(content.getvalue())], ["broken.zip", [0x50, 0x4b, 3, 4, 0]]]
        self.driver.execute_script(DROP.replace("[text]", "[Uint8Array.from(text)]"), files)
        self.ready(3)
        self.assertEqual(self.files(), ["quartz.cif", "dia.cgd", "broken.zip"])
        self.assertIn("the ZIP archive is damaged", self.rows()[2][-1])

    def test_all_is_saved(self):
        self.drop("quartz.cif", "dia.cgd", "interpenetrating.cgd")
        for button in ("save-table", "save-blocks", "save-all"):
            self.driver.find_element(By.ID, button).click()
        self.until(lambda: {"nets.csv", "nets.cgd", "nets.zip"} <= {path.name for path in Path(self.home).iterdir()})
        with open(Path(self.home) / "nets.csv", newline="", encoding="utf-8") as file:
            rows = list(csv.DictReader(file))
        self.assertEqual([row["net"] for row in rows][:2], ["quartz", "dia"])
        self.assertEqual((rows[0]["names"], rows[0]["vertices"], rows[0]["convention"]), ("qtz, quartz", "3", "all-atoms"))
        self.assertIn("falls into pieces", rows[2]["reason"])
        self.assertEqual((Path(self.home) / "nets.cgd").read_text().count("PERIODIC_GRAPH"), 6)
        with zipfile.ZipFile(Path(self.home) / "nets.zip") as archive:
            self.assertIsNone(archive.testzip())
            self.assertLessEqual({"nets.csv", "quartz.cgd", "quartz.report", "quartz.svg", "dia.svg"}, set(archive.namelist()))

    def test_no_two_nets_are_saved_under_one_name(self):
        """Also where names differ in what no file's name has, in capital letters, or in a number at their end."""
        names = ["a-2", "a", "a", "A", "a", "a b", "a_b", "a?b", "a-2-2", "a-2", "", "net", "../a", "x" * 80, "x" * 90, *["y"] * 20_000]
        stems = self.driver.execute_script("const taken = new Map(); return arguments[0].map(name => modules.saving.stemOf(name, taken))", names)
        self.assertEqual(len({stem.lower() for stem in stems}), len(names))
        self.assertEqual(stems[:5], ["a-2", "a", "a-3", "A-4", "a-5"])

    def test_what_is_not_read_yet_is_told_where_all_is_saved(self):
        # so few that requests which are never answered leave room for others
        text = b"".join(net.block for net in read(EXAMPLES.parent / "archives/common.cgd")[:200]).decode()
        self.driver.execute_script("""const inner = window.fetch;
            window.fetch = (path, request) => path === 'rows' ? new Promise(() => {}) : inner(path, request);""")
        self.driver.execute_script(DROP, [["common.cgd", text]])
        nets = blocks_in(text)
        self.until(lambda: f"24 of {nets} nets" in self.driver.find_element(By.ID, "progress").text)
        self.click("#save-blocks")
        told = lambda: self.driver.find_element(By.ID, "told").text  # noqa: E731
        self.assertIn(f"{nets - 24} nets are not read yet", told())
        self.driver.execute_script("HTMLAnchorElement.prototype.click = function () { window.saved = this.download; }")
        self.click("#save-all")
        self.until(lambda: told().startswith("24 nets were saved"))
        self.assertIn(f"{nets - 24} nets are not read yet", told())
        self.assertEqual(self.driver.execute_script("return window.saved"), "nets.zip")

    def test_a_formula_in_a_name_is_a_text(self):
        text = 'PERIODIC_GRAPH\nNAME "=1+1"\nEDGES\n1 1 1 0\n1 1 0 1\nEND\n'
        self.driver.execute_script(DROP, [["-x.cgd", text]])
        self.ready(1)
        line = self.driver.execute_script("return modules.columns.tableText(modules.table.shown)").splitlines()[1]
        self.assertEqual(line.split(",")[:2], ['"\'-x.cgd"', '"\'=1+1"'])

    def test_the_picture_that_is_saved_is_the_view_that_is_seen(self):
        self.drop("dia.cgd")
        canvas, = self.all(".views canvas")
        texts = []
        for _ in range(2):
            texts.append(self.driver.execute_script("return modules.canvases.pictures.get(arguments[0]).svg('<dia>')", canvas))
            canvas.send_keys(Keys.ARROW_LEFT)
        self.assertNotEqual(*texts)
        self.assertIn("<title>&lt;dia&gt;</title>", texts[0])
        same = self.driver.execute_async_script("""const [text, canvas, done] = arguments, image = new Image();
            modules.canvases.pictures.get(canvas).reset();
            modules.canvases.pictures.get(canvas).paint();
            image.onload = () => {
              const other = document.createElement('canvas');
              other.width = other.height = canvas.width;
              other.getContext('2d').drawImage(image, 0, 0, canvas.width, canvas.width);
              const [one, two] = [canvas, other].map(one => one.getContext('2d').getImageData(0, 0, one.width, one.width).data);
              let differ = 0;
              for (let k = 0; k < one.length; k += 4) differ += Math.abs(one[k] - two[k]) > 60;
              done(differ / (one.length / 4));
            };
            image.src = URL.createObjectURL(new Blob([text], { type: 'image/svg+xml' }));""", texts[0], canvas)
        self.assertLess(same, 0.02)  # of the points

    def test_a_large_net_turns_as_a_sketch(self):
        """Of LTN a sketch of few strokes is painted while it turns; all of it is painted once it rests."""
        text = (EXAMPLES.parent / "archives/zeolites.cgd").read_text()
        block = re.search(r'PERIODIC_GRAPH\nNAME "LTN"\n.*?END\n', text, re.DOTALL)[0]
        self.driver.execute_script(DROP, [["LTN.cgd", block]])
        self.ready(1)
        canvas, = self.all(".views canvas")
        self.driver.execute_script("arguments[0].scrollIntoView({ block: 'center' })", canvas)
        self.until(lambda: len(set(self.pixels(canvas).split(","))) > 10)
        whole, sketch = self.driver.execute_script("""const seen = modules.canvases.pictures.get(arguments[0]), { stroke } = CanvasRenderingContext2D.prototype;
            let count = 0;
            CanvasRenderingContext2D.prototype.stroke = function (...given) { count += 1; return stroke.apply(this, given); };
            const strokesOf = work => { count = 0; seen[work](); return count; };
            return [strokesOf('paint'), strokesOf('paintMoving')];""", canvas)
        self.assertGreater(whole, 2000)
        self.assertLess(sketch, 150)
        self.driver.execute_script("modules.canvases.pictures.get(arguments[0]).paint()", canvas)
        before = self.pixels(canvas)
        self.driver.execute_script("modules.canvases.pictures.get(arguments[0]).paintMoving()", canvas)
        self.until(lambda: self.pixels(canvas) == before, "it is not painted again")

    def test_the_place_where_files_are_dropped_is_seen(self):
        style = lambda name: self.driver.find_element(By.ID, "zone").value_of_css_property(name)  # noqa: E731
        self.assertEqual((style("border-top-style"), style("border-top-width")), ("dashed", "2px"))
        self.assertTrue(self.all("#zone svg") and self.driver.find_element(By.ID, "choose").is_displayed())
        self.driver.execute_script("document.getElementById('zone').dispatchEvent(new DragEvent('dragover', { bubbles: true }))")
        self.assertEqual(style("border-top-style"), "solid")

    def test_each_control_has_a_name(self):
        self.drop("quartz.cif", "dia.cgd")
        self.driver.find_element(By.ID, "with-pictures").click()
        self.until(lambda: self.all("#rows .small canvas"))
        nameless = self.driver.execute_script("""return [...document.querySelectorAll('input, select, button, canvas, progress')]
            .filter(one => !(one.getAttribute('aria-label') || one.getAttribute('aria-labelledby') || one.labels?.length ||
              (one.tagName === 'BUTTON' && one.textContent.trim()))).map(one => one.outerHTML.slice(0, 90))""")
        self.assertEqual(nameless, [])
        saves = [button.text for button in self.all("button") if "save" in button.text.lower()]
        self.assertTrue(all(text.startswith("Save ") for text in saves) and len(saves) > 6, saves)

    def test_the_choice_above_is_for_what_is_shown(self):
        self.drop("quartz.cif", "dia.cgd")
        self.assertEqual(self.files(), ["quartz.cif", "dia.cgd"])
        chosen = lambda: [select.get_attribute("value") for select in self.all("#rows .tools select")]  # noqa: E731
        told = lambda: [row[-1] for row in self.rows()]  # noqa: E731
        self.assertEqual(chosen(), ["fitting"])
        self.driver.find_element(By.CSS_SELECTOR, "#convention option[value=standard]").click()
        self.until(lambda: "there is no carbon" in told()[0])
        self.assertEqual(chosen(), ["standard"])
        self.assertNotIn("carbon", told()[1])
        self.driver.find_element(By.CSS_SELECTOR, "#rows option[value=all-atoms]").click()
        self.until(lambda: "qtz, quartz" in self.column("names")[0])
        self.click("[aria-label^='read quartz.cif again with']")
        self.ready(2)
        self.assertIn("qtz, quartz", self.column("names")[0])

    def test_the_verdict_stands_above_the_pictures(self):
        self.drop("dia.cgd", "sql.cgd")
        for box in self.all("#rows input[type=checkbox]"):
            self.assertRegex(box.get_attribute("aria-label"), "put .+ side by side")
            self.driver.execute_script("arguments[0].click()", box)
        verdict = self.driver.find_element(By.ID, "verdict")
        self.until(lambda: "differ in dimension" in verdict.text and self.all("#pair-nets canvas"))
        self.assertLess(verdict.location["y"], self.driver.find_element(By.CSS_SELECTOR, "#pair-nets canvas").location["y"])

    def test_what_is_saved(self):
        self.drop("quartz.cif")
        for button in self.all(".facts .saves button"):
            button.click()
        names = {"quartz.cgd", "quartz.report", "quartz.svg", "quartz.cif"}
        self.until(lambda: names <= {path.name for path in Path(self.home).iterdir()}, "not all is saved")
        self.assertIn("PERIODIC_GRAPH", (Path(self.home) / "quartz.cgd").read_text())
        self.assertIn("_atom_site_fract_x", (Path(self.home) / "quartz.cif").read_text())
        self.assertIn('name "qtz, quartz"', (Path(self.home) / "quartz.report").read_text())

    def test_by_the_keyboard_alone(self):
        self.drop("dia.cgd", "sql.cgd")
        self.driver.execute_script("document.activeElement.blur()")
        order = []
        for _ in range(60):
            self.press(Keys.TAB)
            active = self.driver.switch_to.active_element
            outline = active.value_of_css_property("outline-style")
            self.assertNotEqual(outline, "none", f"the focus is not seen on {active.get_attribute('outerHTML')[:100]}")
            label = active.get_attribute("aria-label") or active.text or active.get_attribute("type")
            self.assertTrue(label)
            order.append((active.tag_name, active.get_attribute("type")))
            if active.get_attribute("type") == "checkbox" and active.find_elements(By.XPATH, "ancestor::tbody"):
                self.press(Keys.SPACE)
            if self.driver.execute_script("return modules.pairs.chosen.length") == 2:
                break
        self.assertIn(("canvas", None), order)
        self.assertIn(("select", "select-one"), order)
        self.until(lambda: "differ in dimension" in self.driver.find_element(By.ID, "verdict").text)

    def test_the_width_of_a_phone_and_the_dark(self):
        self.drop("quartz.cif", "interpenetrating.cgd")
        media = {"features": [{"name": "prefers-color-scheme", "value": "dark"}]}
        self.driver.execute_cdp_cmd("Emulation.setEmulatedMedia", media)
        size = {"width": 360, "height": 700, "deviceScaleFactor": 1, "mobile": True}
        self.driver.execute_cdp_cmd("Emulation.setDeviceMetricsOverride", size)
        try:
            boxes = self.all("#rows input[type=checkbox]")
            for box in (boxes[0], boxes[-1]):
                self.driver.execute_script("arguments[0].click()", box)
            self.until(lambda: not self.all(".busy"))
            self.driver.execute_script("document.querySelectorAll('details').forEach(part => { part.open = true; })")
            self.assertEqual(self.driver.execute_script("return document.documentElement.scrollWidth"), 360)
            self.check_contrasts()
        finally:
            self.driver.execute_cdp_cmd("Emulation.clearDeviceMetricsOverride", {})
            self.driver.execute_cdp_cmd("Emulation.setEmulatedMedia", {"features": []})
        self.check_contrasts()

    def check_contrasts(self) -> None:
        for selector in TEXTS:
            self.assertGreater(self.driver.execute_script(CONTRAST, selector), 4.5, selector)

    def test_files_that_are_too_many_are_told(self):
        """However many, and what comes after it; so are files of a ZIP archive that have a password."""
        self.answer_by("() => ({ reason: 'no' })")
        warned = lambda: self.driver.find_element(By.ID, "warned").text  # noqa: E731
        self.driver.execute_script(DROP, [[f"{k}.cgd", "x"] for k in range(2003)])
        self.until(lambda: "Only the first 2,000 files are taken; 2000.cgd and those after it are left out." in warned())
        self.answer_by("""path => path !== 'unzip' ? { reason: 'no' } : { told: '1 of its files have a password, and are left out',
            files: Array.from({ length: 1500 }, (_, k) => ({ name: `${k}.cgd`, content: 'eA==' })) }""")
        self.click("#all-away")
        self.assertEqual(warned(), "")
        self.driver.execute_script(DROP.replace("[text]", "[Uint8Array.from(text)]"),
                                   [[name, [0x50, 0x4b, 3, 4]] for name in ("one.zip", "other.zip", "third.zip")])
        self.until(lambda: "500.cgd and those after it" in warned())
        self.assertIn("one.zip: 1 of its files have a password, and are left out.", warned())
        self.assertEqual(self.driver.execute_script("return modules.sources.sources.length"), 2000)

    def test_a_file_that_cannot_be_read_takes_no_other_with_it(self):
        self.driver.execute_script("""const broken = new File(['x'], 'broken.cif');
            broken.slice = () => ({ arrayBuffer: () => Promise.reject(new Error('gone')) });
            modules.desk.take([{ file: broken }, { file: new File([arguments[0]], 'sql.cgd') }]);""", (EXAMPLES / "sql.cgd").read_text())
        self.ready(2)
        self.assertEqual(self.files(), ["broken.cif", "sql.cgd"])
        self.assertIn("it cannot be read", self.rows()[0][-1])
        self.assertIn("1 net, 1 not read", self.driver.find_element(By.ID, "counts").text)
        reasons = self.driver.execute_async_script("""const done = arguments[0], file = new File(['x'], 'broken.cif');
            file.slice = () => ({ arrayBuffer: () => Promise.reject(new Error('gone')) });
            window.fetch = async () => { throw new TypeError('no'); };
            const sound = new File(['x'], 'sound.cif');
            Promise.all([file, sound].map(file => modules.work.ask('nets', { file }))).then(done);""")
        self.assertEqual([reason["reason"] for reason in reasons], ["the file cannot be read, or was changed since it was given",
                                                                    "the server of this page has ended, and nothing more is sent"])

    def test_a_file_of_the_command_line_that_went_away_is_told(self):
        paths = [Path(self.home) / name for name in ("gone.cgd", "there.cgd")]
        for path in paths:
            path.write_bytes((EXAMPLES / "sql.cgd").read_bytes())
        server = Server(*paths, "--memory", memory_for_program())
        try:
            paths[0].unlink()
            self.open(server.address)
            self.ready(2)
            self.assertEqual(self.files(), ["gone.cgd", "there.cgd"])
            self.assertIn("it cannot be read: No such file", self.rows()[0][-1])
        finally:
            self.driver.get_log("browser")  # which tells of the answer 404
            self.driver.get(self.server.address)
            server.end()

    def test_no_name_and_no_net_without_its_doubts(self):
        """In the table, on a card, in the CSV and side by side; also on a phone, and among thumbnails."""
        zeolites = (EXAMPLES.parent / "archives/zeolites.cgd").read_text()
        block = re.search(r'PERIODIC_GRAPH\nNAME "SVR"\n.*?END\n', zeolites, re.DOTALL)[0]
        self.driver.execute_script(DROP, [["SVR.cgd", block], ["far.cif", FAR], ["dia.cgd", (EXAMPLES / "dia.cgd").read_text()]])
        self.ready(3)
        svr, far, _ = self.rows()
        self.assertEqual(svr[3:5], ["SVR", "verified map"])
        self.assertIn("in doubt: bonds in doubt: Si-Si 2.99 taken, longer than a bond", far[-1])
        self.assertIn("symmetry from name F d -3 m:1", far[-1])
        rows = list(csv.DictReader(io.StringIO(self.driver.execute_script("return modules.columns.tableText(modules.table.shown)"))))
        self.assertEqual((rows[0]["names"], rows[0]["by"]), ("SVR", "verified map"))
        self.assertIn("Si-Si 2.99 taken", rows[1]["doubts"])
        for box in self.all("#rows input[type=checkbox]")[1:]:
            self.driver.execute_script("arguments[0].click()", box)
        self.until(lambda: "far is in doubt:" in self.driver.find_element(By.ID, "verdict").text)
        seen = lambda: [cell.is_displayed() for cell in self.all("#rows > tr > .of-told")]  # noqa: E731
        self.click("#with-pictures")
        self.assertEqual(seen(), [True, True, False])
        by = lambda: [cell.is_displayed() for cell in self.all("#rows > tr > .of-by")]  # noqa: E731
        self.assertEqual(by(), [True, False, False])
        self.click("#with-pictures")
        size = {"width": 360, "height": 700, "deviceScaleFactor": 1, "mobile": True}
        self.driver.execute_cdp_cmd("Emulation.setDeviceMetricsOverride", size)
        try:
            self.assertEqual((seen(), by()), ([True, True, False], [True, False, False]))
        finally:
            self.driver.execute_cdp_cmd("Emulation.clearDeviceMetricsOverride", {})
        told = self.driver.execute_script("""return modules.columns.toldText({ why: 'No key.', doubts: ['one'], left_out: ['two'], notes: ['three'],
            state: 'known', source: {} })""")
        self.assertEqual(told, "No key. | in doubt: one | left out: two | three")

    def test_files_without_a_net(self):
        many = (EXAMPLES / "sql.cgd").read_text() * 30
        files = [["empty.cif", ""], ["<img src=x onerror=alert(1)>.cgd", "OTHER\nx\nEND\n"], ["many.cgd", many]]
        self.driver.execute_script(DROP, files)
        self.ready(3)
        told = self.driver.find_element(By.ID, "results").text
        for words in ("the file is empty", "a block 'OTHER' is not read"):
            self.assertIn(words, told)
        self.assertEqual((len(self.rows()), len(self.all("article")), self.all("#rows img")), (32, 2, []))
        self.assertIn("30 nets", self.driver.find_element(By.ID, "counts").text)
        self.click("#rows > tr:last-child .opener")
        self.until(lambda: len(self.all("article canvas")) == 1)


if __name__ == "__main__":
    unittest.main()
