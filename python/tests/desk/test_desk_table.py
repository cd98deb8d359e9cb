"""The table of the page as it is seen: how many rows, the doubts whole, groups of equal nets, and the words on the page."""

import csv
import io
import unittest

from browser import DROP, EXAMPLES, InBrowser
from test_desk_browser import FAR
from test_wide import fan
from testing import TOP

from crystal_nets import cover

WOVEN = EXAMPLES / "interpenetrating.cgd"
NOTEBOOK, PHONE = (1300, 857), (360, 700)
ZEOLITES = (TOP / "archives/zeolites.cgd").read_text().split("END\n")[:40]
SEEN = """return [...document.querySelectorAll('#rows > tr')].filter(row => {
  const { top, bottom } = row.getBoundingClientRect();
  return top >= 0 && bottom <= innerHeight;
}).length"""
# Of each doubt whether it is seen whole: no line of it is past an edge of its cell, and nothing of the cell is cut below.
WHOLE = """return [...document.querySelectorAll('#rows .whole')].map(text => {
  const cell = text.parentElement, frame = cell.getBoundingClientRect();
  return cell.scrollHeight <= cell.clientHeight && [...text.getClientRects()].every(line =>
    line.left >= frame.left && line.right <= frame.right && line.top >= frame.top && line.bottom <= frame.bottom);
})"""
WIDTHS = "return [...document.querySelectorAll('#heads > :not(.small)')].map(head => head.offsetWidth)"
FORMER = ("with the words", "take all away", "before", "after", "small pictures", "what is to be known", "What is a vertex", "go on")


class Table(InBrowser):
    def setUp(self) -> None:
        self.show(*NOTEBOOK)
        self.addCleanup(self.driver.execute_cdp_cmd, "Emulation.clearDeviceMetricsOverride", {})
        super().setUp()

    def show(self, width: int, height: int) -> None:
        size = {"width": width, "height": height, "deviceScaleFactor": 1, "mobile": width < 700}
        self.driver.execute_cdp_cmd("Emulation.setDeviceMetricsOverride", size)

    def drop_texts(self, **texts: str) -> None:
        """Drops files of these texts, whose endings follow two lines."""
        self.driver.execute_script(DROP, [[name.replace("__", "."), text] for name, text in texts.items()])
        self.ready(len(texts))

    def height(self, selector: str) -> int:
        return self.driver.execute_script("return document.querySelector(arguments[0]).offsetHeight", selector)

    def test_twenty_rows_are_seen(self) -> None:
        """Once the place to drop has shrunk to a line, which takes files as before."""
        before = self.height("#drop")
        self.drop_texts(z__cgd="END\n".join(ZEOLITES) + "END\n")
        self.assertGreaterEqual(self.driver.execute_script(SEEN), 20)
        self.assertLess(self.height("#drop"), 60)
        self.assertGreater(before, 150)
        self.assertTrue(self.all("#choose")[0].is_displayed())
        self.drop_texts(dia__cgd=(EXAMPLES / "dia.cgd").read_text())
        self.assertEqual(self.files()[-1], "dia.cgd")
        self.click("#all-away")
        self.until(lambda: self.height("#drop") == before)

    def test_a_doubt_is_seen_whole(self) -> None:
        """However long it is, at each width; and its column is the widest."""
        self.drop_texts(far__cif=FAR, woven__cgd=WOVEN.read_text())
        self.driver.execute_script("""modules.sources.sources[0].entries[0].doubts = ['a doubt of many words, '.repeat(30) + 'x'.repeat(200)];
            document.getElementById('filter').dispatchEvent(new Event('input'));""")
        self.until(lambda: "xxx" in self.rows()[0][-1])
        for size in (NOTEBOOK, (900, 857), PHONE):
            self.show(*size)
            whole = self.driver.execute_script(WHOLE)
            self.assertEqual((len(whole), set(whole)), (len(self.all("#rows > .told")), {True}), size)
            if size == NOTEBOOK:
                *others, told = self.driver.execute_script(WIDTHS)
                self.assertGreater(told, 1.5 * max(others))

    def test_equal_nets_have_one_group(self) -> None:
        """By their keys, also of a net that has one in a smaller cell alone; others without a key have none."""
        skewed = cover(fan(23), [(1, 500), (0, 1)]).net
        self.drop_texts(dia__cgd=(EXAMPLES / "dia.cgd").read_text(), fan__cgd=fan(23).block.decode(), far__cif=FAR,
                        skewed__cgd=skewed.block.decode(), woven__cgd=WOVEN.read_text().split("END\n")[0] + "END\n")
        self.assertEqual(self.column("group"), ["1 (2 nets)", "2 (2 nets)"] * 2 + [""])
        self.assertEqual(self.column("by"), ["key", "key", "key", "key of a smaller cell", ""])
        rows = list(csv.DictReader(io.StringIO(self.driver.execute_script("return modules.columns.tableText(modules.table.shown)"))))
        self.assertEqual([(row["group"], row["by"]) for row in rows], [("1", "key"), ("2", "key"), ("1", "key"),
                                                                       ("2", "key of a smaller cell"), ("", "")])
        self.click("#heads [data-column=group] button")
        self.assertEqual(self.column("group"), ["1 (2 nets)"] * 2 + ["2 (2 nets)"] * 2 + [""])

    def test_a_file_is_named_once(self) -> None:
        """Beside a net whose name does not tell it; the search finds it all the same."""
        self.drop("quartz.cif", "mystery.cgd")
        told = self.texts("#rows .file")
        self.assertEqual((told[0], set(told[1:])), ("", {"mystery.cgd"}))
        self.all("#filter")[0].send_keys("quartz.cif")
        self.until(lambda: self.nets() == ["quartz"])

    def test_words_that_users_know(self) -> None:
        self.drop("quartz.cif")
        self.driver.execute_script("document.querySelectorAll('details, [hidden]').forEach(part => { part.open = true; part.hidden = false; })")
        told = self.driver.find_element("tag name", "main").text
        for words in ("Search", "Clear all", "Previous", "Next", "Thumbnails", "Notes and doubts", "How the structure was read"):
            self.assertIn(words, told)
        buttons = [button.text for button in self.all("button")] + [label.text for label in self.all("label, legend, th, summary")]
        for words in FORMER:
            self.assertEqual([text for text in buttons if text.startswith(words)], [])

    def test_a_phone_has_no_card_from_the_start(self) -> None:
        self.show(*PHONE)
        self.drop("quartz.cif", "mystery.cgd", "interpenetrating.cgd", "dia.cgd")
        self.assertEqual(self.all("article"), [])
        self.assertLess(self.driver.execute_script("return document.documentElement.scrollHeight"), 2500)
        self.click("#rows .opener")
        self.until(lambda: len(self.all("article canvas")) > 0)


if __name__ == "__main__":
    unittest.main()
