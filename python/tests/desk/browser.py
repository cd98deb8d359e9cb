"""What the tests of the page in a browser share: the browser, the page in it, and what is seen there."""

from __future__ import annotations

import shutil
import tempfile
import unittest

from desk import Server, memory_for_program, need_desk
from testing import PATIENCE, TOP, need_commands, need_modules, wait_until

need_desk()
need_modules("selenium")
need_commands("chromium", "chromedriver")
from selenium import webdriver  # noqa: E402
from selenium.common.exceptions import WebDriverException  # noqa: E402
from selenium.webdriver import ActionChains  # noqa: E402
from selenium.webdriver.chrome.options import Options  # noqa: E402
from selenium.webdriver.chrome.service import Service  # noqa: E402
from selenium.webdriver.common.by import By  # noqa: E402

EXAMPLES = TOP / "examples"
WORDS = ("--headless=new", "--no-sandbox", "--disable-gpu", "--disable-dev-shm-usage", "--window-size=1300,1000")
# Drops files on the page, as the browser does where they are dragged there.
DROP = """const data = new DataTransfer();
for (const [name, text] of arguments[0]) data.items.add(new File([text], name));
const event = new DragEvent('drop', { dataTransfer: data, bubbles: true, cancelable: true });
document.getElementById('drop').dispatchEvent(event);"""
# The modules of the page, the same ones that it has, under `modules`.
MODULES = """const done = arguments[0], names = ['canvases', 'columns', 'desk', 'elements', 'pairs', 'proof', 'saving', 'sources', 'table', 'viewer', 'work'];
Promise.all(names.map(name => import(new URL(`${name}.js`, document.baseURI)))).then(found => {
  window.modules = Object.fromEntries(names.map((name, k) => [name, found[k]]));
  done();
});"""
PIXELS = """const canvas = arguments[0];
const { data } = canvas.getContext('2d').getImageData(0, 0, canvas.width, canvas.height);
return Array.from(data.filter((_, k) => k % 4 === 0)).join()"""
# Answers in the place of the server, which has this secret: `answerBy` takes what an answer to a path is.
ANSWERED = """const secret = Uint8Array.from(arguments[0].match(/../g), pair => parseInt(pair, 16)), encoder = new TextEncoder();
window.answerBy = work => { window.fetch = async (path, { method = 'GET', headers }) => {
  const content = encoder.encode(JSON.stringify(path === 'proof' ? {} : work(path)));
  const told = encoder.encode(`${headers.Nonce} ${method} ${path} 200\n`);
  const key = await crypto.subtle.importKey('raw', secret, { name: 'HMAC', hash: 'SHA-256' }, false, ['sign']);
  const proof = new Uint8Array(await crypto.subtle.sign('HMAC', key, new Uint8Array([...told, ...content])));
  return new Response(content, { headers: { Proof: Array.from(proof, byte => byte.toString(16).padStart(2, '0')).join('') } });
}; };"""


class InBrowser(unittest.TestCase):
    @classmethod
    def setUpClass(cls):
        cls.home = tempfile.mkdtemp(prefix="net_tools_test.")
        cls.addClassCleanup(shutil.rmtree, cls.home, ignore_errors=True)
        cls.server = Server("--memory", memory_for_program())
        cls.addClassCleanup(cls.server.end)
        options = Options()
        options.binary_location = shutil.which("chromium")
        for word in (*WORDS, f"--user-data-dir={cls.home}/browser"):
            options.add_argument(word)
        options.set_capability("goog:loggingPrefs", {"browser": "ALL"})
        saved = {"download.default_directory": cls.home,
                 "profile.default_content_setting_values.automatic_downloads": 1}
        options.add_experimental_option("prefs", saved)
        try:
            cls.driver = webdriver.Chrome(service=Service(shutil.which("chromedriver")), options=options)
        except WebDriverException as reason:
            raise unittest.SkipTest(f"chromium does not run here: {reason.msg}") from None
        cls.addClassCleanup(cls.driver.quit)
        cls.driver.set_script_timeout(PATIENCE)

    def setUp(self):
        self.open(self.server.address)

    def open(self, address: str) -> None:
        self.driver.get(address)
        self.driver.execute_async_script(MODULES)

    def answer_by(self, work: str) -> None:
        """From now on a script answers in the place of the server."""
        self.driver.execute_script(ANSWERED, self.server.secret)
        self.driver.execute_script(f"answerBy({work})")

    def tearDown(self):
        """No error on the console, and nothing asked of another machine."""
        faults = [entry for entry in self.driver.get_log("browser") if "willReadFrequently" not in entry["message"]]
        self.assertEqual(faults, [])
        asked = self.driver.execute_script("return performance.getEntriesByType('resource').map(entry => entry.name)")
        self.assertEqual([name for name in asked if not name.startswith((self.server.address, "blob:"))], [])

    def all(self, selector: str) -> list:
        return self.driver.find_elements(By.CSS_SELECTOR, selector)

    def until(self, what, told: str = "") -> None:
        wait_until(what, told or "it does not come")

    def drop(self, *names: str) -> None:
        """Drops files of the examples, and waits for all cards."""
        self.driver.execute_script(DROP, [[name, (EXAMPLES / name).read_text()] for name in names])
        self.ready(len(names))

    def ready(self, files: int) -> None:
        """Waits until so many files are read, and all cards that are open are there."""
        done = """const { sources: { sources, progressOf }, work: { running }, elements: { isDue } } = modules, { done, total } = progressOf();
            return sources.length >= arguments[0] && done === total && !running && !isDue"""
        self.until(lambda: self.driver.execute_script(done, files) and not self.all("#rows [aria-busy]"))

    def rows(self) -> list[list[str]]:
        """The texts of the rows of the table, in their order."""
        return self.driver.execute_script("""return [...document.querySelectorAll('#rows > tr:not(.detail)')]
            .map(row => [...row.children].map(cell => cell.textContent))""")

    def texts(self, selector: str) -> list[str]:
        """The texts of some elements, whose rows may come and go."""
        return self.driver.execute_script("return [...document.querySelectorAll(arguments[0])].map(found => found.textContent)", selector)

    def column(self, name: str) -> list[str]:
        """What a column of the table has, from above to below."""
        return self.texts(f"#rows > tr > .of-{name}")

    def nets(self) -> list[str]:
        """What the nets of the table are called, from above to below."""
        return self.texts("#rows .opener")

    def files(self) -> list[str]:
        """Their files."""
        return self.driver.execute_script("return modules.table.shown.map(entry => entry.source.file.name)")

    def click(self, selector: str) -> None:
        """A click on the first of some elements, wherever it is on the page."""
        self.driver.execute_script("document.querySelector(arguments[0]).click()", selector)

    def pixels(self, canvas) -> str:
        return self.driver.execute_script(PIXELS, canvas)

    def press(self, *keys: str) -> None:
        ActionChains(self.driver).send_keys(*keys).perform()
