"""The page when its server has ended, and another program answers at its address."""

from __future__ import annotations

import json
import threading
import unittest
from contextlib import contextmanager
from collections.abc import Iterator
from http.server import BaseHTTPRequestHandler, ThreadingHTTPServer

from browser import DROP, EXAMPLES, InBrowser
from desk import Server, memory_for_program

ROW = {"name": "forged", "names": [{"archive": "common", "name": "forged"}], "key": "x", "block": "x", "refusal": "", "provenance": {}}


class Impostor(BaseHTTPRequestHandler):
    """Answers everything as the server would, but for the proof, and keeps what it was sent."""

    asked: list[tuple[str, str, bytes]]

    def do_GET(self) -> None:
        content = self.rfile.read(int(self.headers.get("Content-Length", 0)))
        self.asked.append((self.command, self.path.rpartition("/")[2], content))
        answer = json.dumps({"total": 1, "isStructure": False, "rows": [ROW], "waiting": []}).encode()
        self.send_response(200)
        for name, value in (("Content-Type", "application/json"), ("Content-Length", str(len(answer))), ("Proof", "00" * 32)):
            self.send_header(name, value)
        self.end_headers()
        self.wfile.write(answer)

    do_POST = do_GET

    def log_message(self, *_: object) -> None:
        pass


@contextmanager
def impostor_at(port: int) -> Iterator[list[tuple[str, str, bytes]]]:
    """Another server at a port, with what it is asked."""
    asked: list[tuple[str, str, bytes]] = []
    server = ThreadingHTTPServer(("127.0.0.1", port), type("Other", (Impostor,), {"asked": asked}))
    thread = threading.Thread(target=server.serve_forever, args=(0.05,))
    thread.start()
    try:
        yield asked
    finally:
        server.shutdown()
        thread.join()
        server.server_close()


class Ended(InBrowser):
    def setUp(self) -> None:
        self.ended = Server("--memory", memory_for_program())
        self.addCleanup(lambda: self.ended.process.poll() is None and self.ended.end())
        self.open(self.ended.address)
        self.drop("sql.cgd")

    def tearDown(self) -> None:
        self.driver.get_log("browser")  # which tells of requests without an answer
        self.driver.get("about:blank")

    def drop_one_more(self) -> None:
        self.driver.execute_script(DROP, [["secret.cgd", (EXAMPLES / "dia.cgd").read_text()]])

    def is_told(self) -> bool:
        return "its server has ended" in self.all("#ended")[0].text.lower() and not self.all("#choose")[0].is_enabled()

    def test_nothing_of_a_file_goes_to_another_server(self) -> None:
        self.assertFalse(self.all("#ended")[0].is_displayed())
        self.ended.end()
        with impostor_at(int(self.ended.host.split(":")[1])) as asked:
            self.drop_one_more()
            self.until(self.is_told)
            self.drop_one_more()
            self.click("#rows .opener")
            self.driver.execute_async_script("setTimeout(arguments[0], 1500)")
            self.assertEqual(asked, [("GET", "proof", b"")])
        self.assertNotIn("forged", self.driver.page_source)
        self.assertIn("1 net, 1 not read", self.all("#counts")[0].text)  # what was shown stays
        self.assertIn("the server of this page has ended", self.rows()[1][-1])

    def test_a_page_whose_server_has_ended_stays_so(self) -> None:
        self.ended.end()
        self.drop_one_more()
        self.until(self.is_told)
        with impostor_at(int(self.ended.host.split(":")[1])) as asked:
            self.drop_one_more()
            self.driver.execute_async_script("setTimeout(arguments[0], 1500)")
            self.assertEqual(asked, [])

    def test_an_answer_without_the_right_proof_is_not_shown(self) -> None:
        """Also if the one to the request before it was right."""
        self.driver.execute_script("""const inner = window.fetch;
            window.fetch = async (path, request) => {
              const answer = await inner(path, request);
              if (path === 'proof') return answer;
              const text = (await answer.text()).replaceAll('dia', 'forged');
              return new Response(text, { status: answer.status, headers: answer.headers });
            };""")
        self.drop_one_more()
        self.until(self.is_told)
        self.assertNotIn("forged", self.driver.page_source)


if __name__ == "__main__":
    unittest.main()
