"""The server: who may ask, what is refused, and that it goes on whatever comes."""

import fcntl
import hmac
import io
import json
import os
import random
import re
import resource
import signal
import socket
import time
import unittest
import zipfile
from concurrent.futures import ThreadPoolExecutor
from contextlib import ExitStack, suppress
from pathlib import Path
from unittest import mock

from desk import Server, form_of, memory_for_program, need_desk
from mutants import mutant
from testing import IS_LONG, PATIENCE, TOP, wait_until

need_desk()
from crystal_nets.desk.application import FILES, MOST_FIELDS, application  # noqa: E402
from crystal_nets.desk.connections import MOST_STRANGERS, SECONDS_TO_ASK, Connections  # noqa: E402
from crystal_nets.desk.files import FITTING, MOST_BYTES, MOST_NETS  # noqa: E402
from crystal_nets.desk.guard import MOST_SENT, Guard  # noqa: E402
from crystal_nets.desk.questions import AT_ONCE, MOST_OF_A_BLOCK  # noqa: E402
from crystal_nets.options import CONVENTION_NAMES as CONVENTIONS, SWITCHES  # noqa: E402
from crystal_nets.structures.nets.choice import Options  # noqa: E402
from crystal_nets.structures.units.conventions import AUTO, CONVENTIONS as OF_CIF2CGD  # noqa: E402
from flask import Request  # noqa: E402

QUARTZ = (TOP / "examples/quartz.cif").read_bytes()
FORMS = 2_000 if IS_LONG else 40
SQL = b"PERIODIC_GRAPH\nEDGES\n1 1 1 0\n1 1 0 1\nEND\n"
NET = {"block": SQL.decode(), "name": "sql", "refusal": "",
       "provenance": {"notes": [["other", "one"]], "convention": "", "made": "", "copies": 2, "line": 1}}



def zip_of(*names: str) -> bytes:
    """A ZIP archive of a net under each of these names."""
    content = io.BytesIO()
    with zipfile.ZipFile(content, "w", zipfile.ZIP_DEFLATED) as archive:
        for name in names:
            archive.writestr(name, SQL)
    return content.getvalue()


ZIP = zip_of("a.cgd", "b.cgd")


class WithServer(unittest.TestCase):
    words: tuple = ()

    @classmethod
    def setUpClass(cls):
        cls.server = Server(*cls.words)
        cls.addClassCleanup(cls.check_end)

    @classmethod
    def check_end(cls):
        status, _, told = cls.server.end()
        if status != 0 or "Traceback" in told:
            raise AssertionError(f"net_desk ended with {status}: {told[-2000:]}")

    def reason(self, answer, status) -> str:
        self.assertEqual(answer[0], status, answer[2][:300])
        reason = json.loads(answer[2])["reason"]
        self.assertNotIn("Traceback", reason)
        self.assertTrue(reason)
        return reason


class WhoMayAsk(WithServer):
    def test_the_page_and_its_parts(self):
        for name in FILES:
            status, headers, body = self.server.request("GET", name, Origin=None)
            self.assertEqual(status, 200, name)
            policy = headers["Content-Security-Policy"]
            self.assertIn("default-src 'none'", policy)
            self.assertNotRegex(policy, r"https?:|\*|unsafe")
            self.assertEqual(headers["X-Content-Type-Options"], "nosniff")
            self.assertEqual(headers["Cache-Control"], "no-store")
            self.assertNotIn("Access-Control-Allow-Origin", headers)
            self.assertNotRegex(body, rb"(?i)(src|href|url\()\W{0,2}(https?:)?//", name)  # nothing from elsewhere

    def test_another_origin(self):
        for origin in ("http://example.org", "null", "https://" + self.server.host, "http://127.0.0.1:1",
                       self.server.origin + ".example.org", ""):
            self.reason(self.server.request("GET", "archives", Origin=origin), 403)
            self.reason(self.server.request("POST", "nets", Origin=origin), 403)
        self.reason(self.server.request("POST", "nets", Origin=None), 403)
        self.reason(self.server.request("GET", "", Origin=None, Sec_Fetch_Site="cross-site"), 403)

    def test_a_window_goes_to_the_page_from_anywhere(self):
        opened = {"Origin": None, "Sec_Fetch_Mode": "navigate", "Sec_Fetch_Dest": "document"}
        for site in ("cross-site", "same-site"):
            self.assertEqual(self.server.request("GET", "", **opened, Sec_Fetch_Site=site)[0], 200)
            for path, words in (("", {"Sec_Fetch_Dest": "iframe"}), ("", {"Sec_Fetch_Mode": "cors"}), ("desk.js", {}),
                                ("given", {}), ("given/0", {}), ("", {"Origin": "http://example.org"})):
                given = {**opened, "Sec_Fetch_Site": site, **words}
                self.reason(self.server.request("GET", path, **given), 403)
            self.reason(self.server.request("POST", "", **opened, Sec_Fetch_Site=site), 403)

    def test_a_port_that_is_forwarded(self):
        for host in ("localhost:9999", "127.0.0.1:1", "127.0.0.1", "[::1]:8888"):
            self.assertEqual(self.server.request("GET", "given", Host=host, Origin=f"http://{host}")[0], 200)
            self.reason(self.server.request("GET", "given", Host=host, Origin=self.server.origin), 403)

    def test_another_host(self):
        for host in ("example.org", "example.org:" + self.server.host.split(":")[1], "", None, "localhost.example.org",
                     "127.0.0.1.example.org:80", "localhost:", "localhost:0", "a@localhost:1", "LOCALHOST:99999999"):
            self.reason(self.server.request("GET", "", Host=host, Origin=None), 403)

    def test_no_or_a_wrong_token(self):
        token = self.server.path.strip("/")
        for path in ("/", "/archives", "//", f"/{token}", f"/{token[:-1]}/", f"/{token}x/", f"/x{token}/archives",
                     f"/%00{token}/", "/../" + token + "/", "/%ff/", "/given/0", f"/{token.swapcase()}/archives"):
            self.reason(self.server.request("GET", path), 403)

    def test_each_answer_is_proved_by_the_secret_of_the_page(self):
        """For the nonce, the way of asking, the path, the status and the content; and for who has the token alone."""
        secret, nonce = bytes.fromhex(self.server.secret), "0123456789abcdef" * 2
        for method, path, status in (("GET", "proof", 200), ("GET", "given", 200), ("GET", "given/7", 404), ("POST", "nets", 400)):
            found, headers, content = self.server.request(method, path, Nonce=nonce)
            self.assertEqual(found, status)
            told = f"{nonce} {method} {path} {status}\n".encode()
            self.assertEqual(headers["Proof"], hmac.digest(secret, told + content, "sha256").hex())
            self.assertNotIn(self.server.secret.encode(), content + str(headers).encode())
        for given in ({}, {"Nonce": nonce[1:]}, {"Nonce": nonce.upper()}, {"Nonce": f"{nonce}0"}):
            self.assertNotIn("Proof", self.server.request("GET", "proof", **given)[1])
        for path in ("/proof", f"/x{self.server.path}proof", "/x/proof"):
            status, headers, _ = self.server.request("GET", path, Nonce=nonce)
            self.assertEqual((status, "Proof" in headers), (403, False))

    def test_paths_and_methods_that_are_not_there(self):
        for path in ("other", "nets", "nets/", "given/0", "given/-1", "given/x", "desk.html", "..%2fdesk.py",
                     "../../etc/passwd", "%2e%2e/%2e%2e/etc/passwd", "given/99999999999999999999", "desk.js%00",
                     "viewer.js/x"):
            self.reason(self.server.request("GET", path), 404)
        for method, path in (("PUT", "nets"), ("DELETE", ""), ("POST", "archives"), ("POST", ""),
                             ("MADE-UP", "card"), ("TRACE", "")):
            self.reason(self.server.request(method, path), 405)

    def test_requests_without_a_form(self):
        for line in (b"\r\n\r\n", b"GET\r\n\r\n", b"\x16\x03\x01\x02\x00\x01\x00", b"GET / HTTP/9.9\r\n\r\n",
                     b"A" * 70_000 + b"\r\n\r\n", b"GET / HTTP/1.1\r\n" + b"a: b\r\n" * 200 + b"\r\n"):
            with socket.create_connection(self.server.host.split(":")) as client:
                client.settimeout(PATIENCE)
                client.sendall(line)
                client.shutdown(socket.SHUT_WR)
                try:
                    client.recv(1000)
                except ConnectionResetError:
                    pass
        self.assertEqual(self.server.request("GET", "")[0], 200)


class ManyConnections(WithServer):
    def test_connections_without_a_token_never_shut_the_owner_out(self):
        before = resource.getrlimit(resource.RLIMIT_NOFILE)
        resource.setrlimit(resource.RLIMIT_NOFILE, (min(4096, before[1]), before[1]))
        self.addCleanup(resource.setrlimit, resource.RLIMIT_NOFILE, before)
        strangers = []
        with ExitStack() as stack:
            for _ in range(1100):
                strangers.append(stack.enter_context(socket.create_connection(self.server.host.split(":"), PATIENCE)))
            self.assertEqual(self.server.request("GET", "")[0], 200)  # then all before it are taken or ended
            strangers[-1].setblocking(False)
            with self.assertRaises(BlockingIOError):  # it waits yet, as the newest ones do
                strangers[-1].recv(1)
            self.assertEqual(strangers[0].recv(1), b"")
            files = Path(f"/proc/{self.server.process.pid}/fd")
            wait_until(lambda: len(os.listdir(files)) < MOST_STRANGERS + 40, "connections stay open")

    def test_a_request_that_never_ends_is_ended(self):
        """A byte at a time, so that the connection is never silent for long."""
        last = time.monotonic() + PATIENCE
        with socket.create_connection(self.server.host.split(":"), PATIENCE) as client, self.assertRaises(OSError):
            while time.monotonic() < last:
                client.sendall(b"G")
                time.sleep(SECONDS_TO_ASK / 20)

    def test_a_file_number_past_what_select_knows(self):
        """A client is there whatever number its connection has."""
        from crystal_nets.desk.worker import is_gone
        before = resource.getrlimit(resource.RLIMIT_NOFILE)
        resource.setrlimit(resource.RLIMIT_NOFILE, (min(2048, before[1]), before[1]))
        self.addCleanup(resource.setrlimit, resource.RLIMIT_NOFILE, before)
        with ExitStack() as stack:
            one, other = (stack.enter_context(end) for end in socket.socketpair())
            high = stack.enter_context(socket.socket(fileno=fcntl.fcntl(one, fcntl.F_DUPFD, 1500)))
            self.assertFalse(is_gone(high))
            other.close()
            self.assertTrue(is_gone(high))


class WhatIsSent(WithServer):
    def test_malformed_forms(self):
        good, kind = form_of({"file": ("a.cgd", SQL), "convention": "auto", "choices": "[]"})
        form = "multipart/form-data"
        for body, given in ((b"", "text/plain"), (b"x", kind), (good[:90], kind), (good, form), (b"{}", "application/json"),
                            (good, form + "; boundary=other"), (b"file=a&first=0", "application/x-www-form-urlencoded"),
                            (good.replace(b"name=", b"nome="), kind), (good, form + "; boundary=" + "x" * 300)):
            self.reason(self.server.request("POST", "nets", body, Content_Type=given), 400)

    def test_fields_without_a_form(self):
        fields = {"convention": "auto", "choices": "[]"}
        for name, value in (("convention", "none"), ("choices", "[1]"), ("choices", "{}"),
                            ("choices", '["leave_out"]'), ("choices", "[" * 5000), ("choices", "")):
            body, kind = form_of({"file": ("a.cgd", SQL), **fields, name: value})
            self.reason(self.server.request("POST", "nets", body, Content_Type=kind), 400)
        for value in ("", "[]", "{}", "[1]", "[" * 5000, '[{"text": 1, "line": 1}]', '[{"text": "x", "line": 0}]',
                      '[{"text": "x", "line": true}]', '[{"text": "x"}]', '[{"name": "x", "block": "", "refusal": ""}]',
                      '[{"name": 1, "block": "", "refusal": "", "provenance": {}}]', json.dumps([{"text": "x", "line": 1}] * 1001)):
            for path, name in (("rows", "nets"), ("card", "net"), ("topology", "net")):
                body, kind = form_of({name: value})
                self.reason(self.server.request("POST", path, body, Content_Type=kind), 400)
        for path in ("card", "topology"):
            body, kind = form_of({"net": '[{"text": "PERIODIC_GRAPH", "line": 1}]'})
            self.assertIn("waits to be read", self.reason(self.server.request("POST", path, body, Content_Type=kind), 400))
        for path in ("card", "rows", "pair", "crystal", "nets", "unzip", "atoms"):
            self.reason(self.server.request("POST", path), 400)

    def test_mutants_of_forms(self):
        """Each damaged form has an answer or a reason, and the server goes on."""
        chance = random.Random(13)
        block = SQL.decode()
        forms = [(path, *form_of(fields)) for path, fields in (
            ("nets", {"file": ("a.cgd", SQL), "convention": "auto", "choices": "[]"}),
            ("nets", {"file": ("x.cif", QUARTZ), "convention": "all-atoms", "choices": '["keep_ions"]'}),
            ("card", {"net": json.dumps([NET])}), ("topology", {"net": json.dumps([NET])}),
            ("rows", {"nets": json.dumps([NET, {"line": 7, "text": block}])}),
            ("unzip", {"file": ("a.zip", ZIP)}),
            ("atoms", {"file": ("x.cif", QUARTZ), "convention": "all-atoms", "choices": "[]", "block": block}),
            ("pair", {"one": block, "other": block}), ("crystal", {"block": block, "name": "sql"}))]
        for _ in range(FORMS):
            path, body, kind = chance.choice(forms)
            damaged = mutant(body, chance)
            status, _, told = self.server.request("POST", path, damaged, Content_Type=kind)
            self.assertIn(status, (200, 400), damaged)
            self.assertTrue(json.loads(told), damaged)
            self.assertNotRegex(told, b"Traceback|could not do it", damaged)
        self.assertEqual(self.server.nets("a.cgd", SQL)["total"], 1)

    def test_too_large_or_of_unknown_length(self):
        """Who sends too much hears why, and no broken connection."""
        for excess in (1, 40_000_000):
            large = self.server.request("POST", "nets", bytes(MOST_SENT + excess))
            self.assertEqual(self.reason(large, 413), "more than 128 MB are sent at once")
        file, kind = form_of({"file": ("a.cgd", SQL.ljust(MOST_BYTES + 1)), "convention": "auto", "choices": "[]"})
        self.assertEqual(self.reason(self.server.request("POST", "nets", file, Content_Type=kind), 413),
                         "the file is larger than 64 MB")
        many, kind = form_of({f"field{k}": "x" for k in range(MOST_FIELDS + 1)})
        self.assertIn("more than 16 fields", self.reason(self.server.request("POST", "rows", many, Content_Type=kind), 413))
        self.reason(self.server.request("POST", "nets", b"0\r\n\r\n", Transfer_Encoding="chunked"), 411)
        self.reason(self.server.request("POST", "nets", b"x", Content_Length="x"), 411)

    def test_the_largest_file_and_the_largest_block_are_read(self):
        self.assertEqual(self.server.nets("a.cgd", SQL + (b"#".ljust(79) + b"\n") * ((MOST_BYTES - len(SQL)) // 80))["total"], 1)
        largest = SQL.replace(b"EDGES", b"#" * (MOST_OF_A_BLOCK - len(SQL) - 1) + b"\nEDGES").decode()
        row, = self.server.rows([{"line": 1, "text": largest}])
        self.assertEqual((len(largest), row["names"][0]["name"].split(",")[0]), (MOST_OF_A_BLOCK, "sql"))
        self.assertEqual(self.server.card(row)["key"], row["key"])

    def test_no_limit_of_the_framework_holds(self):
        """Newer ones refuse a field of 500,001 bytes where they are not told another limit."""
        workers = mock.Mock(ask=lambda _, *given, client: json.dumps(list(map(len, given))))
        app = application(Guard(80, "x"), workers, Connections())
        least = {"max_form_memory_size": 500_000, "max_form_parts": 2, "max_content_length": 500_000}
        fields = {"one": "x" * 1_000_000, "other": "y" * 2_000_000, "third": ""}
        with mock.patch.multiple(Request, create=True, **least):
            answer = app.test_client().post("/x/pair", data=fields, content_type="multipart/form-data",
                                            headers={"Host": "localhost", "Origin": "http://localhost"})
        self.assertEqual((answer.status_code, answer.get_json(force=True)), (200, [1_000_000, 2_000_000]))

    def test_names_are_never_paths(self):
        for name in ("../../../../etc/passwd", "/etc/passwd", "..\\..\\x.cif", "a\x00b.cif", "", ".", "..",
                     "x" * 5000 + ".cif", "a/../b.cif", "\u202e\U0001f600.cif", "%2e%2e%2f.cif"):
            answer = self.server.nets(name, QUARTZ)
            self.assertEqual(len(answer["rows"]), 1, name[:40])
            self.assertNotRegex(answer["rows"][0]["name"], r"[/\\\x00]")
            self.assertLess(len(answer["rows"][0]["name"]), 200)

    def test_names_of_nets_have_nothing_that_is_not_shown(self):
        for name in (b"a\x01\x1b[31mb", b"a\x00b", b"a\xffb", "a\u202eb".encode(), "a\u2066b".encode()):
            row, = self.server.nets("a.cgd", SQL.replace(b"EDGES", b'NAME "' + name + b'"\nEDGES'))["rows"]
            self.assertRegex(row["name"], "^a\ufffd+(\\[31m)?b$")
            self.assertEqual(self.server.card(row)["name"], row["name"])

    def test_many_nets_are_asked_for_without_their_file(self):
        text = b"# first\n" + SQL * 1000
        answer = self.server.nets("many.cgd", text)
        self.assertEqual((answer["total"], len(answer["rows"]), len(answer["waiting"])), (1000, AT_ONCE, 1000 - AT_ONCE))
        rows = self.server.rows(answer["waiting"])
        self.assertEqual(len(rows), 1000 - AT_ONCE)
        self.assertEqual({row["names"][0]["name"].split(",")[0] for row in answer["rows"] + rows}, {"sql"})
        self.assertEqual(rows[-1]["provenance"]["line"], 2 + 5 * 999)
        self.assertEqual(self.server.rows([rows[0] | {"block": "no block"}])[0]["why"][:15], "No net was read")

    def test_a_bad_block_knows_its_line_and_keeps_its_bytes(self):
        bad = self.server.nets("bad.cgd", SQL * 30 + b"OTHER\nx\nEND\n" + SQL.replace(b"EDGES", b'NAME "\xff"\nEDGES'))
        rows = self.server.rows(bad["waiting"])
        self.assertIn("line 151:", rows[-2]["refusal"])
        self.assertEqual((rows[-1]["refusal"], rows[-1]["names"][0]["archive"]), ("", "common"))

    def test_no_more_nets_of_a_file_than_a_page_takes(self):
        answer = self.server.nets("huge.cgd", SQL * (MOST_NETS + 5))
        self.assertEqual((answer["total"], len(answer["waiting"])), (MOST_NETS + 5, MOST_NETS - AT_ONCE))

    def test_a_zip_archive(self):
        answer = self.server.ask("unzip", file=("x.zip", ZIP))
        self.assertEqual([file["name"] for file in answer["files"]], ["a.cgd", "b.cgd"])
        for content in (b"PK\x03\x04", b"", ZIP[:-40]):
            self.assertIn("damaged", self.server.ask("unzip", file=("x.zip", content))["reason"])

    def test_atoms_of_a_net(self):
        row, = self.server.nets("x.cif", QUARTZ)["rows"]
        fields = {"file": ("x.cif", QUARTZ), "convention": "all-atoms", "choices": "[]"}
        answer = self.server.ask("atoms", **fields, block=row["block"])
        self.assertEqual([unit["text"] for unit in answer["units"]][0], "Si1: Si, 4-connected")
        self.assertIn("not drawn", self.server.ask("atoms", **fields, block=SQL.decode())["reason"])
        self.assertIn("not drawn", self.server.ask("atoms", **{**fields, "file": ("a.cgd", SQL)}, block=SQL.decode())["reason"])

    def test_fifty_files_at_once(self):
        with ThreadPoolExecutor(50) as pool:
            answers = list(pool.map(lambda k: self.server.nets(f"{k}.cgd", SQL.replace(b"EDGES", b"NAME n%d\nEDGES" % k)),
                                    range(50)))
        self.assertEqual([answer["rows"][0]["name"] for answer in answers], [f"n{k}" for k in range(50)])

    def test_clients_that_go_away(self):
        body, kind = form_of({"file": ("a.cgd", SQL * 2000), "convention": "auto", "choices": "[]"})
        for most in (40, 300, 1000, len(body) + 1000):
            for _ in range(3):
                self.server.begun("nets", body, kind, most).close()
        self.assertEqual(self.server.nets("a.cgd", SQL)["total"], 1)

    def test_words_agree_with_those_of_cif2cgd(self):
        self.assertEqual(list(CONVENTIONS), [*OF_CIF2CGD, AUTO])
        self.assertLessEqual(set(SWITCHES), set(Options.__dataclass_fields__))
        page = FILES[""][0].read_text()
        self.assertEqual(re.findall(r'<option value="([^"]+)"', page[:page.index("</select>")]), [FITTING, *CONVENTIONS])
        self.assertEqual(re.findall(r'type="checkbox" value="([^"]+)"', page), list(SWITCHES))


class Bombs(WithServer):
    """Files that would take too long or too much: each is answered with a reason, and the server goes on."""

    words = ("--seconds", 2, "--memory", 700)

    def test_files_that_take_too_long_or_too_much(self):
        for name, content in (("many.cif", many_atoms()), ("expands.cgd", many_nodes()), ("empty.cgd", b""),
                              ("deep.cif", b"data_x\nloop_\n_a\n" + b"[" * 3_000_000), ("zeros.arc", bytes(30_000_000)),
                              ("long.cif", b"data_" + b"x" * 20_000_000), ("quotes.cgd", b'"' * 20_000_000),
                              ("blocks.cif", b"data_x\n_a 1\n" * 300_000)):
            answer = self.server.nets(name, content)
            told = answer.get("reason") or answer["rows"][0]["refusal"]
            self.assertTrue(told, name)
            self.assertNotIn("Traceback", told)
        self.assertEqual(self.server.nets("a.cgd", SQL)["total"], 1)

    def test_a_huge_number_of_nets(self):
        answer = self.server.nets("huge.cgd", SQL * 400_000)
        if "reason" in answer:
            self.assertRegex(answer["reason"], "stopped")
        else:
            self.assertEqual((answer["total"], len(answer["rows"])), (400_000, AT_ONCE))

    def test_a_worker_that_is_killed(self):
        before = self.server.children()
        with ThreadPoolExecutor(1) as pool:
            waiting = pool.submit(self.server.nets, "huge.cgd", SQL * 800_000)
            wait_until(lambda: waiting.done() or self.server.children() - before)
            for pid in self.server.children() - before:
                with suppress(ProcessLookupError):
                    os.kill(pid, signal.SIGTERM)
            self.assertRegex(waiting.result()["reason"], "ended from outside|stopped")

    def test_work_ends_where_nobody_waits(self):
        before = self.server.children()
        body, kind = form_of({"file": ("huge.cgd", SQL * 800_000), "convention": "auto", "choices": "[]"})
        self.server.begun("nets", body, kind).close()
        wait_until(lambda: self.server.children() <= before, "some go on")


def many_atoms() -> bytes:
    """A CIF whose operations make millions of its atoms."""
    cell = "".join(f"_cell_length_{axis} 40\n" for axis in "abc")
    cell += "".join(f"_cell_angle_{angle} 90\n" for angle in ("alpha", "beta", "gamma"))
    columns = "".join(f"_atom_site_{word}\n" for word in ("label", "type_symbol", "fract_x", "fract_y", "fract_z"))
    atoms = "".join(f"Si{k} Si {k % 97 / 97:.4f} {k % 89 / 89:.4f} {k % 83 / 83:.4f}\n" for k in range(60_000))
    return f"data_x\n{cell}_symmetry_space_group_name_H-M 'F m -3 m'\nloop_\n{columns}{atoms}".encode()


def many_nodes() -> bytes:
    """A block CRYSTAL whose group makes hundreds of thousands of its nodes."""
    nodes = "".join(f"NODE {k} 4 {k / 3001:.5f} {k / 2003:.5f} {k / 4001:.5f}\n" for k in range(3000))
    return f"CRYSTAL\nGROUP Fd-3m\nCELL 900 900 900 90 90 90\n{nodes}END\n".encode()


class Given(unittest.TestCase):
    def test_files_of_the_command_line(self):
        server = Server(TOP / "examples/quartz.cif", TOP / "examples/dia.cgd", "--memory", memory_for_program())
        try:
            self.assertEqual(json.loads(server.request("GET", "given")[2]), ["quartz.cif", "dia.cgd"])
            self.assertEqual(server.request("GET", "given/0")[2], QUARTZ)
            self.assertEqual(server.request("GET", "given/2")[0], 404)
            archives = json.loads(server.request("GET", "archives")[2])
            self.assertIn("common", [archive["stem"] for archive in archives])
        finally:
            status, _, told = server.end()
        self.assertEqual((status, told), (0, ""))


if __name__ == "__main__":
    unittest.main()
