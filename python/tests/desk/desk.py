"""What the tests of net_desk share: the server as a user starts it, and requests with any headers."""

from __future__ import annotations

import http.client
import json
import os
import re
import shutil
import signal
import socket
import subprocess
import sys
import tempfile
import uuid
from pathlib import Path
from urllib.parse import urlsplit

from testing import PATIENCE, PROGRAM, TOP, command, need_modules, need_program

DESK = command("desk")
PLENTY = 1 << 26  # MB: a program that was compiled to find its own faults takes addresses of terabytes


def need_desk() -> None:
    """Skips the tests that follow where the server has not what it needs."""
    need_program()
    need_modules("flask", "werkzeug", "numpy", "scipy", "gemmi", "spglib")
    os.environ.setdefault("NET_TOOL", PROGRAM)


def memory_for_program() -> int:
    """MB: what is usual where the program runs with it, and else no limit."""
    script = f"ulimit -v {2 << 20}; exec {PROGRAM} same {TOP}/examples/twice.cgd"
    done = subprocess.run(["sh", "-c", script], capture_output=True, env={**os.environ, "LC_ALL": "C"})
    return 2048 if done.stdout.startswith(b"net_maps") else PLENTY


class Server:
    """net_desk as a user starts it, with the words given."""

    def __init__(self, *words: object, browser: bool = False, **settings: str) -> None:
        self.home = tempfile.mkdtemp(prefix="net_tools_test.")
        command = [sys.executable, str(DESK), *([] if browser else ["--no-browser"]), *map(str, words)]
        self.process = subprocess.Popen(
            command, stdout=subprocess.PIPE, stderr=subprocess.PIPE, text=True, start_new_session=True,
            env={**os.environ, "NET_TOOL": PROGRAM, "XDG_DATA_HOME": self.home, "PYTHONDONTWRITEBYTECODE": "1", **settings})
        self.address = self.process.stdout.readline().removeprefix("net_tool desk: ").strip()
        parts = urlsplit(self.address)
        self.host, self.path = parts.netloc, parts.path
        self.origin = f"http://{self.host}"

    @property
    def secret(self) -> str:
        """What the page is given, by which the server proves itself."""
        return re.search(rb'data-secret="([0-9a-f]{64})"', self.request("GET", "", Origin=None)[2])[1].decode()

    def request(self, method: str, path: str, body: bytes = b"", **headers: str | None) -> tuple[int, dict, bytes]:
        """Status, headers and body of an answer; the path follows the token where it does not begin with a slash."""
        given = {name.replace("_", "-"): value for name, value in headers.items()}
        sent = {"Host": self.host, "Origin": self.origin, **given}
        connection = http.client.HTTPConnection(self.host, timeout=PATIENCE)
        try:
            connection.putrequest(method, path if path.startswith("/") else self.path + path, skip_host=True,
                                  skip_accept_encoding=True)
            for name, value in sent.items():
                if value is not None:
                    connection.putheader(name, value)
            if method not in ("GET", "HEAD") and "Content-Length" not in sent and "Transfer-Encoding" not in sent:
                connection.putheader("Content-Length", str(len(body)))
            connection.endheaders(body)
            answer = connection.getresponse()
            return answer.status, dict(answer.getheaders()), answer.read()
        finally:
            connection.close()

    def begun(self, path: str, body: bytes, kind: str, most: int = 1 << 40) -> socket.socket:
        """A connection on which so many bytes of a request were sent."""
        head = (f"POST {self.path}{path} HTTP/1.1\r\nHost: {self.host}\r\nOrigin: {self.origin}\r\n"
                f"Content-Type: {kind}\r\nContent-Length: {len(body)}\r\n\r\n").encode()
        client = socket.create_connection(self.host.split(":"))
        client.sendall((head + body)[:most])
        return client

    def ask(self, path: str, **fields: object) -> dict:
        """The answer to a form, as the page sends it; a file is a pair of its name and its content."""
        body, kind = form_of(fields)
        return json.loads(self.request("POST", path, body, Content_Type=kind)[2])

    def nets(self, name: str, content: bytes, **fields: str) -> dict:
        return self.ask("nets", file=(name, content), **{"convention": "all-atoms", "choices": "[]", **fields})

    def rows(self, waiting: list[dict]) -> list[dict]:
        return self.ask("rows", nets=json.dumps(waiting))

    def card(self, net: dict) -> dict:
        return self.ask("card", net=json.dumps([net]))

    def end(self, name: int = signal.SIGINT) -> tuple[int, str, str]:
        """The status and what was printed, once a signal has ended it."""
        self.process.send_signal(name)
        return self.wait()

    def wait(self) -> tuple[int, str, str]:
        try:
            told = self.process.communicate(timeout=PATIENCE)
        except subprocess.TimeoutExpired:
            self.process.kill()
            told = self.process.communicate()
        shutil.rmtree(self.home, ignore_errors=True)
        return self.process.returncode, *told

    def children(self) -> set[int]:
        """All processes that descend from it."""
        return descendants(self.process.pid)


def descendants(pid: int) -> set[int]:
    parents: dict[int, int] = {}
    for path in Path("/proc").glob("[0-9]*/stat"):
        try:
            found = re.match(r"(\d+) \(.*\) \S (\d+)", path.read_text(), re.DOTALL)
        except OSError:
            continue
        if found:
            parents[int(found[1])] = int(found[2])
    found_ones: set[int] = set()
    layer = {pid}
    while layer:
        layer = {child for child, parent in parents.items() if parent in layer} - found_ones
        found_ones |= layer
    return found_ones


def form_of(fields: dict[str, object]) -> tuple[bytes, str]:
    """A form as browsers send it, and its kind."""
    mark = uuid.uuid4().hex
    body = b""
    for name, value in fields.items():
        file = ""
        if isinstance(value, tuple):
            file, value = f'; filename="{value[0]}"', value[1]
        content = value if isinstance(value, bytes) else str(value).encode()
        body += f'--{mark}\r\nContent-Disposition: form-data; name="{name}"{file}\r\n\r\n'.encode() + content + b"\r\n"
    return body + f"--{mark}--\r\n".encode(), f"multipart/form-data; boundary={mark}"
