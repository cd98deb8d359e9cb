"""Who may ask, and what each answer tells the browser.

The page is for the browser of the one who started the server, and for no other page in it. So the address has a token,
which no other page knows; Host is tested, since a name of a stranger may lead to this machine (DNS rebinding); and so
is Origin, which a browser tells with each request that another page makes. The port in Host may be another than that
of the server, as where it is forwarded from elsewhere. The page itself may be opened from anywhere, by who knows the
token: so does the file that leads the browser to it.

The page may be open when the server has ended. So the server proves itself at each request: see `Guard.prove`."""

from __future__ import annotations

import hmac
import re
import secrets
from dataclasses import dataclass, field

from flask import Request, Response

POLICY = ("default-src 'none'; script-src 'self'; style-src 'self'; connect-src 'self'; img-src 'self' blob:; "
          "base-uri 'none'; form-action 'none'; frame-ancestors 'none'")
HEADERS = {"Content-Security-Policy": POLICY, "X-Content-Type-Options": "nosniff", "Referrer-Policy": "same-origin",
           "Cross-Origin-Opener-Policy": "same-origin", "Cross-Origin-Resource-Policy": "same-origin",
           "X-Frame-Options": "DENY", "Cache-Control": "no-store"}
SAFE = ("GET", "HEAD")
LOCAL = re.compile(r"(?:127\.0\.0\.1|localhost|\[::1\])(?::[1-9]\d{0,4})?", re.ASCII)  # names of this machine
NONCE = re.compile(r"[0-9a-f]{32}", re.ASCII)
OWN = ("same-origin", "none")  # what Sec-Fetch-Site tells of a request of the page, or of the address that was typed
MOST_SENT = 128 * 2**20  # bytes of one request: a file of the largest size with a block, or blocks as JSON has them
TOO_MUCH = f"more than {MOST_SENT >> 20} MB are sent at once"


class Rejected(Exception):
    """A request that is not answered: its status, and the reason."""

    def __init__(self, status: int, reason: str) -> None:
        super().__init__(reason)
        self.status, self.reason = status, reason


@dataclass
class Guard:
    """The port of the server, the token of its address, and the secret by which the server proves itself to its page."""

    port: int
    token: str = field(default_factory=lambda: secrets.token_urlsafe(24))
    secret: bytes = field(default_factory=lambda: secrets.token_bytes(32))

    def check(self, request: Request) -> None:
        """Raises Rejected where the request is not of the page. It comes before anything is read of a body."""
        host = request.headers.get("Host", "")
        if LOCAL.fullmatch(host) is None:
            raise Rejected(403, "the request is for another host")
        origin = request.headers.get("Origin")
        if origin is not None and origin != f"http://{host}":
            raise Rejected(403, "the request is of another page")
        if request.headers.get("Sec-Fetch-Site", "same-origin") not in OWN and not is_opened(request):
            raise Rejected(403, "the request is of another page")
        if not self.has_token(request.path):
            raise Rejected(403, "the address has not the token that net_tool desk printed")
        if request.method in SAFE:
            return
        if origin is None:
            raise Rejected(403, "the request has no Origin")
        if request.content_length is None or "Transfer-Encoding" in request.headers:
            raise Rejected(411, "the request does not tell its length")
        if request.content_length > MOST_SENT:
            raise Rejected(413, TOO_MUCH)

    def has_token(self, path: str) -> bool:
        """Whether the first part of a path is the token."""
        given = path.split("/")[1] if path.count("/") > 1 else ""
        return hmac.compare_digest(given.encode(), self.token.encode())


    def prove(self, request: Request, response: Response) -> None:
        """Adds the proof that the answer is of this server, for the nonce of a request that has the token. The secret came
        with the page and is never sent again, so that who takes the port later cannot prove anything."""
        nonce = request.headers.get("Nonce", "")
        if NONCE.fullmatch(nonce) and self.has_token(request.path):
            asked = f"{nonce} {request.method} {request.path.split('/', 2)[2]} {response.status_code}\n".encode()
            response.headers["Proof"] = hmac.digest(self.secret, asked + response.get_data(), "sha256").hex()


def is_opened(request: Request) -> bool:
    """Whether a window goes to the page, as by a link or a file that leads there; not a frame, nor a script."""
    return (request.method == "GET" and request.path.count("/") == 2 and request.path.endswith("/")
            and request.headers.get("Sec-Fetch-Mode") == "navigate"
            and request.headers.get("Sec-Fetch-Dest") == "document")


def with_headers(response: Response) -> Response:
    response.headers.update(HEADERS)
    return response
