"""The addresses of the page. All of them begin with the token."""

from __future__ import annotations

import json
from collections.abc import Callable, Sequence
from contextlib import suppress
from pathlib import Path
from typing import IO, Any

from flask import Flask, Request, Response, request
from werkzeug.exceptions import BadRequest, HTTPException

from ..files import content_of_file
from ..options import CONVENTION_NAMES, SWITCHES
from ..pictures.text import PALETTE
from ..provenance import Provenance
from . import questions
from .connections import Connections
from .files import FITTING, MOST_BYTES, shown_name
from .guard import MOST_SENT, Guard, Rejected, with_headers
from .worker import ClientGone, NoAnswer, Workers

PAGE = Path(__file__).with_name("page")
VIEWER = Path(__file__).resolve().parents[1] / "pictures/viewer.js"
FILES = {"": (PAGE / "desk.html", "text/html"), "desk.css": (PAGE / "desk.css", "text/css"),
         **{file.name: (file, "text/javascript") for file in PAGE.glob("*.js")},
         "viewer.js": (VIEWER, "text/javascript"), "icon.svg": (PAGE / "icon.svg", "image/svg+xml")}
MOST_ROWS = 1000  # of one question
MOST_FIELDS = 16  # of one form; the page sends four
MOST_READ_AWAY = 2**32  # bytes of a request that is too large
TOO_LARGE = f"the file is larger than {MOST_BYTES >> 20} MB"
GONE = 499  # nobody reads it
NOT_THERE = "there is nothing at this address"


class Asked(Request):
    """A request with the limits of this page, whatever those of Flask and Werkzeug are: they differ by version, and the
    least, of 500,000 bytes of a field, is less than a block may have. That of all bytes is what the guard tests."""

    max_content_length = MOST_SENT
    max_form_memory_size = MOST_SENT
    max_form_parts = MOST_FIELDS


def application(guard: Guard, workers: Workers, connections: Connections, given: Sequence[Path] = ()) -> Flask:
    """The application that serves the page, and the files that were named at the start."""
    app = Flask("net_desk", static_folder=None)
    app.request_class = Asked
    app.before_request(lambda: check(guard, connections))
    app.after_request(lambda answer: with_headers(proved(guard, answer)))
    app.register_error_handler(Rejected, lambda fault: told(fault.reason, fault.status))
    app.register_error_handler(NoAnswer, lambda fault: told(str(fault), 200))
    app.register_error_handler(ClientGone, lambda _: told("nobody waits for the answer", GONE))
    app.register_error_handler(HTTPException, lambda fault: told(reason_of_fault(fault), fault.code or 500))
    app.register_error_handler(Exception, lambda fault: told(f"net_desk failed: {type(fault).__name__} {fault}", 500))
    add_pages(app, guard)
    add_given(app, given)
    add_questions(app, workers, connections)
    return app


def check(guard: Guard, connections: Connections) -> None:
    """Raises Rejected where the request is not of the page, or too large; one that is of the page has its time. What is
    too large is read away, since who sends yet hears of no answer."""
    try:
        guard.check(request)
    except Rejected as fault:
        if fault.status == 413:
            read_away(request.environ["wsgi.input"], min(request.content_length or 0, MOST_READ_AWAY))
        raise
    connections.has_shown_token(request.environ.get("werkzeug.socket"))


def read_away(stream: IO[bytes], size: int) -> None:
    with suppress(OSError):
        while size > 0 and (part := stream.read(min(size, 1 << 20))):
            size -= len(part)


def proved(guard: Guard, answer: Response) -> Response:
    guard.prove(request, answer)
    return answer


def told(reason: str, status: int) -> Response:
    return Response(json.dumps({"reason": reason}), status, mimetype="application/json")


def reason_of_fault(fault: HTTPException) -> str:
    """The reason of a fault that Flask finds, in one line."""
    known = {404: NOT_THERE, 405: "this address is not asked in this way",
             413: f"the form has more than {MOST_FIELDS} fields"}
    return known.get(fault.code or 0, str(fault.description))


def add_pages(app: Flask, guard: Guard) -> None:
    def page(token: str, name: str = "") -> Response:
        if name not in FILES:
            return told(NOT_THERE, 404)
        file, kind = FILES[name]
        content = file.read_text(encoding="utf-8")
        if not name:
            for word, value in (("PALETTE", " ".join(PALETTE)), ("MOST_BYTES", str(MOST_BYTES)), ("SECRET", guard.secret.hex())):
                content = content.replace(f"@{word}@", value)
        return Response(content, mimetype=kind)

    def proof(token: str) -> Response:
        return Response("{}", mimetype="application/json")

    app.add_url_rule("/<token>/", "page", page)
    app.add_url_rule("/<token>/<name>", "part_of_page", page)
    app.add_url_rule("/<token>/proof", "proof", proof)


def add_given(app: Flask, given: Sequence[Path]) -> None:
    """The files of the command line: by their numbers, so that no path comes from outside."""

    def names(token: str) -> Response:
        return Response(json.dumps([shown_name(path.name) for path in given]), mimetype="application/json")

    def content(token: str, number: int) -> Response:
        if number >= len(given):
            return told("there is no such file", 404)
        try:
            content = content_of_file(given[number], MOST_BYTES + 1)
        except OSError as fault:
            return told(f"it cannot be read: {fault.strerror}", 404)
        return told(TOO_LARGE, 413) if len(content) > MOST_BYTES else Response(content, mimetype="application/octet-stream")

    app.add_url_rule("/<token>/given", "given", names)
    app.add_url_rule("/<token>/given/<int:number>", "given_file", content)


def add_questions(app: Flask, workers: Workers, connections: Connections) -> None:
    def ask(question: Callable[..., Any], *arguments: Any) -> Response:
        client = request.environ.get("werkzeug.socket")
        connections.is_read(client)
        return Response(workers.ask(question, *arguments, client=client), mimetype="application/json")

    def archives(token: str) -> Response:
        return ask(questions.archives)

    def nets(token: str) -> Response:
        return ask(questions.nets, *file_of_form(), options_of_form())

    def unzip(token: str) -> Response:
        return ask(questions.unzip, file_of_form()[1])

    def rows(token: str) -> Response:
        return ask(questions.rows, nets_of_form("nets"))

    def card(token: str) -> Response:
        return ask(questions.card, net_of_form())

    def topology(token: str) -> Response:
        return ask(questions.topology, net_of_form())

    def atoms(token: str) -> Response:
        return ask(questions.atoms, *file_of_form(), options_of_form(), text("block").encode())

    def pair(token: str) -> Response:
        return ask(questions.pair, text("one").encode(), text("other").encode())

    def crystal(token: str) -> Response:
        return ask(questions.crystal, text("block").encode(), text("name"), text("kind"))

    app.add_url_rule("/<token>/archives", "archives", archives)
    for name, work in (("nets", nets), ("unzip", unzip), ("rows", rows), ("card", card),
                       ("topology", topology), ("atoms", atoms), ("pair", pair), ("crystal", crystal)):
        app.add_url_rule(f"/<token>/{name}", name, work, methods=["POST"])


def text(name: str) -> str:
    """A field of the form."""
    value = request.form.get(name)
    if value is None:
        raise BadRequest(f"the form has no field {name}")
    return value.replace("\r\n", "\n").encode(errors="replace").decode()  # a browser sends each line end as two bytes


def file_of_form() -> tuple[str, bytes]:
    """The name of the file, as it is shown, and its content."""
    file = request.files.get("file")
    if file is None:
        raise BadRequest("the form has no file")
    content = file.read(MOST_BYTES + 1)
    if len(content) > MOST_BYTES:
        raise Rejected(413, TOO_LARGE)
    return shown_name(file.filename or ""), content


def json_of_form(name: str) -> Any:
    try:
        return json.loads(text(name))
    except (ValueError, RecursionError):
        raise BadRequest(f"{name} is no JSON") from None


def list_of_texts(name: str) -> list[str]:
    values = json_of_form(name)
    if not isinstance(values, list) or not all(isinstance(value, str) for value in values):
        raise BadRequest(f"{name} is no list of texts")
    return values


def nets_of_form(name: str, most: int = MOST_ROWS) -> list[dict[str, Any]]:
    """Nets as the page was told of them: blocks that wait to be read, or nets with their provenance."""
    items = json_of_form(name)
    if not isinstance(items, list) or not 1 <= len(items) <= most or not all(isinstance(item, dict) for item in items):
        raise BadRequest(f"{name} is no list of nets")
    try:
        for item in items:
            check_net(item)
    except (ValueError, TypeError, KeyError, OverflowError, RecursionError):
        raise BadRequest(f"{name} has a net that is not as it was sent") from None
    return items


def net_of_form() -> dict[str, Any]:
    """A net that was read, as the page was told of it."""
    item, = nets_of_form("net", most=1)
    if "text" in item:
        raise BadRequest("net is a block that waits to be read")
    return item


def check_net(item: dict[str, Any]) -> None:
    """Raises one of several faults where a net is not as the page was told of it."""
    if "text" in item:
        if not isinstance(item["text"], str) or type(item["line"]) is not int or item["line"] < 1:
            raise ValueError("no block")
        return
    if not all(isinstance(item[part], str) for part in ("name", "block", "refusal")):
        raise ValueError("no net")
    Provenance.from_dict(item["provenance"])


def options_of_form() -> dict[str, Any]:
    """How structures are read: the convention, and what is ticked."""
    convention = text("convention")
    if convention not in (FITTING, *CONVENTION_NAMES):
        raise BadRequest("there is no such convention")
    ticked = list_of_texts("choices")
    if not set(ticked) <= SWITCHES.keys():
        raise BadRequest("there is no such choice")
    return {"convention": convention, **{name: True for name in ticked}}
