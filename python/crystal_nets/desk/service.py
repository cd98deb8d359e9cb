"""The server: Werkzeug's, with a thread for each request, on this machine alone."""

from __future__ import annotations

import socket
import sys
from collections.abc import Callable, Sequence
from pathlib import Path
from typing import Any

from flask import Flask
from werkzeug.serving import ThreadedWSGIServer, WSGIRequestHandler

from ..command_line import called
from .application import application
from .connections import Connections
from .guard import Guard
from .worker import Workers

PATIENCE = 60  # seconds that a client may be silent while it sends or reads


class Handler(WSGIRequestHandler):
    """Writes nothing of requests, whose addresses have the token."""

    timeout = PATIENCE
    server_version = "net_desk"
    sys_version = ""

    def log(self, *_: object) -> None:
        pass

    def log_error(self, *_: object) -> None:
        pass


class Server(ThreadedWSGIServer):
    """Werkzeug's server with a thread for each connection, all of which have an end."""

    def __init__(self, listener: socket.socket, app: Flask, connections: Connections) -> None:
        super().__init__("127.0.0.1", listener.getsockname()[1], app, handler=Handler, fd=listener.fileno())
        self.connections = connections
        self.has_ended: Callable[[], bool] = lambda: False

    def process_request(self, request: Any, client_address: Any) -> None:
        self.connections.add(request)
        super().process_request(request, client_address)

    def shutdown_request(self, request: Any) -> None:
        self.connections.remove(request)
        super().shutdown_request(request)

    def service_actions(self) -> None:
        """What is done at each look for new connections."""
        if self.has_ended():
            raise KeyboardInterrupt
        self.connections.end_late()

    def handle_error(self, *_: object) -> None:
        """One line of what a thread could not do."""
        fault = sys.exc_info()[1]
        if not isinstance(fault, (ConnectionError, TimeoutError)):
            print(f"{called()}: a request could not be answered: {type(fault).__name__} {fault}", file=sys.stderr)


class Service:
    """The server of a socket that listens, with its workers."""

    def __init__(self, listener: socket.socket, workers: Workers, given: Sequence[Path] = ()) -> None:
        self.workers = workers
        port = listener.getsockname()[1]
        self.guard = Guard(port)
        connections = Connections()
        self._server = Server(listener, application(self.guard, workers, connections, given), connections)
        self._listener = listener

    @property
    def address(self) -> str:
        return f"http://127.0.0.1:{self.guard.port}/{self.guard.token}/"

    def serve(self, has_ended: Callable[[], bool] = lambda: False) -> None:
        """Answers requests until it is interrupted or has ended, or `stop` is called from another thread."""
        self._server.has_ended = has_ended
        self._server.serve_forever(poll_interval=0.2)

    def stop(self) -> None:
        self._server.shutdown()

    def __enter__(self) -> Service:
        return self

    def __exit__(self, *_: object) -> None:
        self.workers.close()
        self._server.server_close()
        self._listener.close()
