"""The open connections: who has not shown the token yet has few of them and little time, and each request has an end.

On one machine all clients have one address. So what tells the owner's browser from others is the token alone: of the
connections that have not shown it, some are kept, and the oldest goes where one more comes."""

from __future__ import annotations

import math
import socket
import threading
import time
from contextlib import suppress
from dataclasses import dataclass, field

MOST_STRANGERS = 64    # connections that have not shown the token
SECONDS_TO_ASK = 10.0  # until a connection has shown it
SECONDS_TO_SEND = 120.0  # until a request that has it is there as a whole


@dataclass
class Entry:
    """A connection, until when it may go on as it does, and whether it has shown the token."""

    client: socket.socket
    until: float
    is_known: bool = False


@dataclass
class Connections:
    """All open connections. Threads of the server share it."""

    _entries: dict[int, Entry] = field(default_factory=dict)  # by the file number, oldest first
    _lock: threading.Lock = field(default_factory=threading.Lock)

    def add(self, client: socket.socket) -> None:
        """A new connection; the oldest that has not shown the token is ended, where there are too many."""
        with self._lock:
            strangers = [entry for entry in self._entries.values() if not entry.is_known]
            for entry in strangers[:max(0, len(strangers) + 1 - MOST_STRANGERS)]:
                self._entries.pop(entry.client.fileno(), None)
                end(entry.client)
            self._entries[client.fileno()] = Entry(client, time.monotonic() + SECONDS_TO_ASK)

    def remove(self, client: socket.socket) -> None:
        """The connection is over. It is to be called before its file number is free."""
        with self._lock:
            entry = self._entries.get(client.fileno())
            if entry is not None and entry.client is client:
                del self._entries[client.fileno()]

    def has_shown_token(self, client: socket.socket | None) -> None:
        """From now on the whole request has its time."""
        self._set(client, SECONDS_TO_SEND)

    def is_read(self, client: socket.socket | None) -> None:
        """The request is there: how long its answer may take, the limits of its worker say."""
        self._set(client, math.inf)

    def _set(self, client: socket.socket | None, seconds: float) -> None:
        with self._lock:
            entry = self._entries.get(client.fileno()) if client is not None else None
            if entry is not None:
                entry.until, entry.is_known = time.monotonic() + seconds, True

    def end_late(self) -> None:
        """Ends those whose time is over."""
        now = time.monotonic()
        with self._lock:
            for number, entry in list(self._entries.items()):
                if entry.until < now:
                    del self._entries[number]
                    end(entry.client)


def end(client: socket.socket) -> None:
    """Its thread reads the end of the connection, and closes it."""
    with suppress(OSError):
        client.shutdown(socket.SHUT_RDWR)
