"""The connections of clients: how many there are, and how long one may keep the service waiting."""

from __future__ import annotations

import asyncio
from typing import Any, cast

from aiohttp import web
from aiohttp.http_exceptions import HttpProcessingError
from aiohttp.web_protocol import RequestHandler

from ._accounts import Account
from ._guards import Bucket
from ._metrics import Metrics
from ._options import Options
from ._turns import Queue, Turns

_FULL = (
    b"HTTP/1.1 503 Service Unavailable\r\nContent-Type: application/json\r\nRetry-After: 1\r\nConnection: close\r\n"
    b'Content-Length: 28\r\n\r\n{"error":"too many clients"}'
)


class Connection(RequestHandler):
    """A connection, with what its client may still send."""

    def __init__(
        self, connections: Connections, server: web.Server, bucket: Bucket, queue: Queue, **given: Any
    ) -> None:
        super().__init__(server, access_log=None, lingering_time=2.0, **given)
        self.bucket = bucket
        # Its lines, of requests or of its WebSocket.
        self.queue = queue
        self.waits_since: float | None = None
        self.unread = 0
        self._connections = connections
        self._is_counted = False

    def connection_made(self, transport: asyncio.BaseTransport) -> None:
        if not self._connections.add(self):
            self._force_close = True
            writer = cast(asyncio.Transport, transport)
            writer.write(_FULL)
            writer.close()
            return
        self._is_counted = True
        super().connection_made(transport)

    def connection_lost(self, exc: BaseException | None) -> None:
        if self._is_counted:
            self._connections.discard(self)
        self.queue.close()
        super().connection_lost(exc)

    def waits(self) -> bool:
        """Whether the client has to do something: to send a whole head of a request, or to read what was written. A
        WebSocket looks after itself."""
        if self._upgrade:
            return False
        if self._current_request is None:
            return True
        unread = self.transport.get_write_buffer_size() if self.transport else 0
        before, self.unread = self.unread, unread
        return 0 < before <= unread

    def log_exception(self, *args: Any, **given: Any) -> None:
        """Says nothing of requests that aren't HTTP: anyone could fill the log with them."""
        if not isinstance(given.get("exc_info"), HttpProcessingError):
            super().log_exception(*args, **given)

    def cut(self) -> None:
        if self.transport is not None:
            self.transport.abort()


class Connections:
    """All connections. Those that keep the service waiting for too long are cut off."""

    def __init__(self, options: Options, metrics: Metrics, turns: Turns) -> None:
        self._options, self._metrics, self._turns = options, metrics, turns
        self._all: set[Connection] = set()

    def add(self, connection: Connection) -> bool:
        """Adds a connection, unless there are too many."""
        if len(self._all) >= self._options.max_clients:
            self._metrics.cut_off["too many clients"] += 1
            return False
        self._all.add(connection)
        return True

    def discard(self, connection: Connection) -> None:
        self._all.discard(connection)

    def count(self) -> int:
        return len(self._all)

    def factory(self, server: web.Server) -> Connection:
        """A connection of this server."""
        bucket = Bucket(self._options.max_rate)
        given = {"loop": asyncio.get_running_loop(), "keepalive_timeout": self._options.patience}
        queue = Queue(self._turns)
        # Of itself a connection may do everything; with tokens each request says whose it is.
        queue.account = Account(self._options.max_trials_rate)
        return Connection(self, server, bucket, queue, **given)

    async def watch(self) -> None:
        """Looks at all connections again and again."""
        while True:
            await asyncio.sleep(min(1.0, self._options.patience / 4))
            now = asyncio.get_running_loop().time()
            for connection in list(self._all):
                self._look_at(connection, now)

    def _look_at(self, connection: Connection, now: float) -> None:
        if not connection.waits():
            connection.waits_since = None
        elif connection.waits_since is None:
            connection.waits_since = now
        elif now - connection.waits_since > self._options.patience:
            self._metrics.cut_off["idle"] += 1
            connection.cut()
