"""The parts of the service together: the desk, the routes, the sockets that listen."""

from __future__ import annotations

import asyncio
import errno
import ipaddress
import os
import socket
import stat
import sys
from collections.abc import Callable
from contextlib import suppress
from pathlib import Path

from aiohttp import web

from ._access import AccessLog
from ._connections import Connections
from ._desk import SharedDesk, StartFault
from ._guards import Guard
from ._http import Routes
from ._manager import notify, passed_sockets
from ._metrics import Metrics
from ._options import Options
from ._sockets import Socket
from ._tokens import TokenFault, Tokens

_BACKLOG = 4_096
# The seconds between two looks at the memory of `sno serve`.
_LOOKS_AT_MEMORY = 0.5


class Server:
    """The service of some options."""

    def __init__(self, options: Options) -> None:
        """TokenFault or OSError is raised if the tokens can't be read, or the log can't be written."""
        self._options = options
        self._log = AccessLog(options.access_log)
        self._guard: Guard | None = None
        self._tokens = Tokens(options.token_file, options.tokens, options.max_trials_rate)
        self._metrics = Metrics()
        self._desk = SharedDesk(options, self._metrics)
        self._connections = Connections(options, self._metrics, self._desk.turns)
        self._listening: list[asyncio.Server] = []
        self._routes: Routes | None = None
        self._runner: web.AppRunner | None = None
        self._watching: list[asyncio.Task[None]] = []

    async def start(self) -> int:
        """Starts the program and listens; returns 0, or the status with which the service ends."""
        if what := _fault_of(self._options.store):
            print(f"error: --store: {what}", file=sys.stderr)
            return 4
        try:
            await self._desk.start()
        except StartFault as fault:
            status = fault.args[0]
            what = fault.args[1] if status is None else f"sno serve ended with {status}"
            print(f"error: {what}", file=sys.stderr)
            return 4 if status in (None, 0) or status < 0 else int(status)
        guard = self._guard = Guard(self._options, self._metrics, self._tokens)
        routes = self._routes = Routes(self._options, self._desk, guard, self._metrics, self._connections, self._log)
        self._runner = web.AppRunner(routes.application(), access_log=None)
        await self._runner.setup()
        try:
            self._listening = await self._listen()
        except OSError as fault:
            print(f"error: {self.address()}: {fault.strerror}", file=sys.stderr)
            await self.end()
            return 4
        self._watching = [asyncio.create_task(self._connections.watch())]
        if self._options.keep_bytes:
            self._watching.append(asyncio.create_task(self._watch_memory(self._options.keep_bytes)))
        notify(f"READY=1\nSTATUS=serving at {self.address()}")
        return 0

    async def _watch_memory(self, most: int) -> None:
        """Has the store compacted each time that `sno serve` has this much memory, or twice what it had after the last time."""
        least = most
        while True:
            await asyncio.sleep(_LOOKS_AT_MEMORY)
            if self._desk.memory() > least:
                await self._desk.compact()
                while not self._desk.is_serving():
                    await asyncio.sleep(_LOOKS_AT_MEMORY)
                await asyncio.sleep(_LOOKS_AT_MEMORY)
                least = max(most, 2 * self._desk.memory())

    async def reload(self) -> None:
        """Reads the tokens again, and closes the WebSockets of those that are gone."""
        notify("RELOADING=1")
        try:
            self._log.open()
            self._tokens.load()
        except (TokenFault, OSError) as fault:
            print(f"error: {fault}; the tokens are as before", file=sys.stderr, flush=True)
            notify("READY=1")
            return
        notify("READY=1")
        print("the tokens are read again", file=sys.stderr, flush=True)
        sockets = [each for each in self._desk.watchers if isinstance(each, Socket)]
        if self._guard:
            gone = [each.refuse() for each in sockets if not each.is_of(self._guard)]
            await asyncio.gather(*gone, return_exceptions=True)

    def address(self) -> str:
        """Where the service listens."""
        if self._options.unix:
            return f"unix:{self._options.unix}"
        host, port = self._options.listen
        if self._listening:
            name = self._listening[0].sockets[0].getsockname()
            if isinstance(name, str):
                return f"unix:{name}"
            host, port = name[:2]
        return f"http://[{host}]:{port}" if ":" in host else f"http://{host}:{port}"

    async def end(self) -> int:
        """Takes nothing more, replies to what was taken, and ends `sno serve`; returns its status."""
        notify("STOPPING=1")
        for each in self._listening:
            each.close()
        for task in self._watching:
            task.cancel()
        status = await self._desk.end()
        sockets = [each for each in self._desk.watchers if isinstance(each, Socket)]
        await asyncio.gather(*(each.close() for each in sockets), return_exceptions=True)
        if self._runner:
            await self._runner.shutdown()
            if self._runner.server:
                await self._runner.server.shutdown(2.0)
            await self._runner.cleanup()
        if self._routes:
            await self._routes.end()
        if self._options.unix:
            _remove_socket(self._options)
        return status

    async def _listen(self) -> list[asyncio.Server]:
        """Listens at the sockets that a manager has opened, or at the one that the options say."""
        loop = asyncio.get_running_loop()
        server = self._runner.server if self._runner else None
        assert server

        def connection() -> asyncio.Protocol:
            return self._connections.factory(server)

        if passed := passed_sockets():
            if not self._tokens.are_wanted() and any(_is_open(each) for each in passed):
                raise OSError(errno.EACCES, "a socket that isn't loopback takes '--token-file' or '--tokens'")
            return [await _serve_at(each, connection) for each in passed]
        if self._options.unix:
            _remove_socket(self._options)
            return [await loop.create_unix_server(connection, str(self._options.unix), backlog=_BACKLOG)]
        host, port = self._options.listen
        return [await loop.create_server(connection, host, port, backlog=_BACKLOG)]


def _is_open(passed: socket.socket) -> bool:
    """Whether others than this machine's own clients can reach a socket."""
    return passed.family != socket.AF_UNIX and not ipaddress.ip_address(passed.getsockname()[0]).is_loopback


async def _serve_at(passed: socket.socket, connection: Callable[[], asyncio.Protocol]) -> asyncio.Server:
    loop = asyncio.get_running_loop()
    if passed.family == socket.AF_UNIX:
        return await loop.create_unix_server(connection, sock=passed, backlog=_BACKLOG)
    return await loop.create_server(connection, sock=passed, backlog=_BACKLOG)


def _fault_of(store: Path) -> str | None:
    """Why no store can be at this path, if it is so: `sno serve` would be started in vain."""
    folder = store.resolve().parent
    if not folder.is_dir():
        return f"{folder} isn't a folder"
    if store.is_dir():
        return f"{store} is a folder"
    return None if os.access(folder, os.W_OK | os.X_OK) else f"{folder} can't be written"


def _remove_socket(options: Options) -> None:
    """Removes the socket of an earlier run that nobody listens at; any other file stays."""
    path = options.unix
    assert path
    with suppress(FileNotFoundError):
        if not stat.S_ISSOCK(path.lstat().st_mode):
            return
        with socket.socket(socket.AF_UNIX) as trial:
            if trial.connect_ex(str(path)) != 0:
                path.unlink()
