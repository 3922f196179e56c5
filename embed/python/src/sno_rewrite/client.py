"""The client of a service (`nomyake-service`), for asyncio. It needs aiohttp; Debian has it as python3-aiohttp.

    async with Client("http://127.0.0.1:8417") as client:
        entry = await client.submit("T", "'cat'", "'dog'")
        async for entry in client.watch(0):
            print(entry)
"""

from __future__ import annotations

import asyncio
import json
from collections.abc import AsyncIterator
from types import TracebackType
from typing import Any
from urllib.parse import quote

import aiohttp
from yarl import URL

from ._lines import DeskError, DeskTimeout, Reply
from ._lines import entries, excerpt, result, statement

UNKNOWN, NOT_PERFORMED = "outcome unknown", "not performed"
# How long is waited before the next try of a connection.
_FIRST_DELAY, _LAST_DELAY = 0.05, 2.0

# What a connection that is lost, or can't be made, raises: some versions of aiohttp raise the system's own exceptions.
_LOST = aiohttp.ClientConnectionError, aiohttp.WSServerHandshakeError, ConnectionError, TimeoutError

# The status of a refusal that may be another at the next try; each other below 500 stays what it is, as that of a wrong token.
_TOO_MANY = 429

_dumps = json.JSONEncoder(separators=(",", ":")).encode


class OutcomeUnknown(DeskError):
    """The service lost the desk, or this client the service, before the reply came. The entry is in the journal at or
    after the index `since`, or the statement wasn't performed. `since` is None if no index is known."""

    def __init__(self, since: int | None = None) -> None:
        super().__init__(UNKNOWN)
        self.since = since


class NotPerformed(DeskError):
    """The service has no desk at the moment, or is ending. The statement was not performed: it may be sent again."""


class Changed(DeskError):
    """A text that was to be replaced has another version; `version` is that one."""

    def __init__(self, version: int) -> None:
        super().__init__("changed")
        self.version = version


def _result(reply: Reply) -> Reply:
    """The reply without its id. An error of the service raises its own exception."""
    if reply.get("error") == UNKNOWN:
        raise OutcomeUnknown(reply.get("since"))
    if reply.get("error") == NOT_PERFORMED:
        raise NotPerformed(NOT_PERFORMED)
    return result(reply)


class Client:
    """A client of one service. Statements, reads and entries go over one WebSocket: those of many tasks that come
    together are one message. A lost connection is made again at the next call; calls under way raise OutcomeUnknown.
    """

    def __init__(
        self, url: str, *, token: str | None = None, unix: str | None = None, timeout: float | None = 60.0
    ) -> None:
        """`url` is as `http://127.0.0.1:8417`. With `unix`, the path of a socket, only its host counts."""
        self._url, self._unix, self.timeout = url.rstrip("/"), unix, timeout
        self._headers = {} if token is None else {"Authorization": f"Bearer {token}"}
        self._session: aiohttp.ClientSession | None = None
        self._socket: aiohttp.ClientWebSocketResponse | None = None
        self._tasks: list[asyncio.Task[None]] = []
        self._opening = asyncio.Lock()
        self._waiting: dict[int, asyncio.Future[Reply]] = {}
        self._lines: list[str] = []
        self._has_lines = asyncio.Event()
        self._number = 0

    async def __aenter__(self) -> Client:
        await self._open()
        return self

    async def __aexit__(
        self, kind: type[BaseException] | None, error: BaseException | None, trace: TracebackType | None
    ) -> None:
        await self.close()

    async def submit(
        self,
        text: str,
        pattern: str,
        object: str | None = None,
        *,
        anchored: bool | None = None,
        repeat: int | None = None,
        all: bool | None = None,
        if_version: int | None = None,
        trials: int | None = None,
        bind: dict[str, str] | None = None,
        key: str | None = None,
    ) -> Reply:
        """The entry of a statement, or its `reason` if it is refused. With a key it can be sent again: it is performed once."""
        members = {"anchored": anchored, "repeat": repeat, "all": all, "if_version": if_version, "trials": trials, "key": key}
        return _result(await self._ask(statement(text, pattern, object, bind=bind, **members)))

    async def read(self, text: str, *, at: int | None = None) -> Reply:
        """The name, characters and version of a text, as it is or as it was at a version; or a `reason`."""
        return _result(await self._ask({"read": text} if at is None else {"read": text, "at": at}))

    async def since(self, index: int, *, limit: int | None = None, text: str | None = None) -> list[Reply]:
        """The entries from this index on: at most `limit`, at most 1,000, and of this text alone."""
        return entries(_result(await self._ask(excerpt(index, limit=limit, text=text))))

    async def texts(self) -> list[Reply]:
        """The names, lengths and versions of all texts."""
        found: list[Reply] = _result(await self._ask({"texts": True}))["texts"]
        return found

    async def put(self, text: str, characters: str, version: int) -> Reply:
        """Replaces a text that has this version, and returns the entry. Changed is raised if it has another one."""
        session = await self._get_session()
        headers = {"If-Match": f'"{version}"', "Content-Type": "text/plain"}
        url = URL(f"{self._url}/texts/{quote(text, safe='')}", encoded=True)
        async with session.put(url, data=characters.encode(), headers=headers) as response:
            reply: Reply = await response.json()
        if response.status == 412:
            raise Changed(reply["version"])
        return _result(reply)

    async def watch(self, index: int) -> AsyncIterator[Reply]:
        """Each entry from this index on, in order, none left out and none twice. A lost connection is made again. DeskError is
        raised if the service refuses the connection, as for a wrong token."""
        delay = _FIRST_DELAY
        while True:
            try:
                async for entry in self._watch_once(index):
                    index, delay = entry["entry"] + 1, _FIRST_DELAY
                    yield entry
            except _LOST as fault:
                if isinstance(fault, aiohttp.WSServerHandshakeError) and fault.status < 500 and fault.status != _TOO_MANY:
                    raise DeskError(f"{fault.status} {fault.message}") from None
            await asyncio.sleep(delay)
            delay = min(2 * delay, _LAST_DELAY)

    async def close(self) -> None:
        """Ends the connection. Calls under way raise OutcomeUnknown."""
        for task in self._tasks:
            task.cancel()
        if self._session:
            await self._session.close()
        self._lost()
        self._session = None

    async def _watch_once(self, index: int) -> AsyncIterator[Reply]:
        session = await self._get_session()
        async with session.ws_connect(f"{self._url}/ws", max_msg_size=0, heartbeat=20.0) as socket:
            await socket.send_str(_dumps({"watch": index}))
            async for message in socket:
                if message.type is not aiohttp.WSMsgType.TEXT:
                    return
                for line in message.data.split("\n"):
                    members = json.loads(line)
                    if "watched" in members:
                        yield members["watched"]
                    elif "error" in members:
                        raise DeskError(members["error"])

    async def _get_session(self) -> aiohttp.ClientSession:
        if self._session is None:
            connector = aiohttp.UnixConnector(self._unix) if self._unix else None
            timeout = aiohttp.ClientTimeout(total=self.timeout)
            self._session = aiohttp.ClientSession(connector=connector, headers=self._headers, timeout=timeout)
        return self._session

    async def _open(self) -> None:
        """Makes the connection, if there is none."""
        async with self._opening:
            if self._socket is not None and not self._socket.closed:
                return
            session = await self._get_session()
            for task in self._tasks:
                task.cancel()
            # Calls over the connection before this one may still wait.
            self._lost()
            self._socket = await session.ws_connect(f"{self._url}/ws", max_msg_size=0, heartbeat=20.0)
            self._lines = []
            jobs = self._send_lines(self._socket), self._take_replies(self._socket)
            self._tasks = [asyncio.create_task(job) for job in jobs]

    async def _ask(self, members: Reply) -> Reply:
        if self._socket is None or self._socket.closed:
            try:
                await self._open()
            except (aiohttp.ClientError, *_LOST) as fault:
                raise NotPerformed(f"{NOT_PERFORMED}: {fault}") from None
        self._number += 1
        number = self._number
        line = _dumps({**members, "id": number})
        future: asyncio.Future[Reply] = asyncio.get_running_loop().create_future()
        self._waiting[number] = future
        self._lines.append(line)
        self._has_lines.set()
        try:
            async with asyncio.timeout(self.timeout):
                return await future
        except TimeoutError:
            raise DeskTimeout(f"no reply in {self.timeout} seconds") from None
        finally:
            self._waiting.pop(number, None)

    async def _send_lines(self, socket: aiohttp.ClientWebSocketResponse) -> None:
        """Sends the lines of all calls that came since the last message as one."""
        while True:
            await self._has_lines.wait()
            self._has_lines.clear()
            lines, self._lines = self._lines, []
            try:
                await socket.send_str("\n".join(lines))
            except ConnectionError:
                return

    async def _take_replies(self, socket: aiohttp.ClientWebSocketResponse) -> None:
        async for message in socket:
            if message.type is not aiohttp.WSMsgType.TEXT:
                break
            for line in message.data.split("\n"):
                self._give(json.loads(line))
        self._lost()

    def _give(self, reply: Reply) -> None:
        if "service" in reply:
            return
        future = self._waiting.pop(reply.get("id", -1), None)
        if future is not None and not future.done():
            future.set_result(reply)

    def _lost(self) -> None:
        """All calls under way have an unknown outcome."""
        waiting, self._waiting = self._waiting, {}
        for future in waiting.values():
            if not future.done():
                future.set_exception(OutcomeUnknown())
