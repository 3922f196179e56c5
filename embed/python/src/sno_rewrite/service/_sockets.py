"""WebSockets: lines in, replies out, and entries for those who watch."""

from __future__ import annotations

import asyncio
from collections import deque
from collections.abc import Iterator
from typing import Any

from aiohttp import WSMsgType, web

from ._accounts import READ
from ._desk import NOT_ALLOWED, SharedDesk
from ._guards import Bucket, Guard, take_account
from ._lines import identity_of, members_of, refused
from ._metrics import Metrics
from ._options import Options
from ._turns import Queue

# Lines of a client that are put into its queue together; the others wait in their messages.
_AT_ONCE = 64
# Bytes of messages that are received before the one that came first is done, and of one that is sent.
_MOST_AHEAD = 65_536
_MESSAGE = 65_536
# Entries of the first page that is read for a watcher, and the bytes and the entries that further ones have.
_PAGE, _PAGE_BYTES, _LONGEST_PAGE = 10, 262_144, 100
# How long a client waits at least that is past its rate.
_SHORTEST_PAUSE = 0.01
TOO_SLOW, NO_TOKEN, GOING_AWAY, NOT_TEXT = 4008, 4001, 1001, 1003


def _lines_of(message: str) -> Iterator[str]:
    """The lines of a message that aren't empty."""
    at = 0
    while at < len(message):
        end = message.find("\n", at)
        end = len(message) if end < 0 else end
        if end > at:
            yield message[at:end]
        at = end + 1


class Socket:
    """One client. Its queue takes lines of its messages as there is room. What it gets is in a list that its writer empties; it
    watches by an index into the journal, so that a slow one takes no memory of its own for entries."""

    def __init__(self, desk: SharedDesk, options: Options, metrics: Metrics, bucket: Bucket, queue: Queue) -> None:
        self._desk, self._options, self._metrics, self._bucket = desk, options, metrics, bucket
        self._queue = queue
        self._socket = web.WebSocketResponse(
            max_msg_size=options.max_body, compress=False, heartbeat=options.patience, protocols=()
        )
        # Messages that aren't begun, with their bytes, and the lines that are left of the one that is.
        self._messages: deque[str] = deque()
        self._ahead = 0
        self._lines: Iterator[str] = iter(())
        self._began = 0.0
        self._is_paused = False
        self._waiting: deque[bytes] = deque()
        self._under_way = 0
        self._next: int | None = None
        self._page = _PAGE
        # Whether it has once had all entries there were: from then on it may not lag.
        self._is_live = False
        self._code = 1000
        self._is_gone = False
        self._has_work, self._has_room = asyncio.Event(), asyncio.Event()

    def take(self, reply: bytes) -> None:
        self._waiting.append(reply)
        self._under_way -= 1

    def notice(self, line: bytes) -> None:
        self._waiting.append(line)
        self._queue.owe(len(line))

    def wake(self) -> None:
        self._has_work.set()
        self.feed()

    def is_watching(self) -> bool:
        return self._next is not None

    async def serve(self, request: web.Request, guard: Guard) -> web.WebSocketResponse:
        """Serves a client until it goes, is cut off, or the service ends."""
        await self._socket.prepare(request)
        if guard.needs_token(request) and not await self._has_token(request, guard):
            await self._socket.close(code=NO_TOKEN, message=b"token")
            return self._socket
        self.notice(self._desk.notice())
        self._desk.watchers.add(self)
        writer = asyncio.create_task(self._write(request))
        self._queue.feed = self.feed
        self.wake()
        try:
            await self._read()
        finally:
            self._desk.watchers.discard(self)
            writer.cancel()
            self._drop()
        await self._socket.close(code=self._code)
        return self._socket

    async def close(self) -> None:
        """Ends the connection, after what waits was sent."""
        deadline = asyncio.get_running_loop().time() + min(2.0, self._options.patience)
        while (self._waiting or self._under_way) and asyncio.get_running_loop().time() < deadline:
            await asyncio.sleep(0.01)
        self._code = GOING_AWAY
        await self._socket.close(code=GOING_AWAY)

    async def _has_token(self, request: web.Request, guard: Guard) -> bool:
        """Whether the first message has the token."""
        try:
            async with asyncio.timeout(self._options.patience):
                message = await self._socket.receive()
        except TimeoutError:
            return False
        if message.type is not WSMsgType.TEXT:
            return False
        members = members_of(message.data)
        account = guard.tokens.account(members.get("token")) if members is not None else None
        if account is not None:
            take_account(request, account)
        return account is not None

    def is_of(self, guard: Guard) -> bool:
        """Whether its token is still good."""
        return not guard.tokens.are_wanted() or guard.tokens.has(self._queue.account)

    async def refuse(self) -> None:
        """Ends the connection, since its token isn't good any more."""
        self._code = NO_TOKEN
        await self._socket.close(code=NO_TOKEN, message=b"token")

    async def _read(self) -> None:
        """Receives messages while there is room, also beside lines that wait: so it is seen at once if the client goes."""
        async for message in self._socket:
            if message.type is not WSMsgType.TEXT:
                await self._socket.close(code=NOT_TEXT, message=b"lines are text")
                return
            self._messages.append(message.data)
            self._ahead += len(message.data)
            self.feed()
            while not self._is_gone and self._ahead > _MOST_AHEAD:
                self._has_room.clear()
                await self._has_room.wait()

    def feed(self) -> None:
        """Puts lines into the queue while there is room, and the client's rate allows it."""
        if self._is_paused or self._queue.is_closed or self._queue.is_full():
            return
        room = min(_AT_ONCE - len(self._queue.waiting), self._options.max_lines - self._under_way)
        count = 0
        while count < room:
            line = next(self._lines, None)
            if line is not None:
                if not count:
                    # The line that goes past the rate is taken before the wait.
                    room = min(room, self._bucket.room() + 1)
                self._take_line(line)
                count += 1
            elif self._messages:
                self._begin()
            else:
                break
        if count and (seconds := self._bucket.wait_for(count)):
            self._is_paused = True
            asyncio.get_running_loop().call_later(max(seconds, _SHORTEST_PAUSE), self._resume)

    def _begin(self) -> None:
        """Begins with the next message."""
        message = self._messages.popleft()
        self._ahead -= len(message)
        self._has_room.set()
        self._lines, self._began = _lines_of(message), asyncio.get_running_loop().time()

    def _take_line(self, line: str) -> None:
        members = members_of(line)
        if members is not None and "watch" in members:
            self.notice(self._watch(members))
            self._has_work.set()
            return
        self._under_way += 1
        self._desk.put(self._queue, self, line, members, self._began)

    def _resume(self) -> None:
        self._is_paused = False
        self.feed()

    def _drop(self) -> None:
        """Drops all lines that wait: the client is gone."""
        self._is_gone = True
        self._queue.close()
        left = sum(1 for _ in self._lines) + sum(1 for message in self._messages for _ in _lines_of(message))
        self._messages.clear()
        self._metrics.lines["not performed"] += left

    def _watch(self, members: dict[str, Any]) -> bytes:
        """Begins or ends to watch, and returns the reply."""
        index, identity = members["watch"], identity_of(members)
        if READ not in self._queue.account.rights:
            return refused(NOT_ALLOWED, identity)
        if index is None:
            self._next = None
            return _with_identity(b'{"watching":null}', identity)
        if type(index) is not int or not 0 <= index <= self._desk.journal.next:
            return refused("bad index", identity, next=self._desk.journal.next)
        if index < self._desk.journal.oldest:
            return refused("compacted", identity, first=self._desk.journal.oldest)
        self._next, self._is_live = index, False
        return _with_identity(b'{"watching":%d}' % index, identity)

    async def _write(self, request: web.Request) -> None:
        """Sends what waits, many lines in one message, and cuts off a client that doesn't take it."""
        try:
            while True:
                await self._has_work.wait()
                self._has_work.clear()
                while size := await self._send_some():
                    self._queue.read(size)
        except TimeoutError:
            self._metrics.cut_off["slow"] += 1
        except ConnectionError:
            pass
        # Nothing can be sent any more, so the reader needn't wait for room.
        self._drop()
        self._has_room.set()
        if request.transport:
            request.transport.abort()

    async def _send_some(self) -> int:
        """Sends a message of what waits, or of entries, and returns how many bytes the client has read then."""
        size = 0
        if self._waiting:
            lines: list[bytes] = []
            while self._waiting and (not lines or size + len(self._waiting[0]) <= _MESSAGE):
                lines.append(self._waiting.popleft())
                size += len(lines[-1])
            message = b"\n".join(lines).decode()
            lines.clear()
        elif self._next is None or self._next >= self._desk.journal.next:
            return 0
        else:
            message = await self._entries(self._next)
            size = len(message)
            self._queue.owe(size)
        if message:
            async with asyncio.timeout(self._options.patience):
                await self._socket.send_str(message)
        return size

    async def _entries(self, index: int) -> str:
        """A message with entries from this index on, or an empty one if they can't be read at the moment."""
        journal = self._desk.journal
        if index < journal.oldest:
            raise TimeoutError
        if index >= journal.first:
            message, self._next = journal.message(index)
            self._is_live = self._is_live or self._next == journal.next
        elif self._is_live:
            raise TimeoutError
        else:
            try:
                lines = await self._desk.page(self._queue, index, self._page)
            except ConnectionError:
                # The desk is starting again. The notice that it is up wakes this writer.
                return ""
            if self._next != index:
                self._has_work.set()
                return ""
            message, self._next = b"\n".join(lines), index + len(lines)
            self._page = max(1, min(_LONGEST_PAGE, 2 * self._page, _PAGE_BYTES * len(lines) // max(1, len(message))))
        self._metrics.watched += self._next - index
        return self._seen(message)

    def _seen(self, message: bytes) -> str:
        """What the client's account sees of a message with entries."""
        account = self._queue.account
        if not account.is_limited():
            return message.decode()
        if self._next is not None and self._next < self._desk.journal.next:
            # Others come after these, also if nothing of these is sent.
            self._has_work.set()
        return b"\n".join(line for line in message.split(b"\n") if account.sees_entry(line)).decode()


def _with_identity(line: bytes, identity: bytes | None) -> bytes:
    return line if identity is None else line[:-1] + b',"id":' + identity + b"}"
