"""Entries for clients without WebSocket: a request that waits for the next one, and a stream of events."""

from __future__ import annotations

import asyncio
import json
from collections.abc import AsyncIterator, Awaitable, Callable
from contextlib import suppress
from typing import Any

from aiohttp import web

from ._desk import SharedDesk, State

# Returns the reply to a line with these members.
Ask = Callable[[dict[str, Any]], Awaitable[bytes]]
_NONE = b'{"entries":[]'
_PAGE = 100


class Bell:
    """Rings when the journal has grown, or the desk has come or gone."""

    def __init__(self, desk: SharedDesk) -> None:
        self._desk, self._rings = desk, asyncio.Event()

    def __enter__(self) -> Bell:
        self._desk.watchers.add(self)
        return self

    def __exit__(self, *_: object) -> None:
        self._desk.watchers.discard(self)

    def wake(self) -> None:
        self._rings.set()

    def notice(self, line: bytes) -> None:
        self._rings.set()

    async def wait(self, seconds: float) -> bool:
        """Whether it rings within these seconds, or has rung since it was waited for."""
        with suppress(TimeoutError):
            async with asyncio.timeout(max(0.0, seconds)):
                await self._rings.wait()
        has_rung = self._rings.is_set()
        self._rings.clear()
        return has_rung


async def next_entries(desk: SharedDesk, ask: Ask, members: dict[str, Any], seconds: float) -> bytes:
    """The reply with the next entries, or with none if none comes within these seconds."""
    loop = asyncio.get_running_loop()
    deadline = loop.time() + seconds
    with Bell(desk) as bell:
        while True:
            before = desk.journal.next
            reply = await ask(members)
            if not reply.startswith(_NONE) or desk.state is not State.SERVING:
                return reply
            # None of those before is wanted, so they aren't looked through again.
            members["since"] = max(members["since"], before)
            if not await bell.wait(deadline - loop.time()):
                return reply


async def _events(desk: SharedDesk, bell: Bell, ask: Ask, members: dict[str, Any], patience: float) -> AsyncIterator[bytes]:
    """Each entry as an event, and from time to time a line that says nothing. It ends with the service, or if entries are gone."""
    while desk.state in (State.SERVING, State.STARTING):
        before = desk.journal.next
        found = json.loads(await ask(members)) if desk.state is State.SERVING else {}
        if "first" in found:
            yield b"event: compacted\ndata: %d\n\n" % found["first"]
            return
        entries = found.get("entries", [])
        if entries:
            rows = [b"id: %d\ndata: %b\n\n" % (each["entry"], json.dumps(each).encode()) for each in entries]
            yield b"".join(rows)
        seen = found.get("next", entries[-1]["entry"] + 1 if entries else before if "entries" in found else 0)
        is_further = seen > members["since"]
        members["since"] = max(members["since"], seen)
        if not (entries or is_further) and not await bell.wait(patience / 2):
            yield b":\n\n"


async def stream(
    request: web.Request, response: web.StreamResponse, desk: SharedDesk, ask: Ask, members: dict[str, Any], patience: float
) -> None:
    """Sends events until the client goes, doesn't read for too long, or the service ends."""
    queue: Any = request.protocol
    with suppress(ConnectionError, TimeoutError), Bell(desk) as bell:
        await response.prepare(request)
        async for events in _events(desk, bell, ask, {**members, "limit": _PAGE}, patience):
            if request.transport is None:
                return
            async with asyncio.timeout(patience):
                await response.write(events)
            queue.queue.read_all()
        return
    if request.transport:
        request.transport.abort()
