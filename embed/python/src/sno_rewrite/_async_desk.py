"""A desk of its own process: `sno serve`, spoken to by the tasks of an event loop."""

from __future__ import annotations

import asyncio
import itertools
from asyncio.subprocess import PIPE, Process
from collections.abc import AsyncIterator, Mapping
from contextlib import suppress
from os import PathLike
from types import TracebackType

from ._lines import DeskEnded, DeskError, DeskTimeout, NamelessError, Reply
from ._lines import entries, excerpt, read, result, statement, texts, written

_PIECE = 1 << 16


async def _lines_of(output: asyncio.StreamReader) -> AsyncIterator[bytes]:
    """The lines, however long they are; the usual call of the stream limits their length."""
    pieces: list[bytes] = []
    while piece := await output.read(_PIECE):
        first, *others = piece.split(b"\n")
        pieces.append(first)
        for other in others:
            yield b"".join(pieces)
            pieces = [other]


class AsyncDesk:
    """Texts that many tasks change at once, served by the program `sno`. The calls are those of Desk.

    A call that takes longer than `timeout` seconds raises DeskTimeout. None means that it waits as long as it takes.
    A call that is cancelled leaves the others as they are.
    """

    def __init__(
        self,
        document: str | PathLike[str],
        *options: str,
        program: str | PathLike[str] = "sno",
        timeout: float | None = None,
    ) -> None:
        """`start`, or `async with`, starts `sno serve` with these options on the document of that file."""
        self.timeout = timeout
        self._command = [program, "serve", *options, document]
        self._started: tuple[Process, asyncio.StreamWriter, asyncio.Task[None]] | None = None
        self._writing = asyncio.Lock()
        self._waiting: dict[int, asyncio.Future[Reply]] = {}
        self._ended: tuple[int | None, str] | None = None
        self._ids = itertools.count()

    async def start(self) -> AsyncDesk:
        """Starts the program, and returns this desk."""
        if self._started:
            raise DeskError("the desk was started before")
        service = await asyncio.create_subprocess_exec(*self._command, stdin=PIPE, stdout=PIPE)
        assert service.stdin and service.stdout
        replies = asyncio.create_task(self._take_replies(service, service.stdout))
        self._started = service, service.stdin, replies
        return self

    async def submit(
        self,
        text: str,
        pattern: str,
        object: str | None = None,
        *,
        anchored: bool | None = None,
        repeat: int | None = None,
        all: bool | None = None,
        if_version: int | None = None,
        trials: int | None = None,
        bind: Mapping[str, str] | None = None,
        check: bool | None = None,
    ) -> Reply:
        """The entry of a statement, or its `reason` if it is refused. If the text's version isn't `if_version`, the
        reason is `changed`, with that version. A name of `bind` is a literal with its text in pattern and object. With
        `check` nothing is accepted: the reply is the entry that the statement would be if it came next."""
        members = {"anchored": anchored, "repeat": repeat, "all": all, "if_version": if_version, "trials": trials}
        members |= {"bind": None if bind is None else dict(bind), "check": check}
        return await self._ask(statement(text, pattern, object, **members))

    async def read(self, text: str, *, at: int | None = None) -> Reply:
        """The name, characters and version of a text, or a `reason`: as it is, or as it was at a version."""
        return await self._ask({"read": text} if at is None else {"read": text, "at": at})

    async def texts(self) -> list[Reply]:
        """The name, length and version of each text, all at one moment."""
        return texts(await self._ask({"texts": True}))

    async def since(self, index: int, *, limit: int | None = None, text: str | None = None) -> list[Reply]:
        """The entries from this index on: at most `limit`, and of this text alone."""
        return entries(await self._ask(excerpt(index, limit=limit, text=text)))

    async def close(self) -> int:
        """Ends the input, waits for all replies, and returns the status of the program. If it doesn't end in time, it
        is killed, and DeskTimeout is raised."""
        service, input, replies = self._parts()
        try:
            async with asyncio.timeout(self.timeout):
                async with self._writing:
                    input.close()
                await asyncio.shield(replies)
                return await service.wait()
        except TimeoutError:
            with suppress(ProcessLookupError):
                service.kill()
            await replies
            await service.wait()
            raise DeskTimeout("the desk did not end in time, and was killed") from None

    async def __aenter__(self) -> AsyncDesk:
        return await self.start()

    async def __aexit__(
        self, kind: type[BaseException] | None, error: BaseException | None, trace: TracebackType | None
    ) -> None:
        await self.close()

    def _parts(self) -> tuple[Process, asyncio.StreamWriter, asyncio.Task[None]]:
        if not self._started:
            raise DeskError("the desk wasn't started")
        return self._started

    async def _ask(self, members: Reply) -> Reply:
        _, input, _ = self._parts()
        number = next(self._ids)
        line = written(members, number)
        if self._ended:
            raise DeskEnded(*self._ended)
        future: asyncio.Future[Reply] = asyncio.get_running_loop().create_future()
        self._waiting[number] = future
        try:
            async with asyncio.timeout(self.timeout):
                await self._send(input, line)
                return result(await future)
        except TimeoutError:
            raise DeskTimeout(f"no reply in {self.timeout} seconds") from None
        finally:
            self._waiting.pop(number, None)
            # An exception that nobody waits for any more is no news.
            if future.done() and not future.cancelled():
                future.exception()

    async def _send(self, input: asyncio.StreamWriter, line: bytes) -> None:
        # A program that has ended takes no line. The task that takes replies reports that to all that wait.
        async with self._writing:
            if input.is_closing():
                return
            with suppress(ConnectionError):
                # What an earlier call had no time to write goes first, so at most one line is kept.
                await input.drain()
                input.write(line)
                await input.drain()

    async def _take_replies(self, service: Process, output: asyncio.StreamReader) -> None:
        """Gives each reply to the call that waits for it, until the output ends."""
        line = "the desk has ended"
        try:
            async for reply in _lines_of(output):
                self._give(read(reply))
        except DeskEnded as fault:
            line = fault.line
            with suppress(ProcessLookupError):
                service.kill()
        status = None
        with suppress(TimeoutError):
            status = await asyncio.wait_for(service.wait(), 1.0)
        self._ended = status, line
        self._fail(DeskEnded, status, line)

    def _give(self, reply: Reply) -> None:
        if "error" in reply and "id" not in reply:
            self._fail(NamelessError, reply["error"])
            return
        future = self._waiting.pop(reply.get("id", -1), None)
        if future and not future.done():
            future.set_result(reply)

    def _fail(self, kind: type[DeskError], *arguments: object) -> None:
        """All that wait raise an exception of this kind, each its own."""
        waiting, self._waiting = self._waiting, {}
        for future in waiting.values():
            if not future.done():
                future.set_exception(kind(*arguments))
