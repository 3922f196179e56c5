"""Runs of `sno serve` on one text each, which looks ask line by line. Who types looks at one text again and again, so a run is kept
for a while: the next look on its text finds it there, and the text read."""

from __future__ import annotations

import asyncio
import json
import os
import time
from asyncio.subprocess import PIPE, Process
from collections.abc import AsyncIterator, Callable
from contextlib import asynccontextmanager, suppress
from typing import Any

from ._options import Options

# The most bytes of one reply: all matches of a text of 65,536 characters, each with variables.
_LONGEST_REPLY = 134_217_728
# The seconds that a run is kept without a look.
_KEPT = 30.0
Texts = list[dict[str, str]]


class TextDesk:
    """A run of `sno serve` on some texts. `seconds` is how long it was waited for during a look."""

    def __init__(self, process: Process) -> None:
        self._process = process
        self.seconds = 0.0
        self.leaving: asyncio.TimerHandle | None = None

    def is_there(self) -> bool:
        return self._process.returncode is None

    async def ask(self, members: dict[str, Any]) -> dict[str, Any]:
        """The reply to a line. No line here is accepted: each is a question, or has `check`."""
        given, taken = self._process.stdin, self._process.stdout
        assert given is not None and taken is not None
        began = time.monotonic()
        line = b""
        # It may have ended, as one that the system kills for its memory.
        with suppress(ConnectionError):
            given.write(json.dumps(members).encode() + b"\n")
            await given.drain()
            line = await taken.readline()
        self.seconds += time.monotonic() - began
        if not line:
            return {"error": "sno serve ended"}
        reply: dict[str, Any] = json.loads(line)
        return reply

    async def end(self) -> None:
        await ended(self._process)


class TextDesks:
    """The runs that are kept: as many as looks may run at a time, each for one look at a time."""

    def __init__(self, options: Options, document: Callable[[Texts], bytes]) -> None:
        self._options, self._document = options, document
        self._kept: list[tuple[Texts, TextDesk]] = []
        self._ending: set[asyncio.Task[None]] = set()

    @asynccontextmanager
    async def desk(self, texts: Texts) -> AsyncIterator[TextDesk]:
        """A run on these texts alone. What it takes in all has a limit: then TimeoutError is raised, and the run ends."""
        desk = self._take(texts)
        try:
            async with asyncio.timeout(self._options.look_seconds):
                if desk is None:
                    began = time.monotonic()
                    desk = await self._start(texts)
                    desk.seconds = time.monotonic() - began
                else:
                    desk.seconds = 0.0
                yield desk
        except BaseException:
            if desk is not None:
                await desk.end()
            raise
        self._keep(texts, desk)

    async def end(self) -> None:
        """Ends all runs that are kept."""
        kept, self._kept = self._kept, []
        for _, desk in kept:
            if desk.leaving is not None:
                desk.leaving.cancel()
        await asyncio.gather(*(desk.end() for _, desk in kept), *self._ending)

    def _take(self, texts: Texts) -> TextDesk | None:
        """A run on these texts that is kept, and still there."""
        for place, (known, desk) in enumerate(self._kept):
            if known == texts and desk.is_there():
                del self._kept[place]
                if desk.leaving is not None:
                    desk.leaving.cancel()
                return desk
        return None

    def _keep(self, texts: Texts, desk: TextDesk) -> None:
        """Keeps a run for a while, in place of the one that has been kept for longest if there are too many."""
        if len(self._kept) >= self._options.look_processes:
            self._leave(self._kept[0][1])
        self._kept.append((texts, desk))
        desk.leaving = asyncio.get_running_loop().call_later(_KEPT, self._leave, desk)

    def _leave(self, desk: TextDesk) -> None:
        """Keeps a run no longer."""
        self._kept = [each for each in self._kept if each[1] is not desk]
        if desk.leaving is not None:
            desk.leaving.cancel()
        task = asyncio.create_task(desk.end())
        self._ending.add(task)
        task.add_done_callback(self._ending.discard)

    async def _start(self, texts: Texts) -> TextDesk:
        """Starts a run. It has read its document when it replies for the first time."""
        file = os.memfd_create("document")
        try:
            os.write(file, self._document(texts))
            words = ["serve", f"--trials={self._options.look_trials}", f"/proc/self/fd/{file}"]
            process = await asyncio.create_subprocess_exec(
                self._options.program, *words, stdin=PIPE, stdout=PIPE, start_new_session=True, pass_fds=[file], limit=_LONGEST_REPLY
            )
            desk = TextDesk(process)
            try:
                await desk.ask({"texts": True})
            except BaseException:
                await desk.end()
                raise
            return desk
        finally:
            os.close(file)


async def ended(process: Process) -> None:
    """Ends a process that still runs."""
    if process.returncode is None:
        with suppress(ProcessLookupError):
            process.kill()
        await process.wait()
