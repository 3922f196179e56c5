"""The process `sno serve`: lines go in, lines come out."""

from __future__ import annotations

import asyncio
import ctypes
import time
from collections.abc import Callable
from contextlib import suppress
from typing import cast

# How much of what is written at once a pipe holds, if the system allows it.
_PIPE_BYTES = 1_048_576
_F_SETPIPE_SZ = 1031


class _Protocol(asyncio.SubprocessProtocol):
    """Cuts the output into lines, and gives all that came at once to one call."""

    def __init__(self, take: Callable[[list[bytes]], None], ended: Callable[[int | None], None]) -> None:
        self._take, self._ended = take, ended
        self._rest: list[bytes] = []
        self._process: asyncio.SubprocessTransport | None = None

    def connection_made(self, transport: asyncio.BaseTransport) -> None:
        self._process = cast(asyncio.SubprocessTransport, transport)

    def pipe_data_received(self, fd: int, data: bytes) -> None:
        lines = data.split(b"\n")
        if len(lines) == 1:
            self._rest.append(data)
            return
        lines[0] = b"".join([*self._rest, lines[0]])
        self._rest = [lines.pop()]
        self._take(lines)

    def connection_lost(self, exc: Exception | None) -> None:
        # All pipes are closed and the process has ended: no reply comes any more.
        self._ended(self._process.get_returncode() if self._process else None)


def _clock_of(process: int) -> int:
    """The clock that goes while a process has a processor, or one that always goes."""
    clock = ctypes.c_int()
    try:
        found = ctypes.CDLL(None).clock_getcpuclockid(process, ctypes.byref(clock))
        if found == 0:
            time.clock_gettime(clock.value)
            return clock.value
    except (AttributeError, OSError):
        pass
    return time.CLOCK_MONOTONIC


class Pipe:
    """One run of `sno serve`. `take` gets the lines that it writes, `ended` its status when nothing more comes."""

    def __init__(self, take: Callable[[list[bytes]], None], ended: Callable[[int | None], None]) -> None:
        self._take, self._ended = take, ended
        self._process: asyncio.SubprocessTransport | None = None
        self._input: asyncio.WriteTransport | None = None
        self._lines: list[bytes] = []
        self._clock: int = time.CLOCK_MONOTONIC

    async def start(self, command: list[str]) -> None:
        """Starts the program, in a session of its own: a signal of the terminal reaches the service alone."""
        loop = asyncio.get_running_loop()
        process, _ = await loop.subprocess_exec(
            lambda: _Protocol(self._take, self._ended), *command, stderr=None, start_new_session=True
        )
        self._process = process
        self._input = cast(asyncio.WriteTransport, process.get_pipe_transport(0))
        self._clock = _clock_of(process.get_pid())
        self._widen()

    @property
    def pid(self) -> int | None:
        return self._process.get_pid() if self._process else None

    def put(self, line: bytes) -> None:
        """Writes a line, together with all others of this turn of the loop."""
        if not self._lines:
            asyncio.get_running_loop().call_soon(self._flush)
        self._lines.append(line)

    def spent(self) -> float:
        """The seconds that the program has had of a processor, from any moment on. If the system doesn't say, they are those
        of a clock."""
        try:
            return time.clock_gettime(self._clock)
        except OSError:
            # It has ended.
            return 0.0

    def end(self) -> None:
        """Ends the input, after what was put."""
        self._flush()
        if self._input and not self._input.is_closing():
            self._input.close()

    def kill(self) -> None:
        """Ends the program at once."""
        if self._process:
            with suppress(ProcessLookupError):
                self._process.kill()

    def _flush(self) -> None:
        lines, self._lines = self._lines, []
        if lines and self._input and not self._input.is_closing():
            self._input.write(b"".join(lines))

    def _widen(self) -> None:
        import fcntl

        for which in 0, 1:
            transport = self._process.get_pipe_transport(which) if self._process else None
            pipe = transport.get_extra_info("pipe") if transport else None
            with suppress(OSError, AttributeError, ValueError):
                fcntl.fcntl(pipe.fileno(), _F_SETPIPE_SZ, _PIPE_BYTES)
