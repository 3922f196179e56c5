"""A desk of its own process: `sno serve`, spoken to by any number of threads."""

from __future__ import annotations

import itertools
import os
import select
import subprocess
import threading
import time
from collections.abc import Iterator
from concurrent.futures import Future
from contextlib import contextmanager, suppress
from os import PathLike
from types import TracebackType

from ._calls import Calls
from ._lines import DeskEnded, DeskError, DeskTimeout, NamelessError, Reply
from ._lines import read, result, written

# How many seconds the end of the program is waited for after the end of its output.
_SOON = 1.0


class _Deadline:
    """When a call gives up; never, if it has no timeout."""

    def __init__(self, timeout: float | None) -> None:
        self._end = None if timeout is None else time.monotonic() + timeout

    def left(self) -> float | None:
        """How many seconds are left."""
        return None if self._end is None else max(0.0, self._end - time.monotonic())


class Desk(Calls):
    """Texts that many threads change at once, served by the program `sno`.

    Each call sends one line, and waits for the reply with its id. The calls are safe for threads. A call that takes
    longer than `timeout` seconds raises DeskTimeout. None means that it waits as long as it takes.
    """

    def __init__(
        self,
        document: str | PathLike[str],
        *options: str,
        program: str | PathLike[str] = "sno",
        timeout: float | None = None,
    ) -> None:
        """Starts `sno serve` with these options, such as `--seats=4`, on the document of that file."""
        self.timeout = timeout
        command = [program, "serve", *options, document]
        self._service = subprocess.Popen(command, stdin=subprocess.PIPE, stdout=subprocess.PIPE)
        assert self._service.stdin and self._service.stdout
        self._input, self._output = self._service.stdin, self._service.stdout
        # A write never blocks, since a call may have to give up before the program reads.
        os.set_blocking(self._input.fileno(), False)
        self._unwritten = bytearray()
        # The thread that takes replies never needs this lock, so replies are taken while lines are written.
        self._writing = threading.Lock()
        self._waiting: dict[int, Future[Reply]] = {}
        self._waiting_lock = threading.Lock()
        self._ended: tuple[int | None, str] | None = None
        self._ids = itertools.count()
        self._reader = threading.Thread(target=self._take_replies, name="sno replies", daemon=True)
        self._reader.start()

    def close(self) -> int:
        """Ends the input, waits for all replies, and returns the status of the program. If it doesn't end in time, it
        is killed, and DeskTimeout is raised."""
        deadline = _Deadline(self.timeout)
        try:
            with self._lock_to_write(deadline), suppress(BrokenPipeError):
                self._write(b"", deadline)
                self._input.close()
            return self._service.wait(deadline.left())
        except (DeskTimeout, subprocess.TimeoutExpired):
            self._service.kill()
            self._service.wait()
            raise DeskTimeout("the desk did not end in time, and was killed") from None
        finally:
            # The program has ended, so nobody holds the lock for long.
            with self._writing:
                self._input.close()
            self._reader.join()
            self._output.close()

    def __enter__(self) -> Desk:
        return self

    def __exit__(
        self, kind: type[BaseException] | None, error: BaseException | None, trace: TracebackType | None
    ) -> None:
        self.close()

    def _ask(self, members: Reply) -> Reply:
        deadline = _Deadline(self.timeout)
        number = next(self._ids)
        line = written(members, number)
        future: Future[Reply] = Future()
        with self._waiting_lock:
            if self._ended:
                raise DeskEnded(*self._ended)
            self._waiting[number] = future
        try:
            # A program that has ended takes no line. The thread that takes replies reports that to all that wait.
            with self._lock_to_write(deadline), suppress(BrokenPipeError):
                self._write(line, deadline)
            return result(future.result(deadline.left()))
        except TimeoutError:
            raise DeskTimeout(f"no reply in {self.timeout} seconds") from None
        finally:
            with self._waiting_lock:
                self._waiting.pop(number, None)

    @contextmanager
    def _lock_to_write(self, deadline: _Deadline) -> Iterator[None]:
        left = deadline.left()
        if not self._writing.acquire(timeout=-1 if left is None else min(left, threading.TIMEOUT_MAX)):
            raise DeskTimeout
        try:
            yield
        finally:
            self._writing.release()

    def _write(self, line: bytes, deadline: _Deadline) -> None:
        """Writes what an earlier call had no time to write, and then this line. So no line is ever cut short."""
        if self._input.closed:
            return
        for piece in b"", line:
            self._unwritten += piece
            while self._unwritten:
                self._write_some(deadline)

    def _write_some(self, deadline: _Deadline) -> None:
        left = deadline.left()
        poll = select.poll()
        poll.register(self._input, select.POLLOUT)
        if not poll.poll(None if left is None else left * 1000):
            raise DeskTimeout
        with suppress(BlockingIOError):
            del self._unwritten[: os.write(self._input.fileno(), self._unwritten)]

    def _take_replies(self) -> None:
        """Gives each reply to the call that waits for it, until the output ends."""
        line = "the desk has ended"
        try:
            for reply in self._output:
                self._give(read(reply))
        except DeskEnded as fault:
            line = fault.line
            self._service.kill()
        status = None
        with suppress(subprocess.TimeoutExpired):
            status = self._service.wait(_SOON)
        with self._waiting_lock:
            self._ended = status, line
        self._fail(DeskEnded, status, line)

    def _give(self, reply: Reply) -> None:
        if "error" in reply and "id" not in reply:
            self._fail(NamelessError, reply["error"])
            return
        with self._waiting_lock:
            future = self._waiting.pop(reply.get("id", -1), None)
        if future:
            future.set_result(reply)

    def _fail(self, kind: type[DeskError], *arguments: object) -> None:
        """All that wait raise an exception of this kind, each its own."""
        with self._waiting_lock:
            waiting, self._waiting = self._waiting, {}
        for future in waiting.values():
            future.set_exception(kind(*arguments))
