"""Starts the service, and ends it on SIGTERM or SIGINT."""

from __future__ import annotations

import asyncio
import signal
import sys
from collections.abc import Callable
from contextlib import suppress

from ._options import Options, options_of

NO_AIOHTTP = "error: aiohttp is missing; Debian has it as python3-aiohttp"


def main(words: list[str] | None = None) -> int:
    """Serves until a signal ends it, and returns the status."""
    options = options_of(words)
    try:
        import aiohttp  # noqa: F401
    except ImportError:
        print(NO_AIOHTTP, file=sys.stderr)
        return 4
    with asyncio.Runner(loop_factory=_faster_loop()) as runner:
        return runner.run(serve(options, _say))


def _say(address: str) -> None:
    print(f"serving at {address}", file=sys.stderr, flush=True)


def _faster_loop():  # type: ignore[no-untyped-def]
    """The event loop of uvloop, if it is installed."""
    try:
        import uvloop
    except ImportError:
        return None
    return uvloop.new_event_loop


async def serve(options: Options, ready: Callable[[str], None]) -> int:
    """Serves until a signal ends it, and returns the status. `ready` is called with the address when the service listens."""
    from ._server import Server
    from ._tokens import TokenFault

    try:
        server = Server(options)
    except (TokenFault, OSError) as fault:
        print(f"error: {fault}", file=sys.stderr)
        return 3
    ending = asyncio.Event()
    reloading: set[asyncio.Task[None]] = set()

    def reload() -> None:
        task = asyncio.create_task(server.reload())
        reloading.add(task)
        task.add_done_callback(reloading.discard)

    asyncio.get_running_loop().add_signal_handler(signal.SIGHUP, reload)
    for number in signal.SIGTERM, signal.SIGINT:
        asyncio.get_running_loop().add_signal_handler(number, ending.set)
    started = asyncio.create_task(server.start())
    waiting = asyncio.create_task(ending.wait())
    await asyncio.wait({started, waiting}, return_when=asyncio.FIRST_COMPLETED)
    if not started.done():
        started.cancel()
        with suppress(asyncio.CancelledError):
            await started
        return await server.end()
    status = started.result()
    if status:
        waiting.cancel()
        return status
    ready(server.address())
    await waiting
    return await server.end()
