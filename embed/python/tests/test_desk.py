"""Desks of their own process, spoken to by threads and by tasks.

Each call is tried with the built program and with stand_in.py; what a service shouldn't do, with stand_in.py alone.
"""

import asyncio
import faulthandler
import json
import os
import tempfile
import threading
import time
import unittest
from concurrent.futures import ThreadPoolExecutor
from pathlib import Path
from typing import Any

from sno_rewrite import AsyncDesk, Desk, DeskEnded, DeskError, DeskTimeout, NamelessError

STAND_IN = Path(__file__).resolve().parent / "stand_in.py"
SNO = Path(os.environ.get("SNO", Path(__file__).resolve().parents[3] / "crates/sno/out/sno"))
DOCUMENT = {
    "texts": [{"name": "T", "text": "the cat"}, {"name": "N", "text": ""}, {"name": "LONG", "text": "y" * 60_000}],
    "statements": [{"text": "T", "pattern": "'the'", "object": "'a'"}],
}
# A name that is refused. A few lines with it are more than a pipe holds.
LONG = "two words " * 10_000


def setUpModule() -> None:
    # A desk that hangs fails the tests.
    faulthandler.dump_traceback_later(300, exit=True)


def tearDownModule() -> None:
    faulthandler.cancel_dump_traceback_later()


class Documents:
    """Each test has a document and a place for a listing."""

    program: Path

    def setUp(self) -> None:
        folder = tempfile.TemporaryDirectory()
        self.addCleanup(folder.cleanup)  # type: ignore[attr-defined]
        self.document = Path(folder.name) / "document.json"
        self.document.write_text(json.dumps(DOCUMENT))
        self.listing = Path(folder.name) / "listing.json"

    def desk(self, *options: str, timeout: float | None = None) -> Desk:
        return Desk(self.document, f"--listing={self.listing}", *options, program=self.program, timeout=timeout)

    def async_desk(self, *options: str, timeout: float | None = None) -> AsyncDesk:
        return AsyncDesk(self.document, f"--listing={self.listing}", *options, program=self.program, timeout=timeout)

    def listed(self) -> dict[str, Any]:
        listing: dict[str, Any] = json.loads(self.listing.read_text())
        return listing


class Calls(Documents):
    """What each program has to do, with threads."""

    def test_each_call(self: Any) -> None:
        with self.desk() as desk:
            entry = desk.submit("T", "'cat' . WHAT", "'dog'")
            self.assertEqual((entry["entry"], entry["after"], entry["bindings"]), (1, "a dog", [["WHAT", "cat"]]))
            self.assertEqual(desk.read("T"), {"name": "T", "text": "a dog", "version": 2})
            self.assertEqual([it["statement"] for it in desk.since(0)], [1, 2])
            self.assertEqual(desk.submit("U", "'a'"), {"reason": "no text"})
            self.assertFalse(desk.submit("T", "'dog'", anchored=True)["matched"])
            self.assertEqual(desk.submit("T", "'dog'", if_version=1), {"reason": "changed", "version": 2})
            self.assertEqual(desk.submit("T", "'z'", trials=5), {"reason": "too many trials"})
            self.assertEqual([it["entry"] for it in desk.since(0, limit=2, text="T")], [0, 1])
            tried = desk.submit("T", "WHO", "NEW", bind={"WHO": "a d", "NEW": "it's d"}, check=True)
            self.assertEqual((tried["entry"], tried["after"], tried["check"]), (3, "it's dog", True))
            self.assertEqual(desk.read("T", at=1), {"name": "T", "text": "a cat", "version": 1})
            self.assertEqual(desk.read("T", at=3), {"reason": "no version"})
            listed = [(it["name"], it["length"], it["version"]) for it in desk.texts()]
            self.assertEqual(listed, [("T", 5, 2), ("N", 0, 0), ("LONG", 60_000, 0)])
            with self.assertRaisesRegex(DeskError, "pattern: unknown name at 0"):
                desk.submit("T", "CAT")
            with self.assertRaisesRegex(DeskError, "wrong shape"):
                desk.since(-1)
        self.assertEqual(desk.close(), 0)
        self.assertEqual(len(self.listed()["entries"]), 3)

    def test_a_desk_that_was_closed(self: Any) -> None:
        desk = self.desk()
        self.assertEqual(desk.close(), 0)
        with self.assertRaisesRegex(DeskEnded, "the desk has ended with status 0"):
            desk.read("T")

    def test_a_document_that_is_refused(self: Any) -> None:
        self.document.write_text("{")
        desk = self.desk()
        with self.assertRaises(DeskEnded) as raised:
            desk.read("T")
        self.assertEqual(raised.exception.status, 2)
        self.assertEqual(desk.close(), 2)

    def test_eight_threads(self: Any) -> None:
        with self.desk("--seats=4", "--tries=1000") as desk, ThreadPoolExecutor(8) as pool:
            entries = list(pool.map(lambda _: desk.submit("N", "RPOS(0)", "'x'"), range(400)))
        self.assertEqual(sorted(it["version"] for it in entries), list(range(400)))
        listed = self.listed()
        self.assertEqual([it["text"] for it in listed["texts"] if it["name"] == "N"], ["x" * 400])
        for entry in entries:
            self.assertEqual(listed["entries"][entry["entry"]], entry)

    def test_eight_threads_with_long_lines_and_replies(self: Any) -> None:
        for seats in "1", "4":
            with self.subTest(seats=seats), self.desk(f"--seats={seats}", timeout=120) as desk:
                with ThreadPoolExecutor(8) as pool:
                    found = list(pool.map(lambda number: self.long_call(desk, number), range(200)))
                self.assertEqual(found, ["y" * 60_000, "bad name"] * 100)

    def long_call(self: Any, desk: Desk, number: int) -> str:
        """A call with a long reply, or one with a long line."""
        if number % 2 == 0:
            text: str = desk.read("LONG")["text"]
            return text
        with self.assertRaises(DeskError) as raised:
            desk.read(LONG)
        return str(raised.exception)

    def test_what_the_program_could_not_read_is_not_sent(self: Any) -> None:
        with self.desk() as desk:
            with self.assertRaises(ValueError):
                desk.submit("T", "'a'", repeat=float("nan"))
            with self.assertRaises(ValueError):
                desk.submit("T", "'\ud800'")
            with self.assertRaisesRegex(ValueError, "longer than 16777216 bytes"):
                desk.submit("T", "'a'" * 6_000_000)
            self.assertEqual(desk.read("T")["text"], "a cat")


class AsyncCalls(Documents):
    """What each program has to do, with tasks."""

    async def test_each_async_call(self: Any) -> None:
        async with self.async_desk() as desk:
            entry = await desk.submit("T", "'cat' . WHAT", "'dog'")
            self.assertEqual((entry["entry"], entry["after"], entry["bindings"]), (1, "a dog", [["WHAT", "cat"]]))
            self.assertEqual(await desk.read("T"), {"name": "T", "text": "a dog", "version": 2})
            self.assertEqual([it["statement"] for it in await desk.since(0)], [1, 2])
            self.assertEqual(await desk.submit("U", "'a'"), {"reason": "no text"})
            self.assertFalse((await desk.submit("T", "'dog'", anchored=True))["matched"])
            self.assertEqual(await desk.submit("T", "'dog'", if_version=1), {"reason": "changed", "version": 2})
            self.assertEqual(await desk.submit("T", "'z'", trials=5), {"reason": "too many trials"})
            self.assertEqual([it["entry"] for it in await desk.since(0, limit=2, text="T")], [0, 1])
            tried = await desk.submit("T", "WHO", "NEW", bind={"WHO": "a d", "NEW": "it's d"}, check=True)
            self.assertEqual((tried["entry"], tried["after"], tried["check"]), (3, "it's dog", True))
            self.assertEqual(await desk.read("T", at=1), {"name": "T", "text": "a cat", "version": 1})
            self.assertEqual(await desk.read("T", at=3), {"reason": "no version"})
            listed = [(it["name"], it["length"], it["version"]) for it in await desk.texts()]
            self.assertEqual(listed, [("T", 5, 2), ("N", 0, 0), ("LONG", 60_000, 0)])
            with self.assertRaisesRegex(DeskError, "pattern: unknown name at 0"):
                await desk.submit("T", "CAT")
            with self.assertRaisesRegex(DeskError, "wrong shape"):
                await desk.since(-1)
            with self.assertRaises(ValueError):
                await desk.submit("T", "'\ud800'")
        self.assertEqual(await desk.close(), 0)
        self.assertEqual(len(self.listed()["entries"]), 3)
        with self.assertRaisesRegex(DeskEnded, "the desk has ended with status 0"):
            await desk.read("T")

    async def test_a_desk_that_was_not_started(self: Any) -> None:
        desk = self.async_desk()
        with self.assertRaisesRegex(DeskError, "wasn't started"):
            await desk.read("T")
        async with desk:
            with self.assertRaisesRegex(DeskError, "was started before"):
                await desk.start()

    async def test_many_tasks(self: Any) -> None:
        async with self.async_desk("--seats=4", "--tries=1000") as desk:
            entries = await asyncio.gather(*(desk.submit("N", "RPOS(0)", "'x'") for _ in range(400)))
        self.assertEqual(sorted(it["version"] for it in entries), list(range(400)))
        for entry in entries:
            self.assertEqual(self.listed()["entries"][entry["entry"]], entry)

    async def test_many_tasks_with_long_lines_and_replies(self: Any) -> None:
        async with self.async_desk("--seats=4", timeout=120) as desk:
            calls = [desk.read(name) for name in ("LONG", LONG) * 40]
            found = await asyncio.gather(*calls, return_exceptions=True)
        self.assertEqual([it["text"] for it in found[::2]], ["y" * 60_000] * 40)
        self.assertEqual([repr(it) for it in found[1::2]], ["DeskError('bad name')"] * 40)

    async def test_a_task_that_is_cancelled(self: Any) -> None:
        async with self.async_desk() as desk:
            calls = [asyncio.create_task(desk.submit("N", "RPOS(0)", "'x'")) for _ in range(20)]
            await asyncio.sleep(0)
            for call in calls[::2]:
                call.cancel()
            done = await asyncio.gather(*calls, return_exceptions=True)
            self.assertTrue(all(isinstance(it, asyncio.CancelledError) for it in done[::2]))
            self.assertTrue(all(it["after"].endswith("x") for it in done[1::2]))
            self.assertEqual((await desk.read("N"))["name"], "N")


class WithStandIn(Calls, unittest.TestCase):
    program = STAND_IN


class AsyncWithStandIn(AsyncCalls, unittest.IsolatedAsyncioTestCase):
    program = STAND_IN


@unittest.skipUnless(SNO.exists(), f"{SNO} is not built")
class WithSno(Calls, unittest.TestCase):
    program = SNO


@unittest.skipUnless(SNO.exists(), f"{SNO} is not built")
class AsyncWithSno(AsyncCalls, unittest.IsolatedAsyncioTestCase):
    program = SNO


class Faults(Documents, unittest.TestCase):
    """What a service shouldn't do, with threads."""

    program = STAND_IN

    def failures(self, desk: Desk, kind: type[DeskError]) -> list[str]:
        """What three calls at once raise."""

        def one(_: int) -> str:
            with self.assertRaises(kind) as raised:
                desk.read("T")
            return str(raised.exception)

        with ThreadPoolExecutor(3) as pool:
            return list(pool.map(one, range(3)))

    def test_an_error_without_an_id(self) -> None:
        with self.desk("--behave=nameless") as desk:
            self.assertEqual(self.failures(desk, NamelessError), ["not JSON"] * 3)
            self.assertEqual(desk.read("T")["text"], "a cat")
        self.assertEqual(desk.close(), 0)

    def test_the_end_of_the_program(self) -> None:
        desk = self.desk("--behave=ends")
        self.assertEqual([desk.read("T")["text"] for _ in range(2)], ["a cat"] * 2)
        self.assertEqual(self.failures(desk, DeskEnded), ["the desk has ended with status 4"] * 3)
        self.assertEqual(self.failures(desk, DeskEnded), ["the desk has ended with status 4"] * 3)
        self.assertEqual(desk.close(), 4)

    def test_what_is_not_a_reply(self) -> None:
        for how, line in ("garbage", "b'Segmentation fault\\n'"), ("strange", "b'[1]\\n'"):
            desk = self.desk(f"--behave={how}")
            for found in self.failures(desk, DeskEnded):
                self.assertEqual(found, f"the desk wrote what is not a reply: {line} with status -9")
            self.assertEqual(desk.close(), -9)

    def test_no_reply_in_time(self) -> None:
        desk = self.desk("--behave=silent", timeout=0.3)
        self.assertEqual(self.failures(desk, DeskTimeout), ["no reply in 0.3 seconds"] * 3)
        desk.timeout = None
        self.assertEqual(desk.close(), 0)

    def test_a_program_that_does_not_read(self) -> None:
        desk = self.desk("--behave=deaf", timeout=0.3)
        for _ in range(5):
            began = time.monotonic()
            with self.assertRaises(DeskTimeout):
                desk.read(LONG)
            self.assertLess(time.monotonic() - began, 20)
        self.assertLess(len(desk._unwritten), 2 * len(LONG))
        with self.assertRaisesRegex(DeskTimeout, "was killed"):
            desk.close()
        with self.assertRaisesRegex(DeskEnded, "with status -9"):
            desk.read("T")

    def test_no_program(self) -> None:
        with self.assertRaises(FileNotFoundError):
            Desk(self.document, program=self.document.parent / "missing")

    def test_no_thread_is_left(self) -> None:
        before = threading.active_count()
        for _ in range(3):
            with self.desk() as desk:
                desk.read("T")
        self.assertEqual(threading.active_count(), before)


class AsyncFaults(Documents, unittest.IsolatedAsyncioTestCase):
    """What a service shouldn't do, with tasks."""

    program = STAND_IN

    async def failures(self, desk: AsyncDesk, kind: type[DeskError]) -> list[str]:
        """What three calls at once raise."""
        found = await asyncio.gather(*(desk.read("T") for _ in range(3)), return_exceptions=True)
        self.assertEqual([type(it) for it in found], [kind] * 3)
        return [str(it) for it in found]

    async def test_an_error_without_an_id(self) -> None:
        async with self.async_desk("--behave=nameless") as desk:
            self.assertEqual(await self.failures(desk, NamelessError), ["not JSON"] * 3)
            self.assertEqual((await desk.read("T"))["text"], "a cat")
        self.assertEqual(await desk.close(), 0)

    async def test_the_end_of_the_program(self) -> None:
        desk = await self.async_desk("--behave=ends").start()
        self.assertEqual([(await desk.read("T"))["text"] for _ in range(2)], ["a cat"] * 2)
        self.assertEqual(await self.failures(desk, DeskEnded), ["the desk has ended with status 4"] * 3)
        self.assertEqual(await desk.close(), 4)

    async def test_what_is_not_a_reply(self) -> None:
        for how, line in ("garbage", "b'Segmentation fault'"), ("strange", "b'[1]'"):
            desk = await self.async_desk(f"--behave={how}").start()
            for found in await self.failures(desk, DeskEnded):
                self.assertEqual(found, f"the desk wrote what is not a reply: {line} with status -9")
            self.assertEqual(await desk.close(), -9)

    async def test_no_reply_in_time(self) -> None:
        desk = await self.async_desk("--behave=silent", timeout=0.3).start()
        self.assertEqual(await self.failures(desk, DeskTimeout), ["no reply in 0.3 seconds"] * 3)
        desk.timeout = None
        self.assertEqual(await desk.close(), 0)

    async def test_a_program_that_does_not_read(self) -> None:
        desk = await self.async_desk("--behave=deaf", timeout=0.3).start()
        for _ in range(5):
            with self.assertRaises(DeskTimeout):
                await desk.read(LONG)
        with self.assertRaisesRegex(DeskTimeout, "was killed"):
            await desk.close()
        with self.assertRaisesRegex(DeskEnded, "with status -9"):
            await desk.read("T")


if __name__ == "__main__":
    unittest.main()
