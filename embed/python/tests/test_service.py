"""The service as far as it can be tried without aiohttp: its lines, its journal, its restarts, and what it says without it."""

import asyncio
import json
import subprocess
import sys
import unittest
from collections.abc import Callable
from pathlib import Path
from unittest import mock

from sno_rewrite.service._desk import SharedDesk, StartFault, State
from sno_rewrite.service._journal import Journal
from sno_rewrite.service._lines import MOST_ENTRIES, entry_of, identity_of, index_in, members_of, numbered
from sno_rewrite.service._lines import outcome_of, refused, restored
from sno_rewrite.service._metrics import Metrics
from sno_rewrite.service._options import options_of
from sno_rewrite.service._turns import Queue

SOURCES = Path(__file__).resolve().parents[1] / "src"


class Lines(unittest.TestCase):
    def test_the_number_takes_the_place_of_the_id(self) -> None:
        for line in '{}', ' { } ', '{"id":"mine","text":"T"}', '{"text":"}","id":7}\r', '{"id":1,"id":2}':
            members = members_of(line)
            assert members is not None
            whole = numbered(line.encode(), 5, members)
            self.assertEqual(whole.count(b"\n"), 1)
            self.assertEqual(json.loads(whole), {**members, "id": 5})

    def test_entries_are_limited(self) -> None:
        for given, wanted in (None, MOST_ENTRIES), (5, 5), (0, 0), (MOST_ENTRIES + 1, MOST_ENTRIES):
            members = {"since": 0, **({} if given is None else {"limit": given})}
            whole = json.loads(numbered(json.dumps(members).encode(), 1, members))
            self.assertEqual(whole["limit"], wanted)
        wrong = {"since": 0, "limit": "x"}
        self.assertEqual(json.loads(numbered(json.dumps(wrong).encode(), 1, wrong))["limit"], "x")

    def test_the_id_comes_back(self) -> None:
        text = '\\"id\\":12,\\"entry\\":3'
        reply = '{"after":"%s","bindings":[["V","%s"]],"entry":4,"id":12,"text":"T"}' % (text, text)
        for identity in 1, -5, 2.5, "x", '"id":12', "", "\u00e9":
            written = identity_of({"id": identity})
            self.assertEqual(json.loads(restored(reply.encode(), 12, written)), {**json.loads(reply), "id": identity})
        without = json.loads(reply)
        del without["id"]
        self.assertEqual(json.loads(restored(reply.encode(), 12, None)), without)
        self.assertEqual(restored(b'{"error":"x","id":12}', 12, None), b'{"error":"x"}')
        self.assertEqual(restored(b'{"id":12}', 12, None), b"{}")
        self.assertEqual(index_in(reply.encode()), 4)

    def test_an_error_without_an_id_gets_it(self) -> None:
        self.assertEqual(json.loads(restored(b'{"error":"not JSON"}', 12, b"7")), {"error": "not JSON", "id": 7})
        self.assertEqual(restored(b'{"error":"not JSON"}', 12, None), b'{"error":"not JSON"}')

    def test_ids_of_another_kind_are_none(self) -> None:
        for identity in True, None, [], {}, float("inf"), float("nan"):
            self.assertIsNone(identity_of({"id": identity}))
        self.assertEqual(json.loads(refused("x", b'"a"', since=3)), {"error": "x", "since": 3, "id": "a"})

    def test_what_is_no_object_has_no_members(self) -> None:
        for line in "", "[]", "1", "{", "[" * 100_000:
            self.assertIsNone(members_of(line))

    def test_only_an_accepted_statement_has_an_index(self) -> None:
        for reply, outcome in (
            (b'{"id":1,"reason":"no text"}', "refused"),
            (b'{"error":"pattern: x","id":1}', "error"),
            (b'{"entries":[{"bindings":[],"entry":3,"matched":false}],"id":1}', "question"),
            (b'{"after":"x","bindings":[],"check":true,"end":1,"entry":3,"id":1,"matched":true}', "question"),
            (b'{"id":1,"name":"T","text":"\\"entry\\":3,\\"reason\\":","version":0}', "question"),
        ):
            json.loads(reply)
            self.assertEqual((index_in(reply), outcome_of(reply)), (None, outcome))

    def test_an_entry_has_nothing_of_the_line(self) -> None:
        reply = b'{"bindings":[["V","\\"check\\":true"]],"entry":3,"id":1,"ignored":["x"],"matched":true}'
        self.assertEqual(index_in(reply), 3)
        wanted = {"bindings": [["V", '"check":true']], "entry": 3, "matched": True}
        self.assertEqual(json.loads(entry_of(reply, 1)), wanted)


class Journals(unittest.TestCase):
    def test_entries_come_in_order_from_any_index(self) -> None:
        journal = Journal(most=1_000, most_bytes=1_000_000)
        journal.begin(7, 3)
        for number in range(7, 107):
            journal.add(b"%d" % number)
        for first in range(7, 107):
            message, following = journal.message(first)
            self.assertEqual(following, 107)
            self.assertEqual([json.loads(line)["watched"] for line in message.split(b"\n")], list(range(first, 107)))

    def test_only_the_last_entries_are_kept(self) -> None:
        for most, most_bytes, size, kept in (10, 1_000_000, 13, 10), (1_000_000, 1_000, 100, 10):
            journal = Journal(most, most_bytes)
            for _ in range(500):
                journal.add(b"1" * (size - 12))
                self.assertLessEqual(journal.next - journal.first, 2 * kept)
                self.assertGreaterEqual(journal.next - journal.first, min(journal.next, kept))

    def test_a_message_is_bounded(self) -> None:
        journal = Journal(most=100, most_bytes=1 << 30)
        for _ in range(3):
            journal.add(b"1" * 200_000)
        self.assertEqual([journal.message(first)[1] for first in range(3)], [1, 2, 3])


class Run:
    """A run of `sno serve`, as its pipe. It ends at once with its last reply, or before the start is over if it has none. Its
    store has been compacted if its first entry has another index than 0."""

    def __init__(
        self,
        entries: int,
        replies: int | None,
        first: int,
        take: Callable[[list[bytes]], None],
        ended: Callable[[int], None],
    ) -> None:
        self.entries, self.left, self.first = entries, replies, first
        self.take, self.ended, self.has_ended = take, ended, False

    async def start(self, command: list[str]) -> None:
        if self.left == 0:
            self.kill()

    def put(self, line: bytes) -> None:
        asyncio.get_running_loop().call_soon(self.reply, json.loads(line))

    def spent(self) -> float:
        return 0.0

    def reply(self, line: dict[str, int]) -> None:
        if self.has_ended:
            return
        self.give(line)
        if self.left is not None:
            self.left -= 1
            if self.left == 0:
                self.kill()

    def give(self, line: dict[str, int]) -> None:
        if "texts" in line:
            self.take([b'{"id":%d,"texts":[]}' % line["id"]])
            return
        entries = [{"entry": index} for index in range(line["since"], min(self.entries, line["since"] + line["limit"]))]
        gone = {"first": self.first, "id": line["id"], "reason": "compacted"}
        reply = gone if line["since"] < self.first else {"entries": entries, "id": line["id"]}
        self.take([json.dumps(reply, separators=(",", ":")).encode()])

    def kill(self) -> None:
        if not self.has_ended:
            self.has_ended = True
            self.ended(-9)


class Runs:
    """Runs one after the other, each with its entries, how many replies it writes, and the index of its first entry."""

    def __init__(self, *runs: tuple[int, int | None, int] | tuple[int, int | None]) -> None:
        self.left = [run if len(run) == 3 else (*run, 0) for run in runs]

    def __call__(self, take: Callable[[list[bytes]], None], ended: Callable[[int], None]) -> Run:
        self.last = Run(*self.left.pop(0), take, ended)
        return self.last


class Restarts(unittest.IsolatedAsyncioTestCase):
    """A program may end at any moment: whoever waits gets an error, and the next one is started and caught up with."""

    async def started(self, *runs: tuple[int, int | None, int] | tuple[int, int | None]) -> tuple[SharedDesk, Runs]:
        pipes = Runs(*runs)
        patched = mock.patch("sno_rewrite.service._desk.Pipe", pipes)
        patched.start()
        self.addCleanup(patched.stop)
        desk = SharedDesk(options_of(["document.json", "--store", "file.store", "--patience", "0.1"]), Metrics())
        async with asyncio.timeout(5):
            await desk.start()
        return desk, pipes

    async def has_all(self, desk: SharedDesk, entries: int) -> None:
        """The desk serves again, knows all entries, and shows them in order."""
        found: list[int] = []
        async with asyncio.timeout(5):
            while desk.state is not State.SERVING:
                await asyncio.sleep(0.01)
            while lines := await desk.page(Queue(desk.turns), len(found), 100):
                found += [json.loads(line)["watched"]["entry"] for line in lines]
        self.assertEqual((found, desk.journal.next), (list(range(entries)), entries))

    async def test_pages_are_refused_until_the_next_run(self) -> None:
        desk, pipes = await self.started((250, None), (270, None))
        await self.has_all(desk, 250)
        pipes.last.kill()
        while desk.state is not State.SERVING:
            async with asyncio.timeout(5):
                with self.assertRaises(ConnectionError):
                    await desk.page(Queue(desk.turns), 0, 100)
            await asyncio.sleep(0)
        await self.has_all(desk, 270)

    async def test_a_run_may_end_with_any_reply(self) -> None:
        for replies in range(5):
            desk, pipes = await self.started((250, None), (450, replies), (450, None))
            pipes.last.kill()
            await self.has_all(desk, 450)
            self.assertEqual(pipes.left, [])

    async def test_the_first_run_may_end_with_any_reply(self) -> None:
        for replies in range(7):
            with self.assertRaises(StartFault):
                await self.started((7, replies))

    async def test_a_store_may_begin_with_a_later_entry(self) -> None:
        for entries in (100, 101, 107, 108, 250):
            desk, _ = await self.started((entries, None, 100))
            self.assertEqual((desk.journal.oldest, desk.journal.next), (100, entries))
            lines = await desk.page(Queue(desk.turns), 100, 100)
            self.assertEqual(len(lines), min(100, entries - 100))
            with self.assertRaises(ConnectionError):
                await desk.page(Queue(desk.turns), 99, 100)

    async def test_entries_may_be_compacted_between_runs(self) -> None:
        desk, pipes = await self.started((250, None), (300, None, 270))
        pipes.last.kill()
        async with asyncio.timeout(5):
            while desk.state is not State.SERVING:
                await asyncio.sleep(0.01)
        self.assertEqual((desk.journal.oldest, desk.journal.first, desk.journal.next), (270, 270, 300))


class WithoutAiohttp(unittest.TestCase):
    def run_without(self, words: str) -> subprocess.CompletedProcess[str]:
        front = f"import sys; sys.modules['aiohttp'] = None; sys.path.insert(0, {str(SOURCES)!r}); "
        return subprocess.run([sys.executable, "-c", front + words], capture_output=True, text=True, timeout=60)

    def test_the_package_needs_none(self) -> None:
        done = self.run_without("import sno_rewrite; print(sno_rewrite.Desk.__name__)")
        self.assertEqual((done.returncode, done.stdout), (0, "Desk\n"))

    def test_the_service_names_it(self) -> None:
        words = "from sno_rewrite.service import main; sys.exit(main(['document.json', '--store', 'store']))"
        done = self.run_without(words)
        said = "error: aiohttp is missing; Debian has it as python3-aiohttp\n"
        self.assertEqual((done.returncode, done.stderr), (4, said))


if __name__ == "__main__":
    unittest.main()
