"""The one desk that all clients share: lines go to `sno serve` in turn between clients, and each reply goes back to the
client whose line it is of."""

from __future__ import annotations

import asyncio
import json
import os
import sys
from asyncio.subprocess import DEVNULL
from collections.abc import Callable, Iterator
from contextlib import suppress
from enum import Enum, auto
from pathlib import Path
from typing import Any, Protocol, TypeVar

from ._history import statements_of
from ._journal import Journal
from ._keys import BAD_KEY, Asked, Keys
from ._lines import (
    MOST_ENTRIES, entries_in, entry_again, entry_of, identity_of, index_in, number_in, numbered, outcome_of, refused, restored,
    written,
)  # fmt: skip
from ._metrics import Metrics
from ._options import Options
from ._pipe import Pipe
from ._reads import Reads
from ._records import Records, key_of
from ._sizes import Sizes, captures_of
from ._stamps import Stamp, added, digest_of, is_key, without_own
from ._turns import Line, Owner, Queue, Turns
from ._works import USUAL_TRIALS, asks_for_more, work_of

UNKNOWN = "outcome unknown"
NOT_PERFORMED = "not performed"
NOT_ALLOWED = "not allowed"
# Entries that are kept for watchers, in bytes.
_KEPT_BYTES = 33_554_432
# Entries that are read together after a restart.
_PAGE = 100
_FIRST_DELAY, _LAST_DELAY = 0.05, 5.0
# Entries that the index of the store doesn't have yet, before it is brought up to date though nobody asks. So no client waits for
# many of them.
_MOST_BEHIND = 1_000
# Bytes of the entries of the document's own statements, which have no record and so are kept.
_MOST_OWN = 8_388_608
_MEMORY_PAGE = os.sysconf("SC_PAGE_SIZE")
# How much of the time for the end lines under way have. Then the clients get what is left for them.
_PART_OF_END = 0.7
Read = TypeVar("Read")


class Watcher(Protocol):
    """Who is to know that the journal has grown, or that the desk has come or gone."""

    def wake(self) -> None: ...

    def notice(self, line: bytes) -> None: ...


class State(Enum):
    """What the desk is doing."""

    STARTING = auto()
    SERVING = auto()
    ENDING = auto()
    ENDED = auto()


class Call:
    """An owner that waits for the replies to all its lines, or for those that come first."""

    def __init__(self, count: int, queue: Queue) -> None:
        self._replies: list[bytes] = []
        self._left, self._size = count, 0
        self._queue = queue
        self._has_news = asyncio.Event()

    def take(self, reply: bytes) -> None:
        self._replies.append(reply)
        self._size += len(reply)
        self._left -= 1

    def wake(self) -> None:
        self._has_news.set()

    def is_done(self) -> bool:
        """Whether each line has its reply."""
        return self._left == 0

    async def replies(self) -> list[bytes]:
        """All replies, in order."""
        while self._left:
            await self._news()
        return self._replies

    async def some(self, least: int) -> list[bytes]:
        """The next replies: all that are left, or at least this many bytes. They are fewer if further lines wait, since the
        client may have to read these first."""
        while self._left and self._size < least and (not self._replies or self._queue.under_way):
            await self._news()
        found, self._replies, self._size = self._replies, [], 0
        return found

    async def _news(self) -> None:
        self._has_news.clear()
        await self._has_news.wait()


class StartFault(Exception):
    """The program can't be started; its status is the argument, or None if there is no such program."""


class SharedDesk:
    """A run of `sno serve --store`, and the next one if it ends."""

    def __init__(self, options: Options, metrics: Metrics) -> None:
        self.state = State.STARTING
        self.journal = Journal(options.max_lag, _KEPT_BYTES)
        self.watchers: set[Watcher] = set()
        self._options, self._metrics = options, metrics
        # What a match may take, and the most that a line may ask for.
        self._most_trials = options.trials or USUAL_TRIALS
        limits = options.max_unread, options.max_unread_total
        self._sizes = Sizes(self.journal, options.store, captures_of(options.document), options.seats == 1)
        serves = lambda: self.state is State.SERVING  # noqa: E731
        self.turns = Turns(self._sizes, limits, serves, self._send, self._refuse, options.seats)
        self.keys = Keys(Records(options.store))
        self._is_reading = asyncio.Lock()
        self.reads = Reads(self, options, metrics)
        self._catching_up: asyncio.Task[None] | None = None
        self.turns.is_next = self.keys.may_go
        # Lines under way by their numbers, and replies without one, until it is clear whose they are.
        self._by_number: dict[int, Line] = {}
        self._unnumbered: list[bytes] = []
        # Entries that came before an earlier one, as several seats may have them.
        self._early: dict[int, bytes] = {}
        # The desk's own lines are in a queue of their own.
        self._queue = Queue(self.turns)
        self._number = 0
        # The program that runs, or None from its end on: a line to one that has ended would never have its reply.
        self._pipe: Pipe | None = None
        self._status: int | None = None
        self._gone = asyncio.Event()
        self._restarting: asyncio.Task[None] | None = None
        # Why the program was ended, if the service did it.
        self._why: str | None = None
        self._is_to_compact = False

    # Lines

    def put(
        self, queue: Queue, owner: Owner, line: str, members: dict[str, Any] | None, began: float,
        is_whole: bool = False, header: str | None = None,
    ) -> None:  # fmt: skip
        """Puts a line without a line feed into a queue; the reply goes to its owner, whole or as far as its account sees it. A
        header may have its key."""
        number = self._next_number()
        raw = line.encode(errors="replace")
        work = work_of(raw, members, self._options.trials)
        # What isn't an object goes as it is: `sno serve` says what is wrong with it.
        stamp = added(queue.account.name, header) if work.is_statement else b""
        whole = raw + b"\n" if members is None else numbered(raw, number, members, stamp)
        put = Line(queue, owner, whole, number, members, identity_of(members), began, work, is_whole=is_whole)
        if not queue.account.may(members):
            put.refusal = NOT_ALLOWED
        elif work.is_statement and members is not None and asks_for_more(members, self._most_trials):
            put.refusal = f"trials: at most {self._most_trials}"
        elif work.is_statement and members is not None:
            _take_key(put, members, members.get("key") if header is None else header)
        self.turns.put(put)

    def ask(
        self, queue: Queue, lines: list[dict[str, Any]], is_whole: bool = False, header: str | None = None
    ) -> Call:
        """Puts lines with these members into a queue, and returns who waits for the replies."""
        call, began = Call(len(lines), queue), asyncio.get_running_loop().time()
        for members in lines:
            self.put(queue, call, json.dumps(members, separators=(",", ":")), members, began, is_whole, header)
        return call

    async def call(self, queue: Queue, lines: list[dict[str, Any]]) -> list[bytes]:
        """The replies to lines with these members, in order."""
        return await self.ask(queue, lines).replies()

    def is_late(self) -> bool:
        """Whether some line has waited longer than any may."""
        return self.oldest_wait() > self._options.max_wait

    def oldest_wait(self) -> float:
        """The seconds of the line that has waited longest, for its turn or for its reply."""
        return self.turns.oldest_wait(asyncio.get_running_loop().time())

    def pid(self) -> int | None:
        """The process of `sno serve`, if there is one."""
        return self._pipe.pid if self._pipe else None

    def notice(self) -> bytes:
        """The line that says whether the desk serves, and which index its next entry will have."""
        word = {State.SERVING: "up", State.STARTING: "down"}.get(self.state, "ending")
        return b'{"service":"%b","next":%d}' % (word.encode(), self.journal.next)

    async def page(self, queue: Queue, index: int, limit: int) -> list[bytes]:
        """Entries from this index on, at most `limit`, as lines for those who watch. ConnectionError is raised unless the desk
        serves."""
        if self.state is not State.SERVING:
            raise ConnectionError(NOT_PERFORMED)
        if lines := await self.reads.watched(index, self.seen()):
            return lines
        (reply,) = await self.ask(queue, [{"since": index, "limit": limit}], is_whole=True).replies()
        queue.read(len(reply))
        # What was compacted meanwhile is gone: who watches from there is cut off.
        found = json.loads(reply)
        self.journal.oldest = max(self.journal.oldest, found.get("first", 0))
        return [b'{"watched":' + _compact(entry) + b"}" for entry in _entries_of(found)]

    # Start, restart, end

    async def start(self) -> None:
        """Starts the program for the first time. StartFault is raised if it ends before it serves. While another
        process has the store, as one that is just ending, the start is tried again while the patience lasts."""
        deadline = asyncio.get_running_loop().time() + self._options.patience
        while not await self._begin(self._find_length):
            if self._status != 4 or asyncio.get_running_loop().time() > deadline:
                raise StartFault(self._status)
            await asyncio.sleep(0.2)

    async def end(self) -> int:
        """Takes no more lines, waits for all replies, and ends the program; returns its status."""
        self.state = State.ENDING
        self.turns.resume()
        self._wake_watchers()
        if self._restarting:
            self._restarting.cancel()
        if self._pipe:
            await self._end_of(self._pipe)
        self.state = State.ENDED
        # A program that a signal has ended has a status below 0.
        return self._status if self._status is not None and self._status >= 0 else 4

    # Memory

    async def compact(self) -> None:
        """Has the store replaced by a shorter one, between two runs of the program. Lines wait meanwhile, and none is refused. If
        those under way take too long, or the program is just starting or ending, nothing is done this time."""
        if self.state is not State.SERVING:
            return
        deadline = asyncio.get_running_loop().time() + self._options.patience
        self.turns.is_paused = True
        while self.turns.under_way and self.state is State.SERVING and asyncio.get_running_loop().time() < deadline:
            await asyncio.sleep(0.01)
        if self.state is not State.SERVING or self._pipe is None:
            # Lines go on when the next run serves, or the service ends.
            return
        if self.turns.under_way:
            self.turns.resume()
            return
        # (a run that began meanwhile has let lines go on)
        self.turns.is_paused = True
        self._why, self._is_to_compact = "the store is compacted", True
        self._pipe.end()
        await self._gone.wait()

    async def _shorten(self) -> None:
        """Compacts the store, which no program has. If it can't be, it is as it was."""
        self._is_to_compact = False
        words = [self._options.program, "store", "compact", str(self._options.store)]
        with suppress(OSError):
            process = await asyncio.create_subprocess_exec(*words, stdout=DEVNULL, start_new_session=True)
            await process.wait()

    def memory(self) -> int:
        """The bytes of memory that the program has, or 0 if they aren't known."""
        try:
            pages = Path(f"/proc/{self.pid()}/statm").read_text().split()[1]
        except (OSError, IndexError):
            return 0
        return int(pages) * _MEMORY_PAGE

    async def _end_of(self, pipe: Pipe) -> None:
        """Waits for the end of the program, and kills it if that takes too long."""
        pipe.end()
        try:
            async with asyncio.timeout(_PART_OF_END * self._options.grace):
                await self._gone.wait()
        except TimeoutError:
            print(f"error: sno serve is killed, with {len(self.turns.under_way)} lines under way", file=sys.stderr)
            pipe.kill()
            with suppress(TimeoutError):
                async with asyncio.timeout(1.0):
                    await self._gone.wait()

    def _command(self) -> list[str]:
        options = self._options
        given = [f"--seats={options.seats}"]
        given += [f"--trials={options.trials}"] if options.trials else []
        given += [f"--keep={options.keep}"] if options.keep else []
        return [options.program, "serve", "--store", str(options.store), *given, str(options.document)]

    async def _begin(self, catch_up: Any) -> bool:
        """Starts the program and reads what was accepted before; whether it serves then."""
        self._gone.clear()
        pipe = Pipe(self._take, self._ended)
        try:
            await pipe.start(self._command())
        except OSError as fault:
            raise StartFault(None, f"{self._options.program}: {fault.strerror}") from None
        self._pipe = None if self._gone.is_set() else pipe
        try:
            self.turns.begin(pipe.spent)
            await catch_up()
            own = await self._own_entries()
            async with self._is_reading:
                await self._look_through(own)
            self._sizes.begin((await self._asked({"texts": True}))["texts"])
        except ConnectionError:
            pipe.kill()
            await self._gone.wait()
            return False
        if self._gone.is_set():
            # It has ended after its last reply, before this went on.
            return False
        if self.state is State.STARTING:
            self.state = State.SERVING
            self._notify()
        return True

    async def _own_entries(self) -> list[bytes]:
        """The first entries: at least those of the document's own statements, unless these are too long or gone."""
        count = 0 if self.journal.oldest else statements_of(self._options.document)
        found: list[bytes] = []
        while len(found) < count and sum(map(len, found)) <= _MOST_OWN:
            page = entries_in(await self._reply_to({"since": len(found), "limit": min(MOST_ENTRIES, count - len(found))}))
            if not page:
                break
            found += page
        return found

    async def _look_through(self, own: list[bytes]) -> None:
        """Looks through the whole store, for the keys and the places of its entries."""
        records = Records(self._options.store, own)
        with suppress(FileNotFoundError):
            await asyncio.to_thread(records.catch_up)
        # Those that were accepted meanwhile are in the file, but perhaps after the place where it was read.
        for identity, known in list(self.keys.records.keys.items()):
            if known.index >= records.end():
                records.keys.setdefault(identity, known)
        self.keys.records = records

    async def stamps(self, indices: list[int]) -> list[Stamp | None]:
        """What the store says of entries, beside what they did."""
        def read(records: Records) -> list[Stamp | None]:
            records.catch_up()
            return records.stamps(indices)

        return await self.from_store(read) or [None] * len(indices)

    async def from_store(self, read: Callable[[Records], Read]) -> Read | None:
        """What a function reads of the store, or None if the file isn't there, or was just replaced."""
        # One thread at a time looks through the file. If its client goes, it goes on, and so has a lock of its own.
        def locked(records: Records) -> Read:
            with records.lock:
                return read(records)

        async with self._is_reading:
            try:
                if self.keys.records.is_replaced():
                    await self._look_through([])
                return await asyncio.to_thread(locked, self.keys.records)
            except OSError:
                return None

    async def _catch_up(self) -> None:
        """Brings the index of the store up to date."""
        await self.from_store(Records.catch_up)
        self._catching_up = None

    # What is on the disk

    def is_serving(self) -> bool:
        """Whether lines are performed now."""
        return self.state is State.SERVING

    def seen(self) -> int:
        """The index after the last entry that has had its reply. Those before it are on the disk too: the file has all in order."""
        return max(self.journal.next, max(self._early, default=-1) + 1)

    def has_statements_under_way(self) -> bool:
        """Whether an entry may be on the disk that has had no reply."""
        return any(line.work.is_statement for line in self.turns.under_way)

    async def seen_by_seats(self, queue: Queue, index: int) -> int:
        """The index after the last entry that `sno serve` shows now. `index` is that after one that has been seen."""
        (reply,) = await self.ask(queue, [{"since": index, "limit": MOST_ENTRIES}], is_whole=True).replies()
        queue.read(len(reply))
        entries = json.loads(reply).get("entries")
        return entries[-1]["entry"] + 1 if entries else index

    async def _restart(self) -> None:
        delay, began = _FIRST_DELAY, asyncio.get_running_loop().time()
        why, self._why = self._why or _ended_by(self._status), None
        print(f"restart: {why}", file=sys.stderr, flush=True)
        if self._is_to_compact:
            await self._shorten()
        while self.state is State.STARTING:
            self._metrics.restarts += 1
            with suppress(StartFault):
                is_done = await self._begin(self._find_further)
                self.turns.resume()
                if is_done:
                    seconds = asyncio.get_running_loop().time() - began
                    print(f"restart: done in {seconds:.3f} s, with {self.journal.next} entries", file=sys.stderr, flush=True)
                    return
            self.turns.resume()
            await asyncio.sleep(delay)
            delay = min(2 * delay, _LAST_DELAY)

    async def _find_length(self) -> None:
        """Finds how many entries there are, in as many steps as the number has digits in base two, twice."""
        first, step = await self._first(), 1
        while await self._entries(first + step - 1, 1):
            step *= 2
        low, high = first + step // 2, first + step
        while low < high:
            middle = (low + high) // 2
            if await self._entries(middle, 1):
                low = middle + 1
            else:
                high = middle
        self.journal.begin(low, first)

    async def _find_further(self) -> None:
        """Reads the entries that were accepted and whose replies were lost, so that those who watch get them. Those that were
        compacted meanwhile are left out: who watches from before is cut off."""
        first = await self._first()
        if first > self.journal.next:
            self.journal.begin(first, first)
        while entries := await self._entries(self.journal.next, _PAGE):
            for entry in entries:
                self.journal.add(_compact(entry))

    async def _first(self) -> int:
        """The index of the first entry that the store has."""
        first: int = (await self._asked({"since": 0, "limit": 1})).get("first", 0)
        return first

    async def _entries(self, index: int, limit: int) -> list[dict[str, Any]]:
        return _entries_of(await self._asked({"since": index, "limit": limit}))

    async def _reply_to(self, members: dict[str, Any]) -> bytes:
        """The reply to a line of the desk's own, while no other lines are under way."""
        if self._pipe is None or self.state in (State.ENDING, State.ENDED):
            raise ConnectionError(NOT_PERFORMED)
        call, number = Call(1, self._queue), self._next_number()
        now = asyncio.get_running_loop().time()
        self.turns.send_now(Line(self._queue, call, written(members, number), number, None, None, now))
        (reply,) = await call.replies()
        self._queue.read(len(reply))
        return reply

    async def _asked(self, members: dict[str, Any]) -> dict[str, Any]:
        """The members of such a reply."""
        found: dict[str, Any] = json.loads(await self._reply_to(members))
        if "error" in found:
            raise ConnectionError(found["error"])
        return found

    # What the pipe calls

    def _next_number(self) -> int:
        self._number += 1
        return self._number

    def _send(self, line: Line) -> None:
        assert self._pipe
        if self._options.seats > 1:
            self._by_number[line.number] = line
        self._pipe.put(line.raw)

    def _refuse(self, line: Line) -> None:
        """Replies that a line isn't performed."""
        what = line.refusal or NOT_PERFORMED
        self._metrics.lines[what] += 1
        _give(line, refused(what, line.identity))
        self.turns.enter_again(self.keys.ended(line, None))
        line.owner.wake()

    def _take(self, replies: list[bytes]) -> None:
        """Takes replies that came together."""
        now, before = asyncio.get_running_loop().time(), self.journal.next
        lines = []
        for line, reply in self._with_lines(replies):
            lines.append(line)
            if line.is_repeat:
                reply = entry_again(reply)
            elif line.work.is_statement:
                reply = without_own(reply)
            self._count(line, reply)
            _give(line, restored(reply, line.number, line.identity))
        if self._early and not self.turns.under_way:
            # A new start reads what the journal has.
            self._break("an entry is missing")
        if lines:
            self.turns.replied(lines, now)
            # Further lines go before anything else is done with these replies, so that the desk has work meanwhile.
            self.turns.go_on()
        for owner in {line.owner: None for line in lines}:
            owner.wake()
        self._metrics.replied(now - min((line.began for line in lines), default=now), len(replies))
        if self.journal.next != before:
            self._wake_watchers()
            if self.journal.next - self.keys.records.end() > _MOST_BEHIND and not self._catching_up:
                self._catching_up = asyncio.get_running_loop().create_task(self._catch_up())

    def _with_lines(self, replies: list[bytes]) -> Iterator[tuple[Line, bytes]]:
        """Each reply with its line. One seat replies in the order of the lines, and several in any."""
        under_way = self.turns.under_way
        for reply in replies:
            number = number_in(reply) if self._options.seats > 1 else None
            if number is not None or self._options.seats == 1:
                line = self._by_number.pop(number, None) if number is not None else under_way[0] if under_way else None
                if line is None:
                    # Nobody knows whose the next one is.
                    self._break("a reply to no line")
                    return
                under_way.remove(line)
                yield line, reply
            else:
                self._unnumbered.append(reply)
        yield from self._with_unnumbered()

    def _with_unnumbered(self) -> Iterator[tuple[Line, bytes]]:
        """The replies that have no number, with their lines, if it is clear which these are: one line that may not be JSON is
        under way at a time. If it was another one, no further line goes until all others have their replies."""
        while self._unnumbered:
            found = [line for line in self._by_number.values() if line.work.is_unnumbered]
            if not found and len(self._unnumbered) == len(self._by_number):
                found = list(self._by_number.values())
            self.turns.is_held = not found
            if not found:
                if not self._by_number:
                    self._break("a reply to no line")
                return
            line = self._by_number.pop(found[0].number)
            self.turns.under_way.remove(line)
            yield line, self._unnumbered.pop(0)

    def _count(self, line: Line, reply: bytes) -> None:
        """Counts a reply, and gives its entry to the journal when it has those before."""
        index = None if line.is_repeat else index_in(reply)
        self._sizes.replied(line.bound, reply, index)
        self.turns.enter_again(self.keys.ended(line, index))
        self._metrics.lines[outcome_of(reply) if index is None else "accepted"] += 1
        if index is None or index < self.journal.next:
            return
        self._early[index] = entry_of(reply, line.number)
        while self.journal.next in self._early:
            self.journal.add(self._early.pop(self.journal.next))

    def _break(self, why: str) -> None:
        """Ends the program, since what it says can't be."""
        self._why = self._why or why
        if self._pipe:
            self._pipe.kill()

    def _ended(self, status: int | None) -> None:
        """The program has ended, and no further reply comes."""
        self._status, self._pipe = status, None
        pending = self.turns.lost()
        for kept in self._by_number, self._unnumbered, self._early:
            kept.clear()
        was_serving = self.state is State.SERVING
        if was_serving:
            self.state = State.STARTING
        for line in pending:
            self._metrics.lines["unknown"] += 1
            key = {"key": line.asked.given} if line.asked else {}
            _give(line, refused(UNKNOWN, line.identity, since=self.journal.next, **key))
            self.turns.enter_again(self.keys.ended(line, None))
        for owner in {line.owner: None for line in pending}:
            owner.wake()
        self.turns.go_on()
        self._gone.set()
        if was_serving:
            self._notify()
            self._restarting = asyncio.get_running_loop().create_task(self._restart())

    def _wake_watchers(self) -> None:
        for watcher in self.watchers:
            watcher.wake()

    def _notify(self) -> None:
        line = self.notice()
        for watcher in self.watchers:
            watcher.notice(line)
            watcher.wake()


def _take_key(line: Line, members: dict[str, Any], key: object) -> None:
    """Gives a line its key, if it has one."""
    if key is None:
        return
    if not is_key(key):
        line.refusal = BAD_KEY
        return
    given = str(key)
    line.asked = Asked(given, key_of(line.queue.account.name, given), digest_of(members))


def _ended_by(status: int | None) -> str:
    """How the program ended, in words."""
    return f"sno serve was ended by signal {-status}" if status is not None and status < 0 else f"sno serve ended with {status}"


def _give(line: Line, reply: bytes) -> None:
    """Gives a reply to the owner of its line, and counts it until the client has read it."""
    if line.queue.account.is_limited() and not line.is_whole and not line.work.is_statement:
        reply = line.queue.account.shown(reply)
    line.queue.owe(len(reply))
    line.owner.take(reply)


def _entries_of(reply: dict[str, Any]) -> list[dict[str, Any]]:
    """The entries that a reply has; ConnectionError is raised if it has none."""
    if "entries" not in reply:
        raise ConnectionError(reply.get("error", reply.get("reason")))
    entries: list[dict[str, Any]] = reply["entries"]
    return entries


def _compact(entry: dict[str, Any]) -> bytes:
    return json.dumps(entry, separators=(",", ":"), ensure_ascii=False).encode()
