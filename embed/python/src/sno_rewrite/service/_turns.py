"""Whose line is next: each client has a queue, and the queues take turns at the desk, a line each.

How many lines are at the desk at a time is bounded by a window. The more are there, the more share a wait for the disk. But a
client that comes later waits for all of them, and nobody knows what a line costs before its reply. So the window doubles
while replies come back quickly. If the lines at the desk have taken more than 20 ms, no further one is sent before their
replies, and the window shrinks to what the desk does in that time. What is measured is the processor's time of `sno serve`: a
slow disk, or a busy machine, makes lines late too, but fewer of them at a time would not come sooner then. Each queue has a
window of its own as well, so that a client begins with a few lines, however quick those of others are.

If `sno serve` has several seats, lines under way are performed in any order, so each queue has one of them at a time. Which go
beside each other is up to `_lanes`. Reads wait for no window then.

What a client hasn't read and what its lines may bring back is counted before a line is sent on. Past its bound a client's next
line waits. Past the bound for all clients each may have one line that it reads before the next one.
"""

from __future__ import annotations

import asyncio
from collections import deque
from collections.abc import Callable
from dataclasses import dataclass
from typing import Any, Protocol

from ._accounts import Account
from ._keys import Asked
from ._lanes import Lanes
from ._sizes import Bound, Sizes
from ._works import Work

# Lines of a client, or of all, that are sent before anything is known of what they cost.
_FIRST = 4
# The seconds of a processor that the lines at the desk may take together, and the most lines of a batch of `sno serve`.
_QUICK = 0.02
_MOST = 1_024
# Lines of one client that are sent while the disk is awaited: as many as come meanwhile, if the service takes this long for
# each. Those of all clients are as many as of this many clients.
_LEAST_MOST = 64
_SECONDS_OF_LINE = 0.00005
_CLIENTS = 8
# Bytes of lines at the desk and of what they may bring. One that may bring more counts half of this: others go with it.
_MOST_BYTES = 4_194_304
# Queues that are looked at again together, when less is unread.
_RELEASED = 8


class Owner(Protocol):
    """Whose line it is."""

    def take(self, reply: bytes) -> None:
        """Takes the reply to its next line."""

    def wake(self) -> None:
        """Is called once after all replies that came together."""


@dataclass(slots=True, eq=False)
class Line:
    """A line that waits for its turn, or for its reply."""

    queue: Queue
    owner: Owner
    raw: bytes
    number: int
    members: dict[str, Any] | None
    identity: bytes | None
    began: float
    work: Work = Work()
    bound: Bound = Bound(0)
    # Since when nothing but others' lines keeps it waiting.
    waits_since: float = 0.0
    is_large: bool = False
    # Whether it has a lane of those that may take long, when it was sent, and what the desk had taken of a processor then.
    is_costly: bool = False
    sent_at: float = 0.0
    charged_before: float = 0.0
    spent_before: float = 0.0
    # What is replied in its turn instead of sending it.
    refusal: str | None = None
    # Whether its reply shows texts that its account doesn't see.
    is_whole: bool = False
    # The key that it has, and whether that has brought an entry before.
    asked: Asked | None = None
    is_repeat: bool = False

    def size(self) -> int:
        """The bytes that it and its reply count as while it is at the desk."""
        return len(self.raw) + min(self.bound.most, _MOST_BYTES // 2)


class Window:
    """How many lines may be at the desk."""

    def __init__(self) -> None:
        self.most = _FIRST
        self.most_of_one = _FIRST
        self._spent: Callable[[], float] = lambda: 0.0
        self._spent_before = self._since = self._wait = 0.0

    def begin(self, spent: Callable[[], float]) -> None:
        """Begins anew, with a program; `spent` returns the seconds of a processor that it has had."""
        self.most, self._spent = _FIRST, spent
        self.mark(0.0)

    def mark(self, now: float) -> None:
        """Measures from here on."""
        self._spent_before, self._since = self._spent(), now

    def is_late(self) -> bool:
        """Whether the lines at the desk already take too long."""
        return self._spent() - self._spent_before > _QUICK

    def replied(self, count: int, is_wanted: bool, now: float) -> bool:
        """Takes that this many replies came together; whether they came quickly. The window grows if more is wanted."""
        seconds = self._spent() - self._spent_before
        self._wait += (max(0.0, now - self._since - seconds) - self._wait) / 8
        self.mark(now)
        if seconds > _QUICK:
            self.most = max(1, min(self.most, int(count * _QUICK / seconds)))
            return False
        self.most_of_one = min(_MOST, _LEAST_MOST + int(self._wait / _SECONDS_OF_LINE))
        if is_wanted:
            self.most = min(_MOST, _CLIENTS * self.most_of_one, 2 * self.most)
        return True


class Queue:
    """The lines of one connection that wait for their turn, and what is counted of the others."""

    def __init__(self, turns: Turns) -> None:
        self.waiting: deque[Line] = deque()
        self.under_way = 0
        # The bytes of replies that its client hasn't read, and those that its lines at the desk may bring.
        self.unread = 0
        self.expected = 0
        # How many lines may be at the desk.
        self.most = turns.first
        self.waits_since = 0.0
        self.is_in_turn = False
        # Where it waits for what others have under way, and whether its last statement was cheap.
        self.place: deque[Queue] | None = None
        self.is_cheap = False
        # Whose lines they are, and whether they wait until the account may spend trials again.
        self.account = Account(None)
        self.waits_for_trials = False
        self.is_closed = False
        # Is called when there is room for more lines.
        self.feed: Callable[[], None] = _nothing
        self._turns = turns

    def owe(self, size: int) -> None:
        """Counts bytes that the client has to read."""
        if not self.is_closed:
            self.unread += size
            self._turns.unread += size

    def read(self, size: int) -> None:
        """Counts that the client has read bytes, or needn't any more."""
        size = min(size, self.unread)
        self.unread -= size
        self._turns.unread -= size
        self._turns.has_read(self)

    def read_all(self) -> None:
        """Counts that the client has read all there was."""
        if self.unread:
            self.read(self.unread)

    def is_full(self) -> bool:
        """Whether the client has to read before it is heard."""
        return self.unread > self._turns.most_unread

    def close(self) -> None:
        """The client is gone: its lines that wait are never performed."""
        self.is_closed, self.feed = True, _nothing
        self.read_all()
        self._turns.refuse(self)


class Turns:
    """All queues, and the lines at the desk."""

    def __init__(
        self,
        sizes: Sizes,
        limits: tuple[int, int],
        serves: Callable[[], bool],
        send: Callable[[Line], None],
        refuse: Callable[[Line], None],
        seats: int = 1,
    ) -> None:
        """The limits are those of what one client, and all of them, leave unread. `send` sends a line; `refuse` replies that
        it isn't performed."""
        self.lanes = Lanes(seats)
        self.first = 1 if seats > 1 else _FIRST
        self.most_unread, self._most_of_all = limits
        self._sizes, self._serves, self._send, self._refuse = sizes, serves, send, refuse
        self.window = Window()
        self.under_way: deque[Line] = deque()
        self.unread = 0
        self._expected = 0
        self._bytes = 0
        # The queues that have lines, those of them whose turn comes, and those that wait until less is unread in all.
        self._all: dict[Queue, None] = {}
        self._ring: deque[Queue] = deque()
        self._held: deque[Queue] = deque()
        # Whether a line is under way that may bring more than one client's bound.
        self._has_large = False
        self._is_due = False
        # Statements that wait for the window, while reads go.
        self._later: deque[Queue] = deque()
        # Whether a line may go as far as its key says.
        self.is_next: Callable[[Line], bool] = lambda line: True
        # Whether replies have come whose lines aren't known yet.
        self.is_held = False
        # Whether lines wait for another run of the program, which is expected.
        self.is_paused = False

    def resume(self) -> None:
        """Goes on, if it was paused, in the next turn of the loop."""
        self.is_paused = False
        self.wake()

    def begin(self, spent: Callable[[], float]) -> None:
        """Begins anew, with a program; `spent` returns the seconds of a processor that it has had."""
        self.is_held = False
        if not self.lanes.are_several():
            self.window.begin(spent)
            return
        self.lanes.begin(spent)
        loop = asyncio.get_running_loop()
        self.window.begin(lambda: self.lanes.charged(loop.time()))

    def send_now(self, line: Line) -> None:
        """Sends a line of the desk's own, before others have turns."""
        line.queue.waits_since = now = asyncio.get_running_loop().time()
        line.queue.waiting.append(line)
        self._begin(line.queue, now)

    def waiting(self) -> int:
        """How many lines wait for their turn."""
        return sum(len(queue.waiting) for queue in self._all)

    def oldest_wait(self, now: float) -> float:
        """The seconds that a line has waited for its turn, or for its reply. Time in which it waits for earlier lines of its
        own client, or for that to read, doesn't count."""
        since = [line.waits_since for line in self.under_way]
        since += [queue.waits_since for queue in self._all if queue.is_in_turn]
        return now - min(since, default=now)

    def put(self, line: Line) -> None:
        """Puts a line into its queue."""
        queue = line.queue
        if queue.is_closed:
            self._refuse(line)
            return
        queue.waiting.append(line)
        if queue.account.budget:
            queue.account.budget.waiting += line.work.trials
        self._all[queue] = None
        self._enter(queue)
        self.wake()

    def wake(self) -> None:
        """Has lines sent on in the next turn of the loop, when all that came together are in their queues."""
        if not self._is_due:
            self._is_due = True
            asyncio.get_running_loop().call_soon(self.go_on)

    def go_on(self) -> None:
        """Sends lines on, in turn, as many as may be at the desk."""
        self._is_due = True
        try:
            if self.is_paused:
                return
            if self._serves():
                self._send_in_turn()
            else:
                for queue in list(self._all):
                    self.refuse(queue)
        finally:
            self._is_due = False

    def _send_in_turn(self) -> None:
        now = asyncio.get_running_loop().time()
        is_late = bool(self.under_way) and self.window.is_late()
        if is_late and self.lanes.are_several():
            is_late = not self._is_other_costly(now)
        if self.is_held or (is_late and not self.lanes.are_several()):
            return
        if not is_late:
            self._ring.extendleft(reversed(_front_of(self._later, self.window.most - len(self.under_way))))
        while self._ring and (self.lanes.are_several() or len(self.under_way) < self.window.most):
            queue = self._ring.popleft()
            queue.is_in_turn = False
            if self._waits(queue) or not self._may_go(queue):
                continue
            if self.under_way and self._bytes + queue.waiting[0].size() > _MOST_BYTES:
                queue.is_in_turn = True
                self._ring.appendleft(queue)
                break
            if not self.lanes.are_several() or self._may_go_beside(queue, is_late):
                self._begin(queue, now)

    def _may_go_beside(self, queue: Queue, is_late: bool) -> bool:
        """Whether the next line of a queue may go beside those under way, at one of several seats. If not, it keeps its turn."""
        line, work = queue.waiting[0], queue.waiting[0].work
        if work.is_statement:
            line.is_costly = self.lanes.is_costly(work, queue.is_cheap, self._sizes.length(work.key[0]))
            if not line.is_costly and (is_late or len(self.under_way) - self.lanes.costly >= self.window.most):
                queue.is_in_turn = True
                self._later.append(queue)
                return False
        queue.is_in_turn = not self.lanes.may_go(queue, line)
        return not queue.is_in_turn

    def _is_other_costly(self, now: float) -> bool:
        """Whether a seat can be given to the statement for which all wait: it takes longer than one like it did before."""
        if self.lanes.costly >= self.lanes.seats - 1:
            return False
        slow = next((line for line in self.under_way if line.work.is_statement and not line.is_costly), None)
        if slow is None:
            return False
        self.lanes.became_costly(slow, now)
        self.window.mark(now)
        return True

    def refuse(self, queue: Queue) -> None:
        """Refuses the lines of a queue that wait, unless earlier ones have no reply yet: replies come in order."""
        while queue.waiting and (queue.is_closed or not queue.under_way):
            self._refuse_first(queue)
        if not queue.waiting:
            self._leave(queue)

    def _refuse_first(self, queue: Queue) -> None:
        """Refuses the first line of a queue."""
        line = queue.waiting.popleft()
        if queue.account.budget:
            queue.account.budget.waiting -= line.work.trials
        self._refuse(line)
        if not queue.waiting:
            queue.feed()

    def _waits(self, queue: Queue) -> bool:
        """Whether the first line of a queue waits for those before it, or until its account may spend trials again; or was refused
        now. The queue has another turn then."""
        line, budget = queue.waiting[0], queue.account.budget
        if not self.is_next(line):
            return True
        if line.refusal is not None:
            if not queue.under_way:
                self._refuse_first(queue)
                self._enter(queue)
            if not queue.waiting:
                self._leave(queue)
            return True
        seconds = budget.seconds() if budget and line.work.trials else 0.0
        if seconds and not queue.waits_for_trials:
            queue.waits_for_trials = True
            asyncio.get_running_loop().call_later(seconds, self._try_again, queue)
        return seconds > 0

    def _try_again(self, queue: Queue) -> None:
        queue.waits_for_trials = False
        self.enter_again([queue])

    def enter_again(self, queues: list[Queue]) -> None:
        """Gives queues a turn that have waited for something else."""
        for queue in queues:
            self._enter(queue)
        if queues:
            self.wake()

    def replied(self, lines: list[Line], now: float) -> None:
        """Counts that these lines, which were the first ones at the desk, have their replies."""
        is_wanted = bool(self._all) and len(self.under_way) + len(lines) >= self.window.most
        is_quick = self.window.replied(len(lines), is_wanted, now)
        for line in lines:
            if self.lanes.are_several() and line.work.is_statement:
                line.queue.is_cheap = self.lanes.learn(line, now)
            self._end(line, now)
        # Those that were held before come before these.
        self._release()
        for queue in {line.queue: None for line in lines}:
            if not is_quick or self.lanes.are_several():
                queue.most = 1
            elif queue.waiting:
                queue.most = min(2 * queue.most, self.window.most, self.window.most_of_one)
            self._enter(queue)

    def lost(self) -> list[Line]:
        """The lines at the desk, which have no reply and get none."""
        lines, now = list(self.under_way), asyncio.get_running_loop().time()
        self.under_way.clear()
        for line in lines:
            self._end(line, now)
        self._release()
        return lines

    def has_read(self, queue: Queue) -> None:
        """Goes on after a client has read."""
        if not queue.waiting:
            queue.feed()
        self._release()
        self._enter(queue)
        if self._ring:
            self.wake()

    def _enter(self, queue: Queue) -> None:
        """Gives a queue a turn, if it has a line that may be sent."""
        if queue.waiting and not queue.is_in_turn and queue.under_way < queue.most:
            queue.is_in_turn = True
            queue.waits_since = asyncio.get_running_loop().time()
            self._ring.append(queue)

    def _leave(self, queue: Queue) -> None:
        self._all.pop(queue, None)
        if queue.is_in_turn:
            queue.is_in_turn = False
            self._ring.extend(self.lanes.left(queue))
            for place in self._ring, self._held, self._later:
                if queue in place:
                    place.remove(queue)

    def _release(self) -> None:
        """Gives some a turn again that waited until less is unread in all: the next call is for further ones."""
        for _ in range(min(_RELEASED, len(self._held))):
            self._ring.append(self._held.popleft())

    def _may_go(self, queue: Queue) -> bool:
        """Whether what the next line of a queue may bring is within the bounds. If not, the queue waits for what it needs."""
        line, used = queue.waiting[0], queue.unread + queue.expected
        line.bound = self._sizes.bound(line.members, len(line.raw), self._expected)
        most = line.bound.most
        if used and used + most > self.most_unread:
            return False
        in_all = self.unread + self._expected
        line.is_large = most > self.most_unread
        is_held = self._has_large or in_all > self._most_of_all if line.is_large else used and in_all + most > self._most_of_all
        if is_held:
            queue.is_in_turn = True
            self._held.append(queue)
        return not is_held

    def _begin(self, queue: Queue, now: float) -> None:
        """Sends the first line of a queue, and gives the queue a new place."""
        line = queue.waiting.popleft()
        line.waits_since, line.members = queue.waits_since, None
        if queue.account.budget:
            queue.account.budget.waiting -= line.work.trials
            queue.account.budget.spend(line.work.trials)
        if not self.under_way:
            self.window.mark(now)
        self.under_way.append(line)
        self._bytes += line.size()
        queue.under_way += 1
        if line.is_large:
            self._has_large = True
        else:
            self._expected += line.bound.most
        queue.expected += line.bound.most
        self._sizes.sent(line.bound)
        if self.lanes.are_several():
            self.lanes.sent(line, now)
        self._send(line)
        if not queue.waiting:
            queue.feed()
        if queue.waiting:
            self._enter(queue)
        else:
            self._leave(queue)

    def _end(self, line: Line, now: float) -> None:
        """Takes back what was counted for a line at the desk."""
        if self.lanes.are_several():
            self._ring.extend(self.lanes.ended(line, now))
        line.queue.under_way -= 1
        line.queue.expected -= line.bound.most
        self._bytes -= line.size()
        if line.is_large:
            self._has_large = False
        else:
            self._expected -= line.bound.most


def _front_of(place: deque[Queue], most: int) -> list[Queue]:
    """Takes as many queues from the front of a place."""
    return [place.popleft() for _ in range(min(len(place), max(0, most)))]


def _nothing() -> None:
    """There is nobody to be asked for more."""
