"""Turns of lines, without a desk: who is next, how many are under way, and what is counted."""

import asyncio
import json
import unittest
from pathlib import Path

from sno_rewrite.service._journal import Journal
from sno_rewrite.service._sizes import LONGEST, Sizes
from sno_rewrite.service._turns import Line, Queue, Turns
from sno_rewrite.service._works import work_of

MOST, MOST_OF_ALL = 1_000_000, 3_000_000


class Taker:
    """Whose lines they are."""

    def __init__(self) -> None:
        self.replies: list[bytes] = []

    def take(self, reply: bytes) -> None:
        self.replies.append(reply)

    def wake(self) -> None: ...


class Desk:
    """What turns need of a desk: lines that are sent, and seconds that they have taken."""

    def __init__(self, seats: int = 1) -> None:
        journal = Journal(most=1_000, most_bytes=1_000_000)
        journal.begin(10, 0)
        self.sizes = Sizes(journal, Path(__file__), 0)
        self.sizes.begin([{"name": "T", "length": 10}, {"name": "LONG", "length": 65_536}])
        self.serves, self.seconds = True, 0.0
        self.sent: list[Line] = []
        self.refused: list[Line] = []
        limits = MOST, MOST_OF_ALL
        self.turns = Turns(self.sizes, limits, lambda: self.serves, self.sent.append, self.refused.append, seats)
        self.turns.begin(lambda: self.seconds)

    def put(self, queue: Queue, members: dict[str, object], count: int = 1) -> None:
        for _ in range(count):
            raw = json.dumps(members).encode()
            self.turns.put(Line(queue, Taker(), raw, 0, members, None, 0.0, work_of(raw, members, None)))

    def reply(self, count: int, seconds: float, size: int = 100) -> None:
        """Replies to lines under way, which have taken these seconds together, and goes on."""
        self.seconds += seconds
        lines = [self.turns.under_way.popleft() for _ in range(count)]
        for line in lines:
            self.sizes.replied(line.bound, b"{}", None)
            line.queue.owe(size)
        self.turns.replied(lines, 0.0)
        self.turns.go_on()

    def end(self, line: Line, is_cheap: bool) -> None:
        """Replies to a line at one of several seats, which was cheap or not."""
        self.seconds += 0.0 if is_cheap else 1.0
        line.sent_at -= 0.0 if is_cheap else 1.0
        self.turns.under_way.remove(line)
        self.turns.replied([line], asyncio.get_running_loop().time())
        self.turns.go_on()

    def queues(self, count: int) -> list[Queue]:
        return [Queue(self.turns) for _ in range(count)]


READ, LONG_READ, OLD = {"read": "T"}, {"read": "LONG"}, {"since": 0}


def change(text: str, pattern: str = "ARB") -> dict[str, object]:
    return {"text": text, "pattern": pattern}


class Seats(unittest.IsolatedAsyncioTestCase):
    """Lines at several seats: which go beside each other."""

    async def test_a_read_goes_beside_all(self) -> None:
        desk = Desk(seats=3)
        first, second, reader = desk.queues(3)
        desk.put(first, change("T"))
        desk.put(second, change("LONG"))
        desk.turns.go_on()
        # One of three seats is for what may be costly.
        self.assertEqual([line.queue for line in desk.sent], [first])
        desk.seconds = 10.0
        desk.put(reader, READ)
        desk.turns.go_on()
        self.assertEqual([line.queue for line in desk.sent], [first, reader])

    async def test_a_client_has_one_line_at_a_time(self) -> None:
        desk = Desk(seats=4)
        (queue,) = desk.queues(1)
        desk.put(queue, READ, 10)
        for count in range(1, 11):
            desk.turns.go_on()
            self.assertEqual(len(desk.sent), count)
            desk.end(desk.sent[-1], is_cheap=True)
        self.assertEqual(len(desk.sent), 10)

    async def test_costly_ones_of_a_text_take_one_seat(self) -> None:
        desk = Desk(seats=4)
        queues = desk.queues(5)
        for queue in queues[:4]:
            desk.put(queue, change("T"))
        desk.put(queues[4], change("LONG"))
        desk.turns.go_on()
        self.assertEqual([line.queue for line in desk.sent], [queues[0], queues[4]])
        desk.end(desk.sent[0], is_cheap=False)
        desk.end(desk.sent[1], is_cheap=False)
        self.assertEqual([line.queue for line in desk.sent], [queues[0], queues[4], queues[1]])

    async def test_cheap_ones_come_before_costly_ones_of_their_text(self) -> None:
        desk = Desk(seats=4)
        queues = desk.queues(4)
        light = queues[3]
        desk.put(light, change("T", "'a'"))
        desk.turns.go_on()
        desk.end(desk.sent[0], is_cheap=True)
        for queue in queues[:3]:
            desk.put(queue, change("T"))
        desk.turns.go_on()
        desk.put(light, change("T", "'a'"))
        desk.turns.go_on()
        self.assertEqual([line.queue for line in desk.sent[1:]], [queues[0]])
        desk.end(desk.sent[-1], is_cheap=False)
        self.assertEqual([line.queue for line in desk.sent[2:]], [light])
        # The next costly one has waited for it, and no further one comes before.
        desk.put(light, change("T", "'a'"))
        desk.end(desk.sent[-1], is_cheap=True)
        self.assertEqual(desk.sent[3].queue, queues[1])
        self.assertEqual(len(desk.sent), 4)

    async def test_who_leaves_keeps_nobody_waiting(self) -> None:
        desk = Desk(seats=4)
        light, other, gone, last = desk.queues(4)
        for queue in light, other:
            desk.put(queue, change("T", f"'{id(queue)}'"))
            desk.turns.go_on()
            desk.end(desk.sent[-1], is_cheap=True)
        count = len(desk.sent)
        desk.put(light, change("T", "'a'"))
        desk.turns.go_on()
        # It has the next turn at the text, and then goes.
        desk.put(gone, change("T"))
        desk.turns.go_on()
        desk.put(other, change("T", "'a'"))
        desk.turns.go_on()
        self.assertEqual(len(desk.sent), count + 1)
        gone.close()
        desk.turns.go_on()
        self.assertEqual([line.queue for line in desk.sent[count:]], [light, other])
        desk.put(last, change("T"))
        for line in list(desk.turns.under_way):
            desk.end(line, is_cheap=True)
        self.assertEqual(desk.sent[-1].queue, last)
        desk.end(desk.sent[-1], is_cheap=True)
        self.assertEqual(desk.turns.lanes._texts, {})

    async def test_lines_that_may_have_no_number_go_alone(self) -> None:
        desk = Desk(seats=4)
        queues = desk.queues(3)
        for queue in queues[:2]:
            desk.turns.put(Line(queue, Taker(), b"x", 0, None, None, 0.0, work_of(b"x", None, None)))
        desk.put(queues[2], READ)
        desk.turns.go_on()
        self.assertEqual([line.queue for line in desk.sent], [queues[0], queues[2]])
        desk.end(desk.sent[0], is_cheap=True)
        self.assertEqual(desk.sent[-1].queue, queues[1])


class TurnsOfQueues(unittest.IsolatedAsyncioTestCase):
    async def test_each_queue_has_its_turn(self) -> None:
        desk = Desk()
        queues = desk.queues(3)
        for queue, count in zip(queues, (100, 2, 2), strict=True):
            desk.put(queue, READ, count)
        for _ in range(6):
            desk.turns.go_on()
            desk.reply(len(desk.turns.under_way), 10.0)
        # Costly ones go one at a time: those of the others come between.
        first = [queues.index(line.queue) for line in desk.sent[:6]]
        self.assertEqual(sorted(first), [0, 0, 1, 1, 2, 2])
        self.assertLess(len(desk.sent), 14)

    async def test_the_window_grows_and_shrinks(self) -> None:
        desk = Desk()
        (queue,) = desk.queues(1)
        desk.put(queue, READ, 1_000)
        counts = []
        for seconds in 0.001, 0.001, 0.001, 1.0, 0.001, 0.001:
            desk.turns.go_on()
            counts.append(len(desk.turns.under_way))
            desk.reply(counts[-1], seconds)
            queue.read_all()
        self.assertEqual(counts, [4, 8, 16, 32, 1, 2])

    async def test_no_line_goes_while_others_take_long(self) -> None:
        desk = Desk()
        busy, light = desk.queues(2)
        desk.put(busy, READ)
        desk.turns.go_on()
        desk.seconds = 1.0
        desk.put(light, READ)
        desk.turns.go_on()
        self.assertEqual(len(desk.sent), 1)
        desk.reply(1, 0.0)
        self.assertEqual([line.queue for line in desk.sent], [busy, light])

    async def test_a_client_that_does_not_read_waits(self) -> None:
        desk = Desk()
        (queue,) = desk.queues(1)
        desk.put(queue, LONG_READ, 10)
        desk.turns.go_on()
        self.assertEqual(len(desk.sent), MOST // (LONGEST + 2_000))
        desk.reply(len(desk.sent), 0.0, size=400_000)
        self.assertEqual(len(desk.sent), 2)
        queue.read(400_000)
        desk.turns.go_on()
        self.assertEqual(len(desk.sent), 3)
        queue.read_all()
        self.assertEqual(desk.turns.unread, 0)

    async def test_past_the_bound_of_all_each_has_one(self) -> None:
        desk = Desk()
        queues = desk.queues(20)
        for queue in queues[:4]:
            queue.owe(900_000)
        for queue in queues:
            desk.put(queue, READ, 3)
        for _ in range(100):
            desk.turns.go_on()
            if desk.turns.under_way:
                desk.reply(len(desk.turns.under_way), 0.0)
        self.assertEqual([line.queue for line in desk.sent], queues[4:])
        for queue in queues:
            queue.read_all()
        for _ in range(100):
            desk.turns.go_on()
            if desk.turns.under_way:
                desk.reply(len(desk.turns.under_way), 0.0)
        self.assertEqual(len(desk.sent), 60)

    async def test_what_may_bring_more_goes_alone(self) -> None:
        desk = Desk()
        desk.sizes = Sizes(Journal(most=1, most_bytes=1), Path("/none"), 0)
        desk.turns._sizes = desk.sizes
        desk.sizes._journal.begin(10, 0)
        queues = desk.queues(3)
        for queue in queues:
            desk.put(queue, OLD, 2)
        order = []
        for _ in range(20):
            desk.turns.go_on()
            self.assertLessEqual(sum(line.is_large for line in desk.turns.under_way), 1)
            order += [line.queue for line in desk.turns.under_way]
            if desk.turns.under_way:
                desk.reply(len(desk.turns.under_way), 0.0)
            for queue in queues:
                queue.read_all()
        self.assertEqual(order, queues + queues)

    async def test_lines_of_a_client_that_is_gone_are_dropped(self) -> None:
        desk = Desk()
        gone, other = desk.queues(2)
        desk.put(gone, READ, 100)
        desk.turns.go_on()
        sent = len(desk.sent)
        desk.put(other, READ)
        gone.close()
        desk.put(gone, READ)
        self.assertEqual(len(desk.refused), 101 - sent)
        desk.reply(sent, 0.0)
        self.assertEqual(desk.sent[-1].queue, other)
        self.assertEqual((desk.turns.waiting(), gone.unread, desk.turns.unread), (0, 0, 0))

    async def test_refusals_come_after_replies(self) -> None:
        desk = Desk()
        busy, idle = desk.queues(2)
        desk.put(busy, READ, 10)
        desk.turns.go_on()
        desk.serves = False
        desk.put(idle, READ)
        desk.turns.go_on()
        self.assertEqual([line.queue for line in desk.refused], [idle])
        desk.reply(len(desk.turns.under_way), 0.0)
        self.assertEqual(len(desk.refused), 7)

    async def test_waits_are_for_others(self) -> None:
        desk = Desk()
        (queue,) = desk.queues(1)
        now = asyncio.get_running_loop().time()
        self.assertEqual(desk.turns.oldest_wait(now), 0.0)
        desk.put(queue, READ, 100)
        desk.turns.go_on()
        self.assertGreater(desk.turns.oldest_wait(now + 100), 99)
        desk.turns.lost()
        queue.close()
        self.assertEqual(desk.turns.oldest_wait(now + 100), 0.0)


class Bounds(unittest.TestCase):
    def test_growth_is_counted_while_lines_are_under_way(self) -> None:
        sizes = Desk().sizes
        line = {"text": "T", "pattern": "POS(0)", "object": "'" + "x" * 1_000 + "'"}
        bounds = [sizes.bound(line, 1_100, 0) for _ in range(1)]
        for _ in range(10):
            sizes.sent(bounds[-1])
            bounds.append(sizes.bound(line, 1_100, 0))
        self.assertGreater(sizes.bound(READ, 10, 0).most, 11_000)
        for bound in bounds[:-1]:
            sizes.replied(bound, b'{"reason":"x"}', None)
        self.assertLess(sizes.bound(READ, 10, 0).most, 2_000)

    def test_an_entry_shows_the_size(self) -> None:
        sizes = Desk().sizes
        bound = sizes.bound({"text": "LONG", "pattern": "REM", "object": "'x'"}, 100, 0)
        sizes.sent(bound)
        self.assertGreater(sizes.bound(LONG_READ, 10, 0).most, LONGEST)
        sizes.replied(bound, b'{"after":"x\\",","bindings":[["V","y"]],"end":1}', 0)
        self.assertLess(sizes.bound(LONG_READ, 10, 0).most, 1_100)

    def test_variables_are_counted(self) -> None:
        sizes = Desk().sizes
        most = [sizes.bound({"text": "LONG", "pattern": "REM" + " . A" * count}, 50, 0).most for count in range(5)]
        self.assertEqual([later // LONGEST for later in most], [0, 1, 2, 3, 4])


if __name__ == "__main__":
    unittest.main()
