"""Which statements may be at the desk together, if it has several seats.

A read goes at once: some seat is always free for it. For that, few statements that may be costly go at a time, and none beside
another one of its text, which would have it tried again. Cheap ones go beside them, and wait for a costly one of their own text
alone. What a statement costs is known by its reply, so what came before says what to expect: the last statement of the same text
and pattern, and otherwise the last one of the same client. Nothing is known of the first one, so it counts as costly.

The processor's time of `sno serve` is that of all its seats. What costly statements take of it while they run is left out of what
the cheap ones are charged.
"""

from __future__ import annotations

import os
from collections import OrderedDict, deque
from collections.abc import Callable
from dataclasses import dataclass, field
from typing import TYPE_CHECKING

from ._works import Work

if TYPE_CHECKING:
    from ._turns import Line, Queue

# The seconds that a cheap statement may take: of a processor, and in all, with its wait for the disk.
_CHEAP, _SOON = 0.005, 0.25
# A statement with no more trials than this, on a text of no more characters, is cheap whatever came before.
_FEW_TRIALS, _SHORT = 10_000, 512
# Texts and patterns whose cost is known.
_KNOWN = 4_096


@dataclass(slots=True, eq=False)
class _Text:
    """A text with statements under way, or that wait for it."""

    under_way: int = 0
    has_costly: bool = False
    # Whose costly statement is next: until then no further one of this text goes.
    claim: Queue | None = None
    cheap: deque[Queue] = field(default_factory=deque)
    costly: deque[Queue] = field(default_factory=deque)


class Lanes:
    """What goes beside what. A queue whose line has to wait is in one of the places here until `ended` gives it back."""

    def __init__(self, seats: int) -> None:
        self.seats = seats
        self.costly = 0
        # One seat is left for reads, and one for what is cheap, if there are as many.
        self.most_costly = max(1, seats - 2)
        self._processors = len(os.sched_getaffinity(0))
        self._texts: dict[str, _Text] = {}
        self._for_seat: deque[Queue] = deque()
        self._for_number: deque[Queue] = deque()
        self._unnumbered = 0
        self._costs: OrderedDict[tuple[str | None, str], bool] = OrderedDict()
        self._spent: Callable[[], float] = lambda: 0.0
        self._taken = self._since = 0.0

    def are_several(self) -> bool:
        """Whether lines are performed beside each other."""
        return self.seats > 1

    # What lines cost

    def begin(self, spent: Callable[[], float]) -> None:
        """Begins anew, with a program."""
        self._spent, self._taken = spent, 0.0

    def charged(self, now: float) -> float:
        """The seconds of a processor that lines have taken, but for those of costly ones while they were known to be."""
        self._count(now)
        return self._spent() - self._taken

    def _count(self, now: float) -> None:
        share = min(1.0, self._processors / (self.costly + 1))
        self._taken += self.costly * share * (now - self._since)
        self._since = now

    def is_costly(self, work: Work, is_cheap: bool, length: int) -> bool:
        """Whether a statement may be costly. Its client's last one was cheap or not, and its text has this length."""
        if not work.is_statement or (work.trials <= _FEW_TRIALS and length <= _SHORT):
            return False
        return self._costs.get(work.key, not is_cheap)

    def learn(self, line: Line, now: float) -> bool:
        """Takes that a statement has its reply; whether it was cheap."""
        seconds = now - line.sent_at
        if line.is_costly:
            # Each of those that run together has its share.
            spent = (self._spent() - line.spent_before) / max(1, self.costly)
        else:
            spent = self.charged(now) - line.charged_before
        is_cheap = min(seconds, spent) <= _CHEAP and seconds <= _SOON
        self._costs[line.work.key] = not is_cheap
        self._costs.move_to_end(line.work.key)
        if len(self._costs) > _KNOWN:
            self._costs.popitem(last=False)
        return is_cheap

    # What goes

    def may_go(self, queue: Queue, line: Line) -> bool:
        """Whether the next line of a queue may go beside those under way. If not, the queue waits here."""
        place = self._place(queue, line)
        if place is None:
            return True
        place.append(queue)
        queue.place = place
        return False

    def _place(self, queue: Queue, line: Line) -> deque[Queue] | None:
        if line.work.is_unnumbered and self._unnumbered:
            return self._for_number
        if line.is_costly and self.costly >= self.most_costly:
            return self._for_seat
        if line.work.text is None:
            return None
        text = self._texts.setdefault(line.work.text, _Text())
        if line.is_costly:
            return self._place_of_costly(text, queue)
        return text.cheap if text.has_costly or text.claim else None

    @staticmethod
    def _place_of_costly(text: _Text, queue: Queue) -> deque[Queue] | None:
        if text.has_costly or text.claim not in (None, queue):
            return text.costly
        text.claim = queue if text.under_way else None
        return text.costly if text.under_way else None

    def sent(self, line: Line, now: float) -> None:
        """Takes that a line goes."""
        line.sent_at, line.charged_before, line.spent_before = now, self.charged(now), self._spent()
        self._unnumbered += line.work.is_unnumbered
        if line.is_costly:
            self.costly += 1
        if line.work.text is not None:
            text = self._texts.setdefault(line.work.text, _Text())
            text.under_way += 1
            text.has_costly = text.has_costly or line.is_costly

    def became_costly(self, line: Line, now: float) -> None:
        """Takes that a line under way takes longer than was expected: others needn't wait for it, if there is a seat."""
        self._count(now)
        line.is_costly = True
        self.costly += 1
        if line.work.text is not None:
            self._texts[line.work.text].has_costly = True

    def ended(self, line: Line, now: float) -> list[Queue]:
        """Takes that a line has its reply, or gets none, and returns the queues that have a turn again. Cheap statements come
        first, so that they don't wait for all costly ones of their text. Those that waited for a seat come before others of
        this text, so that one text doesn't keep all seats."""
        self._count(now)
        found: list[Queue] = []
        self._unnumbered -= line.work.is_unnumbered
        if not self._unnumbered:
            found += _taken(self._for_number, 1)
        if line.is_costly:
            self.costly -= 1
        if self.costly < self.most_costly:
            found += _taken(self._for_seat, len(self._for_seat))
        name = line.work.text
        if name is None:
            return found
        text = self._texts[name]
        text.under_way -= 1
        text.has_costly = text.has_costly and not line.is_costly
        claim, cheap, costly = self._released(name, text)
        return claim + cheap + found + costly

    def _released(self, name: str, text: _Text) -> tuple[list[Queue], list[Queue], list[Queue]]:
        """The queues that waited for a text and needn't any more: the one that has a claim, cheap and costly ones."""
        claim: list[Queue] = []
        if text.claim is not None and not text.under_way:
            claim = [text.claim]
            text.costly.remove(text.claim)
            text.claim.place = None
            text.claim = None
        is_free = not text.has_costly and text.claim is None
        cheap = _taken(text.cheap, len(text.cheap)) if is_free else []
        costly = _taken(text.costly, 1) if is_free and not claim else []
        if not (text.under_way or text.cheap or text.costly):
            del self._texts[name]
        return claim, cheap, costly

    def left(self, queue: Queue) -> list[Queue]:
        """Takes that a queue has no more lines, and returns those that it kept waiting."""
        if queue.place is None:
            return []
        queue.place.remove(queue)
        queue.place = None
        for name, text in self._texts.items():
            if text.claim is queue:
                text.claim = None
                claim, cheap, costly = self._released(name, text)
                return claim + cheap + costly
        return []


def _taken(place: deque[Queue], count: int) -> list[Queue]:
    found = [place.popleft() for _ in range(min(count, len(place)))]
    for queue in found:
        queue.place = None
    return found
