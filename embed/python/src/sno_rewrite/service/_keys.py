"""Keys of statements: one that comes again with the same line gets the same entry, and is performed once."""

from __future__ import annotations

from dataclasses import dataclass, field
from typing import TYPE_CHECKING, NamedTuple

from ._lines import written
from ._records import Known, Records
from ._works import Work

if TYPE_CHECKING:
    from ._turns import Line, Queue

KEY_USED = "key used"
BAD_KEY = "bad key"


class Asked(NamedTuple):
    """The key of a line as it was given, what it is remembered by, and the sum of the line."""

    given: str
    identity: bytes
    digest: bytes


@dataclass(slots=True)
class _Pending:
    """A line that is under way, and those that wait for what becomes of it."""

    line: Line
    waiting: list[Queue] = field(default_factory=list)


class Keys:
    """What the keys of lines have brought. Those of entries are in the records."""

    def __init__(self, records: Records) -> None:
        self.records = records
        self._pending: dict[bytes, _Pending] = {}

    def may_go(self, line: Line) -> bool:
        """Whether a line with a key may go now. If its key has brought an entry, it asks for that instead."""
        asked = line.asked
        if asked is None or line.refusal is not None or line.is_repeat:
            return True
        pending = self._pending.get(asked.identity)
        if pending is not None and pending.line is not line:
            if pending.line.asked is not None and pending.line.asked.digest != asked.digest:
                line.refusal = KEY_USED
                return True
            pending.waiting.append(line.queue)
            return False
        known = self.records.keys.get(asked.identity)
        if known is None:
            self._pending[asked.identity] = pending or _Pending(line)
        elif known.digest != asked.digest:
            line.refusal = KEY_USED
        else:
            self._repeat(line, known.index)
        return True

    @staticmethod
    def _repeat(line: Line, index: int) -> None:
        line.is_repeat = True
        line.members = {"since": index, "limit": 1}
        line.raw = written(line.members, line.number)
        if line.queue.account.budget:
            line.queue.account.budget.waiting -= line.work.trials
        line.work = Work()

    def ended(self, line: Line, index: int | None) -> list[Queue]:
        """Takes that a line was accepted as the entry of an index, or wasn't, and returns the queues that waited for it."""
        asked = line.asked
        pending = self._pending.get(asked.identity) if asked is not None else None
        if asked is None or pending is None or pending.line is not line:
            return []
        del self._pending[asked.identity]
        if index is not None:
            self.records.keys[asked.identity] = Known(index, asked.digest)
        return pending.waiting
