"""Questions about what was before, whose replies are taken from the store's file.

`sno serve` shares all entries from an index on for each such question, which takes long if they are many. An index of the file
finds those that are asked for. It shows only what is on the disk: entries that have had their replies, and those before them. Where
it can't say, there is None, and the line goes to `sno serve` as any other.
"""

from __future__ import annotations

import json
from typing import TYPE_CHECKING, Any

from ._accounts import Account
from ._history import Found, name_in
from ._metrics import Metrics
from ._options import Options
from ._records import Records, Wanted
from ._stamps import shown_of

if TYPE_CHECKING:
    from ._desk import SharedDesk
    from ._turns import Queue

# Bytes of lines that are shown with entries; one alone may be longer.
MOST_OF_LINES = 4_194_304
# The bytes of records that are read together for those who catch up, so that nobody waits for long.
PIECE = 65_536
NO_VERSION = b'{"reason":"no version"}'
_encode = json.JSONEncoder(separators=(",", ":")).encode


class Reads:
    """Questions of all clients. A thread reads the file, one piece at a time."""

    def __init__(self, desk: SharedDesk, options: Options, metrics: Metrics) -> None:
        self._desk, self._options, self._metrics = desk, options, metrics

    def _may(self, queue: Queue, members: dict[str, Any]) -> bool:
        """Whether the reply may come from here: there is a desk, the client may ask this, and it may have more bytes unread."""
        is_free = self._desk.turns.unread <= self._options.max_unread_total and not queue.is_closed
        return self._desk.is_serving() and is_free and queue.account.may(members)

    async def entries(
        self, queue: Queue, members: dict[str, Any], is_stamped: bool = False, is_cut: bool = False
    ) -> bytes | None:
        """The reply to a `since`, perhaps with what the store has beside each entry. If it is cut, it has as many entries as make a
        piece, and perhaps not the last ones that there are."""
        if not self._may(queue, members):
            return None
        # What is under way now may have been seen by a client already: then its entries belong to the reply.
        until, is_sure = self._desk.seen(), is_cut or not self._desk.has_statements_under_way()
        reply, count = await self._reply(queue.account, members, until, is_stamped, is_cut)
        if reply is not None and count < members["limit"] and not is_sure:
            further = await self._desk.seen_by_seats(queue, until)
            if further != until:
                reply, count = await self._reply(queue.account, members, further, is_stamped, is_cut)
        if reply is not None:
            queue.owe(len(reply))
            self._metrics.lines["question"] += 1
        return reply

    async def _reply(
        self, account: Account, members: dict[str, Any], until: int, is_stamped: bool, is_cut: bool
    ) -> tuple[bytes | None, int]:
        """The reply, and how many entries were found for it."""
        wanted = Wanted(members["since"], members["limit"], members.get("text"), until)
        most = PIECE if is_cut else self._options.max_unread

        def read(records: Records) -> tuple[bytes | None, int]:
            found = records.entries(wanted, most, is_cut)
            return (None, 0) if found is None else (reply_of(found, account, is_stamped), len(found))

        return await self._desk.from_store(read) or (None, 0)

    async def has_text(self, queue: Queue, name: str) -> bool:
        """Whether there surely is a text of this name, which the client may read."""
        if not self._may(queue, {"read": name}):
            return False
        return bool(await self._desk.from_store(lambda records: records.has_text(name)))

    async def text_at(self, queue: Queue, name: str, version: int) -> bytes | None:
        """The reply to a `read` of a text at a version."""
        if not self._may(queue, {"read": name, "at": version}):
            return None
        # A version that isn't there yet may have been seen, if a statement is under way.
        until, is_sure = self._desk.seen(), not self._desk.has_statements_under_way()
        reply = await self._desk.from_store(lambda records: read_at(records, name, version, until))
        if reply is None or (reply == NO_VERSION and not is_sure):
            return None
        queue.owe(len(reply))
        self._metrics.lines["question"] += 1
        return reply

    async def watched(self, index: int, until: int) -> list[bytes] | None:
        """A piece of the entries from an index on, as lines for those who watch."""
        wanted = Wanted(index, until - index, None, until)

        def read(records: Records) -> list[bytes] | None:
            found = records.entries(wanted, PIECE, is_cut=True)
            return None if found is None else [b'{"watched":%b}' % each.entry for each in found]

        return await self._desk.from_store(read)


def read_at(records: Records, name: str, version: int, until: int) -> bytes | None:
    """The reply to a `read` of a text at a version, as far as entries before an index made it; None if the index can't say."""
    found = records.text_at(name, version, until)
    if found is not None:
        return _encode({"name": name, "text": found, "version": version}).encode()
    return NO_VERSION if records.lacks(name, version, until) else None


def reply_of(found: list[Found], account: Account, is_stamped: bool) -> bytes:
    """The reply with the entries that an account sees. `next` is the index to go on from, if that isn't the one after the last."""
    shown, following = found, None
    if account.is_limited() and found:
        shown, following = [each for each in found if account.sees(name_in(each.entry))], found[-1].index + 1
    if is_stamped:
        entries, left_out = _stamped(shown)
        following = following if left_out is None else left_out
    else:
        entries = [each.entry for each in shown]
    return b'{"entries":[%b]%b}' % (b",".join(entries), b"" if following is None else b',"next":%d' % following)


def _stamped(found: list[Found]) -> tuple[list[bytes], int | None]:
    """Entries with what the store has beside them, and the index of the first one that is left out since the lines are too long."""
    entries: list[bytes] = []
    size = 0
    for each in found:
        # This character is written as it is by `sno serve`, and not by Python.
        entry = each.entry.replace(b"\x7f", b"\\u007f")
        if each.line is not None:
            members, length = shown_of(each.line)
            size += length
            if entries and size > MOST_OF_LINES:
                return entries, each.index
            entry = b"%b,%b}" % (entry[:-1], members)
        entries.append(entry)
    return entries, None
