"""How many bytes a reply may have: a bound that is counted before its line is sent on.

A text has a known length after each reply, and lines under way on it may let it grow. A statement brings at most the new text
and the value of each variable, which is a part of the text. Entries that the service keeps have known sizes. Older ones are
in the store, so the store's size bounds them: such a page counts as all of them together.
"""

from __future__ import annotations

from collections import Counter
from functools import lru_cache
from pathlib import Path
from typing import Any, NamedTuple

from ._journal import Journal
from ._lines import MOST_ENTRIES
from ._looks import definitions_of

# The longest text as JSON: each of its characters takes at most six bytes.
LONGEST = 6 * 65_536
# What a reply has beside texts and values: names of members, numbers, and the name of its text.
_FRONT = 1_024
# What a value has beside its characters: a name, its quotes and its place in a list.
_VALUE = 128
_FINDINGS = 65_536


class Bound(NamedTuple):
    """The most bytes that a line may bring back, the text that it is about, and by how much that may grow."""

    most: int
    text: str | None = None
    growth: int = 0


@lru_cache
def captures_in(pattern: str) -> int:
    """At least as many as the variables that a pattern assigns: each has a sign of its own."""
    return pattern.count(".") + pattern.count("$") + pattern.count("@")


def captures_of(document: Path) -> int:
    """At least as many as the variables that the definitions of a document assign."""
    definitions = definitions_of(document)
    return sum(captures_in(str(each.get("pattern"))) for each in definitions if isinstance(each, dict))


@lru_cache
def _names_in(written: str) -> int:
    """At least as many as the names in an object: they have a character each, and one between them."""
    is_literal = len(written) > 1 and written[0] in "'\"" and written.find(written[0], 1) == len(written) - 1
    return 0 if is_literal else (len(written) + 1) // 2


class Sizes:
    """What is known of the sizes of texts and entries."""

    def __init__(self, journal: Journal, store: Path, captures: int, is_in_order: bool = True) -> None:
        """`captures` is how many variables the definitions assign. Without an order, a read may be older than an entry that has
        come, so it says nothing."""
        self._is_in_order = is_in_order
        # The last entry that says how long a text is.
        self._entry: dict[str, int] = {}
        self._journal, self._store, self._captures = journal, store, captures
        self._known: dict[str, int] = {}
        self._growing: Counter[str] = Counter()
        self._rows = 0

    def begin(self, texts: list[dict[str, Any]]) -> None:
        """Begins anew, with what the desk says of its texts while no line is under way."""
        self._known = {text["name"]: min(LONGEST, 6 * text["length"]) for text in texts}
        self._growing.clear()
        self._rows = sum(_VALUE + 2 * len(name) for name in self._known)

    def bound(self, members: dict[str, Any] | None, length: int, expected: int) -> Bound:
        """The bound of a line of this length, with these members. `expected` is what all lines under way may bring."""
        # A reply may have the names of members that mean nothing, and the id.
        front = _FRONT + 2 * length
        if members is None:
            return Bound(front)
        if "read" in members:
            name = members["read"]
            size = LONGEST if "at" in members else self._size(name)
            return Bound(front + size, None if "at" in members else name if isinstance(name, str) else None)
        if "since" in members:
            return Bound(front + self._of_entries(members, expected))
        if "texts" in members:
            return Bound(front + self._rows)
        return self._of_statement(members, length, front)

    def replied(self, bound: Bound, reply: bytes, index: int | None) -> None:
        """Learns from the reply to a line with this bound. The index is that of its entry, if it was accepted: of two entries that
        change a text the later one says how long it is, in whatever order they come."""
        if bound.text is None:
            return
        if bound.growth:
            self._growing[bound.text] -= bound.growth
        if index is not None:
            if index >= self._entry.get(bound.text, 0) and reply.startswith(b'{"after":"'):
                # Inside a string each quotation mark is escaped, so this is what comes after its end.
                self._known[bound.text] = min(LONGEST, reply.find(b',"', 10) - 11)
                self._entry[bound.text] = index
        elif self._is_in_order and reply.find(b'"text":', 0, 4_096) > 0 and bound.text in self._known:
            # A read: a refusal has no text.
            self._known[bound.text] = min(LONGEST, len(reply))

    def length(self, name: str | None) -> int:
        """The most characters that a text may have; 0 if there is none of this name."""
        return self._size(name) // 6

    def sent(self, bound: Bound) -> None:
        """Learns that a line with this bound is under way."""
        if bound.growth and bound.text is not None:
            self._growing[bound.text] += bound.growth

    def _size(self, name: object) -> int:
        """The most bytes that a text may have; 0 if there is none of this name."""
        if not isinstance(name, str) or name not in self._known:
            return 0
        return min(LONGEST, self._known[name] + self._growing[name])

    def _of_statement(self, members: dict[str, Any], length: int, front: int) -> Bound:
        name, pattern, written = members.get("text"), members.get("pattern"), members.get("object")
        if not isinstance(pattern, str) or not isinstance(name, str) or name not in self._known:
            return Bound(front)
        size = before = self._size(name)
        values = self._captures + captures_in(pattern)
        after = 0
        if isinstance(written, str):
            after = self._after(members, before, length, _names_in(written))
            size = max(before, after)
        most = front + after + values * (size + _VALUE)
        if members.get("all") is True:
            # Matches don't overlap, but each may have all variables.
            most += (before + 1) * (values + 1) * _VALUE
        if members.get("check") is True:
            return Bound(most + _FINDINGS)
        return Bound(most, name, max(0, after - before))

    @staticmethod
    def _after(members: dict[str, Any], size: int, length: int, names: int) -> int:
        """The most bytes that the new text may have."""
        once = length + names * max(size, length)
        if members.get("all") is True:
            return min(LONGEST, size + (size + 1) * once)
        rounds = members.get("repeat")
        if rounds is None:
            return min(LONGEST, size + once)
        return min(LONGEST, size + rounds * length) if type(rounds) is int and not names else LONGEST

    def _of_entries(self, members: dict[str, Any], expected: int) -> int:
        index, limit = members["since"], members.get("limit", MOST_ENTRIES)
        if type(index) is not int or type(limit) is not int or index < 0 or limit <= 0:
            return 0
        limit = min(limit, MOST_ENTRIES)
        known = self._journal.size(index, limit)
        return expected + (self._of_store(limit) if known is None else known)

    def _of_store(self, limit: int) -> int:
        """The bytes of all entries that the store has."""
        try:
            return self._store.stat().st_size
        except OSError:
            # It is just being replaced by a shorter one.
            return limit * LONGEST
