"""The entries as they come, for those who watch: the last ones, as the messages in which they are sent."""

from __future__ import annotations

# The most bytes of one message with entries; one entry alone may have more.
_MESSAGE = 65_536


class Journal:
    """The last entries of the journal, in order. `next` is the index that the next entry will have, and `oldest` that of the
    first one that the store has."""

    def __init__(self, most: int, most_bytes: int) -> None:
        self.oldest = 0
        self.first = 0
        self.next = 0
        self._most, self._most_bytes = most, most_bytes
        self._lines: list[bytes] = []
        self._bytes = 0
        self._messages: dict[int, tuple[bytes, int]] = {}

    def begin(self, index: int, oldest: int) -> None:
        """Begins with the entry of this index, while the store has those from another one on."""
        self.oldest = oldest
        self.first = self.next = index
        self._lines.clear()
        self._messages.clear()
        self._bytes = 0

    def add(self, entry: bytes) -> None:
        """Adds the next entry."""
        line = b'{"watched":' + entry + b"}"
        self._lines.append(line)
        self._bytes += len(line)
        self.next += 1
        self._messages.clear()
        if len(self._lines) > 2 * self._most or self._bytes > 2 * self._most_bytes:
            self._forget()

    def size(self, index: int, limit: int) -> int | None:
        """The bytes of at most `limit` entries from this index on, or None if not all of them are kept."""
        if index < self.first:
            return None
        at = index - self.first
        return sum(map(len, self._lines[at : at + limit]))

    def message(self, index: int) -> tuple[bytes, int]:
        """Entries from this index on in one message, and the index after them. All that watch share it."""
        message = self._messages.get(index)
        if message is None:
            message = self._messages[index] = self._message(index)
        return message

    def _message(self, index: int) -> tuple[bytes, int]:
        size, end = 0, index - self.first
        while end < len(self._lines) and (not size or size + len(self._lines[end]) <= _MESSAGE):
            size += len(self._lines[end])
            end += 1
        return b"\n".join(self._lines[index - self.first : end]), self.first + end

    def _forget(self) -> None:
        """Drops the oldest lines; at most the given number and the given bytes are left."""
        drop = max(0, len(self._lines) - self._most)
        left = self._bytes - sum(map(len, self._lines[:drop]))
        while left > self._most_bytes and drop < len(self._lines) - 1:
            left -= len(self._lines[drop])
            drop += 1
        del self._lines[:drop]
        self.first += drop
        self._bytes = sum(map(len, self._lines))
