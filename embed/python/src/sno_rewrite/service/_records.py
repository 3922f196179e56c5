"""What the store has of each entry: its line as it came, with who sent it, when, and by which key. docs/STORE.md has the file.

The places of its lines are in memory, and the keys as sums; a line is read when it is asked for. Both are found in the file, at a
start and as it grows, so nothing of it is kept anywhere else.
"""

from __future__ import annotations

import errno
import json
import os
import threading
from array import array
from bisect import bisect_right
from collections.abc import Iterator, Sequence
from contextlib import contextmanager, suppress
from hashlib import blake2b
from pathlib import Path
from typing import NamedTuple

from ._history import Found, History, bounds_of, characters_after, found_in, version_in
from ._stamps import Stamp, digest_of, stamp_in

# Bytes that are looked through together. At first they are few, since the file mostly has few new lines, and then zeros.
_FIRST_CHUNK, _CHUNK = 16_384, 1_048_576
# What a record has if its line has a key: quotation marks are escaped in it.
_KEY = b'\\"key\\":'
# Records of one text that are no more bytes than this from each other are read together, with what is between them.
_FAR = 16_384
# The bytes at the end of the first line that have its sum.
_SUM = 32


class Known(NamedTuple):
    """The entry that a key has brought, and the sum of its line."""

    index: int
    digest: bytes


class Wanted(NamedTuple):
    """The entries that are asked for: from an index on, at most `limit`, of one text or of all, before the index `until`."""

    since: int
    limit: int
    text: str | None
    until: int


def key_of(by: str | None, key: str) -> bytes:
    """What a key of a client is remembered by: each name has keys of its own."""
    return blake2b(f"{by or ''}\0{key}".encode(errors="replace"), digest_size=16).digest()


class Records:
    """The records of a store, as far as they were looked through. One thread at a time uses them, and holds `lock`."""

    def __init__(self, path: Path, own: Sequence[bytes] = ()) -> None:
        """`own` has entries of the document's own statements, which have no record, and perhaps further ones."""
        self._path = path
        self.lock = threading.Lock()
        self.keys: dict[bytes, Known] = {}
        self._history = History()
        self._own = list(own)
        self._places = array("Q")
        self._first: int | None = None
        self._end = self._identity = 0
        # What the first line ends with, and where: a number of a file is used again when the file is gone.
        self._sum, self._sum_at = b"", 0

    def is_replaced(self) -> bool:
        """Whether a shorter store has taken the place of the file: entries before it can't be asked for any more."""
        try:
            found = self._path.stat()
        except OSError:
            return False
        # A number of a file is used again when the file is gone.
        return self._identity != found.st_ino or found.st_size < self._end

    def end(self) -> int:
        """The index after the last entry that was found."""
        return (self._first or 0) + len(self._places)

    def catch_up(self) -> None:
        """Looks through what the file has now and hadn't before. OSError is raised if it can't be read."""
        with self._path.open("rb") as file:
            identity = os.fstat(file.fileno()).st_ino
            if self._identity not in (0, identity):
                return
            self._identity = identity
            file.seek(self._end)
            rest, size = b"", _FIRST_CHUNK
            while chunk := file.read(size):
                size = _CHUNK
                whole, _, tail = chunk.partition(b"\0")
                *lines, rest = (rest + whole).split(b"\n")
                for line in lines:
                    self._take(line)
                if tail or len(whole) < len(chunk):
                    break

    def _take(self, line: bytes) -> None:
        """Takes the next whole line of the file, without its line feed."""
        place, self._end = self._end, self._end + len(line) + 1
        if place == 0:
            # The first line is the document.
            self._history.begin(line)
            self._sum = line[-_SUM:]
            self._sum_at = len(line) - len(self._sum)
            return
        if self._first is None:
            self._first = json.loads(line)["reply"]["entry"]
            self._take_own(self._first)
        index = self._first + len(self._places)
        self._places.append(place)
        self._index(line, index)
        if _KEY in line:
            stamp, members = stamp_in(json.loads(line)["line"])
            if stamp.key is not None:
                self.keys[key_of(stamp.by, stamp.key)] = Known(index, digest_of(members))

    def _take_own(self, first: int) -> None:
        """Takes the entries of the document's own statements: those before the first record."""
        history = self._history
        count = first - history.oldest
        del self._own[max(0, count) :]
        for place, entry in enumerate(self._own):
            history.add(entry, 0, len(entry) - 1, history.oldest + place)
        history.is_good = history.is_good and len(self._own) == count
        if not history.is_good:
            self._own.clear()

    def _index(self, line: bytes, index: int) -> None:
        if not self._history.is_good:
            return
        try:
            self._history.add(line, *bounds_of(line), index)
        except ValueError:
            self._history.is_good = False

    # What is asked

    def stamps(self, indices: list[int]) -> list[Stamp | None]:
        """What the records of entries say; None of one that has no record, as an entry of the document's own statements."""
        with self._opened() as file:
            return [self._stamp(file, index) for index in indices]

    def _stamp(self, file: int, index: int) -> Stamp | None:
        if self._first is None or not self._first <= index < self.end():
            return None
        try:
            record = json.loads(b"".join(self._lines(file, range(index, index + 1))))
        except ValueError:
            return None
        return stamp_in(record["line"])[0] if record["reply"]["entry"] == index else None

    def has_text(self, name: object) -> bool:
        """Whether the index is good, and there is a text of this name."""
        return self._history.is_good and self._history.has(name)

    def entries(self, wanted: Wanted, most: int, is_cut: bool) -> list[Found] | None:
        """The entries that are wanted, or None if the index can't say. If their records are longer than `most` bytes, it is None too,
        or the first ones of them come, at least one."""
        history = self._history
        if not self._reaches(wanted.until) or wanted.since < history.oldest:
            return None
        if wanted.text is None:
            indices: Sequence[int] = range(wanted.since, max(wanted.since, min(wanted.since + wanted.limit, wanted.until)))
        elif history.has(wanted.text):
            indices = history.of_text(wanted.text, wanted.since, wanted.limit, wanted.until)
        else:
            # `sno serve` says whether it can be the name of a text.
            return None
        count = self._count_within(indices, most)
        if count < len(indices) and not is_cut:
            return None
        return self._found(indices[: max(1, count)])

    def text_at(self, name: str, version: int, until: int) -> str | None:
        """The characters that a text had at a version, or None if the index can't say."""
        if not self._reaches(until) or not self._history.has(name):
            return None
        opening = self._history.opening(name, version)
        if opening is not None:
            return opening
        maker = self._history.maker(name, version)
        found = None if maker is None or maker >= until else self._found([maker])
        if not found or version_in(found[0].entry) != version - 1:
            return None
        return characters_after(found[0].entry)

    def lacks(self, name: str, version: int, until: int) -> bool:
        """Whether no entry before an index made this version of a text, and the store didn't begin with it."""
        return self._reaches(until) and self._history.has(name) and not self._history.has_version(name, version, until)

    def _reaches(self, until: int) -> bool:
        """Whether the index has all entries before this one."""
        if self.end() < until:
            self.catch_up()
        return self._history.is_good and self._first is not None and self.end() >= until

    def _count_within(self, indices: Sequence[int], most: int) -> int:
        """How many of the first of these entries have records of no more bytes than this together."""
        if isinstance(indices, range) and indices and indices[0] >= (self._first or 0):
            start = self._place(indices[0])
            if self._place(indices[-1] + 1) - start <= most:
                return len(indices)
            return bisect_right(self._places, start + most) - 1 - (indices[0] - (self._first or 0))
        size = 0
        for count, index in enumerate(indices):
            size += self._size(index)
            if size > most:
                return count
        return len(indices)

    def _size(self, index: int) -> int:
        if self._first is None or index < self._first:
            return len(self._own[index - self._history.oldest])
        return self._place(index + 1) - self._place(index)

    def _place(self, index: int) -> int:
        """Where the record of an entry is, or where the last one ends."""
        at = index - (self._first or 0)
        return self._places[at] if at < len(self._places) else self._end

    def _found(self, indices: Sequence[int]) -> list[Found] | None:
        """These entries, or None if the file hasn't them any more."""
        first, oldest = self._first or 0, self._history.oldest
        found = [Found(index, self._own[index - oldest], None) for index in indices if index < first]
        with suppress(ValueError), self._opened() as file:
            for piece in self._pieces(indices[len(found) :]):
                found += map(found_in, self._lines(file, piece))
            if [each.index for each in found] == list(indices):
                return found
        return None

    def _pieces(self, indices: Sequence[int]) -> Iterator[Sequence[int]]:
        """Indices in order, divided where the file has much between their records."""
        if isinstance(indices, range):
            yield indices
            return
        start = 0
        for at in range(1, len(indices)):
            if self._place(indices[at]) - self._place(indices[at - 1]) > _FAR:
                yield indices[start:at]
                start = at
        yield indices[start:]

    def _lines(self, file: int, indices: Sequence[int]) -> list[bytes]:
        """The records of entries, which are read in one piece of the file."""
        if not indices:
            return []
        place = self._place(indices[0])
        piece = os.pread(file, self._place(indices[-1] + 1) - place, place)
        if isinstance(indices, range):
            return piece.split(b"\n")[:-1]
        return [piece[self._place(index) - place : self._place(index + 1) - place - 1] for index in indices]

    @contextmanager
    def _opened(self) -> Iterator[int]:
        """The file, if it still is the one that was looked through: otherwise OSError is raised."""
        file = os.open(self._path, os.O_RDONLY | os.O_CLOEXEC)
        try:
            if os.fstat(file).st_ino != self._identity or os.pread(file, len(self._sum), self._sum_at) != self._sum:
                raise OSError(errno.ESTALE, os.strerror(errno.ESTALE))
            yield file
        finally:
            os.close(file)
