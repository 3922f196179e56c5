"""The entries of each text, and the versions that they made: an index that grows as the store's file does.

It has 8 bytes for each entry, and 8 more for each that changed its text. What an entry says is in the file.
"""

from __future__ import annotations

import json
import re
from array import array
from bisect import bisect_left
from pathlib import Path
from typing import NamedTuple

# The format of stores whose records are known here.
_FORMAT = 3
_decoder = json.JSONDecoder()
# The id of a line, which is a string or a number.
_IDENTITY = re.compile(rb'"id":(?:"(?:[^"\\]|\\.)*"|[^",}]*),')


class Found(NamedTuple):
    """An entry as `sno serve` shows it, and the line that made it, as JSON. One of the document's own statements has no line."""

    index: int
    entry: bytes
    line: bytes | None


def bounds_of(record: bytes) -> tuple[int, int]:
    """Where the reply of a record begins, and where its last brace is. ValueError is raised if it isn't a record.

    In JSON a quotation mark inside a string is escaped, so what is searched for here and below is only ever outside of strings.
    """
    return record.index(b'","reply":{') + 10, record.rindex(b'},"batch":[')


def found_in(record: bytes) -> Found:
    """The entry of a record. ValueError is raised if it has none."""
    start, last = bounds_of(record)
    line, reply = record[8 : start - 9], record[start : last + 1]
    at = reply.index(b'"entry":') + 8
    end = reply.index(b",", at)
    # The id of the line comes next, if it has one.
    identity = _IDENTITY.match(reply, end + 1)
    return Found(int(reply[at:end]), reply[: end + 1] + reply[identity.end() :] if identity else reply, line)


def string_in(written: bytes, at: int = 0) -> str:
    """The string of JSON that begins at a place."""
    string: str = _decoder.raw_decode(written.decode(), at)[0]
    return string


def name_in(entry: bytes) -> str:
    """The name of the text that an entry is of."""
    return string_in(entry, entry.rindex(b'"text":"') + 7)


def version_in(entry: bytes) -> int:
    """The version that a text had before an entry."""
    return int(entry[entry.rindex(b'"version":') + 10 : -1])


def characters_after(entry: bytes) -> str:
    """The characters that a text has after an entry that changed it."""
    return string_in(entry, len('{"after":'))


def statements_of(document: Path) -> int:
    """How many statements a document has; `sno serve` has found it valid, or will not start."""
    try:
        return len(json.loads(document.read_bytes()).get("statements", []))
    except (AttributeError, OSError, RecursionError, TypeError, ValueError):
        return 0


class _Text:
    """A text as the store begins with it, and its entries."""

    def __init__(self, opening: str, version: int) -> None:
        self.opening, self.version = opening, version
        self.entries, self.changes = array("Q"), array("Q")


class History:
    """The entries of each text. It is good for nothing if the store has something that isn't known here."""

    def __init__(self) -> None:
        self.is_good = False
        # The index of the first entry that the store has.
        self.oldest = 0
        self._texts: dict[str, _Text] = {}
        self._by_bytes: dict[bytes, _Text] = {}

    def begin(self, line: bytes) -> None:
        """Begins with the first line of a store."""
        try:
            front = json.loads(line)
            texts = json.loads(front["document"])["texts"]
            past = front.get("past", {"entries": 0, "versions": {}})
            self.oldest = int(past["entries"])
            for text in texts:
                self._texts[text["name"]] = _Text(text["text"], int(past["versions"].get(text["name"], 0)))
            self.is_good = front["nomyake"] == _FORMAT
        except (AttributeError, KeyError, RecursionError, TypeError, ValueError):
            self.is_good = False

    def add(self, written: bytes, start: int, end: int, index: int) -> None:
        """Adds the next entry, which has to have this index. It is what was written from `start` on, and `end` is its last brace."""
        if not self.is_good:
            return
        try:
            at = written.index(b'"entry":', start) + 8
            found, version_at = written[at : written.index(b",", at)], written.rindex(b'","version":', at, end)
            name = written[written.rindex(b'"text":"', at, version_at) + 8 : version_at]
            text = self._by_bytes.get(name) or self._text_of(name)
            self.is_good = int(found) == index
            if written.startswith(b'{"after":', start):
                # Versions have no gap, or something was left out.
                self.is_good = self.is_good and int(written[version_at + 12 : end]) == text.version + len(text.changes)
                text.changes.append(index)
            text.entries.append(index)
        except (KeyError, ValueError):
            self.is_good = False

    def _text_of(self, name: bytes) -> _Text:
        text = self._by_bytes[name] = self._texts[json.loads(b'"%b"' % name)]
        return text

    def has(self, name: object) -> bool:
        """Whether there is a text of this name."""
        return isinstance(name, str) and name in self._texts

    def of_text(self, name: str, since: int, limit: int, until: int) -> list[int]:
        """The first entries of a text from an index on, at most `limit`, and before another index."""
        entries = self._texts[name].entries
        at = bisect_left(entries, since)
        return entries[at : min(at + limit, bisect_left(entries, until))].tolist()

    def opening(self, name: str, version: int) -> str | None:
        """The characters of a text as the store begins with it, if it had this version then."""
        text = self._texts[name]
        return text.opening if version == text.version else None

    def has_version(self, name: str, version: int, until: int) -> bool:
        """Whether a text began with a version, or an entry before an index made it."""
        text = self._texts[name]
        return 0 <= version - text.version <= bisect_left(text.changes, until)

    def maker(self, name: str, version: int) -> int | None:
        """The index of the entry that made a version of a text, or None if no entry of the store did."""
        text = self._texts[name]
        at = version - text.version - 1
        return text.changes[at] if 0 <= at < len(text.changes) else None
