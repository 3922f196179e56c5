"""What a call returns or raises."""

from __future__ import annotations

import json
import re
from dataclasses import dataclass
from typing import Any


@dataclass(frozen=True)
class Text:
    """A text as the statements left it. Its version is how often it was replaced."""

    name: str
    text: str
    version: int


@dataclass(frozen=True)
class Match:
    """One of the matches of a statement for all matches: its cursors, and each variable with its string or cursor."""

    start: int
    end: int
    bindings: tuple[tuple[str, str | int], ...]


@dataclass(frozen=True)
class Entry:
    """What an accepted statement did.

    `index` counts from 0 and `statement` from 1. `version` is the version of the text on which it was performed.
    `start` and `end` are cursors. They are None if the match failed. They are also None if a repeated statement
    matched: then `repeated` is the number of its matches. `bindings` has each variable with its string, or with its
    cursor. `after` is the new text, if there is one. `all` has the matches of a statement for all matches that
    matched; then `start` and `end` are None, and `bindings` is empty.
    """

    index: int
    statement: int
    text: str
    version: int
    matched: bool
    start: int | None
    end: int | None
    repeated: int | None
    bindings: tuple[tuple[str, str | int], ...]
    after: str | None
    all: tuple[Match, ...] | None = None


@dataclass(frozen=True)
class Refusal:
    """A statement that was refused and did nothing, and why. Its number counts from 1."""

    statement: int
    reason: str


@dataclass(frozen=True)
class Listing:
    """The texts in the order of the document, the entries in theirs, and the refused statements by rising number."""

    texts: tuple[Text, ...]
    entries: tuple[Entry, ...]
    refused: tuple[Refusal, ...]


_LINE = re.compile(
    r"(?P<what>[a-z]+)(?: (?P<number>[0-9]+))?: "
    r"(?:(?P<part>pattern|object): )?(?P<reason>.+?)(?: at (?P<place>[0-9]+))?"
)


def _number(digits: str | None) -> int | None:
    return None if digits is None else int(digits)


class Fault(Exception):
    """Why there is no listing.

    `line` is the line of the fault, and `status` is 2, or 4 if the call ran out of memory. The other attributes are
    parts of the line, and None if the line doesn't have them:

    - `what` is at fault: 'input', 'pattern', 'text' or 'statement', or an array: 'patterns', 'texts' or 'statements';
    - `number`: which pattern, text or statement, from 1;
    - `part`: which part of a statement, 'pattern' or 'object';
    - `reason`: the fault itself, as 'bad number';
    - `place`: how many characters of the pattern or object come before the fault.
    """

    status: int
    line: str
    what: str | None
    number: int | None
    part: str | None
    reason: str | None
    place: int | None

    def __init__(self, status: int, line: str) -> None:
        super().__init__(status, line)
        self.status = status
        self.line = line
        parts: dict[str, str | None] = {}
        found = _LINE.fullmatch(line)
        if found:
            parts = found.groupdict()
        self.what = parts.get("what")
        self.number = _number(parts.get("number"))
        self.part = parts.get("part")
        self.reason = parts.get("reason")
        self.place = _number(parts.get("place"))

    def __str__(self) -> str:
        return self.line


def _bindings(members: dict[str, Any]) -> tuple[tuple[str, str | int], ...]:
    return tuple((variable, value) for variable, value in members.get("bindings", ()))


def _matches(members: dict[str, Any]) -> tuple[Match, ...] | None:
    if "all" not in members:
        return None
    return tuple(Match(one["start"], one["end"], _bindings(one)) for one in members["all"])


def _entry(members: dict[str, Any]) -> Entry:
    return Entry(
        index=members["entry"],
        statement=members["statement"],
        text=members["text"],
        version=members["version"],
        matched=members["matched"],
        start=members.get("start"),
        end=members.get("end"),
        repeated=members.get("repeated"),
        bindings=_bindings(members),
        after=members.get("after"),
        all=_matches(members),
    )


def listing_of(output: bytes) -> Listing:
    """The listing that these bytes are as JSON."""
    members = json.loads(output)
    return Listing(
        texts=tuple(Text(text["name"], text["text"], text["version"]) for text in members["texts"]),
        entries=tuple(_entry(entry) for entry in members["entries"]),
        refused=tuple(Refusal(refusal["statement"], refusal["reason"]) for refusal in members["refused"]),
    )
