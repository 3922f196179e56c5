"""The lines that go to `sno serve`, the replies that come back, and what can be wrong with either."""

from __future__ import annotations

import json
from typing import Any, TypeAlias

Reply: TypeAlias = dict[str, Any]

# A longer line would get an error without an id.
LONGEST_LINE = 16_777_216

_JSON = json.JSONEncoder(ensure_ascii=False, allow_nan=False, separators=(",", ":"))


class DeskError(Exception):
    """A call of a desk that has no result. Each of the classes below is one, too."""


class DeskEnded(DeskError):
    """The program has ended, or what it wrote was not a reply. `status` is its status, or None if it isn't known."""

    def __init__(self, status: int | None = None, line: str = "the desk has ended") -> None:
        super().__init__(status, line)
        self.status = status
        self.line = line

    def __str__(self) -> str:
        return self.line if self.status is None else f"{self.line} with status {self.status}"


class DeskTimeout(DeskError, TimeoutError):
    """No reply came in time. The line may have been performed even so, or may still be."""


class NamelessError(DeskError):
    """The program reported an error without an id. Any line that waited may be at fault, so each call that waited
    raises this."""


def statement(text: str, pattern: str, object: str | None, **members: Any) -> Reply:
    """The members of a line with a statement, without those that are None."""
    given = {"text": text, "pattern": pattern, "object": object, **members}
    return {name: value for name, value in given.items() if value is not None}


def excerpt(index: int, **members: Any) -> Reply:
    """The members of a line that asks for entries, without those that are None."""
    return {name: value for name, value in {"since": index, **members}.items() if value is not None}


def written(members: Reply, number: int) -> bytes:
    """The line with this id. ValueError is raised for what the program couldn't read as JSON: its reply has no id."""
    line = _JSON.encode({**members, "id": number}).encode()
    if len(line) > LONGEST_LINE:
        raise ValueError(f"the line is longer than {LONGEST_LINE} bytes")
    return line + b"\n"


def read(line: bytes) -> Reply:
    """The reply that this line is. Raises DeskEnded if it isn't one: nobody knows then what the next line is."""
    try:
        reply = json.loads(line)
    except (ValueError, RecursionError):
        reply = None
    if not isinstance(reply, dict):
        raise DeskEnded(None, f"the desk wrote what is not a reply: {line[:80]!r}")
    return reply


def result(reply: Reply) -> Reply:
    """The reply without its id. An error raises DeskError."""
    if "error" in reply:
        raise DeskError(reply["error"])
    return {name: value for name, value in reply.items() if name != "id"}


def texts(reply: Reply) -> list[Reply]:
    """The texts of a reply to `texts`."""
    if "texts" not in reply:
        raise DeskError(reply.get("reason"))
    found: list[Reply] = reply["texts"]
    return found


def entries(reply: Reply) -> list[Reply]:
    """The entries of a reply to `since`."""
    if "entries" not in reply:
        raise DeskError(reply.get("reason"))
    found: list[Reply] = reply["entries"]
    return found
