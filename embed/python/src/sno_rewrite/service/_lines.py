"""The lines that go to `sno serve` and the replies that come back, as bytes: a number of the service's own takes the
place of a client's id, and is changed back in the reply."""

from __future__ import annotations

import json
import math
import re
from typing import Any

# Entries of one reply, also if a client asks for more.
MOST_ENTRIES = 1_000

_dumps = json.JSONEncoder(separators=(",", ":")).encode


_decoder = json.JSONDecoder()
_NUMBER = re.compile(rb'"id":([0-9]+)')


def members_of(line: str) -> dict[str, Any] | None:
    """The members of a line, or None if it isn't an object that can be read here."""
    try:
        # What isn't a number of JSON is left to `sno serve`.
        members = json.loads(line, parse_constant=_refuse_constant)
    except (ValueError, RecursionError):
        return None
    return members if isinstance(members, dict) else None


def _refuse_constant(written: str) -> None:
    raise ValueError(written)


def identity_of(members: dict[str, Any] | None) -> bytes | None:
    """The id of a line as JSON, if it has one that comes back: a string or a number."""
    identity = None if members is None else members.get("id")
    if type(identity) is int:
        return b"%d" % identity
    if isinstance(identity, str) or (isinstance(identity, float) and math.isfinite(identity)):
        return _dumps(identity).encode()
    return None


def numbered(line: bytes, number: int, members: dict[str, Any], stamp: bytes = b"") -> bytes:
    """The line with a stamp and this number as its id, and with a limit if it asks for entries. Of a member that is written twice
    the last one counts, so the new ones are put at the end."""
    front = line.rstrip()[:-1]
    comma = b"," if members else b""
    if "since" in members:
        limit = members.get("limit", MOST_ENTRIES)
        if type(limit) is int and limit >= 0:
            return b'%b%b"limit":%d,"id":%d}\n' % (front, comma, min(limit, MOST_ENTRIES), number)
    return b'%b%b%b"id":%d}\n' % (front, comma, stamp, number)


def written(members: dict[str, Any], number: int) -> bytes:
    """A line with these members and this number as its id."""
    return _dumps({**members, "id": number}).encode() + b"\n"


def restored(reply: bytes, number: int, identity: bytes | None) -> bytes:
    """The reply with the client's id in place of the service's number, or without an id.

    In JSON a quotation mark inside a string is escaped, so `"id":` is only ever the name of a member.
    """
    front, found, rest = reply.partition(b'"id":%d' % number)
    if not found:
        # `sno serve` couldn't read the line, and so doesn't know its id.
        return reply if identity is None else b'%b,"id":%b}' % (reply.removesuffix(b"}"), identity)
    if identity is not None:
        return b'%b"id":%b%b' % (front, identity, rest)
    return front + rest[1:] if rest[:1] == b"," else front.removesuffix(b",") + rest


def number_in(reply: bytes) -> int | None:
    """The service's number of the line that a reply is to, or None if it has none."""
    # Entries come before the id, and are long.
    found = _NUMBER.search(reply, max(0, reply.rfind(b'"id":')) if reply.startswith(b'{"entries":') else 0)
    return int(found[1]) if found else None


def entry_again(reply: bytes) -> bytes:
    """The entry in the reply to a question for one entry, as the reply to its statement was; or that reply, if it has none."""
    found = json.loads(reply)
    if not found.get("entries"):
        return reply
    entry = found["entries"][0]
    return _dumps({**entry, "id": found["id"]} if "id" in found else entry).encode()


def entries_in(reply: bytes) -> list[bytes]:
    """The entries in a reply, each as it was written; none if it is a refusal."""
    text, found = reply.decode(), []
    at = len('{"entries":[')
    while text.startswith('{"entries":[') and text[at] == "{":
        end = _decoder.raw_decode(text, at)[1]
        found.append(text[at:end].encode())
        at = end + 1
    return found


def index_in(reply: bytes) -> int | None:
    """The index of the entry that was accepted, or None if none was: of a refusal, an error, a question, or a check,
    which shows the entry that a statement would be."""
    at = reply.find(b'"entry":')
    if at < 0 or reply.startswith(b'{"entries":') or reply.find(b'"check":true', 0, at) >= 0:
        return None
    return int(reply[at + 8 : reply.find(b",", at)])


def outcome_of(reply: bytes) -> str:
    """What became of a line whose reply isn't an entry."""
    if reply.startswith(b'{"error":'):
        return "error"
    return "refused" if b'"reason":' in reply else "question"


def entry_of(reply: bytes, number: int) -> bytes:
    """The entry that a reply is, as the journal has it: without an id, and without what was ignored of the line."""
    entry = restored(reply, number, None)
    if b'"ignored":' not in entry:
        return entry
    members = json.loads(entry)
    del members["ignored"]
    return _dumps(members).encode()


def refused(what: str, identity: bytes | None, **members: object) -> bytes:
    """A reply of the service's own, with an error."""
    line = _dumps({"error": what, **members}).encode()
    return line if identity is None else line[:-1] + b',"id":' + identity + b"}"
