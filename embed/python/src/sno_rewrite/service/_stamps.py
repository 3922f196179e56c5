"""What the service adds to the line of a statement before the store has it: who sent it, when, and by which key."""

from __future__ import annotations

import json
import re
from datetime import datetime, timezone
from hashlib import blake2b
from typing import Any, NamedTuple

LONGEST_KEY = 128
# The members that a line may have for it, or that the service adds. None of them changes what the statement does.
_OWN = "at", "by", "id", "key"
# At the end of a line as the store has it: these are in this order, and a key only if it came in a header.
_ADDED = re.compile(r',?"by":(?:null|"[^"\\]*"),"at":"[^"\\]*"(?:,"key":"(?:[^"\\]|\\.)*")?,"id":[0-9]+\}$')
# The same at the end of a line without a key, as a record has it: a string, in which quotation marks are escaped.
_ADDED_TO_RECORD = re.compile(rb',?\\"by\\":(null|\\"[^"\\]*\\"),\\"at\\":\\"([^"\\]*)\\",\\"id\\":[0-9]+\}"$')
_NUMBERED = re.compile(r',?"id":[0-9]+\}$')
_IGNORED = re.compile(rb'"ignored":\["at","by"(?:,"key")?\],?')


def moment() -> str:
    """The time now, as RFC 3339 has it."""
    return datetime.now(timezone.utc).isoformat(timespec="milliseconds").replace("+00:00", "Z")


class Stamp(NamedTuple):
    """What is known of a line: who sent it, when, by which key, and the line as it came."""

    by: str | None
    at: str | None
    key: str | None
    line: str


def added(by: str | None, header: str | None) -> bytes:
    """The members that are added to the line of a statement, before its id. The key is that of a header."""
    members = f'"by":{json.dumps(by)},"at":"{moment()}",'
    return (members + (f'"key":{json.dumps(header)},' if header is not None else "")).encode()


def is_key(key: object) -> bool:
    """Whether a key may be one: a string of 1 to 128 characters that can be shown."""
    return isinstance(key, str) and 0 < len(key) <= LONGEST_KEY and key.isprintable() and key.isascii()


def digest_of(members: dict[str, Any]) -> bytes:
    """The sum of what a line asks for: lines with the same members have the same one, whoever sends them and whenever."""
    chosen = {name: value for name, value in members.items() if name not in _OWN}
    return blake2b(json.dumps(chosen, sort_keys=True).encode(errors="replace"), digest_size=8).digest()


def stamp_in(line: str) -> tuple[Stamp, dict[str, Any]]:
    """What a line of the store says, and its members. What the service added is left out of the line as it came."""
    members: dict[str, Any] = json.loads(line)
    found = _ADDED.search(line)
    if found is None:
        # It was stored before there were stamps, or by another program.
        return Stamp(None, None, None, _NUMBERED.sub("}", line)), members
    key = members.get("key")
    return Stamp(members["by"], members["at"], key if is_key(key) else None, line[: found.start()] + "}"), members


def shown_of(line: bytes) -> tuple[bytes, int]:
    """What is shown of a line that is a string in a record: its members as JSON, and how long the line is as it came. A line is read
    only if it may have a key, or characters that Python writes otherwise than `sno serve`."""
    at = line.rfind(b'\\"by\\":')
    is_plain = at > 0 and line.isascii() and b"\x7f" not in line and b"key" not in line
    # Each backslash of a plain line is before a quotation mark.
    if is_plain and line.count(b"\\") == line.count(b'\\"'):
        found = _ADDED_TO_RECORD.match(line, at - line.startswith(b",", at - 1))
        if found is not None:
            front, by = line[: found.start()], found[1].replace(b"\\", b"")
            return b'"by":%b,"at":"%b","key":null,"line":%b}"' % (by, found[2], front), len(front) - front.count(b"\\")
    stamp, _ = stamp_in(json.loads(line))
    return json.dumps(stamp._asdict(), separators=(",", ":")).encode()[1:-1], len(stamp.line)


def without_own(reply: bytes) -> bytes:
    """The reply to a statement without the members that mean something to the service among those that were ignored."""
    if b'"ignored":[' not in reply:
        return reply
    shorter, count = _IGNORED.subn(b"", reply, count=1)
    if count:
        return shorter[:-2] + b"}" if shorter.endswith(b",}") else shorter
    members = json.loads(reply)
    members["ignored"] = [name for name in members["ignored"] if name not in _OWN]
    if not members["ignored"]:
        del members["ignored"]
    return json.dumps(members, separators=(",", ":"), ensure_ascii=False).encode()
