"""Who a client is: its name, what it may do with which texts, and how many trials a second its lines may take."""

from __future__ import annotations

import json
import time
from fnmatch import fnmatchcase
from typing import Any

READ, EDIT, ADMIN = "read", "edit", "admin"
RIGHTS = frozenset({READ, EDIT, ADMIN})
_EVERY = ("*",)


class Budget:
    """The trials that may be spent: those of one second at once, and further ones at a rate. A line that may take more goes too,
    and those after it wait for longer."""

    def __init__(self, rate: int) -> None:
        self._rate, self._left, self._at = rate, float(rate), time.monotonic()
        # The trials of lines that wait.
        self.waiting = 0

    def seconds(self) -> float:
        """How long the next line has to wait."""
        now = time.monotonic()
        self._left = min(float(self._rate), self._left + (now - self._at) * self._rate)
        self._at = now
        return 0.0 if self._left > 0 else (1 - self._left) / self._rate

    def spend(self, trials: int) -> None:
        self._left -= trials

    def backlog(self) -> float:
        """The seconds until all lines that wait now have gone."""
        return self.seconds() + self.waiting / self._rate


class Account:
    """A client, or all that have one token."""

    def __init__(self, rate: int | None, name: str | None = None) -> None:
        self.name = name
        self.rights = RIGHTS
        self.texts: tuple[str, ...] = _EVERY
        self.budget = Budget(rate) if rate else None

    def is_limited(self) -> bool:
        """Whether it may see some texts only."""
        return self.texts != _EVERY

    def sees(self, text: object) -> bool:
        """Whether it may do something with this text."""
        return not self.is_limited() or (isinstance(text, str) and any(fnmatchcase(text, glob) for glob in self.texts))

    def may(self, members: dict[str, Any] | None) -> bool:
        """Whether it may send a line with these members. One that can't be read changes nothing."""
        if members is None:
            return True
        if "read" in members:
            return READ in self.rights and self.sees(members["read"])
        if "since" in members or "texts" in members:
            return READ in self.rights
        return EDIT in self.rights and self.sees(members.get("text"))

    def shown(self, reply: bytes) -> bytes:
        """A reply with the entries, or the rows, of the texts that it sees. `next` is the index after the last entry there was."""
        if not self.is_limited() or not reply.startswith((b'{"entries":', b'{"id":', b'{"texts":')):
            return reply
        members = json.loads(reply)
        if "entries" in members:
            if members["entries"]:
                members["next"] = members["entries"][-1]["entry"] + 1
            members["entries"] = [entry for entry in members["entries"] if self.sees(entry["text"])]
        elif isinstance(members.get("texts"), list):
            members["texts"] = [row for row in members["texts"] if self.sees(row["name"])]
        else:
            return reply
        return json.dumps(members, separators=(",", ":"), ensure_ascii=False).encode()

    def sees_entry(self, line: bytes) -> bool:
        """Whether it sees the entry of a line for those who watch."""
        return not self.is_limited() or self.sees(json.loads(line)["watched"]["text"])
