"""What a line asks of the desk, as far as it shows before it goes: which text it changes, what it may cost, and whether its reply
will have its number."""

from __future__ import annotations

import re
from typing import Any, NamedTuple

# The trials of a match if neither the service nor the line says, and the rounds of a statement that repeats until it fails.
USUAL_TRIALS = 1_000_000
_MOST_ROUNDS = 1_000
# The highest limit of a statement.
_MOST_TRIALS = 1_000_000_000
# What `sno serve` takes of a line, a little less: past it the reply has no number.
_LONGEST_LINE, _DEEPEST = 16_000_000, 100
# Numbers past those of double precision, and halves of characters.
_ODD = re.compile(rb"[0-9][eE]\+?[0-9]{3}|[0-9]{300}|\\u[dD][89a-fA-F]")


class Work(NamedTuple):
    """What is known of a line."""

    is_statement: bool = False
    # The text that it may change, and what its cost is remembered by.
    text: str | None = None
    key: tuple[str | None, str] = (None, "")
    # The most trials that it may take.
    trials: int = 0
    # Whether `sno serve` may find that it isn't JSON, and so reply without its number.
    is_unnumbered: bool = False


def work_of(raw: bytes, members: dict[str, Any] | None, usual: int | None) -> Work:
    """The work of a line with these members. `usual` is what a match may take if the line doesn't say."""
    if members is None:
        return Work(is_unnumbered=True)
    is_odd = len(raw) > _LONGEST_LINE or raw.count(b"[") + raw.count(b"{") > _DEEPEST or _ODD.search(raw) is not None
    if "read" in members or "since" in members or "texts" in members:
        return Work(is_unnumbered=is_odd)
    text, pattern = members.get("text"), members.get("pattern")
    name = text if isinstance(text, str) else None
    changed = None if members.get("check") is True else name
    key = name, pattern if isinstance(pattern, str) else ""
    return Work(True, changed, key, _trials_of(members, usual), is_odd)


def asks_for_more(members: dict[str, Any], ceiling: int) -> bool:
    """Whether a statement wants more trials than the service lets a match take. Past the highest limit that there is `sno serve` refuses it."""
    given = members.get("trials")
    return type(given) is int and ceiling < given <= _MOST_TRIALS


def _trials_of(members: dict[str, Any], usual: int | None) -> int:
    """The most trials of a statement: each round of one that repeats has the whole limit."""
    given = members.get("trials")
    most = given if type(given) is int and given > 0 else usual or USUAL_TRIALS
    rounds = members.get("repeat")
    if rounds is None or rounds is False:
        return most
    return most * (min(rounds, _MOST_ROUNDS) if type(rounds) is int and rounds > 0 else _MOST_ROUNDS)
