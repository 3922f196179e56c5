"""What the library's calls with handles return, and the exceptions for those of its statuses that are no result."""

from __future__ import annotations

DONE, NOTHING, FAULT, BAD_LIMIT, NO_MEMORY, TOO_SHORT = range(6)
TOO_MANY_TRIALS, TOO_LONG, PAST_END, HISTORY_TOO_LONG = 8, 9, 10, 11

# Where programs find the exceptions.
_PUBLIC = "sno_rewrite.patterns"


class PatternError(ValueError):
    """A rule or a definition that can't be read. The message has what is wrong, its place, and what to write instead."""

    __module__ = _PUBLIC


class TrialsError(RuntimeError):
    """A search that takes more trials than it may."""

    __module__ = _PUBLIC


class HistoryError(RuntimeError):
    """A search that would have to keep more places to back up to than it may."""

    __module__ = _PUBLIC


def refusal(status: int, lines: str, trials: int) -> Exception:
    """The exception for a status, with the lines of a fault and the limit of trials."""
    known: dict[int, Exception] = {
        FAULT: PatternError(lines.rstrip("\n") or "not a rule"),
        NO_MEMORY: MemoryError("out of memory"),
        TOO_MANY_TRIALS: TrialsError(f"more than {trials} trials"),
        HISTORY_TOO_LONG: HistoryError("a history of more than 4194304 entries"),
        TOO_LONG: ValueError("a text of more than 16777216 bytes"),
    }
    return known.get(status) or RuntimeError(f"unexpected status {status}")
