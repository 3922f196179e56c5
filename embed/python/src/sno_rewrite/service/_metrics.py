"""What the service counts, as Prometheus reads it."""

from __future__ import annotations

from collections import Counter

# The upper ends of the ranges in which replies are counted, in seconds.
_ENDS = 0.0005, 0.001, 0.002, 0.005, 0.01, 0.02, 0.05, 0.1, 0.5, 2.0


# What each count and each value of the moment is.
_HELP = {
    "up": "Whether the desk serves.",
    "entries": "The index that the next entry will have.",
    "clients": "Connections.",
    "sockets": "WebSockets.",
    "watchers": "WebSockets that watch.",
    "lines_under_way": "Lines at the desk.",
    "lines_waiting": "Lines that wait for their turn.",
    "costly_under_way": "Statements at the desk that may take long.",
    "unread_bytes": "Bytes that clients have left unread.",
    "looks_under_way": "Findings, previews and traces that run or wait.",
    "lines_total": "Lines by what became of them.",
    "requests_total": "Requests by their status.",
    "cut_off_total": "Clients that were cut off, by the reason.",
    "restarts_total": "Starts of sno serve after the first one.",
    "watched_entries_total": "Entries that were sent to those who watch.",
    "reply_seconds": "Seconds from a line to its reply.",
}


class Metrics:
    """Counts since the start of the service."""

    def __init__(self) -> None:
        self.lines: Counter[str] = Counter()
        self.requests: Counter[int] = Counter()
        self.cut_off: Counter[str] = Counter()
        self.restarts = 0
        self.watched = 0
        self._replies = [0] * (len(_ENDS) + 1)
        self._seconds = 0.0

    def replied(self, seconds: float, count: int) -> None:
        """Counts replies that came together, each this many seconds after its line."""
        place = next((place for place, end in enumerate(_ENDS) if seconds <= end), len(_ENDS))
        self._replies[place] += count
        self._seconds += seconds * count

    def text(self, **gauges: int) -> str:
        """All counts, and these values of the moment."""
        lines: list[str] = []
        for name, value in gauges.items():
            lines += [*_front(name, "gauge"), f"nomyake_{name} {value}"]
        _family(lines, "lines_total", "outcome", self.lines)
        _family(lines, "requests_total", "status", self.requests)
        _family(lines, "cut_off_total", "reason", self.cut_off)
        for name, value in ("restarts_total", self.restarts), ("watched_entries_total", self.watched):
            lines += [*_front(name, "counter"), f"nomyake_{name} {value}"]
        self._histogram(lines)
        return "\n".join(lines) + "\n"

    def _histogram(self, lines: list[str]) -> None:
        lines += _front("reply_seconds", "histogram")
        total = 0
        for end, count in zip((*map(str, _ENDS), "+Inf"), self._replies, strict=True):
            total += count
            lines.append(f'nomyake_reply_seconds_bucket{{le="{end}"}} {total}')
        lines += [f"nomyake_reply_seconds_sum {self._seconds:.6f}", f"nomyake_reply_seconds_count {total}"]


def _front(name: str, kind: str) -> list[str]:
    return [f"# HELP nomyake_{name} {_HELP[name]}", f"# TYPE nomyake_{name} {kind}"]


def _family(lines: list[str], name: str, label: str, counts: Counter[str] | Counter[int]) -> None:
    lines += _front(name, "counter")
    lines.extend(f'nomyake_{name}{{{label}="{value}"}} {count}' for value, count in sorted(counts.items()))
