"""The arguments of the service."""

from __future__ import annotations

import argparse
import ipaddress
import re
import sys
from collections.abc import Callable
from dataclasses import dataclass
from pathlib import Path

VERSION = "1.0.0"
USUAL_PORT = 8417


@dataclass(frozen=True)
class Options:
    """What the service was started with; docs/SERVICE.md explains each."""

    document: Path
    store: Path
    program: str
    listen: tuple[str, int]
    unix: Path | None
    token_file: Path | None
    tokens: Path | None
    hosts: frozenset[str]
    origins: frozenset[str]
    trials: int | None
    seats: int
    keep: int | None
    keep_bytes: int | None
    grace: float
    access_log: Path | None
    max_body: int
    max_clients: int
    max_rate: int
    max_trials_rate: int | None
    max_lines: int
    max_unread: int
    max_unread_total: int
    max_wait: float
    max_lag: int
    patience: float
    look_trials: int
    look_seconds: float
    look_processes: int


def _address(written: str) -> tuple[str, int]:
    found = re.fullmatch(r"(?:\[([0-9a-fA-F:]+)\]|([^:\[\]]+)):([0-9]{1,5})", written)
    if not found or int(found[3]) > 65_535:
        raise argparse.ArgumentTypeError(f"'{written}' isn't HOST:PORT")
    return found[1] or found[2], int(found[3])


def _count(least: int, most: int) -> Callable[[str], int]:
    def count(written: str) -> int:
        if not re.fullmatch(r"[0-9]{1,12}", written) or not least <= int(written) <= most:
            raise argparse.ArgumentTypeError(f"'{written}' isn't a number from {least} to {most}")
        return int(written)

    return count


def _seconds(written: str) -> float:
    if not re.fullmatch(r"[0-9]{1,5}(\.[0-9]{1,3})?", written) or float(written) == 0:
        raise argparse.ArgumentTypeError(f"'{written}' isn't a number of seconds")
    return float(written)


def _is_loopback(host: str) -> bool:
    try:
        return ipaddress.ip_address(host).is_loopback
    except ValueError:
        return host == "localhost"


def _usual_program() -> str:
    """The program beside the script that was called, if there is one; otherwise the one on the path."""
    beside = Path(sys.argv[0]).resolve().parent / "sno"
    return str(beside) if beside.is_file() else "sno"


_LISTEN = "127.0.0.1", USUAL_PORT
# Each limit with its range, its usual value, and what it is of.
_LIMITS = (
    ("--seats", "N", _count(1, 16), 4, "threads that take lines; with one, lines of a client share a wait for the disk"),
    ("--keep", "N", _count(1, 900_000), None, "entries with which the store is replaced by a shorter one, as of sno serve"),
    ("--keep-bytes", "BYTES", _count(16_777_216, 999_999_999_999), None, "bytes of sno serve with which the store is compacted"),
    ("--grace", "SECONDS", _seconds, 10.0, "seconds that the end may take"),
    ("--max-body", "BYTES", _count(1_024, 16_777_216), 4_194_304, "bytes of a request or a message"),
    ("--max-clients", "N", _count(1, 100_000), 1_024, "connections at a time"),
    ("--max-rate", "N", _count(1, 10_000_000), 100_000, "lines a second of one connection"),
    ("--max-trials-rate", "N", _count(1, 999_999_999_999), None, "trials a second of one connection, or one token"),
    ("--max-lines", "N", _count(1, 65_536), 1_024, "lines of one client that have no reply yet"),
    ("--max-unread", "BYTES", _count(65_536, 1_073_741_824), 4_194_304, "bytes that a client may leave unread"),
    ("--max-unread-total", "BYTES", _count(1_048_576, 999_999_999_999), 67_108_864, "bytes that all clients may leave unread"),
    ("--max-wait", "SECONDS", _seconds, 30.0, "seconds that a line may wait before /healthz is 503"),
    ("--max-lag", "N", _count(1, 1_000_000), 10_000, "entries that a watcher may be late"),
    ("--patience", "SECONDS", _seconds, 20.0, "seconds until a client is cut off that doesn't send or read"),
    ("--look-trials", "N", _count(1, 1_000_000_000), 200_000, "trials of a preview"),
    ("--look-seconds", "SECONDS", _seconds, 2.0, "seconds of a check, a preview or a trace"),
    ("--look-processes", "N", _count(1, 64), 2, "checks, previews and traces at a time"),
)


class _Parser(argparse.ArgumentParser):
    def error(self, message: str) -> None:  # type: ignore[override]
        self.print_usage()
        self.exit(3, f"error: {message}\n")


def _parser() -> argparse.ArgumentParser:
    parser = _Parser(
        prog="nomyake-service",
        description="Puts many clients at the texts of DOCUMENT: HTTP, WebSocket and a page.",
        allow_abbrev=False,
    )
    add = parser.add_argument
    add("document", metavar="DOCUMENT", type=Path, help="the file of the document")
    add("--store", metavar="FILE", type=Path, required=True, help="the store; made of DOCUMENT if it is missing")
    add("--listen", metavar="HOST:PORT", type=_address, default=_LISTEN, help="where to listen [127.0.0.1:8417]")
    add("--unix", metavar="PATH", type=Path, help="listen at a socket of the system instead")
    add("--token-file", metavar="FILE", type=Path, help="clients have to give the token in this file")
    add("--tokens", metavar="FILE", type=Path, help="clients have to give a token of this list, which says what each may do")
    add("--host", metavar="NAME", action="append", default=[], help="a further name by which clients call the service")
    add("--origin", metavar="ORIGIN", action="append", default=[], help="a further origin whose pages may call it")
    add("--program", metavar="SNO", default=_usual_program(), help="the program sno, if it is elsewhere")
    add("--access-log", metavar="FILE", type=Path, help="adds a line of JSON for each request; - is standard error")
    add("--trials", metavar="N", type=_count(1, 1_000_000_000), help="trials of a match, as of sno serve")
    limits = parser.add_argument_group("limits")
    for option, metavar, kind, usual, words in _LIMITS:
        limits.add_argument(option, metavar=metavar, type=kind, default=usual, help=words if usual is None else f"{words} [{usual}]")
    parser.add_argument("-V", "--version", action="version", version=f"nomyake-service {VERSION}")
    return parser


def options_of(words: list[str] | None) -> Options:
    """The options that these arguments give; ends the program with status 3 if they are invalid."""
    parser = _parser()
    given = vars(parser.parse_args(words))
    hosts, origins = given.pop("host"), given.pop("origin")
    options = Options(hosts=frozenset(hosts), origins=frozenset(origins), **given)
    if options.token_file and options.tokens:
        parser.error("'--token-file' and '--tokens' exclude each other")
    if not (options.unix or options.token_file or options.tokens or _is_loopback(options.listen[0])):
        parser.error("an address that isn't loopback takes '--token-file' or '--tokens'")
    return options
