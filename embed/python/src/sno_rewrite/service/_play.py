"""`nomyake-play`: the page of the service for one's own files, for this user of this machine alone. Nothing is kept: its store is
in a folder that is removed at the end."""

from __future__ import annotations

import argparse
import asyncio
import json
import re
import secrets
import shutil
import subprocess
import sys
import tempfile
from pathlib import Path

from ._main import NO_AIOHTTP, serve
from ._options import VERSION, options_of

_LONGEST_TEXT = 65_536
_NAME = re.compile(r"[!-~]{1,255}")
# What a checkout has built, from its top on.
_BUILT = "crates/sno/out/sno"
_NOT_BUILT = "error: sno isn't built; './sno --version', at the top of the repository, proves and builds it"


class _Fault(Exception):
    """Why a file can't be a text."""


class _Parser(argparse.ArgumentParser):
    def error(self, message: str) -> None:  # type: ignore[override]
        self.print_usage()
        self.exit(3, f"error: {message}\n")


def _parser() -> argparse.ArgumentParser:
    parser = _Parser(
        prog="nomyake-play",
        description="Opens the page of the service for copies of one's own files, or for a text that is typed. No file is changed.",
        allow_abbrev=False,
    )
    add = parser.add_argument
    add("files", metavar="FILE", nargs="*", type=Path, help="a file of ASCII, of at most 65536 characters")
    add("--port", metavar="N", type=int, default=0, help="the port of 127.0.0.1; any free one without it")
    add("--program", metavar="SNO", help="the program sno, if it is elsewhere")
    add("--no-browser", action="store_true", help="opens no browser; the address is on standard error")
    parser.add_argument("-V", "--version", action="version", version=f"nomyake-play {VERSION}")
    return parser


def _program(given: str | None) -> str | None:
    """The program: the one that was given, the one beside the script, the one on the path, or what a checkout has built."""
    beside = Path(sys.argv[0]).resolve().parent / "sno"
    of_checkout = [str(folder / _BUILT) for folder in Path(__file__).resolve().parents]
    places = [given] if given is not None else [str(beside), "sno", *of_checkout]
    return next((found for place in places if (found := shutil.which(place)) and not _is_launcher(Path(found))), None)


def _is_launcher(path: Path) -> bool:
    """Whether it is the script that builds the program at its first start: that would take long, and nobody would see why."""
    with path.open("rb") as file:
        return file.read(2) == b"#!"


def _text(path: Path) -> dict[str, str]:
    try:
        content = path.read_bytes()
    except OSError as fault:
        raise _Fault(f"{path}: {fault.strerror}") from None
    if not content.isascii() or len(content) > _LONGEST_TEXT:
        raise _Fault(f"{path}: a text is ASCII, of at most {_LONGEST_TEXT} characters")
    if not _NAME.fullmatch(str(path)):
        raise _Fault(f"{path}: the name of a text has 1 to 255 characters from ! to ~, without blanks")
    return {"name": str(path), "text": content.decode()}


def _open(address: str) -> None:
    """Has the browser show the page, if there is a program that opens it."""
    opener = shutil.which("xdg-open")
    if opener is not None:
        subprocess.Popen([opener, address], stdin=subprocess.DEVNULL, stdout=subprocess.DEVNULL, stderr=subprocess.DEVNULL, start_new_session=True)


def main(words: list[str] | None = None) -> int:
    """Serves the page until a signal ends it, and returns the status."""
    given = _parser().parse_args(words)
    program = _program(given.program)
    if program is None:
        print(_NOT_BUILT, file=sys.stderr)
        return 4
    try:
        import aiohttp  # noqa: F401
    except ImportError:
        print(NO_AIOHTTP, file=sys.stderr)
        return 4
    try:
        texts = [_text(path) for path in dict.fromkeys(given.files)]
    except _Fault as fault:
        print(f"error: {fault}", file=sys.stderr)
        return 2
    with tempfile.TemporaryDirectory(prefix="nomyake-play-") as folder:
        return _play(Path(folder), texts, program, given)


def _play(folder: Path, texts: list[dict[str, str]], program: str, given: argparse.Namespace) -> int:
    document, token = folder / "document.json", secrets.token_urlsafe(24)
    document.write_text(json.dumps({"texts": texts, "statements": []}))
    (folder / "token").write_text(token)
    options = options_of([
        str(document), "--store", str(folder / "texts.store"), "--program", program,
        "--listen", f"127.0.0.1:{given.port}", "--token-file", str(folder / "token"),
    ])

    def ready(address: str) -> None:
        # The fragment of an address is sent to nobody; the page takes the token out of it at once.
        page = f"{address}/{'' if texts else 'play'}#token={token}"
        print(f"the page is at {page}", file=sys.stderr, flush=True)
        if not given.no_browser:
            _open(page)

    return asyncio.run(serve(options, ready))
