"""The log of requests: a line of JSON for each, with no text, no name of a text, and no token."""

from __future__ import annotations

import json
import sys
from contextlib import suppress
from pathlib import Path
from typing import TextIO

from aiohttp import web

from ._stamps import moment


class AccessLog:
    """A file to which lines are added, or standard error, or nothing."""

    def __init__(self, path: Path | None) -> None:
        """OSError is raised if the file can't be opened."""
        self._path = path
        self._file: TextIO | None = None
        self.open()

    def open(self) -> None:
        """Opens the file, also again after it was renamed."""
        if self._path is None:
            return
        before = self._file
        self._file = sys.stderr if str(self._path) == "-" else self._path.open("a", buffering=1)
        if before not in (None, sys.stderr):
            before.close()

    def write(self, request: web.Request, status: int, seconds: float, size: int) -> None:
        """Adds a line for a request that is done."""
        if self._file is None:
            return
        resource = request.match_info.route.resource
        account = request.get("account")
        line = {
            "at": moment(),
            "by": account.name if account else None,
            "method": request.method,
            "route": resource.canonical if resource else None,
            "status": status,
            "seconds": round(seconds, 6),
            "bytes": size,
        }
        # A disk that is full leaves requests as they are.
        with suppress(OSError):
            print(json.dumps(line), file=self._file, flush=True)
