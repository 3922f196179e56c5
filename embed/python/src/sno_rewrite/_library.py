"""Finds the shared object libsno_rewrite.so, loads it and calls it."""

from __future__ import annotations

import ctypes
import ctypes.util
import functools
import mmap
import os
import platform
import sys
from collections.abc import Callable
from pathlib import Path
from typing import Any

USUAL_TRIALS = 1_000_000
MOST_TRIALS = 1_000_000_000
VARIABLE = "SNO_REWRITE_LIBRARY"
FILE_NAME = "libsno_rewrite.so"

TOO_SHORT = 5

# How many bytes of address space a call asks for, and the least that it asks for if the system refuses more.
FIRST_ROOM = 1 << 30
LEAST_ROOM = 1 << 16


def _no_reserve() -> int:
    """The flag with which the system sets no memory aside before it is written. Python has its name from 3.13 on."""
    known = sys.platform == "linux" and platform.machine() in ("x86_64", "aarch64")
    return getattr(mmap, "MAP_NORESERVE", 0x4000 if known else 0)


_FLAGS = mmap.MAP_PRIVATE | mmap.MAP_ANONYMOUS | _no_reserve()


def _checkout() -> Path | None:
    """The folder embed/ of the repository, if the package is used from there."""
    folders = Path(__file__).resolve().parents
    if len(folders) > 3 and (folders[3] / "sno_rewrite.h").is_file():
        return folders[3]
    return None


def find_library(path: str | None, variable: str | None) -> str:
    """The file of the library: `path`, or else `variable`, which is the value of SNO_REWRITE_LIBRARY; or else a file
    beside this one, or in embed/out of the repository, or one that the system finds."""
    for given, source in (path, "the path given"), (variable, VARIABLE):
        if given:
            if not Path(given).is_file():
                raise FileNotFoundError(f"there is no library at {given}, which is {source}")
            return str(Path(given).resolve())
    folders = [Path(__file__).resolve().parent]
    checkout = _checkout()
    if checkout:
        folders.append(checkout / "out")
    for folder in folders:
        if (folder / FILE_NAME).is_file():
            return str(folder / FILE_NAME)
    found = ctypes.util.find_library("sno_rewrite")
    if found:
        return found
    raise FileNotFoundError(
        f"{FILE_NAME} was not found; make it with embed/build and set {VARIABLE} to its path, "
        f"or copy it to {folders[0]}"
    )


def _reserve(room: int, least: int) -> mmap.mmap:
    """Anonymous memory of `room` bytes. If that is refused, half of it is tried, and so on down to `least`."""
    while True:
        try:
            return mmap.mmap(-1, room, flags=_FLAGS)
        except (OSError, OverflowError):
            if room // 2 < least:
                raise MemoryError(f"no memory for a listing of {least} bytes") from None
            room //= 2


class Library:
    """The loaded library. Several threads may call it at once: ctypes releases the interpreter's lock for a call."""

    def __init__(self, path: str, room: int = FIRST_ROOM) -> None:
        self.path = path
        self.room = room
        self.function: Callable[..., int] = self._function(ctypes.CDLL(path))

    @staticmethod
    def _function(loaded: ctypes.CDLL) -> Any:
        function = loaded.sno_rewrite_list
        function.restype = ctypes.c_uint8
        function.argtypes = [
            ctypes.c_char_p,
            ctypes.c_size_t,
            ctypes.c_bool,
            ctypes.c_bool,
            ctypes.c_uint32,
            ctypes.POINTER(ctypes.c_uint8),
            ctypes.c_size_t,
            ctypes.POINTER(ctypes.c_size_t),
        ]
        return function

    def call(self, document: bytes, anchor: bool, json: bool, trials: int) -> tuple[int, bytes]:
        """The status of the call and the output: the listing, or the line of a fault.

        A call reserves much address space, so that one run is enough for any usual listing. The system fills only the
        pages that are written. All is given back after the call; otherwise each thread would keep the memory of its
        longest listing.
        """
        output = _reserve(self.room, min(self.room, LEAST_ROOM))
        status, length = self._call_into(output, document, anchor, json, trials)
        if status == TOO_SHORT:
            output.close()
            output = _reserve(length, length)
            status, length = self._call_into(output, document, anchor, json, trials)
        with output:
            return status, b"" if status == TOO_SHORT else output[:length]

    def _call_into(
        self, output: mmap.mmap, document: bytes, anchor: bool, json: bool, trials: int
    ) -> tuple[int, int]:
        length = ctypes.c_size_t(0)
        # The memory can't be closed while this refers to it; it goes away at the return.
        first = ctypes.c_uint8.from_buffer(output)
        status = self.function(
            document, len(document), anchor, json, trials, ctypes.byref(first), len(output), ctypes.byref(length)
        )
        return status, length.value


@functools.cache
def _load(path: str | None, variable: str | None) -> Library:
    return Library(find_library(path, variable))


def load(path: str | os.PathLike[str] | None = None) -> Library:
    """The library, which is sought and loaded once for each path."""
    return _load(None if path is None else os.fspath(path), os.environ.get(VARIABLE))
