"""Books: texts with a journal, in the library itself."""

from __future__ import annotations

import ctypes
import functools
import os
import threading
import weakref
from types import TracebackType
from typing import Any

from ._calls import Calls
from ._documents import Patterns, Statements, Texts, document_of
from ._handles import Handle
from ._library import USUAL_TRIALS, load
from ._lines import Reply, read, result, written
from ._listings import Fault, Listing, listing_of
from ._refusals import DONE, FAULT, NO_MEMORY, TOO_SHORT
from ._rewrite import check_options

_CLOSED = 7
_LINE_ROOM = 128
# Mostly enough for a reply. If it isn't, the reply is fetched with a longer buffer.
_FIRST_ROOM = 1 << 16

_size = ctypes.c_size_t
_bytes = ctypes.c_char_p
_buffer = ctypes.POINTER(ctypes.c_char)
_length = ctypes.POINTER(_size)
_handle = ctypes.POINTER(Handle)


@functools.cache
def _functions(path: str) -> ctypes.CDLL:
    """The functions of the shared object with this path. One that is older has no books."""
    loaded = ctypes.CDLL(path)
    for name, arguments in {
        "open_book": [_bytes, _size, ctypes.c_bool, ctypes.c_uint32, _buffer, _size, _length, _handle],
        "line": [_handle, _bytes, _size, _buffer, _size, _length],
        "reply": [_handle, _buffer, _size, _length],
        "listing": [_handle, _buffer, _size, _length],
        "close": [_handle],
    }.items():
        function = getattr(loaded, f"sno_handle_{name}")
        function.argtypes = arguments
        function.restype = None if name == "close" else ctypes.c_uint8
    return loaded


class Book(Calls):
    """Texts with a journal. Its calls are those of Desk, without a process of its own, and nothing waits.

    A line is what `sno serve` takes, and its reply what that writes. The calls are safe for threads: one of them at a
    time uses the book.
    """

    def __init__(
        self,
        *,
        texts: Texts = (),
        statements: Statements = (),
        patterns: Patterns = (),
        anchor: bool = False,
        trials: int = USUAL_TRIALS,
        library: str | os.PathLike[str] | None = None,
    ) -> None:
        """A book of these texts, on which the statements were performed. The arguments are those of `rewrite`; `anchor`
        and `trials` hold for each later statement too. Raises what `rewrite` raises."""
        self._open(document_of(texts, statements, patterns), anchor, trials, library)

    @classmethod
    def from_document(
        cls,
        document: bytes | bytearray | memoryview,
        *,
        anchor: bool = False,
        trials: int = USUAL_TRIALS,
        library: str | os.PathLike[str] | None = None,
    ) -> Book:
        """A book of a document. Raises Fault if the bytes aren't one."""
        if not isinstance(document, (bytes, bytearray, memoryview)):
            raise TypeError(f"document has to be bytes, and not {type(document).__name__}")
        book = cls.__new__(cls)
        book._open(bytes(document), anchor, trials, library)
        return book

    def _open(self, document: bytes, anchor: bool, trials: int, library: str | os.PathLike[str] | None) -> None:
        check_options(anchor, trials)
        self._functions = _functions(load(library).path)
        self._handle = Handle()
        self._reference = ctypes.byref(self._handle)
        self._lock = threading.Lock()
        self._reply = ctypes.create_string_buffer(_FIRST_ROOM)
        self._close = weakref.finalize(self, self._functions.sno_handle_close, self._reference)
        line, length = ctypes.create_string_buffer(_LINE_ROOM), _size(0)
        status = self._functions.sno_handle_open_book(
            document, len(document), anchor, trials, line, _LINE_ROOM, ctypes.byref(length), self._reference
        )
        if status in (FAULT, NO_MEMORY):
            raise Fault(status, line[: length.value].decode(errors="replace") or "out of memory")
        self._check(status)

    def line(self, line: bytes | bytearray | memoryview | str) -> bytes:
        """The reply to a line as it is, with its line feed. The line is done once. Raises MemoryError if memory runs out,
        when the line's statement may have been accepted, and ValueError if the book is closed."""
        if not isinstance(line, (bytes, bytearray, memoryview, str)):
            raise TypeError(f"line has to be bytes or str, and not {type(line).__name__}")
        given = line.encode() if isinstance(line, str) else bytes(line)
        length = _size(0)
        with self._lock:
            status = self._functions.sno_handle_line(
                self._reference, given, len(given), self._reply, _FIRST_ROOM, ctypes.byref(length)
            )
            if status == TOO_SHORT:
                return self._filled(self._functions.sno_handle_reply, length.value)
            self._check(status)
            return self._reply[: length.value]

    def listing(self) -> Listing:
        """The texts, the entries, and the statements that were refused."""
        with self._lock:
            return listing_of(self._filled(self._functions.sno_handle_listing, _FIRST_ROOM))

    def close(self) -> None:
        """Frees the texts and the journal. Later calls raise ValueError."""
        with self._lock:
            self._close()

    def __enter__(self) -> Book:
        return self

    def __exit__(
        self, kind: type[BaseException] | None, error: BaseException | None, trace: TracebackType | None
    ) -> None:
        self.close()

    def _ask(self, members: Reply) -> Reply:
        # Without its line feed, so that the longest line is not longer than it may be.
        return result(read(self.line(written(members, 0)[:-1])))

    def _filled(self, call: Any, room: int) -> bytes:
        """What a call puts in a buffer of this length, or in a longer one if that is too short."""
        length = _size(room)
        while True:
            buffer = ctypes.create_string_buffer(length.value)
            status = call(self._reference, buffer, length.value, ctypes.byref(length))
            if status != TOO_SHORT:
                break
        self._check(status)
        return buffer[: length.value]

    @staticmethod
    def _check(status: int) -> None:
        if status == NO_MEMORY:
            raise MemoryError("out of memory")
        if status == _CLOSED:
            raise ValueError("the book is closed")
        if status != DONE:
            raise RuntimeError(f"unexpected status {status}")
