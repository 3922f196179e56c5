"""Handles of the library, by ctypes: a pattern that was read once, and a text that is kept for searches."""

from __future__ import annotations

import ctypes
import threading
import weakref
from typing import Any, NamedTuple

from ._refusals import DONE, NOTHING, PAST_END, TOO_SHORT, refusal

_LINE_ROOM = 1024
_NAME_ROOM = 64
_SPARE_ROOM = 1024


class Handle(ctypes.Structure):
    _fields_ = [("memory", ctypes.c_void_p), ("is_open", ctypes.c_bool)]


class _FoundMatch(ctypes.Structure):
    _fields_ = [(name, ctypes.c_size_t) for name in ("start", "end", "next", "assignments")]


class _FoundAssignment(ctypes.Structure):
    _fields_ = [(name, ctypes.c_size_t) for name in ("name_length", "start", "end")] + [("is_cursor", ctypes.c_bool)]


class _NewText(ctypes.Structure):
    _fields_ = [("length", ctypes.c_size_t), ("matches", ctypes.c_uint64)]


class Assignment(NamedTuple):
    """A variable with the two cursors between which its value is, or with a cursor twice."""

    name: str
    start: int
    end: int
    is_cursor: bool


class Found(NamedTuple):
    """A match, with where to go on for the next one."""

    start: int
    end: int
    next: int
    assignments: tuple[Assignment, ...]


_size = ctypes.c_size_t
_bytes = ctypes.c_char_p
_buffer = ctypes.POINTER(ctypes.c_char)
_handle = ctypes.POINTER(Handle)


def functions(path: str) -> ctypes.CDLL:
    """The functions of the shared object with this path."""
    loaded = ctypes.CDLL(path)
    for name, arguments in {
        "open_pattern": [_bytes, _size, _bytes, _size, _buffer, _size, ctypes.POINTER(_size), _handle],
        "open_text": [_bytes, _size, _handle],
        "next": [_handle, _handle, _size, ctypes.c_uint32, ctypes.POINTER(_FoundMatch)],
        "assignment": [_handle, _size, _buffer, _size, ctypes.POINTER(_FoundAssignment)],
        "replace": [_handle, _handle, ctypes.c_uint32, _buffer, _size, ctypes.POINTER(_NewText)],
        "close": [_handle],
    }.items():
        function = getattr(loaded, f"sno_handle_{name}")
        function.argtypes = arguments
        function.restype = None if name == "close" else ctypes.c_uint8
    return loaded


class _Held:
    """A handle that is closed when nobody refers to it any more."""

    def __init__(self, functions: Any) -> None:
        self.functions = functions
        self.handle = Handle()
        self.reference = ctypes.byref(self.handle)
        self.close = weakref.finalize(self, functions.sno_handle_close, self.reference)


class HeldText(_Held):
    """A copy of bytes."""

    def __init__(self, functions: Any, content: bytes) -> None:
        super().__init__(functions)
        self.length = len(content)
        status = functions.sno_handle_open_text(content, len(content), self.reference)
        if status != DONE:
            raise refusal(status, "", 0)


class HeldPattern(_Held):
    """The pattern of a rule. One thread at a time uses it."""

    def __init__(self, functions: Any, rule: str, definitions: str, trials: int) -> None:
        super().__init__(functions)
        self.trials = trials
        self.lock = threading.Lock()
        # What a call fills in; under the lock there is one call at a time.
        self.found = _FoundMatch()
        self.one = _FoundAssignment()
        self.name = ctypes.create_string_buffer(_NAME_ROOM)
        self.found_reference = ctypes.byref(self.found)
        self.one_reference = ctypes.byref(self.one)
        line = ctypes.create_string_buffer(_LINE_ROOM)
        length = _size(0)
        texts = [text.encode() for text in (definitions, rule)]
        status = self.functions.sno_handle_open_pattern(
            texts[0], len(texts[0]), texts[1], len(texts[1]), line, _LINE_ROOM, ctypes.byref(length),
            self.reference,
        )  # fmt: skip
        if status != DONE:
            raise refusal(status, line[: length.value].decode(errors="replace"), trials)

    def text(self, content: bytes) -> HeldText:
        return HeldText(self.functions, content)

    def next(self, text: HeldText, start: int) -> Found | None:
        """The next match whose start is this cursor or lies past it."""
        with self.lock:
            found = self.found
            status = self.functions.sno_handle_next(
                self.reference, text.reference, start, self.trials, self.found_reference
            )
            if status == DONE:
                assignments = tuple([self._assignment(place) for place in range(found.assignments)])
                return Found(found.start, found.end, found.next, assignments)
        if status in (NOTHING, PAST_END):
            return None
        raise refusal(status, "", self.trials)

    def _assignment(self, place: int) -> Assignment:
        one = self.one
        status = self.functions.sno_handle_assignment(
            self.reference, place, self.name, _NAME_ROOM, self.one_reference
        )
        if status != DONE:
            raise refusal(status, "", self.trials)
        return Assignment(self.name[: one.name_length].decode(), one.start, one.end, one.is_cursor)

    def replace(self, text: HeldText) -> tuple[bytes | None, int]:
        """The new text, if there is one, and the number of matches."""
        # Mostly enough. If it isn't, a second run is needed.
        room = 2 * text.length + _SPARE_ROOM
        done = _NewText()
        while True:
            buffer = ctypes.create_string_buffer(room)
            with self.lock:
                status = self.functions.sno_handle_replace(
                    self.reference, text.reference, self.trials, buffer, room, ctypes.byref(done)
                )
            if status != TOO_SHORT:
                break
            room = done.length
        if status == DONE:
            return buffer[: done.length], done.matches
        if status == NOTHING:
            return None, done.matches
        raise refusal(status, "", self.trials)
