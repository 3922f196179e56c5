"""Seeks patterns that were read once, by ctypes. The module `_fast`, which is written in C, does the same sooner."""

from __future__ import annotations

import operator
import sys
from collections.abc import Iterator
from typing import Any, AnyStr, Generic, TypeVar

from ._handles import Found, HeldPattern, HeldText, functions

__all__ = ["Finder", "FoundMatch", "functions"]


class _Places:
    """The places of a string: cursors of its bytes, and indexes of its characters."""

    def __init__(self, string: Any) -> None:
        if not isinstance(string, (str, bytes)):
            raise TypeError(f"expected str or bytes, and not {type(string).__name__}")
        self.string = string
        # Of a subclass the characters count, whatever its own methods say.
        self.content = str.encode(string) if isinstance(string, str) else bytes(string)
        self.is_plain = not isinstance(string, str) or len(self.content) == str.__len__(string)
        self.cursor = self.index = 0

    def index_of(self, cursor: int) -> int:
        """The index of a cursor. It is counted from the last one that was asked for."""
        if self.is_plain:
            return cursor
        try:
            if cursor < self.cursor:
                self.index -= len(self.content[cursor : self.cursor].decode())
            else:
                self.index += len(self.content[self.cursor : cursor].decode())
        except UnicodeDecodeError:
            raise ValueError(f"the cursor {cursor} is within a character") from None
        self.cursor = cursor
        return self.index

    def cursor_of(self, index: int) -> int:
        """The cursor of an index from 0 on; of one past the end that of the end."""
        if self.is_plain:
            return min(index, len(self.content))
        return len(str.__getitem__(self.string, slice(index)).encode())


class FoundMatch(Generic[AnyStr]):
    """What a search found, in a string."""

    __slots__ = ("_values", "_whole", "pos", "re", "string")

    def __init__(self, pattern: Any, places: _Places, pos: int, found: Found) -> None:
        self.re = pattern
        self.string: AnyStr = places.string
        self.pos = pos
        self._whole = (places.index_of(found.start), places.index_of(found.end), False)
        # The last assignment of each variable, in the order of the first ones.
        last = {one.name: one for one in found.assignments}
        self._values = {
            name: (places.index_of(one.start), places.index_of(one.end), one.is_cursor) for name, one in last.items()
        }

    def _of(self, group: int | str) -> tuple[int, int, bool]:
        if isinstance(group, str):
            if group in self._values:
                return self._values[group]
        elif isinstance(group, int) and group == 0:
            return self._whole
        raise IndexError(f"no such group: {group!r}")

    def start(self, group: int | str = 0) -> int:
        return self._of(group)[0]

    def end(self, group: int | str = 0) -> int:
        return self._of(group)[1]

    def span(self, group: int | str = 0) -> tuple[int, int]:
        return self._of(group)[:2]

    def __getitem__(self, group: int | str) -> AnyStr | int:
        """The value of a variable: a part of the string, or for `@` a place."""
        start, end, is_cursor = self._of(group)
        return start if is_cursor else self.string[start:end]

    def group(self, *groups: int | str) -> Any:
        """The value of a group, or a tuple of the values of several; without arguments the whole match."""
        if len(groups) > 1:
            return tuple(self[group] for group in groups)
        return self[groups[0] if groups else 0]

    def groups(self) -> tuple[AnyStr | int, ...]:
        """The values of the variables, in the order of their first assignment."""
        return tuple(self[name] for name in self._values)

    def _shown(self) -> Any:
        """What `findall` has of it: its variable or variables, or without one the whole match."""
        groups = self.groups()
        return groups[0] if len(groups) == 1 else groups or self.group()

    def groupdict(self) -> dict[str, AnyStr | int]:
        """The variables that the match assigned, with their values. One that it didn't assign is missing."""
        return {name: self[name] for name in self._values}


_Kind = TypeVar("_Kind", bound=FoundMatch[Any])


class Finder(Generic[_Kind]):
    """A pattern that was read once. Its matches are of the class `kind`."""

    def __init__(self, functions: Any, rule: str, definitions: str, trials: int, kind: type[_Kind]) -> None:
        self._held = HeldPattern(functions, rule, definitions, trials)
        self._kind = kind

    def first(self, pattern: Any, string: Any, pos: int) -> _Kind | None:
        """The first match at or after a place, or None."""
        places = _Places(string)
        pos = _clipped(pos)
        text = self._held.text(places.content)
        found = self._held.next(text, places.cursor_of(pos))
        text.close()
        return self._kind(pattern, places, pos, found) if found else None

    def matches(self, pattern: Any, string: Any, pos: int) -> Iterator[_Kind]:
        """All matches that count, from a place on."""
        places = _Places(string)
        pos = _clipped(pos)
        return self._from(places.cursor_of(pos), self._held.text(places.content), places, pattern, pos)

    def _from(self, start: int, text: HeldText, places: _Places, pattern: Any, pos: int) -> Iterator[_Kind]:
        before = None
        while found := self._held.next(text, start):
            start = found.next
            # The null string at the end of the match before doesn't count.
            if (found.start, found.end) != (before, before):
                yield self._kind(pattern, places, pos, found)
            before = found.end
        text.close()

    def replaced(self, string: Any) -> tuple[Any, int]:
        """What the rule makes of the string, and the number of matches."""
        content = _Places(string).content
        text = self._held.text(content)
        after, matches = self._held.replace(text)
        text.close()
        if after is None:
            return string, matches
        return (after.decode() if isinstance(string, str) else after), matches


def _clipped(pos: int) -> int:
    """A place from 0 on, as that of a slice."""
    return min(max(operator.index(pos), 0), sys.maxsize)
