"""Patterns that are read once and sought in any number of strings, by the conventions of the module `re`.

    >>> from sno_rewrite import patterns
    >>> number = patterns.compile("SPAN('0123456789') . N")
    >>> number.search("a12b345").group("N")
    '12'
    >>> number.sub("'<' N '>'", "a12b345")
    'a<12>b<345>'

A pattern is written as in a rule for `sno edit`: `PATTERN`, or `PATTERN = OBJECT`, and perhaps fields. In a `str` places
are counted in characters, and in `bytes` in bytes. A match takes each byte of the UTF-8 of a `str` as a character; one
that begins or ends within a character of the `str` raises ValueError.
"""

from __future__ import annotations

import functools
import os
from collections.abc import Callable, Iterator
from typing import Any, AnyStr, Generic

from ._finders import Finder, FoundMatch, functions
from ._library import MOST_TRIALS, USUAL_TRIALS, load
from ._refusals import HistoryError, PatternError, TrialsError

__all__ = [
    "HistoryError",
    "Match",
    "Pattern",
    "PatternError",
    "TrialsError",
    "compile",
    "error",
    "findall",
    "finditer",
    "fullmatch",
    "match",
    "search",
    "sub",
    "subn",
]

error = PatternError


def _parts(rule: str) -> tuple[str, str]:
    """The pattern of a rule, and what comes after it. The first `=` or `:` in no quotes ends the pattern."""
    quote = ""
    for place, character in enumerate(rule):
        if quote:
            quote = "" if character == quote else quote
        elif character in "'\"":
            quote = character
        elif character in "=:":
            return rule[:place], rule[place:]
    return rule, ""


class Match(FoundMatch[AnyStr], Generic[AnyStr]):
    """A match. Its groups are the variables that it assigned; group 0 is the whole match."""

    __slots__ = ()

    def __repr__(self) -> str:
        return f"<sno_rewrite.patterns.Match object; span={self.span()}, match={self.group()!r}>"

    # A match never changes.
    def __copy__(self) -> Match[AnyStr]:
        return self

    def __deepcopy__(self, memo: object) -> Match[AnyStr]:
        return self


def _opener(
    definitions: str, trials: int, library: str | os.PathLike[str] | None
) -> Callable[[str], Finder[Match[Any]]]:
    """A function that reads a rule, and keeps what it has read."""
    loaded = functions(load(library).path)

    @functools.lru_cache(maxsize=64)
    def opened(rule: str) -> Finder[Match[Any]]:
        return Finder(loaded, rule, definitions, trials, Match)

    return opened


class Pattern:
    """A pattern that was read from a rule. Several threads may use it; they take turns."""

    def __init__(
        self,
        rule: str,
        definitions: str = "",
        *,
        trials: int = USUAL_TRIALS,
        library: str | os.PathLike[str] | None = None,
    ) -> None:
        for name, text in ("rule", rule), ("definitions", definitions):
            if not isinstance(text, str):
                raise TypeError(f"{name} has to be str, and not {type(text).__name__}")
        if not isinstance(trials, int) or isinstance(trials, bool):
            raise TypeError(f"trials has to be int, and not {type(trials).__name__}")
        if not 1 <= trials <= MOST_TRIALS:
            raise ValueError(f"trials has to be from 1 to {MOST_TRIALS}, and not {trials}")
        self.pattern = rule
        self.definitions = definitions
        self.trials = trials
        self._opened = _opener(definitions, trials, library)
        self._finder = self._opened(rule)
        self._sought, self._rest = _parts(rule)

    def __repr__(self) -> str:
        return f"sno_rewrite.patterns.compile({self.pattern!r})"

    @functools.cached_property
    def _anchored(self) -> Finder[Match[Any]]:
        return self._opened(f"{self._sought} :anchored")

    @functools.cached_property
    def _whole(self) -> Finder[Match[Any]]:
        return self._opened(f"({self._sought}) RPOS(0) :anchored")

    def search(self, string: AnyStr, pos: int = 0) -> Match[AnyStr] | None:
        """The first match whose start is at `pos` or after it."""
        return self._finder.first(self, string, pos)

    def match(self, string: AnyStr, pos: int = 0) -> Match[AnyStr] | None:
        """A match that starts at `pos`."""
        return self._anchored.first(self, string, pos)

    def fullmatch(self, string: AnyStr, pos: int = 0) -> Match[AnyStr] | None:
        """A match from `pos` to the end of the string."""
        return self._whole.first(self, string, pos)

    def finditer(self, string: AnyStr, pos: int = 0) -> Iterator[Match[AnyStr]]:
        """All matches, from left to right, as `sno edit` counts them: the null string at the end of the match before is
        none."""
        return self._finder.matches(self, string, pos)

    def findall(self, string: AnyStr, pos: int = 0) -> list[Any]:
        """All matches: of one that assigned no variable what was matched, of one that assigned one variable its value,
        and else the tuple of all values."""
        return [found._shown() for found in self.finditer(string, pos)]

    def subn(
        self, repl: str | Callable[[Match[AnyStr]], AnyStr], string: AnyStr, count: int = 0
    ) -> tuple[AnyStr, int]:
        """The string with its matches replaced, and how many were. `repl` is an object, as it comes after the `=` of a
        rule, or a function of a match that returns what replaces it. `count` is how many matches are replaced at most,
        and 0 means all; with an object it is 0 or 1."""
        if callable(repl):
            return self._replaced_by(repl, string, count)
        if not isinstance(repl, str):
            raise TypeError(f"repl has to be str or a function, and not {type(repl).__name__}")
        if count not in (0, 1):
            raise ValueError("count has to be 0 or 1 with an object")
        anchored = " :anchored" if ":anchored" in self._rest else ""
        finder = self._opened(f"{self._sought}= {repl}{' :first' if count else ''}{anchored}")
        return finder.replaced(string)

    def sub(self, repl: str | Callable[[Match[AnyStr]], AnyStr], string: AnyStr, count: int = 0) -> AnyStr:
        """The string with its matches replaced, as `subn` does it."""
        return self.subn(repl, string, count)[0]

    def replace(self, string: AnyStr) -> AnyStr:
        """What the rule itself, which has an object, makes of the string."""
        return self._finder.replaced(string)[0]

    def _replaced_by(
        self, function: Callable[[Match[AnyStr]], AnyStr], string: AnyStr, count: int
    ) -> tuple[AnyStr, int]:
        parts: list[AnyStr] = []
        place = matches = 0
        for found in self.finditer(string):
            start, end = found.span()
            parts += [string[place:start], function(found)]
            place = end
            matches += 1
            if matches == count:
                break
        parts.append(string[place:])
        return string[:0].join(parts), matches


@functools.lru_cache(maxsize=256)
def _compiled(rule: str, definitions: str, trials: int) -> Pattern:
    return Pattern(rule, definitions, trials=trials)


def compile(
    rule: str | Pattern,
    definitions: str = "",
    *,
    trials: int = USUAL_TRIALS,
    library: str | os.PathLike[str] | None = None,
) -> Pattern:
    """Reads a rule. `definitions` has the definitions that it may refer to, each on a line of its own. A search may take
    `trials` trials. Raises PatternError if they can't be read."""
    if isinstance(rule, Pattern):
        return rule
    if library is None and isinstance(rule, str) and isinstance(definitions, str) and type(trials) is int:
        return _compiled(rule, definitions, trials)
    return Pattern(rule, definitions, trials=trials, library=library)


def search(rule: str | Pattern, string: AnyStr) -> Match[AnyStr] | None:
    return compile(rule).search(string)


def match(rule: str | Pattern, string: AnyStr) -> Match[AnyStr] | None:
    return compile(rule).match(string)


def fullmatch(rule: str | Pattern, string: AnyStr) -> Match[AnyStr] | None:
    return compile(rule).fullmatch(string)


def finditer(rule: str | Pattern, string: AnyStr) -> Iterator[Match[AnyStr]]:
    return compile(rule).finditer(string)


def findall(rule: str | Pattern, string: AnyStr) -> list[Any]:
    return compile(rule).findall(string)


def sub(
    rule: str | Pattern, repl: str | Callable[[Match[AnyStr]], AnyStr], string: AnyStr, count: int = 0
) -> AnyStr:
    return compile(rule).sub(repl, string, count)


def subn(
    rule: str | Pattern, repl: str | Callable[[Match[AnyStr]], AnyStr], string: AnyStr, count: int = 0
) -> tuple[AnyStr, int]:
    return compile(rule).subn(repl, string, count)
