"""Makes the document of a call. What the library would ignore or misread is refused here."""

from __future__ import annotations

import json
from collections.abc import Iterable, Mapping
from dataclasses import dataclass, fields
from typing import Any, TypeAlias


@dataclass(frozen=True)
class Statement:
    """A statement. A member that is None is left out of the document."""

    text: str
    pattern: str
    object: str | None = None
    anchored: bool | None = None
    repeat: int | None = None
    all: bool | None = None


Texts: TypeAlias = Mapping[str, str] | Iterable[tuple[str, str]]
Patterns: TypeAlias = Mapping[str, str] | Iterable[tuple[str, str]]
Statements: TypeAlias = Iterable[Statement | Mapping[str, Any]]

_MEMBERS = tuple(field.name for field in fields(Statement))
_KINDS: dict[str, type] = {"text": str, "pattern": str, "object": str, "anchored": bool, "repeat": int, "all": bool}
_REQUIRED = ("text", "pattern")


def _kind(value: object) -> str:
    return type(value).__name__


def _named(what: str, given: object, member: str) -> list[dict[str, str]]:
    """The array of texts or definitions: each has a name and one more member."""
    if isinstance(given, Mapping):
        pairs: list[Any] = list(given.items())
    elif isinstance(given, Iterable) and not isinstance(given, (str, bytes)):
        pairs = list(given)
    else:
        raise TypeError(f"{what}s: a mapping or a sequence of pairs is needed, and not {_kind(given)}")
    array = []
    for number, pair in enumerate(pairs, 1):
        if not isinstance(pair, (tuple, list)) or len(pair) != 2:
            raise TypeError(f"{what} {number}: a pair of a name and a string is needed, and not {pair!r}")
        for value in pair:
            if not isinstance(value, str):
                raise TypeError(f"{what} {number}: a string is needed, and not {_kind(value)}")
        array.append({"name": pair[0], member: pair[1]})
    return array


def _members(number: int, statement: object) -> dict[str, Any]:
    if isinstance(statement, Statement):
        given = {name: getattr(statement, name) for name in _MEMBERS}
    elif isinstance(statement, Mapping):
        given = dict(statement)
    else:
        raise TypeError(f"statement {number}: a Statement or a mapping is needed, and not {_kind(statement)}")
    for name in given:
        if name not in _MEMBERS:
            raise ValueError(f"statement {number}: {name!r} is no member; the members are {', '.join(_MEMBERS)}")
    for name in _REQUIRED:
        if name not in given:
            raise ValueError(f"statement {number}: the member {name!r} is missing")
    members = {name: value for name, value in given.items() if value is not None or name in _REQUIRED}
    for name, value in members.items():
        wanted = _KINDS[name]
        # In Python True is an int, and the library knows no such number.
        if not isinstance(value, wanted) or (wanted is int and isinstance(value, bool)):
            raise TypeError(f"statement {number}: {name!r} has to be {wanted.__name__}, and not {_kind(value)}")
    return members


def document_of(texts: Texts, statements: Statements, patterns: Patterns) -> bytes:
    """The bytes of a document. Half of a surrogate pair in a string raises UnicodeEncodeError, a ValueError."""
    if isinstance(statements, (str, bytes, Mapping)) or not isinstance(statements, Iterable):
        raise TypeError(f"statements: a sequence of statements is needed, and not {_kind(statements)}")
    document = {
        "patterns": _named("pattern", patterns, "pattern"),
        "texts": _named("text", texts, "text"),
        "statements": [_members(number, statement) for number, statement in enumerate(statements, 1)],
    }
    return json.dumps(document, ensure_ascii=False, separators=(",", ":")).encode()
