"""The calls of a desk and of a book, over one that gives a line and takes its reply."""

from __future__ import annotations

from collections.abc import Mapping

from ._lines import Reply, entries, excerpt, statement, texts


class Calls:
    """What is asked of texts with a journal, each by one line."""

    def _ask(self, members: Reply) -> Reply:
        """The reply to a line with these members, without its id."""
        raise NotImplementedError

    def submit(
        self,
        text: str,
        pattern: str,
        object: str | None = None,
        *,
        anchored: bool | None = None,
        repeat: int | None = None,
        all: bool | None = None,
        if_version: int | None = None,
        trials: int | None = None,
        bind: Mapping[str, str] | None = None,
        check: bool | None = None,
    ) -> Reply:
        """The entry of a statement, or its `reason` if it is refused. If the text's version isn't `if_version`, the
        reason is `changed`, with that version. A name of `bind` is a literal with its text in pattern and object. With
        `check` nothing is accepted: the reply is the entry that the statement would be if it came next."""
        members = {"anchored": anchored, "repeat": repeat, "all": all, "if_version": if_version, "trials": trials}
        members |= {"bind": None if bind is None else dict(bind), "check": check}
        return self._ask(statement(text, pattern, object, **members))

    def read(self, text: str, *, at: int | None = None) -> Reply:
        """The name, characters and version of a text, or a `reason`: as it is, or as it was at a version."""
        return self._ask({"read": text} if at is None else {"read": text, "at": at})

    def texts(self) -> list[Reply]:
        """The name, length and version of each text, all at one moment."""
        return texts(self._ask({"texts": True}))

    def since(self, index: int, *, limit: int | None = None, text: str | None = None) -> list[Reply]:
        """The entries from this index on: at most `limit`, and of this text alone."""
        return entries(self._ask(excerpt(index, limit=limit, text=text)))
