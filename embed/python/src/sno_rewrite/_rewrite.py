"""The two calls of this package."""

from __future__ import annotations

import os

from ._documents import Patterns, Statements, Texts, document_of
from ._library import MOST_TRIALS, USUAL_TRIALS, load
from ._listings import Fault, Listing, listing_of

_NO_DOCUMENT = 2
_NO_MEMORY = 4
_USUAL_LINES = {_NO_DOCUMENT: "not a document", _NO_MEMORY: "out of memory"}


def check_options(anchor: object, trials: object) -> None:
    if not isinstance(anchor, bool):
        raise TypeError(f"anchor has to be bool, and not {type(anchor).__name__}")
    if not isinstance(trials, int) or isinstance(trials, bool):
        raise TypeError(f"trials has to be int, and not {type(trials).__name__}")
    if not 1 <= trials <= MOST_TRIALS:
        raise ValueError(f"trials has to be from 1 to {MOST_TRIALS}, and not {trials}")


def rewrite_document(
    document: bytes | bytearray | memoryview,
    *,
    json: bool = False,
    anchor: bool = False,
    trials: int = USUAL_TRIALS,
    library: str | os.PathLike[str] | None = None,
) -> tuple[bytes, int]:
    """Performs the statements of a document in order. Returns the listing, in lines or as JSON, and the status: 0, or 1
    if a statement was refused. Raises Fault if the bytes aren't a document or the call ran out of memory."""
    if not isinstance(document, (bytes, bytearray, memoryview)):
        raise TypeError(f"document has to be bytes, and not {type(document).__name__}")
    if not isinstance(json, bool):
        raise TypeError(f"json has to be bool, and not {type(json).__name__}")
    check_options(anchor, trials)
    status, output = load(library).call(bytes(document), anchor, json, trials)
    if status > 1:
        raise Fault(status, output.decode() or _USUAL_LINES.get(status, f"unexpected status {status}"))
    return output, status


def rewrite(
    *,
    texts: Texts = (),
    statements: Statements = (),
    patterns: Patterns = (),
    anchor: bool = False,
    trials: int = USUAL_TRIALS,
    library: str | os.PathLike[str] | None = None,
) -> Listing:
    """Performs the statements in order on the texts, and returns the texts as they are then, what each statement did,
    and the statements that were refused.

    Texts and patterns are mappings from names, or sequences of pairs. Statements are Statement objects, or mappings
    with the members of a statement. Raises TypeError or ValueError if they can't be written as a document. Raises Fault
    if the document is at fault or the call ran out of memory.
    """
    document = document_of(texts, statements, patterns)
    output, _ = rewrite_document(document, json=True, anchor=anchor, trials=trials, library=library)
    return listing_of(output)
