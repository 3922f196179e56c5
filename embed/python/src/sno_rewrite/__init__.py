"""Rewrites named texts by SNOBOL4 pattern statements.

    >>> from sno_rewrite import Statement, rewrite
    >>> listing = rewrite(texts={"T": "abc"}, statements=[Statement("T", "'b'", object="'X'")])
    >>> listing.texts[0].text
    'aXc'
"""

from ._async_desk import AsyncDesk
from ._book import Book
from ._desk import Desk
from ._documents import Patterns, Statement, Statements, Texts
from ._library import USUAL_TRIALS
from ._lines import DeskEnded, DeskError, DeskTimeout, NamelessError
from ._listings import Entry, Fault, Listing, Match, Refusal, Text
from ._rewrite import rewrite, rewrite_document

__all__ = [
    "USUAL_TRIALS",
    "AsyncDesk",
    "Book",
    "Desk",
    "DeskEnded",
    "DeskError",
    "DeskTimeout",
    "Entry",
    "Fault",
    "Listing",
    "Match",
    "NamelessError",
    "Patterns",
    "Refusal",
    "Statement",
    "Statements",
    "Text",
    "Texts",
    "rewrite",
    "rewrite_document",
]
