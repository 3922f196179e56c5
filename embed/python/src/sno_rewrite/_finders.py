"""What seeks patterns: the module `_fast` if it is there and SNO_REWRITE_PURE isn't set, and else `_plain`."""

from __future__ import annotations

import functools
import os
from typing import TYPE_CHECKING, Any

if TYPE_CHECKING or os.environ.get("SNO_REWRITE_PURE"):
    from . import _plain as _way
else:
    try:
        from . import _fast as _way
    except ImportError:
        from . import _plain as _way

__all__ = ["Finder", "FoundMatch", "functions"]

Finder = _way.Finder
FoundMatch = _way.FoundMatch


@functools.cache
def functions(path: str) -> Any:
    """The functions of the shared object with this path, as a Finder takes them."""
    return _way.functions(path)
