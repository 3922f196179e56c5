"""The files that the service shows to a browser: its page, with one module of JavaScript for each job, and the description of
its routes."""

from __future__ import annotations

from pathlib import Path

_HERE = Path(__file__).parent
# Each path with its file below this folder, and its type.
FILES = {
    "/": ("page.html", "text/html"),
    "/play": ("page.html", "text/html"),
    "/page.css": ("page.css", "text/css"),
    "/page.js": ("page.js", "text/javascript"),
    "/openapi.json": ("openapi.json", "application/json"),
}
# Below this path are the modules.
MODULES = "/page/"
_MODULE_NAMES = frozenset(path.name for path in (_HERE / "page").glob("*.js"))


def content_of(path: str) -> tuple[bytes, str] | None:
    """The content and the type of a file, or None if there is none at this path."""
    name = path.removeprefix(MODULES)
    if path.startswith(MODULES) and name in _MODULE_NAMES:
        return (_HERE / "page" / name).read_bytes(), "text/javascript"
    if path not in FILES:
        return None
    file, kind = FILES[path]
    return (_HERE / file).read_bytes(), kind


def is_open(path: str) -> bool:
    """Whether it shows nothing of the texts, so that a browser can show where the token is to be typed."""
    return path in FILES or path.startswith(MODULES)
