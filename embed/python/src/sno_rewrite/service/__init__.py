"""Many clients at one `sno serve --store`: HTTP, WebSocket and a page, on aiohttp.

`nomyake-service DOCUMENT --store FILE` starts it; docs/SERVICE.md has the routes. `sno_rewrite.client` is its client.
`nomyake-play FILE..` opens its page for files of one's own.
"""

from ._main import main
from ._play import main as play

__all__ = ["main", "play"]
