"""The routes of HTTP."""

from __future__ import annotations

import json
import math
import re
import time
from collections.abc import Awaitable, Callable
from contextlib import suppress
from typing import Any

from aiohttp import web

from ._access import AccessLog
from ._accounts import READ
from ._connections import Connection, Connections
from ._desk import NOT_ALLOWED, NOT_PERFORMED, UNKNOWN, Call, SharedDesk, State
from ._files import FILES, MODULES, content_of
from ._guards import Guard, body_of, fault, protect
from ._keys import KEY_USED
from ._lines import MOST_ENTRIES
from ._looks import MOST_TRIED, PROGRAM, Busy, Looks
from ._metrics import Metrics
from ._options import Options
from ._reads import MOST_OF_LINES
from ._sockets import Socket
from ._streams import next_entries, stream

_LONGEST_TEXT = 65_536
_USUAL_ENTRIES = 100
_JSON, _EVENTS = "application/json", "text/event-stream"
_KEY = "Idempotency-Key"
# The seconds that a request may wait for the next entry.
_LONGEST_WAIT = 60
# From this many bytes on, the replies to a list are sent as they come.
_LONG_LIST = 65_536
Handler = Callable[[web.Request], Awaitable[web.StreamResponse]]

# Each route with the method below that serves it.
ROUTES = (
    *(("GET", path, "file") for path in (*FILES, MODULES + "{file}")),
    ("GET", "/healthz", "health"),
    ("GET", "/metrics", "metrics"),
    ("GET", "/ws", "socket"),
    ("GET", "/texts", "texts"),
    # Before the route of a text: of a name that ends so, the slash is written %2F.
    ("GET", "/texts/{name}/history", "history"),
    ("GET", "/texts/{name}", "text"),
    ("PUT", "/texts/{name}", "put_text"),
    ("GET", "/entries", "entries"),
    ("POST", "/entries/{index}/revert", "revert"),
    ("POST", "/statements", "statements"),
    *(("POST", path, "look") for path in ("/findings", "/preview", "/trace", "/trials")),
    ("POST", "/tries", "tries"),
    ("GET", "/definitions", "definitions"),
)

# What a refusal or an error is as a status of HTTP; another one is 400.
_STATUSES: dict[str, type[web.HTTPException]] = {
    "no text": web.HTTPNotFound,
    "no version": web.HTTPNotFound,
    "changed": web.HTTPConflict,
    "compacted": web.HTTPGone,
    "text too long": web.HTTPRequestEntityTooLarge,
    "too many trials": web.HTTPUnprocessableEntity,
    "full": web.HTTPInsufficientStorage,
    "stopped": web.HTTPServiceUnavailable,
    "out of memory": web.HTTPServiceUnavailable,
    UNKNOWN: web.HTTPBadGateway,
    NOT_PERFORMED: web.HTTPServiceUnavailable,
    NOT_ALLOWED: web.HTTPForbidden,
    KEY_USED: web.HTTPUnprocessableEntity,
}


def status_of(reply: dict[str, Any]) -> int:
    """The status of HTTP that a reply has."""
    what = reply.get("error", reply.get("reason"))
    if what is None:
        return 200
    kind = _STATUSES.get(what)
    if kind is not None:
        return kind.status_code
    return 400 if "error" in reply else 409


def _response(reply: bytes, **headers: str) -> web.Response:
    """A response with a reply, and the status that it means."""
    # Entries may be long, and are never a refusal.
    front = {} if reply.startswith(b'{"entries":') else json.loads(reply)
    given = {name.replace("_", "-"): value for name, value in headers.items()}
    if front.get("error") == NOT_PERFORMED:
        given["Retry-After"] = "1"
    return web.Response(status=status_of(front), body=reply, content_type=_JSON, headers=given)


def _number(request: web.Request, name: str, usual: int) -> int:
    written = request.query.get(name)
    if written is None:
        return usual
    if not re.fullmatch(r"[0-9]{1,18}", written):
        raise fault(web.HTTPBadRequest, f"{name} isn't a number")
    return int(written)


def _known(request: web.Request, *names: str) -> None:
    for name in request.query:
        if name not in names:
            raise fault(web.HTTPBadRequest, f"unknown parameter {name}")


def _version_in(header: str) -> int | None:
    """The version in an If-Match, or None if any will do. One that no text can have is -1."""
    if header.strip() == "*":
        return None
    found = re.fullmatch(r'\s*"([0-9]{1,18})"\s*', header)
    return int(found[1]) if found else -1


class Routes:
    """What each route does."""

    def __init__(
        self, options: Options, desk: SharedDesk, guard: Guard, metrics: Metrics, connections: Connections, log: AccessLog
    ) -> None:
        self._options, self._desk, self._looks, self._log = options, desk, Looks(options), log
        self._guard, self._metrics, self._connections = guard, metrics, connections
        self._new = self._looks.free_name("NEW")

    def application(self) -> web.Application:
        """The application with all routes."""
        middlewares = [self._sent(), self._guard.middleware()]
        application = web.Application(middlewares=middlewares, client_max_size=self._options.max_body)
        for method, path, which in ROUTES:
            # A name may have slashes, which are written as they are or as %2F.
            matched = path.replace("{name}", "{name:.+}").replace("{index}", "{index:[0-9]{1,18}}")
            handler = self._handler(path, which)
            application.router.add_route(method, matched, handler)
            if method == "GET" and path != "/ws":
                application.router.add_route("HEAD", matched, handler)
        return application

    async def end(self) -> None:
        """Ends what is kept for further looks."""
        await self._looks.end()

    def _sent(self) -> Any:
        """Sends each response to its end: then its client has read what it had of the desk, or is gone."""

        @web.middleware
        async def sent(request: web.Request, handler: Handler) -> web.StreamResponse:
            began = time.monotonic()
            try:
                response = await handler(request)
                with suppress(ConnectionError):
                    await response.prepare(request)
                    await response.write_eof()
                self._log.write(request, response.status, time.monotonic() - began, response.body_length)
                return response
            finally:
                _connection(request).queue.read_all()

        return sent

    def _handler(self, path: str, which: str) -> Handler:
        if which == "look":
            return self._look(path[1:])
        handler: Handler = getattr(self, which)
        return handler

    async def file(self, request: web.Request) -> web.Response:
        """A file of the page, which browsers ask for anew each time."""
        found = content_of(request.path)
        if found is None:
            raise web.HTTPNotFound
        content, kind = found
        return web.Response(body=content, content_type=kind, charset="utf-8", headers={"Cache-Control": "no-cache"})

    async def health(self, request: web.Request) -> web.Response:
        """Whether the desk serves, the index of its next entry, and how long lines wait."""
        status = 200 if self._desk.state is State.SERVING and not self._desk.is_late() else 503
        body = b'%b,"oldest_wait":%.3f}' % (self._desk.notice()[:-1], self._desk.oldest_wait())
        return web.Response(status=status, body=body, content_type=_JSON)

    async def metrics(self, request: web.Request) -> web.Response:
        sockets = self._desk.watchers
        text = self._metrics.text(
            up=int(self._desk.state is State.SERVING),
            entries=self._desk.journal.next,
            clients=self._connections.count(),
            sockets=sum(1 for socket in sockets if isinstance(socket, Socket)),
            watchers=sum(1 for socket in sockets if isinstance(socket, Socket) and socket.is_watching()),
            lines_under_way=len(self._desk.turns.under_way),
            lines_waiting=self._desk.turns.waiting(),
            costly_under_way=self._desk.turns.lanes.costly,
            unread_bytes=self._desk.turns.unread,
            looks_under_way=self._looks.under_way(),
        )
        return web.Response(text=text, headers={"Content-Type": "text/plain; version=0.0.4; charset=utf-8"})

    async def socket(self, request: web.Request) -> web.StreamResponse:
        connection = _connection(request)
        if self._desk.state is State.ENDING:
            raise fault(web.HTTPServiceUnavailable, NOT_PERFORMED, Retry_After="1")
        socket = Socket(self._desk, self._options, self._metrics, connection.bucket, connection.queue)
        return await socket.serve(request, self._guard)

    async def texts(self, request: web.Request) -> web.Response:
        _known(request)
        return _response(await self._reply(request, {"texts": True}))

    async def text(self, request: web.Request) -> web.Response:
        """The characters of a text, with its version as ETag."""
        _known(request, "at")
        members: dict[str, Any] = {"read": request.match_info["name"]}
        if "at" in request.query:
            members["at"] = _number(request, "at", 0)
        reply = await self._text(request, members)
        read = json.loads(reply)
        if "text" not in read:
            return _response(reply)
        tag = f'"{read["version"]}"'
        if request.headers.get("If-None-Match") == tag:
            return web.Response(status=304, headers={"ETag": tag})
        return web.Response(text=read["text"], content_type="text/plain", charset="us-ascii", headers={"ETag": tag})

    async def put_text(self, request: web.Request) -> web.Response:
        """Replaces a text, if it still has the version that was read."""
        _known(request)
        match = request.headers.get("If-Match")
        if match is None:
            raise fault(web.HTTPPreconditionRequired, "If-Match is wanted, with the version that was read")
        self._check_trials(request)
        body = await body_of(request, self._options)
        if len(body) > _LONGEST_TEXT:
            raise fault(_TooLarge, f"a text has at most {_LONGEST_TEXT} characters")
        if not body.isascii():
            raise fault(web.HTTPBadRequest, "a text is ASCII")
        members = self._whole(request.match_info["name"], body.decode())
        version = _version_in(match)
        if version == -1:
            return await self._unmatched(request, request.match_info["name"])
        if version is not None:
            members["if_version"] = version
        return self._put_response(await self._reply(request, members, request.headers.get(_KEY)))

    def _put_response(
        self, reply: bytes, changed: type[web.HTTPException] = web.HTTPPreconditionFailed
    ) -> web.Response:
        entry = json.loads(reply)
        if entry.get("reason") == "changed":
            return web.Response(status=changed.status_code, body=reply, content_type=_JSON, headers={"ETag": f'"{entry["version"]}"'})
        if "version" not in entry:
            return _response(reply)
        return _response(reply, ETag=f'"{entry["version"] + 1}"')

    async def _unmatched(self, request: web.Request, name: str) -> web.Response:
        """The response to an If-Match that no version has: the text with its version, or that there is no such text."""
        reply = await self._reply(request, {"read": name})
        read = json.loads(reply)
        if "version" not in read:
            return _response(reply)
        body = json.dumps({"reason": "changed", "version": read["version"]})
        return web.Response(status=412, text=body, content_type=_JSON, headers={"ETag": f'"{read["version"]}"'})

    async def entries(self, request: web.Request) -> web.StreamResponse:
        """Entries from an index on: those that there are, the next ones as they come, or all as events."""
        _known(request, "since", "limit", "text", "wait", "before")
        if "before" in request.query:
            return await self._before(request, request.query.get("text"))
        members: dict[str, Any] = {
            "since": _number(request, "since", 0),
            "limit": min(_number(request, "limit", _USUAL_ENTRIES), MOST_ENTRIES),
        }
        if "text" in request.query:
            members["text"] = request.query["text"]
        wait = min(_number(request, "wait", 0), _LONGEST_WAIT)

        async def ask(members: dict[str, Any]) -> bytes:
            return await self._entries(request, members)

        async def ask_piece(members: dict[str, Any]) -> bytes:
            return await self._entries(request, members, is_cut=True)

        if request.method == "GET" and _EVENTS in request.headers.get("Accept", ""):
            last = request.headers.get("Last-Event-ID", "")
            if re.fullmatch(r"[0-9]{1,18}", last):
                members["since"] = int(last) + 1
            response = web.StreamResponse(headers={"Content-Type": _EVENTS})
            protect(response)
            self._guard.allow_origin(request, response)
            await stream(request, response, self._desk, ask_piece, members, self._options.patience)
            return response
        if wait and members["limit"]:
            return _response(await self._stamped(await next_entries(self._desk, ask, members, wait)))
        return _response(await self._entries(request, members, is_stamped=True))

    async def history(self, request: web.Request) -> web.Response:
        """Entries of one text, with who sent them."""
        _known(request, "since", "limit", "before")
        name = request.match_info["name"]
        if not await self._desk.reads.has_text(_connection(request).queue, name):
            read = await self._reply(request, {"read": name})
            if b'"version":' not in read:
                return _response(read)
        if "before" in request.query:
            return await self._before(request, name)
        limit = min(_number(request, "limit", _USUAL_ENTRIES), MOST_ENTRIES)
        members = {"since": _number(request, "since", 0), "limit": limit, "text": name}
        return _response(await self._entries(request, members, is_stamped=True))

    async def _before(self, request: web.Request, name: str | None) -> web.Response:
        """The last entries before an index, in order. They are sought in windows, each twice as wide as the one after it."""
        limit = min(_number(request, "limit", _USUAL_ENTRIES), MOST_ENTRIES)
        end = min(_number(request, "before", 0), self._desk.journal.next)
        oldest = self._desk.journal.oldest
        found: list[dict[str, Any]] = []
        width = max(limit, 1)
        while end > oldest and len(found) < limit:
            begin = max(oldest, end - (width if name is not None else min(width, MOST_ENTRIES)))
            members: dict[str, Any] = {"since": begin, "limit": min(end - begin, MOST_ENTRIES)}
            if name is not None:
                members["text"] = name
            reply = json.loads(await self._entries(request, members))
            if "entries" not in reply:
                return _response(json.dumps(reply).encode())
            entries = [entry for entry in reply["entries"] if entry["entry"] < end]
            if len(entries) == MOST_ENTRIES and entries[-1]["entry"] < end - 1:
                # There are more than one reply has: a narrower window has all of its own.
                width = MOST_ENTRIES
                continue
            found = entries + found
            end, width = begin, 2 * width
        kept = found[max(0, len(found) - limit) :]
        return _response(await self._stamped(json.dumps({"entries": kept}, separators=(",", ":")).encode()))

    async def revert(self, request: web.Request) -> web.Response:
        """Gives a text the characters back that it had before an entry, if no later one has changed it."""
        _known(request)
        self._check_trials(request)
        index = int(request.match_info["index"])
        reply = await self._entries(request, {"since": index, "limit": 1})
        found = json.loads(reply)
        if "entries" not in found:
            return _response(reply)
        entry = next((each for each in found["entries"] if each["entry"] == index), None)
        if entry is None:
            raise fault(web.HTTPNotFound, "no such entry")
        if "after" not in entry:
            raise fault(web.HTTPConflict, "the entry changed nothing")
        reply = await self._text(request, {"read": entry["text"], "at": entry["version"]})
        before = json.loads(reply)
        if "text" not in before:
            return _response(reply)
        members = self._whole(entry["text"], before["text"])
        members["if_version"] = entry["version"] + 1
        reply = await self._reply(request, members, request.headers.get(_KEY))
        if json.loads(reply).get("reason") == "changed":
            reply = await self._in_the_way(request, entry, reply)
        return self._put_response(reply, web.HTTPConflict)

    async def _in_the_way(self, request: web.Request, entry: dict[str, Any], reply: bytes) -> bytes:
        """The refusal of a revert, with the indices of the entries that have changed the text since."""
        members = {"since": entry["entry"] + 1, "limit": MOST_ENTRIES, "text": entry["text"]}
        later = json.loads(await self._entries(request, members)).get("entries", [])
        found = [each["entry"] for each in later if "after" in each]
        return json.dumps({**json.loads(reply), "entries": found}).encode()

    def _whole(self, name: str, text: str) -> dict[str, Any]:
        """The members of a statement that replaces a text by another one."""
        members = {"text": name, "pattern": "POS(0) REM", "anchored": True, "object": self._new}
        return {**members, "bind": {self._new: text}}

    async def statements(self, request: web.Request) -> web.StreamResponse:
        """Lines for `sno serve`: one, or a list of them."""
        given = await self._json(request)
        lines = given if isinstance(given, list) else [given]
        if not all(isinstance(line, dict) for line in lines):
            raise fault(web.HTTPBadRequest, "a statement is an object")
        if len(lines) > self._options.max_lines:
            raise fault(_TooLarge, f"at most {self._options.max_lines} statements in a list")
        if not _connection(request).bucket.has(len(lines)):
            raise fault(web.HTTPTooManyRequests, "too many lines a second", Retry_After="1")
        self._check_trials(request)
        if not isinstance(given, list):
            return _response(await self._reply(request, given, request.headers.get(_KEY)))
        if _KEY in request.headers:
            raise fault(web.HTTPBadRequest, f"{_KEY} is for one statement; in a list each has a member key")
        return await _list(request, self._guard, self._desk.ask(_connection(request).queue, lines))

    def _check_trials(self, request: web.Request) -> None:
        """Refuses a statement if its account's lines already wait for too many trials."""
        budget = _connection(request).queue.account.budget
        if budget and (seconds := budget.backlog()) > self._options.max_wait:
            raise fault(web.HTTPTooManyRequests, "too many trials a second", Retry_After=str(math.ceil(seconds)))

    async def _reply(self, request: web.Request, members: dict[str, Any], key: str | None = None) -> bytes:
        """The reply to the line with these members; a statement may have a key."""
        (reply,) = await self._desk.ask(_connection(request).queue, [members], header=key).replies()
        return reply

    async def _entries(
        self, request: web.Request, members: dict[str, Any], is_stamped: bool = False, is_cut: bool = False
    ) -> bytes:
        """The reply to a `since`, perhaps with what the store has beside each entry. If it is cut, it may have fewer entries."""
        reply = await self._desk.reads.entries(_connection(request).queue, members, is_stamped, is_cut)
        if reply is not None:
            return reply
        reply = await self._reply(request, members)
        return await self._stamped(reply) if is_stamped else reply

    async def _text(self, request: web.Request, members: dict[str, Any]) -> bytes:
        """The reply to a `read`, perhaps at a version."""
        reply = None
        if "at" in members:
            reply = await self._desk.reads.text_at(_connection(request).queue, members["read"], members["at"])
        return await self._reply(request, members) if reply is None else reply

    async def _stamped(self, reply: bytes) -> bytes:
        """A reply with entries, and of each who sent its line, when, by which key, and the line as it came. If that is too long,
        `next` is the index of the first one that is left out."""
        if not reply.startswith(b'{"entries":[{'):
            return reply
        members = json.loads(reply)
        entries, size = members["entries"], 0
        stamps = await self._desk.stamps([entry["entry"] for entry in entries])
        for place, (entry, stamp) in enumerate(zip(entries, stamps, strict=True)):
            size += len(stamp.line) if stamp else 0
            if place and size > MOST_OF_LINES:
                members["next"] = entry["entry"]
                del entries[place:]
                break
            entry.update(stamp._asdict() if stamp else {})
        return json.dumps(members, separators=(",", ":")).encode()

    def _look(self, which: str) -> Handler:
        async def look(request: web.Request) -> web.Response:
            statement = await self._json(request)
            if isinstance(statement, dict) and "own" in statement:
                return await self._looked(self._looks.look(which, _own_text(statement["own"]), statement))
            if not isinstance(statement, dict) or not isinstance(statement.get("text"), str):
                raise fault(web.HTTPBadRequest, "a statement is an object with a text")
            reply = await self._reply(request, {"read": statement["text"]})
            text = json.loads(reply)
            if "text" not in text:
                return _response(reply)
            return await self._looked(self._looks.look(which, text["text"], statement), name=text["name"], version=text["version"])

        return look

    async def _looked(self, look: Awaitable[dict[str, Any]], **members: Any) -> web.Response:
        try:
            found = await look
        except Busy:
            raise fault(web.HTTPServiceUnavailable, "too many looks at a time", Retry_After="1") from None
        headers = {"Server-Timing": f"program;dur={found.pop(PROGRAM) * 1e3:.1f}"} if PROGRAM in found else {}
        return web.Response(text=json.dumps({**found, **members}), content_type=_JSON, headers=headers)

    async def tries(self, request: web.Request) -> web.Response:
        """Whether a pattern matches some texts that come with it."""
        given = await self._json(request)
        texts = given.get("texts") if isinstance(given, dict) else None
        if not isinstance(texts, list) or not isinstance(given.get("pattern"), str):
            raise fault(web.HTTPBadRequest, "a pattern and texts are wanted")
        if len(texts) > MOST_TRIED:
            raise fault(web.HTTPBadRequest, f"at most {MOST_TRIED} texts")
        return await self._looked(self._looks.tries([_own_text(text) for text in texts], given))

    async def definitions(self, request: web.Request) -> web.Response:
        """The definitions that statements may use, in the document's order."""
        _known(request)
        if READ not in _connection(request).queue.account.rights:
            raise fault(web.HTTPForbidden, NOT_ALLOWED)
        return web.Response(text=json.dumps({"definitions": self._looks.definitions()}), content_type=_JSON)

    async def _json(self, request: web.Request) -> Any:
        # A page of another origin can't send this type without being asked about first.
        if request.content_type != _JSON:
            raise fault(web.HTTPUnsupportedMediaType, f"{_JSON} is wanted")
        try:
            return json.loads(await body_of(request, self._options))
        except (ValueError, RecursionError):
            raise fault(web.HTTPBadRequest, "not JSON") from None


def _own_text(text: Any) -> str:
    """A text that came with a request."""
    if not isinstance(text, str) or not text.isascii() or len(text) > _LONGEST_TEXT:
        raise fault(web.HTTPBadRequest, f"a text is ASCII, of at most {_LONGEST_TEXT} characters")
    return text


class _TooLarge(web.HTTPException):
    status_code = 413


def _connection(request: web.Request) -> Connection:
    connection = request.protocol
    assert isinstance(connection, Connection)
    return connection


async def _list(request: web.Request, guard: Guard, call: Call) -> web.StreamResponse:
    """The replies to a list of lines. A long one is sent as they come, since a client has to read some before it gets more."""
    replies = await call.some(_LONG_LIST)
    if call.is_done():
        return web.Response(body=b"[" + b",".join(replies) + b"]", content_type=_JSON)
    response = web.StreamResponse(headers={"Content-Type": _JSON})
    protect(response)
    guard.allow_origin(request, response)
    with suppress(ConnectionError):
        await response.prepare(request)
        front = b"["
        while replies:
            await response.write(front + b",".join(replies))
            _connection(request).queue.read(sum(map(len, replies)))
            front, replies = b",", await call.some(_LONG_LIST)
        await response.write(b"]")
    return response
