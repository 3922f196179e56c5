"""Who may call: the name by which the service was called, the page that calls, the token, and how often."""

from __future__ import annotations

import asyncio
import json
import re
import time
from collections.abc import Awaitable, Callable
from typing import Any

from aiohttp import HttpVersion10, HttpVersion11, web

from ._accounts import ADMIN, Account
from ._files import is_open
from ._metrics import Metrics
from ._options import Options
from ._tokens import Tokens

_LOOPBACK = frozenset({"localhost", "127.0.0.1", "[::1]"})

# Everything comes from the service itself, no script or style is in the page, and no other page may show it.
POLICY = (
    "default-src 'none'; script-src 'self'; style-src 'self'; connect-src 'self'; img-src 'self'; base-uri 'none'; "
    "form-action 'none'; frame-ancestors 'none'; require-trusted-types-for 'script'; trusted-types 'none'"
)
_HEADERS = {
    "Content-Security-Policy": POLICY,
    "X-Content-Type-Options": "nosniff",
    "X-Frame-Options": "DENY",
    "Referrer-Policy": "no-referrer",
    "Cross-Origin-Opener-Policy": "same-origin",
    "Cross-Origin-Resource-Policy": "same-origin",
}

# What a page of a further origin may read, and which requests it may send.
_SHARED = {
    "Access-Control-Expose-Headers": "ETag, Retry-After, WWW-Authenticate",
    "Cross-Origin-Resource-Policy": "cross-origin",
}
_ALLOWED = {
    "Access-Control-Allow-Methods": "GET, HEAD, POST, PUT",
    "Access-Control-Allow-Headers": "Authorization, Content-Type, Idempotency-Key, If-Match, If-None-Match, Last-Event-ID",
    "Access-Control-Max-Age": "600",
}

# The headers of an error that its response keeps.
_KEPT_HEADERS = frozenset({"Allow", "Retry-After", "WWW-Authenticate", "ETag"})

Handler = Callable[[web.Request], Awaitable[web.StreamResponse]]


class Bucket:
    """How many lines a connection may still send: as many as of one second, filled up at the rate."""

    def __init__(self, rate: int) -> None:
        self._rate, self._left, self._at = rate, float(rate), time.monotonic()

    def wait_for(self, count: int) -> float:
        """Takes lines, and returns how many seconds the client has to wait before the next one."""
        now = time.monotonic()
        self._left = min(float(self._rate), self._left + (now - self._at) * self._rate) - count
        self._at = now
        return 0.0 if self._left >= 0 else -self._left / self._rate

    def room(self) -> int:
        """How many lines may be sent now."""
        self.wait_for(0)
        return max(0, int(self._left))

    def has(self, count: int) -> bool:
        """Takes lines if there are as many."""
        if self.wait_for(0) == 0.0 and self._left >= count:
            self._left -= count
            return True
        return False


def fault(kind: type[web.HTTPException], what: str, **headers: str) -> web.HTTPException:
    """An error with its words as JSON."""
    given = {name.replace("_", "-"): value for name, value in headers.items()}
    return kind(text=json.dumps({"error": what}), content_type="application/json", headers=given)


def protect(response: web.StreamResponse) -> None:
    """Gives a response the headers that each one has."""
    response.headers.update(_HEADERS)
    response.headers.setdefault("Cache-Control", "no-store")


class Guard:
    """Looks at each request before it is served, and gives each response its headers."""

    def __init__(self, options: Options, metrics: Metrics, tokens: Tokens) -> None:
        self._options, self._metrics, self.tokens = options, metrics, tokens
        host = options.listen[0]
        self._hosts = _LOOPBACK | {f"[{host}]" if ":" in host else host} | options.hosts

    def needs_token(self, request: web.Request) -> bool:
        """Whether a token is still wanted: none came in the header."""
        return self.tokens.are_wanted() and "Authorization" not in request.headers

    def middleware(self) -> Callable[[web.Request, Handler], Awaitable[web.StreamResponse]]:
        @web.middleware
        async def guarded(request: web.Request, handler: Handler) -> web.StreamResponse:
            response = await self._served(request, handler)
            self._metrics.requests[response.status] += 1
            if not response.prepared:
                protect(response)
                self.allow_origin(request, response)
            return response

        return guarded

    async def _served(self, request: web.Request, handler: Handler) -> web.StreamResponse:
        try:
            self._check(request)
            if request.method == "OPTIONS" and self._is_foreign(request):
                return web.Response(status=204)
            if self.tokens.are_wanted() and not (is_open(request.path) or request.path == "/healthz"):
                self._check_token(request)
            return await handler(request)
        except web.HTTPException as error:
            return _as_json(error)
        except TimeoutError:
            response = _as_json(fault(web.HTTPRequestTimeout, "the request took too long"))
            response.force_close()
            return response

    def _check(self, request: web.Request) -> None:
        # aiohttp's reader takes any number, and there is no other version to be spoken here.
        if request.version not in (HttpVersion10, HttpVersion11):
            raise fault(web.HTTPVersionNotSupported, "HTTP 1.0 or 1.1 is wanted")
        host = request.headers.get("Host", "")
        if re.sub(r":[0-9]*$", "", host).lower() not in self._hosts:
            raise fault(web.HTTPMisdirectedRequest, "another host is meant")
        origin = request.headers.get("Origin")
        if origin is not None and origin not in (f"http://{host}", f"https://{host}", *self._options.origins):
            raise fault(web.HTTPForbidden, "a page of another origin calls")

    def _is_foreign(self, request: web.Request) -> bool:
        """Whether a page of one of the further origins calls."""
        return request.headers.get("Origin") in self._options.origins

    def allow_origin(self, request: web.Request, response: web.StreamResponse) -> None:
        """Lets a page of a further origin read the response, and ask beforehand which requests it may send."""
        if self._options.origins:
            response.headers["Vary"] = "Origin"
        if not self._is_foreign(request):
            return
        response.headers.update({**_SHARED, "Access-Control-Allow-Origin": request.headers["Origin"]})
        if request.method == "OPTIONS":
            response.headers.update(_ALLOWED)

    def _check_token(self, request: web.Request) -> None:
        given = request.headers.get("Authorization")
        # A browser can't give a WebSocket a header: the token is its first message then.
        if given is None and request.path == "/ws":
            return
        scheme, _, token = (given or "").partition(" ")
        account = self.tokens.account(token.strip()) if scheme.lower() == "bearer" else None
        if account is None:
            raise fault(web.HTTPUnauthorized, "the token is missing or wrong", WWW_Authenticate="Bearer")
        take_account(request, account)
        if request.path == "/metrics" and ADMIN not in account.rights:
            raise fault(web.HTTPForbidden, "not allowed")


def take_account(request: web.Request, account: Account) -> None:
    """Takes that a request is of this account."""
    request["account"] = account
    connection: Any = request.protocol
    connection.queue.account = account


def _as_json(error: web.HTTPException) -> web.Response:
    """The response of an error, with JSON also if aiohttp made it."""
    headers = {name: value for name, value in error.headers.items() if name in _KEPT_HEADERS}
    body = error.text if error.content_type == "application/json" else json.dumps({"error": error.reason})
    return web.Response(status=error.status, text=body, content_type="application/json", headers=headers)


async def body_of(request: web.Request, options: Options) -> bytes:
    """The body of a request, if it comes in time and isn't too long."""
    if request.content_length is not None and request.content_length > options.max_body:
        raise web.HTTPRequestEntityTooLarge(options.max_body, request.content_length)
    async with asyncio.timeout(options.patience):
        return await request.read()
