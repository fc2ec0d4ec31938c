"""Who is let in: one machine, one origin, one key.

Any page that the analyst's browser shows can send requests to a port of this machine, and any name can be made to
point at it. So a request needs the right Host, what changes something needs the right Origin, and the socket needs
a key. The key is given once for each ticket, and a ticket comes after the `#` of a link, which no request contains.
"""

import hmac
import secrets
from collections.abc import Awaitable, Callable

from aiohttp import web

POLICY = (
    "default-src 'self'; object-src 'none'; base-uri 'none'; form-action 'none'; frame-ancestors 'none'; "
    "require-trusted-types-for 'script'; trusted-types 'none'"
)
HEADERS = {
    "Content-Security-Policy": POLICY,
    "X-Content-Type-Options": "nosniff",
    "X-Frame-Options": "DENY",
    "Referrer-Policy": "no-referrer",
    "Cross-Origin-Opener-Policy": "same-origin",
    "Cross-Origin-Resource-Policy": "same-origin",
    "Cache-Control": "no-store",
}
# Links that were printed and not opened; an older one is good no longer.
TICKETS = 16

Handler = Callable[[web.Request], Awaitable[web.StreamResponse]]


class Guard:
    def __init__(self) -> None:
        self.port = 0
        self.key = secrets.token_urlsafe(32)
        self.tickets: list[str] = []

    def link(self) -> str:
        """A link that opens once."""
        ticket = secrets.token_urlsafe(24)
        self.tickets = [*self.tickets[1 - TICKETS :], ticket]
        return f"http://127.0.0.1:{self.port}/#{ticket}"

    def spend(self, offered: str) -> bool:
        found = [ticket for ticket in self.tickets if hmac.compare_digest(ticket.encode(), offered.encode())]
        for ticket in found:
            self.tickets.remove(ticket)
        return bool(found)

    def is_key(self, offered: str) -> bool:
        return hmac.compare_digest(offered.encode(), self.key.encode())

    def check(self, request: web.Request) -> None:
        """Refuses a request that no page of this server makes."""
        host, origin = request.headers.get("Host"), request.headers.get("Origin")
        if host not in (f"127.0.0.1:{self.port}", f"localhost:{self.port}"):
            raise web.HTTPMisdirectedRequest(headers=HEADERS)
        has_to_name = request.method != "GET" or request.path == "/ws"
        if (origin is not None or has_to_name) and origin != f"http://{host}":
            raise web.HTTPForbidden(headers=HEADERS)
        if request.headers.get("Sec-Fetch-Site", "same-origin") not in ("same-origin", "none"):
            raise web.HTTPForbidden(headers=HEADERS)


def guarded(guard: Guard) -> web.Application:
    """An application whose every request passes the guard."""

    @web.middleware
    async def check(request: web.Request, handler: Handler) -> web.StreamResponse:
        request.protocol.has_asked()  # type: ignore[attr-defined]
        guard.check(request)
        return await handler(request)

    return web.Application(middlewares=[check], client_max_size=1024)


async def put_headers(request: web.Request, response: web.StreamResponse) -> None:
    response.headers.update(HEADERS)
    response.headers.pop("Server", None)
