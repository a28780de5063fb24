# SPDX-License-Identifier: Apache-2.0
"""HTTP: the page, sign-on and sign-off, lines with a token, health and figures."""
from __future__ import annotations

import asyncio
import contextlib
import hmac
import ipaddress
import json
import re
import time
import traceback
from collections.abc import Awaitable, Callable, Iterator

from aiohttp import web
from aiohttp.web_protocol import RequestHandler

from .audit import NoAudit
from .document import language_page
from .doors import Door, Doors, HttpDoor, Made
from .http_head import Head, names_loopback
from .metrics import Metrics
from .server import Server
from .sessions import LINES, PAGE, TOKEN, Carried, Over, Session, Sessions
from .settings import Settings
from .signing import Elsewhere, Signing, Slowed, Wrong
from .terminals import AllInUse, NotUp
from .users import BadUsers
from .web_socket import carry

NAME = re.compile(r"[a-z0-9][a-z0-9_-]*(?:\.[a-z0-9_-]+)*\.(\w+)")
TYPES = {"html": "text/html", "css": "text/css", "js": "text/javascript", "mjs": "text/javascript", "svg": "image/svg+xml", "png": "image/png",
         "ico": "image/x-icon", "json": "application/json", "webmanifest": "application/manifest+json", "woff2": "font/woff2", "txt": "text/plain"}
CONTENT = "default-src 'self'; connect-src 'self'; base-uri 'none'; form-action 'self'; frame-ancestors 'none'; object-src 'none'"
HEADERS = {
    "Content-Security-Policy": CONTENT, "X-Content-Type-Options": "nosniff", "X-Frame-Options": "DENY", "Referrer-Policy": "no-referrer",
    "Cross-Origin-Opener-Policy": "same-origin", "Cross-Origin-Resource-Policy": "same-origin",
    "Permissions-Policy": "camera=(), geolocation=(), microphone=(), payment=(), usb=()", "Server": "mfront",
}
TRANSPORT = "max-age=31536000"
# Seconds that a request may take from its head to the last byte of its answer.
REQUEST = 60.0


class HttpFault(Exception):
    """A request is answered by a status and an error."""

    def __init__(self, status: int, error: str, **headers: str) -> None:
        super().__init__(error)
        self.status = status
        self.headers = {name.replace("_", "-"): value for name, value in headers.items()}


class Answering(RequestHandler):
    """A connection of aiohttp that tells its door of each answer."""

    __slots__ = ("door",)

    door: HttpDoor

    async def finish_response(self, request: web.BaseRequest, response: web.StreamResponse, started: float) -> bool:
        """Sends the answer; only then the next request comes."""
        try:
            return await super().finish_response(request, response, started)
        finally:
            self.door.answered()


class Web:
    """The handlers of all paths."""

    def __init__(self, settings: Settings, server: Server, sessions: Sessions, signing: Signing, metrics: Metrics, doors: Doors) -> None:
        self._settings = settings
        self._server = server
        self._sessions = sessions
        self._signing = signing
        self._metrics = metrics
        self._doors = doors
        self._cookie = "__Host-mfront" if settings.tls else "mfront"
        self._of_token: dict[str, asyncio.Task[Session]] = {}
        self._language = language_page()

    def application(self) -> web.Application:
        """The application of aiohttp."""
        made = web.Application(middlewares=[self._guarded], client_max_size=self._settings.limits.body)
        made.add_routes([
            web.get("/", self._index), web.get("/page/language.html", self._document), web.get("/page/{name}", self._file),
            web.get("/session", self._session_record), web.get("/ws", self._socket), web.post("/signon", self._sign_on),
            web.post("/signoff", self._sign_off), web.post("/line", self._line), web.post("/password", self._password),
            web.get("/health", self._health), web.get("/metrics", self._figures),
        ])
        made.on_response_prepare.append(self._headers)
        return made

    def doors(self, runner: web.AppRunner) -> Made:
        """What makes the door of each new connection."""
        def made(doors: Doors, place: str, left: Callable[[Door], None]) -> Door:
            server = runner.server
            assert server is not None, "it is set up"
            # aiohttp gives what its own connections are made with to nobody else.
            inner = Answering(server, loop=asyncio.get_running_loop(), **server._kwargs)
            inner.door = HttpDoor(inner, doors.deadline(), place, left, doors, self._who)
            return inner.door
        return made

    def _who(self, head: Head, place: str) -> tuple[str, bool]:
        """Whose turn a request takes, and whether that is an account: the address of those who are not signed on."""
        kind, _, secret = head.field("authorization").partition(" ")
        found = self._signing.user_of(secret.strip()) if kind.lower() == "bearer" else None
        session = self._sessions.find(head.cookies().get(self._cookie, ""))
        account = found.account if found is not None else session.account if session is not None else None
        return (place, False) if account is None else (account, True)

    async def _headers(self, request: web.Request, response: web.StreamResponse) -> None:
        response.headers.update(HEADERS)
        response.headers.setdefault("Cache-Control", "no-store")
        if self._settings.tls:
            response.headers["Strict-Transport-Security"] = TRANSPORT

    @web.middleware
    async def _guarded(self, request: web.Request, handler: Callable[[web.Request], Awaitable[web.StreamResponse]]) -> web.StreamResponse:
        """Gives the connection time for what its peer does: to send this request, and to take its answer."""
        self._time(request, REQUEST)
        response = await self._answer(request, handler if self._is_ours(request) else misdirected)
        self._time(request, REQUEST)
        door = self._doors.of(request.protocol)
        if isinstance(door, HttpDoor) and door.worn:
            response.force_close()
        return response

    async def _answer(self, request: web.Request, handler: Callable[[web.Request], Awaitable[web.StreamResponse]]) -> web.StreamResponse:
        """Answers each fault as JSON."""
        try:
            await self._received(request)
            return await handler(request)
        except HttpFault as fault:
            return web.json_response({"error": str(fault)}, status=fault.status, headers=fault.headers)
        except web.HTTPException as fault:
            allowed = {"Allow": fault.headers["Allow"]} if "Allow" in fault.headers else {}
            return web.json_response({"error": fault.reason}, status=fault.status, headers=allowed)
        except Exception:
            # A fault of the front itself: the user hears that there was one, and the operator which.
            traceback.print_exc()
            return web.json_response({"error": "a fault of the front: its operator finds it in the log"}, status=500)

    def _is_ours(self, request: web.Request) -> bool:
        """Whether a request names this service. With TLS the certificate says that; without it a page of another origin could have its name stand for the
        loopback, and ask here."""
        if self._settings.tls or self._settings.listen.gate is not None:
            return True
        named = (origin.partition("//")[2] for origin in self._settings.listen.origins)
        return names_loopback(request.host) or request.host.lower() in named

    async def _received(self, request: web.Request) -> None:
        """Waits for the body. From there on the wait is not for the peer, so the connection's time does not run."""
        try:
            async with asyncio.timeout(self._settings.limits.sign_on):
                await request.read()
        except TimeoutError:
            raise HttpFault(408, "the body did not come in time") from None
        self._time(request, None)

    def _time(self, request: web.Request, seconds: float | None) -> None:
        """Gives the connection of a request so much time from now; None is without end."""
        if (door := self._doors.of(request.protocol)) is not None:
            door.deadline = None if seconds is None else time.monotonic() + seconds

    # ---- the page

    async def _index(self, request: web.Request) -> web.StreamResponse:
        return self._page_file("index.html")

    async def _file(self, request: web.Request) -> web.StreamResponse:
        return self._page_file(request.match_info["name"])

    async def _document(self, request: web.Request) -> web.StreamResponse:
        """The page of the language, to which Help leads."""
        if self._language is None:
            raise HttpFault(404, "docs/LANGUAGE.md is not installed")
        return web.Response(text=self._language, content_type="text/html", headers={"Cache-Control": "no-cache"})

    def _page_file(self, name: str) -> web.StreamResponse:
        """A file of the page's folder itself, of a kind that is known."""
        found = NAME.fullmatch(name)
        path = self._settings.listen.page / name
        if found is None or found[1] not in TYPES or not path.is_file():
            raise HttpFault(404, "there is no such file")
        kind = TYPES[found[1]]
        charset = "; charset=utf-8" if kind.startswith("text/") else ""
        return web.FileResponse(path, headers={"Content-Type": kind + charset, "Cache-Control": "no-cache"})

    # ---- sign-on

    def _session(self, request: web.Request) -> Session:
        session = self._sessions.find(request.cookies.get(self._cookie, ""))
        if session is None:
            raise HttpFault(401, "not signed on")
        return session

    def _own_origin(self, request: web.Request, needed: bool) -> None:
        """Raises a fault if the request comes from a page of another origin."""
        origin = request.headers.get("Origin")
        if origin is None and not needed:
            return
        # A gate serves over TLS, whatever it has with this front.
        scheme = "https" if self._settings.tls or self._settings.listen.gate is not None else "http"
        own = self._settings.listen.origins or (f"{scheme}://{request.host}".lower(),)
        if origin is None or origin.lower() not in own:
            raise HttpFault(403, "the origin is not this service's")

    async def _body(self, request: web.Request) -> dict[str, object]:
        """The body, a table of JSON."""
        if request.content_type != "application/json":
            raise HttpFault(415, "the body is to be JSON: Content-Type: application/json")
        try:
            found = json.loads(await request.read())
        except (ValueError, RecursionError):
            raise HttpFault(400, "the body is no JSON") from None
        if not isinstance(found, dict):
            raise HttpFault(400, "the body is to be an object of JSON")
        return found

    async def _sign_on(self, request: web.Request) -> web.StreamResponse:
        self._own_origin(request, needed=False)
        body = await self._body(request)
        name, password = body.get("user"), body.get("password")
        if not isinstance(name, str) or not isinstance(password, str):
            raise HttpFault(400, "user and password are to be texts")
        address = self._address(request)
        try:
            # A token is for programs: a browser names the origin of its page, and has a person before it.
            user, proof = await self._signing.by_password(name, password, address, tokens="Origin" not in request.headers)
            before = self._sessions.find(request.cookies.get(self._cookie, ""))
            if before is not None:
                self._sessions.sign_off(before, "replaced")
            session = await self._sessions.sign_on(user, PAGE, address, proof)
        except Elsewhere as error:
            raise HttpFault(503, str(error), Retry_After="1") from None
        except Wrong as error:
            raise HttpFault(401, str(error)) from None
        except Slowed as error:
            raise HttpFault(429, str(error), Retry_After=str(error.seconds)) from None
        except (AllInUse, NotUp) as error:
            raise HttpFault(503, str(error)) from None
        except NoAudit:
            raise HttpFault(503, "the audit log cannot be written") from None
        if request.transport is None:
            # Who has gone meanwhile does not know the key: nobody could use the terminal.
            self._sessions.sign_off(session, "left")
        response = web.json_response(self._sessions.record(session))
        self._set_cookie(response, session.key)
        return response

    def _address(self, request: web.Request) -> str:
        """The address of a user, which a gate has said if there is one."""
        door = self._doors.of(request.protocol)
        return plain_address(door.address) if door is not None else address_of(request)

    async def _session_record(self, request: web.Request) -> web.StreamResponse:
        return web.json_response(self._sessions.record(self._session(request)))

    async def _sign_off(self, request: web.Request) -> web.StreamResponse:
        self._own_origin(request, needed=False)
        self._sessions.sign_off(self._session(request), "signed off")
        response = web.Response(status=204)
        self._set_cookie(response, "", 0)
        return response

    async def _password(self, request: web.Request) -> web.StreamResponse:
        """Gives a user who is signed on by a password another one. Where several machines have users in common, that is for who keeps their file."""
        self._own_origin(request, needed=False)
        session, body = self._session(request), await self._body(request)
        old, new = body.get("old"), body.get("new")
        if not isinstance(old, str) or not isinstance(new, str):
            raise HttpFault(400, "old and new are to be texts")
        if self._settings.listen.gate is not None and self._settings.users_of_machine is None:
            raise HttpFault(409, "ask the operator for another password: users are kept for several machines")
        try:
            self._sessions.keeps(session, await self._signing.change(session.user, old, new, self._address(request)))
        except Wrong:
            raise HttpFault(403, "the password is not right") from None
        except Slowed as error:
            raise HttpFault(429, str(error), Retry_After=str(error.seconds)) from None
        except BadUsers as error:
            raise HttpFault(422, str(error)) from None
        return web.Response(status=204)

    def _set_cookie(self, response: web.Response, value: str, age: int | None = None) -> None:
        response.set_cookie(self._cookie, value, max_age=age, httponly=True, samesite="Strict", secure=self._settings.tls, path="/")

    async def _socket(self, request: web.Request) -> web.StreamResponse:
        self._own_origin(request, needed=True)
        door = self._doors.of(request.protocol)
        if not isinstance(door, HttpDoor):
            raise HttpFault(400, "the connection has ended")
        if not _bearer(request):
            return await carry(request, self._session(request), self._sessions, self._settings.limits, door)
        session = await self._program_session(request)
        try:
            return await carry(request, session, self._sessions, self._settings.limits, door, self._sessions.record(session))
        finally:
            self._sessions.sign_off(session, "left")

    # ---- programs

    async def _line(self, request: web.Request) -> web.StreamResponse:
        """Runs a line for a program, at the terminal that its token holds."""
        session = await self._token_session(request)
        text = (await self._body(request)).get("line")
        if not isinstance(text, str):
            raise HttpFault(400, "line is to be a text")
        try:
            with Carried(session):
                record = await self._sessions.run(session, text.encode("utf-8", "surrogatepass"))
        except Over:
            raise HttpFault(503, "the session was ended", Retry_After="1") from None
        if session.fresh and "output" in record:
            session.fresh = False
            record["new"] = True
        if self._settings.volatile:
            record["volatile"] = True
        return web.json_response(record)

    async def _token_session(self, request: web.Request) -> Session:
        """The session of a token; it is signed on if it is not."""
        secret = _bearer(request)
        if not secret:
            raise HttpFault(401, "a token is needed: Authorization: Bearer TOKEN", WWW_Authenticate="Bearer")
        address = self._address(request)
        with refusals_of_a_token():
            user, proof = self._signing.by_token(secret, address)
            task = self._of_token.get(proof)
            if task is None or task.done() and (task.cancelled() or task.exception() or task.result().over):
                task = asyncio.create_task(self._sessions.sign_on(user, TOKEN, address, proof))
                self._of_token[proof] = task
            return await asyncio.shield(task)

    async def _program_session(self, request: web.Request) -> Session:
        """A session of its own for the WebSocket of a program, by a token. It has no cookie, so nothing of the page is open to it."""
        address = self._address(request)
        with refusals_of_a_token():
            user, proof = self._signing.by_token(_bearer(request), address)
            return await self._sessions.sign_on(user, LINES, address, proof)

    # ---- operators

    async def _health(self, request: web.Request) -> web.StreamResponse:
        state = self._server.state
        return web.json_response({"child": state, "volatile": self._settings.volatile}, status=200 if state == "up" else 503)

    def _may_see_figures(self, request: web.Request) -> bool:
        """Whether a request has the token for figures, or comes from an address that needs none. Through a gate all addresses need it."""
        token = self._settings.metrics_token
        if token is not None and hmac.compare_digest(_bearer(request).encode(), token.encode()):
            return True
        address = ipaddress.ip_address(address_of(request) or "0.0.0.0")
        return self._settings.listen.gate is None and any(address in network for network in self._settings.metrics_from)

    async def _figures(self, request: web.Request) -> web.StreamResponse:
        if not self._may_see_figures(request):
            raise HttpFault(403, "figures are for the addresses of metrics.from, or for the token of metrics.token")
        server, signed_on = self._server, {way: 0 for way in ("page", "lines", "token")}
        for session in self._sessions:
            signed_on[session.way] += 1
        text = self._metrics.text(signed_on, server.waiting, server.oldest(), server.state == "up", self._sessions.journal_figures())
        return web.Response(body=text.encode(), headers={"Content-Type": "text/plain; version=0.0.4; charset=utf-8"})


@contextlib.contextmanager
def refusals_of_a_token() -> Iterator[None]:
    """Raises a fault where a token gives no session."""
    try:
        yield
    except Wrong:
        raise HttpFault(401, "wrong token", WWW_Authenticate="Bearer") from None
    except Slowed as error:
        raise HttpFault(429, str(error), Retry_After=str(error.seconds)) from None
    except (AllInUse, NotUp) as error:
        raise HttpFault(503, str(error), Retry_After="1") from None
    except NoAudit:
        raise HttpFault(503, "the audit log cannot be written") from None


async def misdirected(request: web.Request) -> web.StreamResponse:
    """Answers a request for another service."""
    raise HttpFault(421, "this is not the service of that name (listen.origins)")


def _bearer(request: web.Request) -> str:
    """The token of a request; empty if there is none."""
    kind, _, secret = request.headers.get("Authorization", "").partition(" ")
    return secret.strip() if kind.lower() == "bearer" else ""


def address_of(request: web.Request) -> str:
    """The address that a request comes from; that of IPv4 within IPv6 is written as IPv4's."""
    return plain_address(request.remote or "")


def plain_address(address: str) -> str:
    """An address, without what IPv6 adds to one of IPv4."""
    return address.removeprefix("::ffff:") if "." in address else address
