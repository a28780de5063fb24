# SPDX-License-Identifier: Apache-2.0
"""The operator's page, at a socket of its own that only the front's user and root may open: who is signed on, what each account uses, what waits, the
journal and the backup, how far its standbys lag, the last hour in pictures, and for each alarm what to do. A standby has it too, with how far it lags
its leader, and a gate has one of its islands."""
from __future__ import annotations

import asyncio
import time
from collections import deque
from collections.abc import Awaitable, Callable, Mapping
from dataclasses import dataclass
from pathlib import Path
from typing import Any

from aiohttp import web

from .certificates import FIGURE as CERTIFICATE
from .control import bound
from .http_head import names_loopback
from .libraries import FIGURE as LIBRARIES
from .metrics import Metrics
from .server import Server
from .sessions import Sessions
from .settings import Settings
from .standbys import Behind, most_of

FOLDER = Path(__file__).resolve().parent.parent / "admin"
FILES = {"/": ("index.html", "text/html"), "/admin.js": ("admin.js", "text/javascript"), "/admin.css": ("admin.css", "text/css")}
# Seconds between two points of the pictures, and how many there are: an hour.
STEP, POINTS = 15.0, 240
HEADERS = {"Content-Security-Policy": "default-src 'self'; base-uri 'none'; form-action 'none'; frame-ancestors 'none'", "X-Content-Type-Options": "nosniff",
           "Referrer-Policy": "no-referrer", "Cache-Control": "no-store"}


@dataclass(frozen=True, slots=True)
class Alarm:
    """A figure that is over, or under, what it should be; what that means; and what to do."""

    figure: str
    over: bool
    limit: float
    what: str
    do: str

    def rings(self, value: float) -> bool:
        """Whether a value is an alarm."""
        return value > self.limit if self.over else value < self.limit


ALARMS = (
    Alarm("mfront_up", False, 1, "The server is not up.", "See the lines of mserve: journalctl -u mfront. It is started again by itself."),
    Alarm("mfront_lines_waiting", True, 256, "Many lines wait.", "See below which account takes most of the server's time, and lower its steps."),
    Alarm("mfront_longest_wait_seconds", True, 5, "A line waited for more than five seconds.", "As before; or give that account a machine of its own."),
    Alarm("mfront_audit_waiting", True, 0, "The audit log cannot be written: nobody signs on, and no line runs.", "Free the disk of the audit log."),
    Alarm("mfront_journal_up", False, 1, "The journal cannot be written: no line runs.", "Free the disk, or bring the database back."),
    Alarm("mfront_journal_room_bytes", False, 1e9, "Less than 1 GB is left for the journal.", "Run mbackup verify and mjournal expire."),
    Alarm("mfront_journal_spare_bytes", False, 1, "The journal's disk is full: it goes on in the room that was kept for it.", "Free the disk now: mbackup "
          "verify and mjournal expire, or what else is on it."),
    Alarm("mfront_store_room_bytes", False, 1e9, "Less than 1 GB is left for the store.", "Give its disk more room: lines are answered ZSTORE "
          "once it is full."),
    Alarm("mfront_audit_room_bytes", False, 1e9, "Less than 1 GB is left for the audit log.", "Move old ones away, or give its disk more room."),
    Alarm("mfront_journal_open_lines", True, 64, "Lines stay without a reply.", "The server does not answer: look at its process."),
    Alarm("mfront_standby_fault", True, 0, "The standby cannot go on.", "mfront status says why, and docs/OPERATING.md what to do then."),
    Alarm("mfront_standby_behind_lines", True, 1000, "The standby is behind.", "Its disk or processor is slower: users would wait at a promotion."),
    Alarm("mfront_standbys_waiting", True, 0, "A standby cannot go on.", "mfront status on its machine says why, and docs/OPERATING.md what to do then."),
    Alarm("mfront_standbys_behind_seconds", True, 60, "A standby is a minute behind.", "Its disk or processor is slower: users would wait at a promotion."),
    Alarm("mfront_standbys_silent_seconds", True, 60, "A standby has said nothing for a minute.", "See whether it runs, and reaches the journal. If it is gone "
          "for good, docs/OPERATING.md says how its alarm ends."),
    Alarm("backup_verified_age_seconds", True, 172_800, "No snapshot was verified for two days.", "Run mbackup verify, and read what it says."),
    Alarm("certificate_seconds_left", False, 1_209_600, "A certificate expires in less than 14 days.", "Put a new one in its place, and have it read: "
          "systemctl reload."),
    Alarm(LIBRARIES, True, 0, "Libraries were updated, and those of before still run.", "Start it again when that suits: a standby first, and then its "
          "leader."),
)


# What the page is given, as JSON has it.
Told = dict[str, Any]


def alarms_of(figures: Mapping[str, float]) -> list[Told]:
    """The alarms that ring by these figures."""
    return [{"what": alarm.what, "do": alarm.do, "value": figures[alarm.figure]} for alarm in ALARMS
            if alarm.figure in figures and alarm.rings(figures[alarm.figure])]


def figures_of(text: str) -> dict[str, float]:
    """The figures without labels of a text for Prometheus, how old the last verified backup is, and for how long the certificate is good."""
    found = dict(line.split(" ", 1) for line in text.splitlines() if line[0] != "#" and "{" not in line)
    figures = {name: float(value) for name, value in found.items()}
    if (verified := figures.get("mfront_backup_verified_timestamp_seconds")) is not None:
        figures["backup_verified_age_seconds"] = round(time.time() - verified)
    if (end := figures.get(CERTIFICATE)) is not None:
        figures["certificate_seconds_left"] = round(end - time.time())
    return figures


class Page:
    """Serves the page at a socket, if one is named, with what is known at each request."""

    def __init__(self, path: Path | None, tell: Callable[[], Awaitable[Told]]) -> None:
        self._path = path
        self._tell = tell
        self._runner: web.AppRunner | None = None

    async def begin(self) -> None:
        """Listens. Raises OSError if that cannot be."""
        if self._path is None:
            return
        made = web.Application(middlewares=[asked_here])
        made.add_routes([web.get("/admin.json", self._told), *(web.get(place, self._file) for place in FILES)])
        self._runner = web.AppRunner(made, handle_signals=False, access_log=None)
        await self._runner.setup()
        await web.SockSite(self._runner, bound(self._path)).start()

    async def end(self) -> None:
        """Listens no more."""
        runner, self._runner = self._runner, None
        if runner is not None and self._path is not None:
            await runner.cleanup()
            self._path.unlink(missing_ok=True)

    async def _told(self, request: web.Request) -> web.StreamResponse:
        return web.json_response(await self._tell(), headers=HEADERS)

    async def _file(self, request: web.Request) -> web.StreamResponse:
        name, kind = FILES[request.path]
        return web.FileResponse(FOLDER / name, headers={**HEADERS, "Content-Type": f"{kind}; charset=utf-8"})


@web.middleware
async def asked_here(request: web.Request, handler: Callable[[web.Request], Awaitable[web.StreamResponse]]) -> web.StreamResponse:
    """Answers those who ask the loopback: a page of another origin could have its own name stand for it, and read through an operator's tunnel."""
    if not names_loopback(request.host):
        raise web.HTTPMisdirectedRequest
    return await handler(request)


class Admin(Page):
    """The page of a front that serves."""

    def __init__(self, settings: Settings, server: Server, sessions: Sessions, metrics: Metrics, behind: Callable[[], list[Behind]] = list) -> None:
        """`behind` gives how far each standby lags."""
        super().__init__(settings.admin, self.told)
        self._behind = behind
        self._server = server
        self._sessions = sessions
        self._metrics = metrics
        self._points: deque[list[float]] = deque(maxlen=POINTS)
        self._before = (time.monotonic(), 0, 0.0)

    async def run(self) -> None:
        """Keeps the points of the last hour."""
        while True:
            await asyncio.sleep(STEP)
            self.sample()

    def sample(self) -> None:
        """Adds a point: when, lines a second, which part of the time the server was busy, lines that wait, and the longest wait."""
        used = self._server.shares.used().values()
        now, lines, taken = time.monotonic(), sum(count for count, _ in used), sum(seconds for _, seconds in used)
        span = max(now - self._before[0], 1e-6)
        server = self._server
        self._points.append([round(time.time()), round((lines - self._before[1]) / span, 2), round((taken - self._before[2]) / span, 4), server.waiting,
                             round(max(server.oldest(), self._metrics.longest()), 3)])
        self._before = (now, lines, taken)

    async def told(self) -> Told:
        """All that the page shows."""
        standbys = self._behind()
        figures = self._figures() | most_of(standbys)
        users = [{"user": one.user, "account": one.account, "terminal": one.terminal, "way": one.way, "from": one.address,
                  "seconds": round(time.monotonic() - one.began), "waits": one.carried > 0} for one in self._sessions]
        accounts = [{"account": account, "lines": lines, "seconds": round(taken, 3), "signed_on": sum(one["account"] == account for one in users)}
                    for account, (lines, taken) in sorted(self._server.shares.used().items())]
        state = f"The server is {'up' if figures['mfront_up'] else 'not up'}; {len(users)} signed on"
        shown = [{"standby": one.name, "line": one.line, "lines": one.lines, "seconds": round(one.seconds, 1), "silent": round(one.silent, 1),
                  "waits": one.waits} for one in standbys]
        return {"time": round(time.time()), "state": state, "users": users, "accounts": accounts, "alarms": alarms_of(figures), "figures": figures,
                "points": list(self._points), "step": STEP, **({"standbys": shown} if shown else {})}

    def _figures(self) -> dict[str, float]:
        server = self._server
        text = self._metrics.text({}, server.waiting, server.oldest(), server.state == "up", self._sessions.journal_figures())
        return figures_of(text) | {"mfront_audit_waiting": float(self._sessions.audit_waiting)}
