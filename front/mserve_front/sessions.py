# SPDX-License-Identifier: Apache-2.0
"""Who is signed on, at which terminal, and what becomes of their lines.

No clock that ends a session runs while one of its lines waits for the server: how long other accounts' lines take is no reason for any reply."""
from __future__ import annotations

import asyncio
import json
import secrets
import time
from collections import Counter
from collections.abc import Coroutine, Iterator, Mapping, Sequence
from dataclasses import dataclass, field
from pathlib import Path
from typing import Any, Protocol, TYPE_CHECKING

from mserve_client.escape import shown

from .audit import Audit, NoAudit, packed
from .fair import Pace
from .faults import HeldBack, NoJournal
from .lines import Line, LineRefused
from .metrics import Metrics, family
from .quotas import COUNTED as COUNTED_ROWS
from .quotas import AUDIT, Memory, Over as OverQuota, Quotas, in_words, size_of
from .replies import Answer
from .server import Server
from .settings import AT_A_START, Limits, Settings
from .signing import Slowed, Wrong
from .terminals import NotUp, Terminals
from .turns import Lost, Unsent
from .unread import Unread
from .users import Register, User

if TYPE_CHECKING:
    from .journal import Journal

# What a user gets, as JSON has it.
Record = dict[str, Any]
# The ways to sign on.
PAGE, LINES, TOKEN = "page", "lines", "token"
NOT_SENT = "the server was started again before this line was sent, and variables and locks are gone: send it again if it still holds"
# Seconds that lines on their way have at a stop to be answered, and then that users have to hear of it.
STOPPING, TELLING = 5.0, 2.0
# Lines that are refused, and frames that are none, a second: those of all accounts together, which take turns.
SPARED = 500.0
# Seconds between two records that say how many lines were refused before they were sent.
COUNTED = 10.0
UNKNOWN = "the server ended before it replied: the line may have been run or not"
NOT_NOTED = "the journal cannot be written, so this line was not sent"
NOT_AUDITED = "the audit log cannot be written, so this line was not sent"
OFTEN = "the account is over its quota, so each of its users signs on once a second"
STOPPED = "the service is being stopped, so this line was not sent"
HELD_BACK = "the line was run, and its reply is held back: the journal cannot be written"


class Over(Exception):
    """The session has ended."""


class Listener(Protocol):
    """A connection of a session, which gets its events."""

    async def tell(self, event: Record) -> None:
        """Sends an event; a connection that does not take it is cut off."""

    async def end(self, event: Record) -> None:
        """Sends a last event, and closes."""


@dataclass(eq=False, slots=True)
class Session:
    """A user at a terminal. `generation` is the server's generation that its variables are of, `proof` the hash that it was signed on by. `carried` counts its
    lines whose replies were not taken yet; `clean` says that none was sent since HALT; `refused` counts those that were refused and not noted yet;
    `packed` is what each record of the audit log has of it."""

    user: str
    account: str
    terminal: int
    way: str
    address: str
    proof: str
    generation: int
    key: str = field(default_factory=lambda: secrets.token_urlsafe(32))
    began: float = field(default_factory=time.monotonic)
    used: float = field(default_factory=time.monotonic)
    listener: Listener | None = None
    over: bool = False
    why: str = ""
    fresh: bool = True
    clean: bool = True
    carried: int = 0
    refused: int = 0
    counted: float = 0.0
    packed: str = ""

    def __post_init__(self) -> None:
        self.packed = packed(self.record)

    @property
    def record(self) -> Record:
        """Who and where it is, as records of the audit log have it."""
        return {"user": self.user, "account": self.account, "terminal": self.terminal, "way": self.way, "from": self.address}


class Carried:
    """While the block runs a session waits for the server, or for its peer to take a reply: it is not idle."""

    __slots__ = ("_session",)

    def __init__(self, session: Session) -> None:
        self._session = session

    def __enter__(self) -> None:
        self._session.carried += 1

    def __exit__(self, *error: object) -> None:
        self._session.carried -= 1
        self._session.used = time.monotonic()


class Sessions:
    """All sessions, and the terminals that nobody has."""

    def __init__(self, settings: Settings, server: Server, metrics: Metrics, audit: Audit, register: Register, journal: Journal | None = None) -> None:
        """The sessions of a server, whose restarts they hear of from now on."""
        self._journal = journal
        self._settings = settings
        self._metrics = metrics
        self._audit = audit
        self._register = register
        self._tasks: set[asyncio.Task[None]] = set()
        self._of_key: dict[str, Session] = {}
        # Bytes of the audit log that each account took.
        self._noted: Counter[str] = Counter()
        self._stopping = False
        self._cheap = Pace(SPARED)
        self.unread = Unread()
        self.server = server
        server.restarted = self.restarted
        self._terminals = Terminals(settings.terminals, self.server, journal)
        metrics.more.append(self._by_account)
        used = self.server.shares.used
        self.quotas = Quotas(settings.limits, Memory(used, lambda: size_of(self.server.pid)), used, self._over_quota)
        self.server.shares.slow = self.quotas.memory.look
        metrics.more.append(self.quotas.text)

    def know(self, terminals: Mapping[str, Sequence[int]]) -> None:
        """Which terminals each account has, from now on."""
        self._terminals.know(terminals)
        self.server.know(terminals)

    def limit(self, limits: Limits) -> None:
        """Takes other limits, for all who are signed on too."""
        self._settings.limits.take(limits, AT_A_START)
        self.quotas.limit(limits)

    def __iter__(self) -> Iterator[Session]:
        """The sessions as they stand: they may be ended meanwhile."""
        return iter(list(self._of_key.values()))

    @property
    def audit_waiting(self) -> int:
        """How many records wait for the audit log, which cannot be written."""
        return self._audit.waiting

    def _by_account(self) -> list[str]:
        """Figures of what each account has used of the server and of the audit log, and how many are signed on."""
        used = {f'account="{account}"': taken for account, (_, taken) in sorted(self.server.shares.used().items())}
        signed_on = Counter(session.account for session in self)
        noted = {f'account="{account}"': size for account, size in sorted(self._noted.items())}
        return [*family("mfront_account_server_seconds_total", "counter", "Seconds that the server took for lines, by account.", used),
                *family("mfront_account_signed_on", "gauge", "Sessions that are signed on, by account.",
                        {f'account="{account}"': signed_on[account] for account in sorted({*self._noted, *signed_on})}),
                *family("mfront_account_audit_bytes_total", "counter", "Bytes of the audit log that sessions and lines of an account took.", noted)]

    def journal_figures(self) -> tuple[int, bool] | None:
        """The journal's last line, and whether it can be written; None without a journal."""
        return None if self._journal is None else (self._journal.next - 1, self._journal.fault is None)

    def find(self, key: str) -> Session | None:
        """The session of a key."""
        return self._of_key.get(key)

    def record(self, session: Session) -> Record:
        """What a user gets of their session."""
        return {"user": session.user, "account": session.account, "terminal": session.terminal, "volatile": self._settings.volatile,
                "generation": session.generation, "session": session.generation, **({"text": "utf-8"} if self._settings.in_utf_8 else {})}

    async def sign_on(self, user: User, way: str, address: str, proof: str) -> Session:
        """Gives a user a terminal. Raises `AllInUse`, `NotUp`, `Slowed` if they sign on too often for an account that is over its quota, `Wrong` if they are
        no user any more by what they signed on with, or `NoAudit` if the sign-on could not be noted."""
        if self._stopping:
            raise NotUp("the service is being stopped")
        if wait := self.quotas.wait(user.account, user.name):
            self._metrics.sign_ons["slowed"] += 1
            raise Slowed(wait, OFTEN)
        self._make_room(user, way, 1)
        terminal = await self._terminals.take(user.account)
        try:
            # Between the look at the password and this there may have been a change of the users: what comes later is met by `sweep`.
            if not self._register.proves(user.name, user.account, proof):
                raise Wrong
            session = Session(user.name, user.account, terminal, way, address, proof, self.server.generation)
            self._note("sign-on", session)
        except BaseException:
            self._terminals.put_back(user.account, terminal)
            raise
        self._of_key[session.key] = session
        self._make_room(user, way, 0)
        return session

    def _make_room(self, user: User, way: str, more: int) -> None:
        """Ends the oldest sessions of a user who would have more than a user may have."""
        own = sorted((one for one in self if one.user == user.name and one.way == way), key=lambda one: one.began)
        for session in own[:max(0, len(own) + more - self._settings.limits.sessions_of_user)]:
            self.sign_off(session, "replaced")

    def keeps(self, session: Session, proof: str) -> None:
        """The user has another password: this session goes on by it, and no other does."""
        session.proof = proof

    def sign_off(self, session: Session, why: str) -> None:
        """Ends a session. Its terminal is free once HALT was answered there."""
        if session.over:
            return
        session.over, session.why = True, why
        del self._of_key[session.key]
        listener, session.listener = session.listener, None
        self._count_refused(session)
        self._note_later("sign-off", session, why=why)
        if listener is not None:
            self._spawn(listener.end({"event": "signed-off", "why": why}))
        self._spawn(self._terminals.release(session.account, session.terminal))

    async def _halt(self, session: Session) -> None:
        """Ends the terminal's session while the user stays, unless the user goes meanwhile: then the terminal is not theirs any more."""
        session.fresh = True
        with Carried(session):
            while not session.over and not session.clean:
                session.clean = await self._terminals.halted(session.terminal)

    async def attach(self, session: Session, listener: Listener) -> None:
        """Joins a connection to a session, in place of the one before it, with no variables and no locks. Raises `Over`."""
        if session.over:
            raise Over
        before, session.listener = session.listener, listener
        session.used = time.monotonic()
        if before is not None:
            self._spawn(before.end({"event": "signed-off", "why": "replaced"}))
        await self._halt(session)

    def detach(self, session: Session, listener: Listener) -> None:
        """Notes that a connection is lost: the terminal's session ends, and the user may come back for a while."""
        if session.listener is listener and not session.over:
            session.listener = None
            session.used = time.monotonic()
            self._spawn(self._halt(session))

    async def run(self, session: Session, data: bytes, generation: int | None = None) -> Record:
        """The record of a line's reply, or of why there is none. `generation` is the server's generation that the line was written for. Raises `Over`."""
        over = self.quotas.over.get(session.account)
        if over is not None:
            await self.quotas.turn(session.account)
        try:
            record = await self._run(session, data, generation)
        except LineRefused as error:
            record = {"refused": error.code, "why": error.why}
        except Lost:
            record = {"unknown": True, "why": UNKNOWN}
        except HeldBack:
            record = {"unknown": True, "why": HELD_BACK}
        except NoJournal:
            record = {"refused": "journal", "why": NOT_NOTED}
        except NoAudit:
            record = {"refused": "audit", "why": NOT_AUDITED}
        except Unsent:
            if session.over:
                raise Over from None
            record = {"refused": "stopping", "why": STOPPED} if self._stopping else {"refused": "restarted", "why": NOT_SENT}
        self._count(session, data, record)
        if "refused" in record:
            await self.spared(session)
        return record if over is None else record | {"quota": in_words(over)}

    async def spared(self, session: Session) -> None:
        """Waits for the turn of what costs the server nothing: a line that is refused, a ping. Others have their turns meanwhile."""
        await self._cheap.turn(session.account)

    async def _run(self, session: Session, data: bytes, generation: int | None) -> Record:
        if session.over:
            raise Over
        line = Line.in_utf_8(data) if self._settings.in_utf_8 else Line(data)
        self._audit.check()
        if self._stopping or session.generation != self.server.generation or generation not in (None, session.generation):
            raise Unsent
        session.clean = False
        answer = await self.server.ask(session.terminal, line, session.user)
        return in_utf_8(replied(answer)) if self._settings.in_utf_8 else replied(answer)

    def _count(self, session: Session, data: bytes, record: Record) -> None:
        """Counts a line, and notes it; of lines that were refused before they were sent, how many there were."""
        code = "unknown" if "unknown" in record else f"refused {record['refused']}" if "refused" in record else record["code"] or "none"
        self._metrics.replies[str(code)] += 1
        if "refused" in record:
            session.refused += 1
            return
        told = "null" if code == "none" else json.dumps(code)
        text = f", {packed({'text': data.decode('latin1')})}" if self._settings.texts else ""
        self._took(session.account, self._audit.note_packed("line", f'{session.packed}, "code": {told}{text}'))

    def _count_refused(self, session: Session) -> None:
        """Notes how many lines were refused since the last such record."""
        if session.refused:
            self._note_later("refused lines", session, count=session.refused)
            session.refused, session.counted = 0, time.monotonic()

    def _note(self, event: str, session: Session, **what: object) -> None:
        self._took(session.account, self._audit.note(event, **session.record, **what))

    def _note_later(self, event: str, session: Session, **what: object) -> None:
        self._took(session.account, self._audit.note_later(event, **session.record, **what))

    def _took(self, account: str, size: int) -> None:
        """Notes what an account takes of the audit log."""
        self._noted[account] += size
        self.quotas.days[AUDIT].add(account, size)

    async def restarted(self) -> None:
        """Tells all that the server was started again: their variables and locks are gone."""
        self._audit.note_later("restarted", generation=self.server.generation, session=self.server.generation)
        for session in self:
            session.generation = self.server.generation
            session.fresh = session.clean = True
            if session.listener is not None:
                event = {"event": "restarted", "volatile": self._settings.volatile, "generation": session.generation, "session": session.generation}
                self._spawn(session.listener.tell(event))

    def sweep(self) -> None:
        """Signs off who was idle, away or signed on for too long, and those who are no longer users, by what they signed on with."""
        now, limits = time.monotonic(), self._settings.limits
        for session in self:
            if now - session.counted > COUNTED:
                self._count_refused(session)
            allowed = limits.token_idle if session.way == TOKEN else limits.absent if session.listener is None else limits.idle
            if not self._register.proves(session.user, session.account, session.proof):
                self.sign_off(session, "removed")
            elif not session.carried and (now - session.used > allowed or now - session.began > limits.longest):
                self.sign_off(session, "idle")

    def look(self) -> None:
        """Looks at what accounts take; once a second."""
        self.quotas.memory.look()
        self.quotas.memory.keep(session.account for session in self if not session.clean)
        self.quotas.look()

    async def count(self) -> None:
        """Keeps counting the rows of accounts."""
        settings = self._settings
        while settings.join is None and settings.store is not None and not settings.volatile:
            await asyncio.sleep(COUNTED_ROWS)
            await self.quotas.count(Path(settings.store))
        await asyncio.Event().wait()

    def _over_quota(self, account: str, over: OverQuota) -> None:
        """Tells an account that it is over its quotas, or no more."""
        figures = {what: {"used": used, "most": most} for what, (used, most) in over.items()}
        self._audit.note_later("quota", account=account, over=figures)
        for session in self:
            if session.account == account and session.listener is not None:
                self._spawn(session.listener.tell({"event": "quota", "over": figures, **({"why": in_words(over)} if over else {})}))

    async def stop(self, why: str) -> None:
        """Signs all off: no line is sent any more, those on their way have their replies, or are unknown after a while, and then users hear why."""
        self._stopping = True
        self.quotas.end()
        for session in self:
            self.server.forget(session.terminal)
        if not await self._settled(STOPPING):
            self.server.cut()
            await self._settled(TELLING)
        for session in self:
            self.sign_off(session, why)
        if self._tasks:
            await asyncio.wait(self._tasks, timeout=TELLING)

    async def _settled(self, seconds: float) -> bool:
        """Waits so long at most until no line waits for its reply, and says whether none does."""
        end = time.monotonic() + seconds
        while any(session.carried for session in self):
            if time.monotonic() > end:
                return False
            await asyncio.sleep(0.01)
        return True

    def _spawn(self, work: Coroutine[None, None, None]) -> asyncio.Task[None]:
        task = asyncio.get_running_loop().create_task(work)
        self._tasks.add(task)
        task.add_done_callback(self._tasks.discard)
        return task


def replied(answer: Answer) -> Record:
    """The record of a reply: the lines that `!` ended, the rest, the code of a fault or None, and how many bytes were left out, if any."""
    reply = answer.reply
    record: Record = {"output": reply.lines, "rest": reply.rest, "code": reply.code}
    if answer.cut:
        record["cut"] = answer.cut
    return record


def in_utf_8(record: Record) -> Record:
    """The record of a reply, with the characters for which its escapes stand."""
    return record | {"output": list(map(shown, record["output"])), "rest": shown(record["rest"])}
