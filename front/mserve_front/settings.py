# SPDX-License-Identifier: Apache-2.0
"""The settings of the front, `front.toml`, and what it needs of the server's: which terminals an account has."""
from __future__ import annotations

import ipaddress
import tomllib
from collections.abc import Container
from dataclasses import dataclass, fields
from pathlib import Path
from typing import Any, TypedDict, overload

from .preamble import read_secret


class BadSettings(Exception):
    """A file cannot be used; the text says which file, which key, and what is wanted there."""


# The most that a quota may be, which is none.
NO_BOUND = 1 << 48
# Bytes of a disk that are kept for a journal, and for an audit log, for when it is full.
SPARE = 16_777_216


@dataclass(slots=True)
class Limits:
    """Times in seconds, sizes in bytes, and counts. A reload changes them in place, so that all who have them see it."""

    idle: float = 30 * 60
    absent: float = 2 * 60
    longest: float = 12 * 3600
    token_idle: float = 60
    sign_on: float = 20
    slow: float = 30
    heartbeat: float = 20
    body: int = 8192
    reply: int = 1_000_000
    connections: int = 1400
    connections_of_address: int = 500
    unsigned_of_address: int = 200
    sessions_of_user: int = 4
    rows: int = 10_000_000
    memory: int = 1_000_000_000
    journal: int = NO_BOUND
    audit: int = NO_BOUND

    def take(self, other: Limits, but: Container[str] = ()) -> None:
        """Takes the values of others, but for some."""
        for one in fields(self):
            if one.name not in but:
                setattr(self, one.name, getattr(other, one.name))


# Limits that count from a front's start: the ways in, and its connection to the server, are made with them.
AT_A_START = ("body", "reply")


@dataclass(frozen=True, slots=True)
class JournalSettings:
    """Where the journal is: a folder of files, each of `roll` bytes or a little more, where `spare` bytes of the disk are kept for when it is full, or a table
    of a database, where it has a name; the socket for operators; and the folder of snapshots, of which the figures tell."""

    folder: Path | None = None
    database: str | None = None
    name: str = "main"
    roll: int = 16_777_216
    control: Path = Path("mfront.control")
    backup: Path | None = None
    spare: int = SPARE

    @property
    def kept(self) -> bool:
        """Whether there is to be a journal."""
        return self.folder is not None or self.database is not None


@dataclass(frozen=True, slots=True)
class Listen:
    """Where users connect, what a browser is shown, and the secret of the gate before the front, if there is one."""

    host: str
    port: int
    lines_port: int | None
    gate: str | None
    certificate: Path | None
    key: Path | None
    origins: tuple[str, ...]
    page: Path


@dataclass(frozen=True, slots=True)
class Settings:
    """All settings, with paths made whole."""

    path: Path
    program: Path
    server_settings: Path
    store: str | None
    join: int | None
    volatile: bool
    listen: Listen
    users: Path
    audit: Path | None
    texts: bool
    metrics_from: tuple[ipaddress.IPv4Network | ipaddress.IPv6Network, ...]
    metrics_token: str | None
    limits: Limits
    terminals: dict[str, tuple[int, ...]]
    journal: JournalSettings = JournalSettings()
    in_utf_8: bool = False
    admin: Path | None = None
    users_of_machine: Path | None = None
    users_of_gate: Path | None = None
    audit_spare: int = SPARE

    @property
    def tls(self) -> bool:
        """Whether the front speaks TLS."""
        return self.listen.certificate is not None


class Table:
    """A table of a TOML file, whose keys are taken one by one; each fault names the file and the key."""

    def __init__(self, path: Path, name: str, keys: object) -> None:
        self.path = path
        self._name = name
        if not isinstance(keys, dict):
            raise BadSettings(f"{path}: {name}: is to be a table: [{name}]")
        self._keys = dict(keys)

    def fault(self, key: str, wanted: str) -> BadSettings:
        """The fault of a key."""
        return BadSettings(f"{self.path}: {self._name}.{key}: {wanted}")

    @overload
    def text(self, key: str) -> str | None: ...

    @overload
    def text(self, key: str, default: str) -> str: ...

    def text(self, key: str, default: str | None = None) -> str | None:
        """A text that is not empty."""
        value = self._keys.pop(key, default)
        if value is not None and (not isinstance(value, str) or not value or "\0" in value):
            raise self.fault(key, "is to be a text that is not empty")
        return value

    @overload
    def file(self, key: str) -> Path | None: ...

    @overload
    def file(self, key: str, default: Path) -> Path: ...

    def file(self, key: str, default: Path | None = None) -> Path | None:
        """A path; one that is not absolute counts from the folder of the file."""
        text = self.text(key)
        return default if text is None else self.path.parent.resolve() / text

    def secret(self, key: str) -> str | None:
        """The secret in a file that its owner alone may read."""
        path = self.file(key)
        try:
            return None if path is None else read_secret(path)
        except OSError as error:
            raise self.fault(key, f"{path}: {error.strerror}") from error
        except ValueError as error:
            raise self.fault(key, f"{path}: {error}") from error

    def needed_file(self, key: str) -> Path:
        """A path that has to be given."""
        found = self.file(key)
        if found is None:
            raise self.fault(key, "is missing: the path of a file")
        return found

    @overload
    def whole(self, key: str, least: int, most: int) -> int | None: ...

    @overload
    def whole(self, key: str, least: int, most: int, default: int) -> int: ...

    def whole(self, key: str, least: int, most: int, default: int | None = None) -> int | None:
        """A whole number."""
        value = self._keys.pop(key, default)
        if value is not None and (type(value) is not int or not least <= value <= most):
            raise self.fault(key, f"is to be a whole number from {least} to {most}")
        return value

    def truth(self, key: str, default: bool) -> bool:
        """`true` or `false`."""
        value = self._keys.pop(key, default)
        if not isinstance(value, bool):
            raise self.fault(key, "is to be true or false")
        return value

    def texts(self, key: str, default: list[str]) -> list[str]:
        """A list of texts."""
        value = self._keys.pop(key, default)
        if not isinstance(value, list) or not all(isinstance(text, str) for text in value):
            raise self.fault(key, 'is to be a list of texts: ["..", ".."]')
        return value

    def end(self) -> None:
        """Ends the reading: a key that nobody took is a fault."""
        for key in self._keys:
            raise self.fault(key, "there is no such key")


# The least and the most of each limit.
_LIMITS = {
    "idle": (1, 86_400), "absent": (1, 86_400), "longest": (10, 604_800), "token_idle": (1, 86_400), "sign_on": (1, 600), "slow": (1, 600),
    "heartbeat": (1, 600), "body": (4096, 1 << 24), "reply": (4096, 1 << 28), "connections": (1, 100_000), "connections_of_address": (1, 100_000),
    "unsigned_of_address": (1, 100_000),
    "sessions_of_user": (1, 9999), "rows": (1, NO_BOUND), "memory": (1_000_000, NO_BOUND), "journal": (1, NO_BOUND), "audit": (1, NO_BOUND),
}


# The server: the clone's, where the front is a clone's, and else the package's.
CLONE = Path(__file__).resolve().parent.parent.parent / "mserve"
PROGRAM = CLONE if CLONE.is_file() else Path("/usr/lib/mserve/mserve")
TABLES = ("server", "listen", "users", "audit", "metrics", "limits", "journal", "admin")


def read_toml(path: Path) -> dict[str, Any]:
    """The tables of a TOML file."""
    try:
        return tomllib.loads(path.read_bytes().decode())
    except OSError as error:
        raise BadSettings(f"{path}: cannot be read: {error.strerror}") from error
    except (UnicodeDecodeError, tomllib.TOMLDecodeError) as error:
        raise BadSettings(f"{path}: is no TOML: {error}") from error


def changed_keys(before: dict[str, Any], after: dict[str, Any], known: Container[str] = ()) -> list[str]:
    """The keys whose values differ between two readings of a file, as TABLE.KEY, but for those that are known."""
    tables = [{f"{name}.{key}": value for name, keys in tables.items() for key, value in keys.items()} for tables in (before, after)]
    return sorted(key for key in tables[0].keys() | tables[1].keys() if key not in known and tables[0].get(key) != tables[1].get(key))


def read_terminals(path: Path) -> dict[str, tuple[int, ...]]:
    """The terminals of each account, of a file of the server's settings. The server itself checks them in full."""
    accounts = read_toml(path).get("account", [])
    found = {}
    for account in accounts if isinstance(accounts, list) else [None]:
        name, terminals = (account.get("name"), account.get("terminals")) if isinstance(account, dict) else (None, None)
        if not isinstance(name, str) or not isinstance(terminals, list) or not all(type(one) is int and 1 <= one <= 9999 for one in terminals):
            raise BadSettings(f"{path}: account: each is to have a name and a list of terminals, 1 to 9999")
        found[name] = tuple(terminals)
    if not any(found.values()):
        raise BadSettings(f"{path}: account: no account has a terminal, so nobody could sign on")
    return found


def read_settings(path: Path, volatile: bool) -> Settings:
    """The settings of a file. Raises `BadSettings` for the first fault. `volatile` says that a store in memory is meant."""
    tables = read_toml(path)
    for name in tables.keys() - set(TABLES):
        raise BadSettings(f"{path}: {name}: there is no such table")
    taken = {name: Table(path, name, tables.get(name, {})) for name in TABLES}
    users = taken["users"].needed_file("file")
    settings = Settings(path=path, **_server(taken["server"], volatile), listen=_listen(taken["listen"]),
                        users=users, users_of_machine=taken["users"].file("machine"), users_of_gate=taken["users"].file("gate"),
                        journal=journal_settings(taken["journal"], users.parent), audit=taken["audit"].file("file"), texts=taken["audit"].truth("texts", False),
                        audit_spare=taken["audit"].whole("spare", 0, 1 << 40, SPARE),
                        metrics_from=_networks(taken["metrics"]), metrics_token=taken["metrics"].secret("token"),
                        admin=taken["admin"].file("socket"), limits=limits_of(taken["limits"]))
    for table in taken.values():
        table.end()
    return settings


class OfServer(TypedDict):
    """What the table of the server gives."""

    program: Path
    server_settings: Path
    store: str | None
    join: int | None
    volatile: bool
    terminals: dict[str, tuple[int, ...]]
    in_utf_8: bool


def _server(table: Table, volatile: bool) -> OfServer:
    """The server: a child of its own, or one that runs."""
    settings = table.needed_file("settings")
    text = characters_of(table)
    join, store, program = table.whole("join", 1, 65_535), table.text("store"), table.file("program", PROGRAM)
    if join is not None:
        if store is not None:
            raise table.fault("store", "is not for the front to say, since server.join names a server that runs")
    elif store is None:
        raise table.fault("store", 'is missing: the path of a file, or "memory" (or server.join, the port of a server that runs)')
    elif store == "memory":
        if not volatile:
            raise table.fault("store", "is memory, so that all data are gone once the server ends: start with --volatile if that is meant")
    else:
        if volatile:
            raise table.fault("store", "is a file, and --volatile is for a store in memory")
        store = str(table.path.parent.resolve() / store)
    return {"program": program, "server_settings": settings, "store": store, "join": join, "volatile": volatile, "terminals": read_terminals(settings),
            "in_utf_8": text == "utf-8"}


def characters_of(table: Table) -> str:
    """How strings and replies have characters over 127."""
    text = table.text("text", "ascii")
    if text not in ("ascii", "utf-8"):
        raise table.fault("text", 'is to be "ascii", or "utf-8" for characters over 127 as escapes within strings')
    return text


def _listen(table: Table) -> Listen:
    """Where users connect. Without a certificate that is the loopback alone."""
    certificate, key = table.file("certificate"), table.file("key")
    if (certificate is None) != (key is None):
        raise table.fault("key" if key is None else "certificate", "is missing: a certificate and its key come together")
    host = table.text("host", "127.0.0.1")
    try:
        address = ipaddress.ip_address(host)
    except ValueError:
        raise table.fault("host", "is to be an address, as 127.0.0.1, 0.0.0.0 or ::") from None
    if certificate is None and not address.is_loopback:
        raise table.fault("host", f"is {host}: without listen.certificate and listen.key the front listens at the loopback alone, as 127.0.0.1")
    port = table.whole("port", 1, 65_535, 8443)
    lines_port = table.whole("lines_port", 1, 65_535)
    if port == lines_port:
        raise table.fault("lines_port", "is to be another port than listen.port")
    gate = table.secret("gate")
    if gate is not None and not address.is_loopback:
        raise table.fault("gate", f"is for a front at the loopback, and host is {host}: a gate of this machine hands users on")
    return Listen(host, port, lines_port, gate, certificate, key, _origins(table), table.file("page", Path(__file__).resolve().parent.parent / "page"))


def _origins(table: Table) -> tuple[str, ...]:
    """The origins that a page may come from; none stands for the address that it was asked at."""
    origins = table.texts("origins", [])
    for origin in origins:
        if not origin.startswith(("http://", "https://")) or origin.count("/") != 2:
            raise table.fault("origins", f'{origin!r} is no origin: "https://front.example:8443"')
    return tuple(origin.lower() for origin in origins)


def _networks(table: Table) -> tuple[ipaddress.IPv4Network | ipaddress.IPv6Network, ...]:
    """Who may ask for figures."""
    networks = []
    for text in table.texts("from", ["127.0.0.0/8", "::1"]):
        try:
            networks.append(ipaddress.ip_network(text))
        except ValueError as error:
            raise table.fault("from", f"is to be a list of addresses and networks: {error}") from None
    return tuple(networks)


def journal_settings(table: Table, folder: Path) -> JournalSettings:
    """Where the journal is; the socket is in a folder unless it is named."""
    roll = table.whole("roll", 4096, 1 << 40, JournalSettings().roll)
    found = JournalSettings(table.file("folder"), table.text("database"), table.text("name", "main"), roll, table.file("control", folder / "mfront.control"),
                            table.file("backup"), table.whole("spare", 0, 1 << 40, SPARE))
    if found.folder is not None and found.database is not None:
        raise table.fault("database", "is not for a journal that is in a folder: give one of the two")
    return found


def limits_of(table: Table) -> Limits:
    """The limits that are given, and for the others their defaults."""
    default = Limits()
    return Limits(**{name: table.whole(name, least, most, int(getattr(default, name))) for name, (least, most) in _LIMITS.items()})
