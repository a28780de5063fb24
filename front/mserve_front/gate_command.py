# SPDX-License-Identifier: Apache-2.0
"""The command `mgate`: the gate of a machine that has islands, and where each island is."""
from __future__ import annotations

import argparse
import asyncio
import contextlib
import errno
import resource
import signal
import ssl
import tomllib
from collections.abc import Callable
from dataclasses import dataclass, field
from pathlib import Path
from typing import TYPE_CHECKING

from mserve_client import ClientError

from . import ending, fork_server
from .certificates import expires
from .control import ControlError
from .doors import Doors, quiet, spare_memory, strict
from .ending import FAILED, USAGE
from .fork_server import ForkServer
from .gate import Gate
from .init import make_islands, write_machine
from .islands import Home, Islands
from .journal import RETRY, LogFault
from .placement import NAME, BadPlacement, LocalPlacement, Machine, Placed, Placement
from .server import Condition, tell
from .settings import PROGRAM, BadSettings, Limits, Table, characters_of, limits_of, read_toml
from .slices import SHORT, take_slices
from .users import BadUsers

if TYPE_CHECKING:
    from .gate_page import GatePage

DEFAULT = "/etc/mserve/machine.toml"
STATUSES = "Status: 0 all went well; 2 the words or the settings are wrong, or the placement refuses it; 3 a port is taken, or the database is away, " \
           "or what starts the fronts has ended; 130 an interrupt."
TABLES = ("machine", "listen", "peers", "admin", "audit", "limits")
# Addresses that are all of a machine's, and none at which another one finds it.
EVERYWHERE = ("0.0.0.0", "::")
# Connections of users, unless its limits allow more, and those of other machines: a gate computes no passwords, and so has room for more than a front.
MOST = 3500


@dataclass(frozen=True, slots=True)
class Doorway:
    """Where the gate listens, and with which certificates; a machine that is alone has no peers. `admin` is the socket of the operator's page."""

    host: str
    port: int
    lines_port: int
    certificate: Path
    key: Path
    peers: Peers | None
    admin: Path | None = None


@dataclass(frozen=True, slots=True)
class Peers:
    """What this machine shows others, and wants of them."""

    certificate: Path
    key: Path
    authority: Path


def words() -> argparse.ArgumentParser:
    """The reader of the command's words."""
    shared = argparse.ArgumentParser(add_help=False)
    shared.add_argument("--config", type=Path, default=argparse.SUPPRESS, metavar="FILE", help=f"the settings of the machine (default {DEFAULT})")
    parser = argparse.ArgumentParser(prog="mgate", epilog=STATUSES, parents=[shared], description="Serves the islands of this machine, and hands users of "
                                     "other islands on to theirs. Without a command it serves.")
    commands = parser.add_subparsers(title="commands", metavar="COMMAND")

    def add(name: str, act: Callable[[argparse.Namespace], None], about: str, more: str = "") -> argparse.ArgumentParser:
        one = commands.add_parser(name, parents=[shared], epilog=STATUSES, help=about, description=f"{about[0].upper()}{about[1:]}. {more}")
        one.set_defaults(act=act)
        return one
    add("list", listed, "list machines and islands", "Of each island: its machine, its state, its accounts.")
    one = add("place", place, "put a new island on a machine", "Its settings are a server's; no grant goes out of it, and no other island has one of its "
              "accounts.")
    one.add_argument("island", metavar="ISLAND")
    one.add_argument("settings", type=Path, metavar="SETTINGS")
    one.add_argument("machine", metavar="MACHINE")
    one = add("change", change, "give an island other settings", "It has all accounts that it had, and may have more. The island's front is started again, and "
              "its users' sessions end; those of other islands go on.")
    one.add_argument("island", metavar="ISLAND")
    one.add_argument("settings", type=Path, metavar="SETTINGS")
    one = add("remove", remove, "have an island served no more", "Its front ends in order, and so do its users' sessions; those of other islands go on. Its "
              "folder and its journal stay.")
    one.add_argument("island", metavar="ISLAND")
    one = add("init", init, "make the islands of a machine that is alone", "Splits a settings file and its store by islands: each account is with those that a "
              "grant ties it to. Each island gets a process, a store and a journal of its own. No server may have the store; it stays as it is.")
    one.add_argument("settings", type=Path, metavar="SETTINGS")
    one.add_argument("store", type=Path, metavar="STORE")
    one.add_argument("--front", type=Path, metavar="FILE", help="if there are no settings of the machine: make them from those of a front")
    one.add_argument("--to", type=Path, default=Path("/var/lib/mserve/islands"), metavar="FOLDER",
                     help="where the islands are kept then (default /var/lib/mserve/islands)")
    one = add("move", move, "move an island to another machine", "Its users work on until the other machine has caught up; then their sessions end, and they "
              "sign on again. To its own machine: call it back, if it has not left yet.")
    one.add_argument("island", metavar="ISLAND")
    one.add_argument("machine", metavar="MACHINE")
    one.add_argument("--gone", action="store_true", help="its own machine has ended: do not wait for it")
    return parser


def settings_of(options: argparse.Namespace) -> tuple[Home, Doorway]:
    """The settings of the machine. Raises `BadSettings`."""
    tables = read_toml(options.config)
    for other in tables.keys() - set(TABLES):
        raise BadSettings(f"{options.config}: {other}: there is no such table")
    machine, listen, peers, admin, audit, limits = taken = [Table(options.config, name, tables.get(name, {})) for name in TABLES]
    name, host = machine.text("name"), str(listen.text("host", "127.0.0.1"))
    if name is None or not NAME.fullmatch(name):
        raise machine.fault("name", "is to be 1 to 32 letters, digits, _ and -, as in the certificate for other machines")
    database = machine.text("database")
    if database is None and "peers" in tables:
        raise machine.fault("database", "is missing: the database of the placement and of the journals. A machine that is alone has no [peers]")
    if database is not None and (host in EVERYWHERE or "host" not in tables.get("listen", {})):
        raise listen.fault("host", "is to be the address at which the other machines reach this one")
    port = _port(peers, "port") if database is not None else 0
    home = Home(Machine(name, host, port), machine.needed_file("folder"), machine.needed_file("users"), database,
                str(machine.file("program", PROGRAM)), tuple(listen.texts("origins", [])), characters_of(machine), audit.truth("texts", False),
                limits_of(limits))
    others = None if database is None else Peers(peers.needed_file("certificate"), peers.needed_file("key"), peers.needed_file("authority"))
    doorway = Doorway(host, _port(listen, "port"), _port(listen, "lines_port"), listen.needed_file("certificate"), listen.needed_file("key"), others,
                      admin.file("socket"))
    for table in taken:
        table.end()
    return home, doorway


def _port(table: Table, key: str) -> int:
    found = table.whole(key, 1, 65_535)
    if found is None:
        raise table.fault(key, "is missing: a port")
    return found


@dataclass(slots=True)
class Contexts:
    """What users see, what other machines see, and what this one shows them: each of the two has to have a certificate of the authority. `expires` is when
    the first of the certificates does."""

    users: ssl.SSLContext
    inward: ssl.SSLContext | None = None
    outward: ssl.SSLContext | None = None
    expires: float | None = field(default=None, kw_only=True)

    def load(self, doorway: Doorway) -> None:
        """Reads the certificates, for the connections that come from now on. Raises `BadSettings`."""
        load(self.users, doorway.certificate, doorway.key)
        for context in (self.inward, self.outward):
            if context is not None and doorway.peers is not None:
                load(context, doorway.peers.certificate, doorway.peers.key, doorway.peers.authority)
        shown = [doorway.certificate] if doorway.peers is None else [doorway.certificate, doorway.peers.certificate]
        self.expires = min((end for end in map(expires, shown) if end is not None), default=None)


def contexts(doorway: Doorway) -> Contexts:
    """The contexts of a machine. Raises `BadSettings`."""
    spare_memory()
    server = ssl.PROTOCOL_TLS_SERVER
    made = Contexts(ssl.SSLContext(server), *(ssl.SSLContext(kind) for kind in (server, ssl.PROTOCOL_TLS_CLIENT) if doorway.peers is not None))
    for context in (made.users, made.inward, made.outward):
        if context is not None:
            strict(context)
    made.load(doorway)
    return made


def load(context: ssl.SSLContext, certificate: Path, key: Path, authority: Path | None = None) -> None:
    """Has a context show a certificate; with an authority the other side has to have a certificate of it. Raises `BadSettings`."""
    try:
        context.load_cert_chain(certificate, key)
        if authority is not None:
            context.verify_mode = ssl.CERT_REQUIRED
            context.load_verify_locations(authority)
    except (OSError, ssl.SSLError, ValueError) as error:
        files = ", ".join(str(path) for path in (certificate, key, authority) if path is not None)
        raise BadSettings(f"{files} cannot be used: {getattr(error, 'reason', None) or error}") from error


def serve(options: argparse.Namespace) -> None:
    """Serves until it is stopped."""
    take_slices(SHORT)
    # Before anything is read.
    starts = fork_server.begin()
    ending.run(_serve(lambda: settings_of(options), starts))


async def _serve(read: Callable[[], tuple[Home, Doorway]], starts: ForkServer) -> None:
    """Serves by the settings that are read, and read again at a reload."""
    over = asyncio.create_task(starts.over())
    try:
        await _served(read, starts, over)
    finally:
        await given_up([over])
        await starts.end()


async def _served(read: Callable[[], tuple[Home, Doorway]], starts: ForkServer, over: asyncio.Task[None]) -> None:
    home, doorway = read()
    take_files()
    quiet("asyncio")
    stopping = asyncio.Event()
    for number in (signal.SIGTERM, signal.SIGINT):
        ending.hear(number, stopping.set)
    shown = contexts(doorway)
    islands = Islands(home, placed_of(home), starts)
    gate, page = Gate(home.machine.name, islands, shown.outward), page_of(home, doorway, islands, shown)
    if not await begun(islands, home, stopping):
        return
    # Other machines' connections have doors of their own, so that users' take none of theirs.
    outside, between = Doors(of_users(home.limits), shown.users, {}), Doors(Limits(connections=MOST, connections_of_address=MOST), shown.inward, {})
    keeping = [asyncio.create_task(islands.run()), asyncio.create_task(swept(outside, between))]

    def again() -> None:
        # A gate that stops takes nothing, so that signals do not hold it up.
        if not stopping.is_set():
            reload(doorway, shown)
            relimit(home, read)
            outside.limits = of_users(home.limits)
            islands.reopen()
    ending.hear(signal.SIGHUP, again)
    try:
        outside.listen(doorway.host, doorway.port, gate.door(gate.serve_http, False))
        outside.listen(doorway.host, doorway.lines_port, gate.door(gate.serve_lines, False))
        if shown.inward is not None:
            between.listen(doorway.host, home.machine.port, gate.door(gate.serve_peer, True))
        if page is not None:
            await page.begin()
        tell(f"{home.machine.name}: serving at https://{doorway.host}:{doorway.port}/, lines at port {doorway.lines_port}")
        await stopped(stopping, over)
    finally:
        outside.close()
        between.close()
        if page is not None:
            await page.end()
        await given_up(keeping)
        await islands.end()


async def stopped(stopping: asyncio.Event, over: asyncio.Task[None]) -> None:
    """Waits for a stop. Raises OSError if the process that starts fronts, and with it all of them, has ended: only a new gate can begin another one."""
    stop = asyncio.create_task(stopping.wait())
    await asyncio.wait([stop, over], return_when=asyncio.FIRST_COMPLETED)
    if not stop.done():
        stop.cancel()
        raise OSError(errno.ECHILD, "the process that starts the fronts has ended")


async def given_up(tasks: list[asyncio.Task[None]]) -> None:
    """Ends tasks, whatever they had come to: what comes then is done in any case."""
    for task in tasks:
        task.cancel()
    await asyncio.gather(*tasks, return_exceptions=True)


def take_files() -> None:
    """May have as many files and connections open as the system lets it."""
    _, most = resource.getrlimit(resource.RLIMIT_NOFILE)
    with contextlib.suppress(OSError, ValueError):
        resource.setrlimit(resource.RLIMIT_NOFILE, (most, most))


async def begun(islands: Islands, home: Home, stopping: asyncio.Event) -> bool:
    """Begins, once the database is there: the machine may be up before that, and nobody looks after it. Whether no stop came before. Raises `LogFault` where
    there is no database, or `BadUsers`."""
    away = Condition("it does not serve yet: {}; it is tried again", "the placement can be read")
    while not stopping.is_set():
        try:
            await islands.begin()
            away.goes()
            return True
        except LogFault as error:
            if home.database is None:
                raise
            away.comes(error)
        with contextlib.suppress(TimeoutError):
            await asyncio.wait_for(stopping.wait(), RETRY)
    return False


def reload(doorway: Doorway, shown: Contexts) -> None:
    """Takes new certificates, if all can be used."""
    try:
        contexts(doorway)
        shown.load(doorway)
        tell("reloaded: certificates")
    except BadSettings as error:
        tell(f"not reloaded: certificates: {error}")


def of_users(limits: Limits) -> Limits:
    """What a gate has of the limits of its islands: how many connections users have, all of them and those of an address, and for how long before they have
    signed on."""
    return Limits(connections=max(MOST, limits.connections), connections_of_address=limits.connections_of_address,
                  unsigned_of_address=limits.unsigned_of_address, sign_on=limits.sign_on)


def relimit(home: Home, read: Callable[[], tuple[Home, Doorway]]) -> None:
    """Takes the limits as they are in the settings, which the islands' fronts are given then."""
    try:
        home.limits.take(read()[0].limits)
        tell("reloaded: limits of the islands")
    except BadSettings as error:
        tell(f"not reloaded: limits of the islands: {error}")


def page_of(home: Home, doorway: Doorway, islands: Islands, shown: Contexts) -> GatePage | None:
    """The operator's page, if a socket is named for it."""
    if doorway.admin is None:
        return None
    # Not above: aiohttp takes memory, and a gate does without.
    from .gate_page import GatePage
    return GatePage(doorway.admin, home.machine.name, islands, lambda: shown.expires)


async def swept(*doors: Doors) -> None:
    """Once a second ends the connections of which nothing came in time."""
    while True:
        await asyncio.sleep(1)
        for one in doors:
            one.sweep()


def placed_of(home: Home) -> Placed:
    """Where the islands are noted: in the database, or in the folder of a machine that is alone."""
    if home.database is None:
        return LocalPlacement(home.folder, home.machine)
    return Placement(home.database)


def placement_of(options: argparse.Namespace) -> Placed:
    """The placement that the settings name."""
    placement = placed_of(settings_of(options)[0])
    placement.make()
    return placement


def accounts_placed(config: Path) -> set[str]:
    """The accounts of all islands that have terminals, by the settings of a machine. Raises `BadSettings`, or `ControlError` if the placement cannot be
    read now."""
    home, _ = settings_of(argparse.Namespace(config=config))
    placement = placed_of(home)
    try:
        found = [tomllib.loads(island.settings) for island in placement.islands().values()]
    except LogFault as error:
        raise ControlError(str(error)) from error
    finally:
        placement.close()
    return {account["name"] for settings in found for account in settings["account"] if account["terminals"]}


def init(options: argparse.Namespace) -> None:
    """Makes the islands of a machine that is alone."""
    if options.front is not None and not options.config.exists():
        write_machine(options.config, options.front, options.to)
    home, _ = settings_of(options)
    if home.database is not None:
        raise BadSettings(f"{options.config}: machine.database: is for several machines: leave it out, or place each island by mgate place")
    for part in make_islands(home, options.settings, options.store):
        print(part)


def listed(options: argparse.Namespace) -> None:
    """Lists machines and islands."""
    placement = placement_of(options)
    for machine in placement.machines().values():
        print(f"machine {machine.name} {machine.host}:{machine.port}")
    for island in placement.islands().values():
        print(f"island {island.name} {island.machine} {island.state}{f' {island.target}' if island.target else ''} {' '.join(island.accounts)}")


def text_of(path: Path) -> str:
    """The text of a settings file. Raises `BadPlacement`."""
    try:
        return path.read_text(encoding="utf-8")
    except (OSError, UnicodeDecodeError) as error:
        raise BadPlacement(f"{path}: cannot be read: {getattr(error, 'strerror', None) or error}") from error


def place(options: argparse.Namespace) -> None:
    """Puts a new island on a machine."""
    placement_of(options).put(options.island, text_of(options.settings), options.machine)


def change(options: argparse.Namespace) -> None:
    """Gives an island other settings."""
    placement_of(options).change(options.island, text_of(options.settings))


def remove(options: argparse.Namespace) -> None:
    """Takes an island away."""
    placement_of(options).remove(options.island)


def move(options: argparse.Namespace) -> None:
    """Has an island move."""
    placement_of(options).move(options.island, options.machine, options.gone)


def main() -> int:
    """The status of the command."""
    options = words().parse_args(namespace=argparse.Namespace(config=Path(DEFAULT), act=serve))
    return ending.ended("mgate", options, {BadSettings: USAGE, BadUsers: USAGE, BadPlacement: USAGE, LogFault: FAILED, ClientError: FAILED})
