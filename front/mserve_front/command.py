# SPDX-License-Identifier: Apache-2.0
"""The command `mfront`: it serves, and keeps the users' file."""
from __future__ import annotations

import argparse
import asyncio
import getpass
import os
import sys
import time
from collections.abc import Callable, Mapping, Sequence
from pathlib import Path
from typing import TypeAlias

from . import ending
from .connection import NoStart
from .control import Answered, ControlError, asked
from .faults import TAKEN
from .figures import of_standby
from .passwords import LEAST
from .server import tell
from .settings import BadSettings, Settings, Table, journal_settings, read_settings, read_terminals, read_toml
from .slices import SHORT, take_slices
from .users import NAME, BadUsers, User, changed, load, new_token, password_hash

DEFAULT = "/etc/mserve/front.toml"
USAGE, FAILED, INTERRUPTED = 2, 3, 130
# Seconds for an answer of a front that runs.
CONTROL = 60.0
# Seconds between two promotions that are asked for.
AGAIN = 0.1
STATUSES = "Status: 0 all went well; 2 the words, the settings or the users' file are wrong; 3 the server does not start, or a port is taken, or " \
           "the standby stops or is not promoted; 130 an interrupt."


def words() -> argparse.ArgumentParser:
    """The reader of the command's words."""
    shared = argparse.ArgumentParser(add_help=False)
    shared.add_argument("--config", type=Path, default=argparse.SUPPRESS, metavar="FILE", help=f"the settings of the front (default {DEFAULT}); of users and "
                        "tokens, or those of a machine with islands")
    parser = argparse.ArgumentParser(prog="mfront", epilog=STATUSES, parents=[shared],
                                     description="Signs people on, and carries their lines to mserve. Without a command it serves.")
    parser.add_argument("--volatile", action="store_true", help="the store is meant to be in memory, and every user is told")
    parser.add_argument("--follow", action="store_true",
                        help="stand by: run the journal's lines over the store as they come, and serve nobody until mfront promote")
    commands = parser.add_subparsers(title="commands", metavar="COMMAND")
    check = commands.add_parser("check", parents=[shared], epilog=STATUSES, description="Reads the settings and the users' file, and ends.",
                                help="read the settings and the users' file, and end")
    check.add_argument("--volatile", action="store_true", default=argparse.SUPPRESS, help="the store is meant to be in memory")
    check.set_defaults(act=checked)
    _user_words(commands, shared)
    _token_words(commands, shared)
    _journal_words(commands, shared)
    return parser


Commands: TypeAlias = "argparse._SubParsersAction[argparse.ArgumentParser]"


def _kinds(commands: Commands, name: str, about: str) -> Callable[..., argparse.ArgumentParser]:
    parser = commands.add_parser(name, epilog=STATUSES, description=about, help=about)
    kinds: Commands = parser.add_subparsers(title="commands", metavar="COMMAND", required=True)
    return kinds.add_parser


def _user_words(commands: Commands, shared: argparse.ArgumentParser) -> None:
    add = _kinds(commands, "user", "Adds, changes, removes and lists users.")
    secret = f"A password is asked for twice, or read as a line from a pipe. It has at least {LEAST} characters."
    one = add("add", parents=[shared], epilog=STATUSES, description=f"Adds a user of an account. {secret}", help="add a user of an account")
    one.add_argument("name", metavar="NAME")
    one.add_argument("account", metavar="ACCOUNT")
    one.set_defaults(act=add_user)
    one = add("passwd", parents=[shared], epilog=STATUSES, help="give a user another password",
              description=f"Gives a user another password, removes the user's tokens, and ends all of the user's sessions. {secret}")
    one.add_argument("name", metavar="NAME")
    one.set_defaults(act=change_password)
    one = add("remove", parents=[shared], epilog=STATUSES, description="Removes a user with all tokens, and signs them off.", help="remove a user")
    one.add_argument("name", metavar="NAME")
    one.set_defaults(act=remove_user)
    one = add("list", parents=[shared], epilog=STATUSES, description="Lists users: name, account, and how many tokens.", help="list users")
    one.set_defaults(act=list_users)


def _token_words(commands: Commands, shared: argparse.ArgumentParser) -> None:
    add = _kinds(commands, "token", "Adds, removes and lists tokens, by which programs send lines.")
    one = add("add", parents=[shared], epilog=STATUSES, description="Gives a user a token, and prints it once.", help="give a user a token")
    one.add_argument("name", metavar="USER")
    one.add_argument("--note", default="", help="what the token is for")
    one.set_defaults(act=add_token)
    one = add("remove", parents=[shared], epilog=STATUSES, description="Removes a token by what it is listed as.", help="remove a token")
    one.add_argument("label", metavar="ID")
    one.set_defaults(act=remove_token)
    one = add("list", parents=[shared], epilog=STATUSES, help="list tokens",
              description="Lists tokens: what each is listed as, its user, when it was made, its note.")
    one.add_argument("name", metavar="USER", nargs="?")
    one.set_defaults(act=list_tokens)


def _journal_words(commands: Commands, shared: argparse.ArgumentParser) -> None:
    one = commands.add_parser("status", parents=[shared], epilog=STATUSES, help="say where a front with a journal, or a standby, is",
                              description="Says of a front that keeps a journal, or of a standby, at which line it is, and how far behind the leader.")
    one.add_argument("--metrics", action="store_true", help="in the text format of Prometheus, for a collector of text files")
    one.set_defaults(act=told_status)
    one = commands.add_parser("change", parents=[shared], epilog=STATUSES, help="have a front take the server's settings as they stand now",
                              description="Has a front that keeps a journal take the server's settings as they stand in their file: new accounts and "
                              "terminals, other steps and grants. Users stay signed on. Between two lines the server is started again, so their variables "
                              "and locks are gone, and they are told. Refused if a terminal is missing, or the server would not take the settings.")
    one.set_defaults(act=change)
    one = commands.add_parser("promote", parents=[shared], epilog=STATUSES, help="have a standby serve",
                              description="Has a standby take the journal, run all that was answered, and serve. Refused while another front has the "
                              "journal, and if a line that was answered would be lost.")
    one.add_argument("--wait", type=float, default=0.0, metavar="SECONDS", help="ask again, for so long, while another front has the journal: start this, and "
                     "then stop the leader, so that nobody serves for a moment alone")
    one.add_argument("--force", action="store_true", help="take the journal from a front that has it, and serve though lines are lost: these are printed")
    one.set_defaults(act=promote)


def users_file(options: argparse.Namespace) -> Path:
    """The users' file that is to be changed, by the settings of a front, or of a machine with islands: a gate makes those of its islands of its machine's."""
    tables = read_toml(options.config)
    if "machine" in tables:
        return named(options.config, "machine", "users")
    if "machine" in _table(tables, "users"):
        return named(options.config, "users", "machine")
    if "gate" in _table(tables, "listen"):
        raise BadSettings(f"{options.config}: users.file: a gate makes it of its machine's: give --config the settings of the machine")
    return named(options.config, "users", "file")


def named(config: Path, table: str, key: str) -> Path:
    """A file that settings name. Raises `BadSettings`."""
    text = _table(read_toml(config), table).get(key)
    if not isinstance(text, str) or not text:
        raise BadSettings(f"{config}: {table}.{key}: is missing: the path of a file")
    return config.parent.resolve() / text


def _table(tables: Mapping[str, object], name: str) -> dict[str, object]:
    found = tables.get(name)
    return found if isinstance(found, dict) else {}


def settings_of(options: argparse.Namespace) -> Settings:
    """The settings that the words name."""
    return read_settings(options.config, options.volatile)


def serve(options: argparse.Namespace) -> None:
    """Serves until it is stopped."""
    settings = settings_of(options)
    if options.follow and not settings.journal.kept:
        raise BadSettings(f"{options.config}: journal.folder: is missing: a standby follows a journal")
    # Not above: aiohttp takes long to load, and most commands do without.
    from .service import Service

    async def run() -> None:
        promoted = None
        if options.follow:
            from .standby import Standby
            # What could keep it from serving is found now.
            Service(settings)
            promoted = await Standby(settings).run()
            if promoted is None:
                return
        await Service(settings, promoted).run()
    # What is made is for this user alone, however the front was started.
    os.umask(0o077)
    take_slices(SHORT)
    ending.run(run())


def told_status(options: argparse.Namespace) -> None:
    """Prints where a front is."""
    found = asked(control_of(options), {"ask": "status"}, CONTROL)
    if options.metrics:
        print(of_standby(found), end="")
        return
    print(", ".join(f"{key} {value}" for key, value in found.items() if value != ""))


def change(options: argparse.Namespace) -> None:
    """Has a front take the server's settings as they stand now."""
    found = asked(control_of(options), {"ask": "change"}, None)
    new = f"; new: {', '.join(found['new'])}" if found["new"] else ""
    print(f"{found['accounts']} accounts{new}; no line was run for {found['seconds']} s")


def promote(options: argparse.Namespace) -> None:
    """Has a standby serve."""
    found = promoted_once_free(control_of(options), options.force, time.monotonic() + options.wait)
    unsent = found["not run"]
    for text in found["lost"]:
        print(f"lost: {text}")
    print(f"promoted after line {found['line']}, in {found['seconds']} s" + (f"; not run: {', '.join(map(str, unsent))}" if unsent else ""))


def promoted_once_free(control: Path, force: bool, until: float) -> Answered:
    """The answer of a standby that is promoted; while another front has the journal it is asked again, up to a moment. Raises `ControlError`."""
    while True:
        try:
            return asked(control, {"ask": "promote", "force": force}, None)
        except ControlError as error:
            if TAKEN not in str(error) or time.monotonic() > until:
                raise
        time.sleep(AGAIN)


def control_of(options: argparse.Namespace) -> Path:
    """The socket of the front that the settings are of."""
    table = Table(options.config, "journal", read_toml(options.config).get("journal", {}))
    return journal_settings(table, named(options.config, "users", "file").parent).control


def checked(options: argparse.Namespace) -> None:
    """Reads what serving reads."""
    settings = settings_of(options)
    from .service import Service

    async def made() -> Service:
        return Service(settings)
    asyncio.run(made())
    store = None if settings.store is None else Path(settings.store)
    for key, path in (("server.store", store), ("listen.key", settings.listen.key), ("audit.file", settings.audit),
                      ("journal.folder", settings.journal.folder)):
        if path is not None and path.exists() and path.stat().st_mode & 0o007:
            raise BadSettings(f"{options.config}: {key}: {path}: every user of the machine may read it: chmod o= {path}")
    print(f"{options.config}: good: {len(load(settings.users))} users, {sum(map(len, settings.terminals.values()))} terminals")


def read_password() -> str:
    """A password: asked for twice, or a line from a pipe."""
    if not sys.stdin.isatty():
        return sys.stdin.readline().rstrip("\r\n")
    password = getpass.getpass("Password: ")
    if getpass.getpass("Again: ") != password:
        raise BadUsers("the two passwords differ")
    return password


def add_user(options: argparse.Namespace) -> None:
    """Adds a user."""
    path = users_file(options)
    if not NAME.fullmatch(options.name):
        raise BadUsers(f"{options.name!r} is no name: 1 to 64 letters, digits and . _ @ -, the first a letter or a digit")
    refuse_account(options.config, options.account)
    hashed = password_hash(read_password(), options.name)
    with changed(path) as users:
        if options.name in users:
            raise BadUsers(f"{path}: user {options.name} is there already")
        users[options.name] = User(options.name, options.account, hashed)


def refuse_account(config: Path, account: str) -> None:
    """Raises `BadUsers` if an account has no terminals, so that nobody could sign on to it: by the settings of a front, or by the islands of a machine."""
    if "machine" in read_toml(config):
        # Not above: it takes long to load, and a front does without.
        from .gate_command import accounts_placed
        if account not in accounts_placed(config):
            raise BadUsers(f"{account} is no account with terminals of any island (mgate list)")
        return
    settings = named(config, "server", "settings")
    if not read_terminals(settings).get(account):
        raise BadUsers(f"{account} is no account with terminals in {settings}")


def change_password(options: argparse.Namespace) -> None:
    """Gives a user another password. Who knew the old one may have made tokens by it, so these are removed."""
    path = users_file(options)
    known(load(path), path, options.name)
    hashed = password_hash(read_password(), options.name)
    with changed(path) as users:
        known(users, path, options.name).changed(hashed)


def remove_user(options: argparse.Namespace) -> None:
    """Removes a user."""
    path = users_file(options)
    with changed(path) as users:
        del users[known(users, path, options.name).name]


def list_users(options: argparse.Namespace) -> None:
    """Lists users."""
    path = users_file(options)
    for user in sorted(load(path).values(), key=lambda user: user.name):
        print(user.name, user.account, len(user.tokens))


def add_token(options: argparse.Namespace) -> None:
    """Prints a new token."""
    path = users_file(options)
    if not options.note.isprintable():
        raise BadUsers("a note is one line of text")
    with changed(path) as users:
        _, secret = new_token(known(users, path, options.name), options.note)
    print(secret)


def remove_token(options: argparse.Namespace) -> None:
    """Removes a token."""
    path = users_file(options)
    with changed(path) as users:
        holder = next((user for user in users.values() if options.label in user.tokens), None)
        if holder is None:
            raise BadUsers(f"{path}: there is no token {options.label}")
        del holder.tokens[options.label]


def list_tokens(options: argparse.Namespace) -> None:
    """Lists tokens."""
    path = users_file(options)
    users = load(path)
    chosen = [known(users, path, options.name)] if options.name else sorted(users.values(), key=lambda user: user.name)
    for user in chosen:
        for label, token in user.tokens.items():
            print(label, user.name, token.made, token.note)


def known(users: dict[str, User], path: Path, name: str) -> User:
    """The user of a name."""
    if name not in users:
        raise BadUsers(f"{path}: there is no user {name}")
    return users[name]


def main(given: Sequence[str] | None = None) -> int:
    """The status of the command, with the words that it was given."""
    options = words().parse_args(given, namespace=argparse.Namespace(config=Path(DEFAULT), act=serve, follow=False))
    try:
        options.act(options)
        return 0
    except (BadSettings, BadUsers) as error:
        tell(str(error))
        return USAGE
    except NoStart as error:
        tell(f"the server does not start: {error}" if not options.follow else str(error))
        return FAILED
    except ControlError as error:
        tell(str(error))
        return FAILED
    except OSError as error:
        tell(str(error.strerror or error))
        return FAILED
    except (KeyboardInterrupt, EOFError):
        tell("interrupted")
        return INTERRUPTED
