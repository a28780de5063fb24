# SPDX-License-Identifier: Apache-2.0
"""The command `misland`: the islands of a settings file, and files split by island and joined again."""
from __future__ import annotations

import argparse
from pathlib import Path

from . import islands, options
from .islands import NoIslands, NotSplit, Pair, Part
from .options import FOUND, counted
from .settings_file import BadSettings
from .store_file import BadStore, Digest, Store

NAME = "misland"
ABOUT = """The islands of a settings file: the least sets of accounts that no grant ties to others.

Accounts of one island are answered the same if they are kept on a machine of their own, so a customer can move:
  misland list settings.toml store.db
  misland split settings.toml store.db --to parts
  misland split settings.toml store.db CLINIC --to parts     only the island of CLINIC, and the rest
  misland join parts --to whole                              one settings.toml and one store.db again
  misland join parts/CLINIC --with settings.toml store.db --to whole

A part is a folder with settings.toml and store.db. Globals of accounts that the settings do not name go to strangers.db.
The proved program mislands says which islands there are; the variable MISLANDS names another copy of it.
No server may have the files, and they stay as they are. What is written is compared with what was read, account by account."""
STATUSES = "Status: 0 all went well; 1 something was refused, and nothing was written; 2 the words are wrong; 130 an interrupt."


def words(_: list[str] | None = None) -> argparse.ArgumentParser:
    """The reader of the command's words."""
    reader = argparse.ArgumentParser(prog=NAME, description=ABOUT, epilog=STATUSES, formatter_class=argparse.RawDescriptionHelpFormatter)
    acts = reader.add_subparsers(dest="act", required=True, metavar="COMMAND")
    shown = acts.add_parser("list", help="name the islands with their accounts and sizes; of a store, its nodes too")
    cut = acts.add_parser("split", help="make a folder of parts, one for each island")
    for act in (shown, cut):
        act.add_argument("settings", type=Path, metavar="SETTINGS", help="a settings file")
        store = act.add_argument("store", type=Path, metavar="STORE", help="the store file of that server")
        store.nargs = "?" if act is shown else None
    cut.add_argument("accounts", nargs="*", metavar="ACCOUNT", help="only the islands of these accounts; all others stay together, in the-rest")
    join = acts.add_parser("join", help="make one part of several")
    join.add_argument("parts", nargs="+", type=Path, metavar="PART", help="a part, or a folder of parts")
    join.add_argument("--with", nargs=2, type=Path, action="append", default=[], dest="pairs", metavar=("SETTINGS", "STORE"),
                      help="a settings file with its store, as one more part")
    for act in (cut, join):
        act.add_argument("--to", required=True, type=Path, metavar="FOLDER", help="the folder that is made; it may not be there")
    return reader


def run(chosen: argparse.Namespace) -> int:
    """Does what the words ask for."""
    try:
        return ACTS[chosen.act](chosen)
    except (BadSettings, BadStore, NoIslands, NotSplit) as error:
        options.tell(NAME, str(error))
        return FOUND


def shown(chosen: argparse.Namespace) -> int:
    """Names the islands."""
    settings, found = islands.read(chosen.settings)
    parts, strangers, others = islands.parts_of(settings, found), {}, []
    if chosen.store is not None:
        with Store(str(chosen.store)) as store:
            strangers, others = islands.looked_at(settings, parts, store), store.others()
    for part in parts:
        print(f"{part.name}: {sizes(part, chosen.store is not None)}: {' '.join(part.settings.names)}")
    tell_strangers(strangers)
    if others:
        print(f"made by others, which split and join refuse: {', '.join(others)}")
    print(f"{counted(len(parts), 'island')}, {counted(len(settings.accounts), 'account')}")
    return 0


def sizes(part: Part, is_counted: bool = True) -> str:
    """How many accounts and terminals a part has, and how much its accounts store."""
    terminals = sum(len(account.terminals) for account in part.settings.accounts)
    stored = f", {stored_by(part.digests)}" if is_counted else ""
    return f"{counted(len(part.settings.accounts), 'account')}, {counted(terminals, 'terminal')}{stored}"


def stored_by(digests: dict[str, Digest]) -> str:
    """How many nodes and bytes some accounts have."""
    return f"{counted(sum(digest.nodes for digest in digests.values()), 'node')}, {counted(sum(digest.size for digest in digests.values()), 'byte')}"


def tell_strangers(strangers: dict[str, Digest]) -> None:
    """Tells which globals there are of accounts that the settings do not name."""
    if strangers:
        print(f"not in the settings: {stored_by(strangers)}: {' '.join(strangers)}")


def tell_digests(digests: dict[str, Digest]) -> None:
    """A line for each account, with what tells its nodes."""
    for name, digest in digests.items():
        print(f"  {name}: {counted(digest.nodes, 'node')}, sha256 {digest.sha256}")


def cut(chosen: argparse.Namespace) -> int:
    """Makes a folder of parts."""
    parts, strangers = islands.split(Pair(chosen.settings, chosen.store), chosen.to, chosen.accounts)
    for part in parts:
        print(f"{chosen.to / part.name}: {sizes(part)}")
        tell_digests(part.digests)
    tell_strangers(strangers)
    tell_digests(strangers)
    return 0


def joined(chosen: argparse.Namespace) -> int:
    """Makes one part of several."""
    pairs, strangers = [Pair(*pair) for pair in chosen.pairs], []
    for folder in chosen.parts:
        found, others = islands.pairs_of(folder)
        pairs += found
        strangers += others
    part = islands.join(pairs, strangers, chosen.to)
    print(f"{chosen.to}: {sizes(part)}")
    tell_digests(part.digests)
    return 0


ACTS = {"list": shown, "split": cut, "join": joined}
main = options.command(NAME, words, run)
