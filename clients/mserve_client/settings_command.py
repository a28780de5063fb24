# SPDX-License-Identifier: Apache-2.0
"""The command `msettings`, in the package `mserve-settings`: what is wrong with a settings file and a store, and where."""
from __future__ import annotations

import argparse
import tomllib

from . import options, settings_check, store_check
from .options import FOUND, counted
from .settings_check import SettingsFault
from .settings_file import MAX_BYTES

NAME = "msettings"
ABOUT = """Says what is wrong with a settings file, each fault with its line, its key and what to do; and with --store, why a store is refused.
mserve itself says one word: `mserve: settings: Toml`, `mserve: store: Store`. Nothing is changed.

  msettings settings.toml
  msettings settings.toml --store clinic.db"""
STATUSES = "Status: 0 mserve takes both; 1 it refuses one of them; 2 the words are wrong; 130 an interrupt."
# This many faults are shown.
SHOWN = 50


def words(_: list[str] | None = None) -> argparse.ArgumentParser:
    """The reader of the command's words."""
    reader = argparse.ArgumentParser(prog=NAME, description=ABOUT, epilog=STATUSES, formatter_class=argparse.RawDescriptionHelpFormatter)
    reader.add_argument("settings", metavar="FILE", help="a settings file of mserve")
    reader.add_argument("--store", metavar="STORE", help="a store file of mserve")
    return reader


def run(chosen: argparse.Namespace) -> int:
    """Says what is wrong."""
    try:
        with open(chosen.settings, "rb") as file:
            data = file.read(MAX_BYTES + 1)
    except OSError as error:
        data, found = b"", [SettingsFault("Read", 0, "", f"it cannot be read: {error.strerror}", "Name a file that is there and may be read.")]
    else:
        found = settings_check.faults(data)
    for fault in found[:SHOWN]:
        print(fault.shown(chosen.settings))
    if found[SHOWN:]:
        print(f"{chosen.settings}: {counted(len(found) - SHOWN, 'fault')} more")
    store = store_check.fault(chosen.store) if chosen.store not in (None, "memory") else None
    if store is not None:
        print(store.shown(chosen.store))
    if not found:
        print(f"{chosen.settings}: good: {summary(data)}")
    return FOUND if found or store else 0


def summary(data: bytes) -> str:
    """What good settings have."""
    document = tomllib.loads(data.decode())
    accounts = document.get("account", [])
    terminals = sum(len(account["terminals"]) for account in accounts)
    return f"{counted(len(accounts), 'account')}, {counted(terminals, 'terminal')}, {counted(len(document.get('grant', [])), 'grant')}"


main = options.command(NAME, words, run)
