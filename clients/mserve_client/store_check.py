# SPDX-License-Identifier: Apache-2.0
"""Why the program refuses a store, found without changing anything: it is in use, has no folder, no permission, or is no store."""
from __future__ import annotations

import fcntl
import os
import sqlite3
import struct
from contextlib import closing
from pathlib import Path

from .holder import opener
from .settings_check import SettingsFault
from .store_file import OURS, RULES, TABLES, VERSION

MAGIC = b"SQLite format 3\0"
# The form of a lock in F_GETLK: its type, from where it counts, its place, its length, and a process.
LOCK = "hhqqi"


def fault(path: str) -> SettingsFault | None:
    """Why the program refuses the store at a path, or None if nothing is found."""
    folder = os.path.dirname(os.path.abspath(path))
    if not os.path.isdir(folder):
        return _fault("there is no such folder", f"Make it: mkdir -p {folder}")
    if os.path.isdir(path):
        return _fault("it is a folder", "Name a file in it: a store is one file, with its log beside it.")
    if not os.access(folder, os.W_OK | os.X_OK):
        return _fault(f"its folder {folder} may not be written by {_user()}", "The log beside the store is made there: give that user the folder.")
    if not os.path.exists(path):
        return None
    if not os.access(path, os.R_OK | os.W_OK):
        return _fault(f"it may not be read and written by {_user()}", "Give that user the file, with its log beside it.")
    return _held(path) or _content(path)


def _fault(text: str, remedy: str) -> SettingsFault:
    return SettingsFault("Store", 0, "", text, remedy)


def _user() -> str:
    return f"the user {os.geteuid()}"


def _held(path: str) -> SettingsFault | None:
    """Whether another process has the store: who, if that is known."""
    with open(path, "rb+") as file:
        asked = struct.pack(LOCK, fcntl.F_WRLCK, os.SEEK_SET, 0, 0, 0)
        kind = struct.unpack(LOCK, fcntl.fcntl(file, fcntl.F_GETLK, asked))[0]
    if kind == fcntl.F_UNLCK:
        return None
    return _fault(f"it is in use: {opener(path) or 'another process'} has it", "One process has a store: stop that one, or go through it.")


def _content(path: str) -> SettingsFault | None:
    """Whether a file is no store. What is in a log beside it is not looked at."""
    with open(path, "rb") as file:
        head = file.read(len(MAGIC))
    if not head:
        return None
    if head != MAGIC:
        return _fault("it is no store: it is no database", "Name another file; one that does not exist is made.")
    log = path + "-wal"
    if os.path.exists(log) and os.path.getsize(log):
        return None
    try:
        with closing(sqlite3.connect(f"{Path(path).absolute().as_uri()}?immutable=1", uri=True)) as base:
            return _schema(base)
    except sqlite3.Error as error:
        return _fault(f"it is no store: {error}", "Put a snapshot back in its place, or name another file.")


def _schema(base: sqlite3.Connection) -> SettingsFault | None:
    """What is wrong with the tables of a database and with its version. Tables of others may be beside, and one without ours is given them."""
    tables = tuple(row[0] for row in base.execute(OURS))
    if tables and len(tables) < len(TABLES):
        return SettingsFault("BadVersion", 0, "", "it is no store: of `node` and `meta` one is missing",
                             "Put a snapshot back in its place, or name another file.")
    if tables and tables != TABLES:
        return _fault("it is no store: its tables `node` and `meta` are others", "Name another file; one that does not exist is made.")
    if rule := base.execute(RULES).fetchone():
        return _fault(f"{rule[0]} is a rule of others on its tables", "Remove that rule: it could refuse what a line sets.")
    version = base.execute("SELECT n FROM meta WHERE name = 'version'").fetchone() if tables else (VERSION,)
    if version is None or version[0] not in range(1, VERSION + 1):
        text = f"it is of version {version[0] if version else 'none'}, and this program is for {VERSION}"
        return SettingsFault("BadVersion", 0, "", text, "Take the program that made it, or a later one.")
    return None
