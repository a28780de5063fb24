# SPDX-License-Identifier: Apache-2.0
"""Snapshots: a copy of a store as it stood after a line of the journal, checked, with what its accounts held.

A snapshot is a folder with the number of that line as its name. In it are the store, the server's settings, and `manifest.json`. A store has no
variables and no locks: a snapshot is exact if no terminal had any then, and the journal can be replayed from an exact one in full."""
from __future__ import annotations

import asyncio
import contextlib
import hashlib
import json
import os
import shutil
import sqlite3
import time
from collections.abc import Awaitable, Callable
from contextlib import AbstractAsyncContextManager
from dataclasses import asdict, dataclass, field, replace
from datetime import UTC, datetime
from itertools import groupby
from pathlib import Path

from mserve_client import keys

from .folders import sync_folder, write_whole
from .standing import Standing, write_standing

STORE, SETTINGS, MANIFEST = "store", "settings.toml", "manifest.json"
# What copies are called that are not finished yet, of a snapshot and of a verification; and seconds after which one is surely left by a command that was
# killed.
PART, SCRATCH, LEFT = ".part-", ".verify-", 86_400.0
# How often a file is copied beside the users' work, if it was written meanwhile; then it is copied between two lines.
TRIES = 2
# A time of a file that lies back so far, in nanoseconds, changes with the next write.
TICK = 50_000_000


class BadSnapshot(Exception):
    """A snapshot cannot be made or used; the text says why."""


@dataclass(frozen=True, slots=True)
class Manifest:
    """What a snapshot is of. `sequence` is the journal's last flush before it was begun: starts after its line that are there by then are part of it."""

    journal: int
    number: int
    time: str
    open: list[int]
    accounts: dict[str, Account] = field(default_factory=dict)
    sequence: int = 0

    @property
    def exact(self) -> bool:
        """Whether no terminal had variables or locks."""
        return not self.open

    @property
    def standing(self) -> Standing:
        """Where its store stands."""
        return Standing(self.journal, self.number, tuple(self.open), restored=True)


@dataclass(frozen=True, slots=True)
class Account:
    """What an account holds: how many nodes, and a digest of their keys and texts."""

    nodes: int
    digest: str


Quiet = Callable[[], AbstractAsyncContextManager[None]]


async def copied(store: Path, target: Path, quiet: Quiet, between: Callable[[], Awaitable[None]]) -> float:
    """Copies a store and its log between two lines, and gives the seconds for which no line was sent. What is large is copied beside the users' work
    if it is not written meanwhile. `between` is called between the same two lines."""
    seen = None
    for _ in range(TRIES):
        seen = await asyncio.to_thread(_copied_beside, store, target)
        if seen is not None:
            break
    async with quiet():
        began = asyncio.get_running_loop().time()
        await between()
        await asyncio.to_thread(_copied_quiet, store, target, seen)
        return asyncio.get_running_loop().time() - began


def _copied_beside(store: Path, target: Path) -> tuple[int, ...] | None:
    """Copies the file, and gives its marks; None if it was written meanwhile."""
    before = _marks(store)
    if datetime.now(UTC).timestamp() * 1e9 - before[0] < TICK:
        return None
    shutil.copyfile(store, target)
    return before if _marks(store) == before else None


def _copied_quiet(store: Path, target: Path, seen: tuple[int, ...] | None) -> None:
    if seen is None or _marks(store) != seen:
        shutil.copyfile(store, target)
    log = store.with_name(store.name + "-wal")
    if log.exists():
        shutil.copyfile(log, target.with_name(target.name + "-wal"))


def _marks(path: Path) -> tuple[int, ...]:
    status = path.stat()
    return status.st_mtime_ns, status.st_size, status.st_ino


def accounts_of(store: Path) -> dict[str, Account]:
    """Checks a store that nobody has open, copies its log into it, and gives what each account holds. Raises `BadSnapshot`."""
    try:
        base = sqlite3.connect(store, timeout=0)
        try:
            told = base.execute("PRAGMA integrity_check").fetchall()
            if told != [("ok",)]:
                raise BadSnapshot(f"{store}: integrity_check says: {told[0][0]}")
            found = _held(base)
            base.execute("PRAGMA wal_checkpoint(TRUNCATE)")
        finally:
            base.close()
    except sqlite3.Error as error:
        raise BadSnapshot(f"{store}: {error}") from error
    except (TypeError, ValueError, AttributeError) as error:
        raise BadSnapshot(f"{store}: it has rows that mserve did not write: {error}") from error
    return found


def _held(base: sqlite3.Connection) -> dict[str, Account]:
    """What each account holds, by its name."""
    found: dict[str, Account] = {}

    def account_of(row: tuple[bytes, bytes]) -> bytes:
        return row[0][:row[0].index(0)]
    for _, rows in groupby(base.execute("SELECT k, v FROM node ORDER BY k"), account_of):
        count, digest = 0, hashlib.sha256()
        for key, text in rows:
            count += 1
            digest.update(b"%d %d " % (len(key), len(text)) + key + text)
        found[keys.node(key)[0]] = Account(count, digest.hexdigest())
    return found


def finish(folder: Path, name: Manifest) -> Manifest:
    """Checks the store of a snapshot that was copied, and writes its manifest."""
    held = accounts_of(folder / STORE)
    made = replace(name, accounts=held)
    for path in (folder / STORE, folder / SETTINGS):
        with path.open("rb") as file:
            os.fsync(file.fileno())
    write_whole(folder / MANIFEST, json.dumps(asdict(made), indent=1).encode() + b"\n")
    return made


def read_manifest(folder: Path) -> Manifest:
    """The manifest of a snapshot. Raises `BadSnapshot`."""
    path = folder / MANIFEST
    try:
        found = json.loads(path.read_bytes())
        accounts = {name: Account(int(one["nodes"]), str(one["digest"])) for name, one in found["accounts"].items()}
        return Manifest(int(found["journal"]), int(found["number"]), str(found["time"]), [int(one) for one in found["open"]], accounts,
                        int(found.get("sequence", 0)))
    except OSError as error:
        raise BadSnapshot(f"{path}: cannot be read: {error.strerror}") from error
    except (ValueError, KeyError, TypeError, AttributeError) as error:
        raise BadSnapshot(f"{path}: is no manifest of a snapshot: {type(error).__name__}: {error}") from error


def snapshots_of(folder: Path) -> list[Path]:
    """The snapshots of a folder, by their lines."""
    return sorted(path for path in folder.iterdir() if path.name.isdigit())


def tidied(folder: Path) -> list[Path]:
    """Removes what commands that were killed have left in a folder of snapshots, and gives it: each may be as large as the store."""
    found = [path for path in folder.iterdir() if path.name.startswith((PART, SCRATCH)) and time.time() - path.stat().st_mtime > LEFT]
    for path in found:
        shutil.rmtree(path, ignore_errors=True)
    return [path for path in found if not path.exists()]


def latest(folder: Path, journal: int, least: int, most: int) -> Path | None:
    """The latest exact snapshot in a folder that is of a journal, and is at one of these lines. One whose manifest cannot be read, as while it is being
    copied there, does not count."""
    with contextlib.suppress(OSError):
        for path in reversed(snapshots_of(folder)):
            with contextlib.suppress(BadSnapshot):
                found = read_manifest(path)
                if found.exact and found.journal == journal and least <= found.number <= most:
                    return path
    return None


def check(folder: Path) -> Manifest:
    """Checks that a snapshot's store is sound, and holds what its manifest says. Raises `BadSnapshot`."""
    manifest = read_manifest(folder)
    if not (folder / STORE).exists():
        raise BadSnapshot(f"{folder / STORE}: there is no such file")
    differ(folder, manifest.accounts, accounts_of(folder / STORE))
    return manifest


def name_store(part: Path, store: Path, standing: Standing) -> None:
    """Gives a store that nobody has open its name, with its log copied into it, and with the note where it stands."""
    accounts_of(part)
    write_standing(store, standing)
    part.replace(store)
    sync_folder(store.parent)


def differ(place: Path, wanted: dict[str, Account], found: dict[str, Account]) -> None:
    """Raises `BadSnapshot` with the accounts that hold something else than is wanted."""
    others = sorted(name for name in wanted.keys() | found.keys() if wanted.get(name) != found.get(name))
    if others:
        raise BadSnapshot(f"{place}: other nodes than the manifest says: {', '.join(others)}")


def put_back(folder: Path, store: Path) -> Manifest:
    """Copies the store of a snapshot to a path where no store is, with the note where it stands. Raises `BadSnapshot`."""
    manifest = check(folder)
    for path in (store, store.with_name(store.name + "-wal")):
        if path.exists():
            raise BadSnapshot(f"{path}: is there already: move it away first")
    made = store.with_name(store.name + ".new")
    try:
        shutil.copyfile(folder / STORE, made)
        with made.open("rb") as file:
            os.fsync(file.fileno())
        # First the note: a store without one would look like one that has run all.
        write_standing(store, manifest.standing)
        made.replace(store)
        sync_folder(store.parent)
    except OSError as error:
        made.unlink(missing_ok=True)
        raise BadSnapshot(f"{store}: {error.strerror}") from error
    return manifest
