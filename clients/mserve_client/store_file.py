# SPDX-License-Identifier: Apache-2.0
"""A store in a file, while no server has it: docs/FORMATS.md has the form.

A change is one transaction, and the file is left as the program leaves it: two tables, version 2, no log beside it, and what others have in it as
it was."""
from __future__ import annotations

import hashlib
import os
import sqlite3
from collections.abc import Iterable, Iterator
from contextlib import contextmanager, suppress
from dataclasses import dataclass
from typing import Self

from . import keys
from .wire import ClientError

VERSION = 2
TABLES = ("CREATE TABLE node (k BLOB PRIMARY KEY NOT NULL, v BLOB NOT NULL)", "CREATE TABLE meta (name TEXT PRIMARY KEY, n INTEGER)")
# What is there of the two tables, and which rules of others the program refuses beside them.
OURS = "SELECT sql FROM sqlite_master WHERE lower(name) IN ('node', 'meta') ORDER BY lower(name) DESC"
RULES = """SELECT name FROM sqlite_master WHERE type = 'trigger' AND lower(tbl_name) IN ('node', 'meta')
    UNION ALL SELECT i.name FROM sqlite_master AS t JOIN pragma_index_list(t.name) AS i
        WHERE lower(t.name) IN ('node', 'meta') AND (i."unique" OR i.partial) AND i.origin = 'c'
    UNION ALL SELECT t.name FROM sqlite_master AS t JOIN pragma_foreign_key_list(t.name) AS f
        WHERE t.type = 'table' AND lower(f."table") IN ('node', 'meta')"""
# What others made in the database. What SQLite makes by itself has no text, or a name of its own.
OTHERS = r"""SELECT type || ' ' || name FROM sqlite_master
    WHERE sql IS NOT NULL AND lower(name) NOT IN ('node', 'meta') AND name NOT LIKE 'sqlite\_%' ESCAPE '\' ORDER BY type DESC, name"""
PUT = "INSERT INTO node (k, v) VALUES (?, ?) ON CONFLICT (k) DO UPDATE SET v = excluded.v"
# Memory for pages of the file.
CACHE_KB = 16_384
# Rows that are read at once.
BATCH = 2000
# The key of the row that comes this many after the first of a range; and how many rows a range has, with their bytes put together in the order
# of the index. A key ends where no subscript begins, and a text has no byte over 127, so FF ends both. SQLite puts them together, since to
# hand Python a row costs several times as much as to find it.
FURTHER = "SELECT k FROM node WHERE k >= ? AND k < ? ORDER BY k LIMIT 1 OFFSET ?"
RANGE = """SELECT count(*), CAST(group_concat(k || X'FF' || v, X'FF') AS BLOB)
    FROM node INDEXED BY sqlite_autoindex_node_1 WHERE k >= ? AND k < ?"""
ENDED = b"\xff"


class BadStore(ClientError):
    """A file that cannot be used as a store now; the text says why and what to do."""


@dataclass(frozen=True, slots=True)
class Digest:
    """What tells an account's nodes: how many, the bytes of their keys and texts, and the SHA-256 of all of them in their order."""

    nodes: int
    size: int
    sha256: str


class Store:
    """A store in a file, with the globals of all accounts."""

    def __init__(self, path: str, make: bool = False) -> None:
        """Opens the file, which is made if it is not there and `make` is given."""
        self.path = path
        refuse_journal(path)
        if not os.path.exists(path) and not make:
            raise BadStore(f"{path}: there is no such file")
        try:
            self._base = sqlite3.connect(path, isolation_level=None, timeout=0)
        except sqlite3.Error as error:
            raise refusal(path, error) from error
        try:
            self._take(make)
        except sqlite3.Error as error:
            self._base.close()
            raise refusal(path, error) from error
        except BadStore:
            self._base.close()
            raise

    def __enter__(self) -> Self:
        return self

    def __exit__(self, *_: object) -> None:
        self.close()

    def close(self) -> None:
        """Leaves the file, with its log copied into it."""
        with suppress(sqlite3.Error):
            self._base.rollback()
        self._base.close()

    def _take(self, make: bool) -> None:
        """Takes the file for itself. Makes the tables if it is empty, or if `make` is given and it has none of the two."""
        self._base.execute("PRAGMA locking_mode = EXCLUSIVE")
        self._base.execute("BEGIN IMMEDIATE")
        found = tuple(row[0] for row in self._base.execute(OURS))
        if rule := self._base.execute(RULES).fetchone():
            raise BadStore(f"{self.path}: this is no store of mserve: {rule[0]} is a rule of others on its tables")
        if not found:
            if not make and self._base.execute("SELECT 1 FROM sqlite_master").fetchone():
                raise BadStore(f"{self.path}: this is no store of mserve: it has tables of others alone")
            self._make_tables("main")
        elif found != TABLES:
            raise BadStore(f"{self.path}: this is no store of mserve: its tables `node` and `meta` are others")
        version = self._base.execute("SELECT n FROM meta WHERE name = 'version'").fetchone()
        if version != (VERSION,):
            raise BadStore(f"{self.path}: the store is of version {version[0] if version else 'none'}, and this is for version {VERSION}")
        self._base.execute("COMMIT")
        self._base.execute("PRAGMA journal_mode = WAL")
        self._base.execute(f"PRAGMA cache_size = -{CACHE_KB}")

    def _make_tables(self, base: str) -> None:
        """Makes the tables of an empty database that this connection has by a name."""
        for table in TABLES:
            self._base.execute(table.replace("CREATE TABLE ", f"CREATE TABLE {base}."))
        self._base.execute(f"INSERT INTO {base}.meta (name, n) VALUES ('version', ?)", (VERSION,))

    @contextmanager
    def change(self) -> Iterator[None]:
        """One transaction: what the block puts stands if the block ends, and nothing of it if it is left by an exception."""
        try:
            self._base.execute("BEGIN IMMEDIATE")
            yield
            self._base.execute("COMMIT")
        except sqlite3.Error as error:
            with suppress(sqlite3.Error):
                self._base.rollback()
            raise refusal(self.path, error) from error
        except BaseException:
            self._base.rollback()
            raise

    def put(self, nodes: Iterable[tuple[bytes, bytes]]) -> None:
        """Gives nodes, by their keys, their texts."""
        self._base.executemany(PUT, nodes)

    def remove(self, nodes: Iterable[bytes]) -> None:
        """Takes nodes away, by their keys; one that is not there stays so."""
        self._base.executemany("DELETE FROM node WHERE k = ?", ((key,) for key in nodes))

    def clear(self) -> None:
        """Takes all nodes away."""
        self._base.execute("DELETE FROM node")

    def accounts(self) -> list[str]:
        """The accounts that have nodes, in their order."""
        found: list[str] = []
        after = b""
        while row := self._base.execute("SELECT k FROM node WHERE k >= ? ORDER BY k LIMIT 1", (after,)).fetchone():
            try:
                found.append(keys.node(row[0])[0])
            except ValueError as error:
                raise BadStore(f"{self.path}: this store has a row that mserve did not write: {error}") from error
            after = keys.bounds(found[-1])[1]
        return found

    def others(self) -> list[str]:
        """What others have made in the database, as `table notes`."""
        return [row[0] for row in self._base.execute(OTHERS)]

    def digest(self, account: str) -> Digest:
        """What tells an account's nodes. It is the same in every store that has these nodes."""
        told, nodes, size = hashlib.sha256(), 0, 0
        first, end = keys.bounds(account)
        while first != end:
            further = self._base.execute(FURTHER, (first, end, BATCH)).fetchone()
            last = further[0] if further else end
            count, data = self._base.execute(RANGE, (first, last)).fetchone()
            if count:
                told.update(data + ENDED)
                nodes += count
                size += len(data + ENDED) - 2 * count
            first = last
        return Digest(nodes, size, told.hexdigest())

    def give(self, accounts: Iterable[str], path: str) -> None:
        """Puts the nodes of some accounts into another store as well, which is being made, and has none of these accounts. It is on the disk
        then. If it fails, the other file is no store."""
        is_new = not os.path.exists(path)
        try:
            self._base.execute("ATTACH ? AS part", (path,))
            try:
                # A file that is made whole or not at all needs no log, which would have each page written twice.
                self._base.execute("PRAGMA part.journal_mode = OFF")
                self._base.execute("PRAGMA part.synchronous = OFF")
                self._base.execute("BEGIN IMMEDIATE")
                if is_new:
                    self._make_tables("part")
                for account in accounts:
                    self._base.execute("INSERT INTO part.node (k, v) SELECT k, v FROM main.node WHERE k >= ? AND k < ? ORDER BY k", keys.bounds(account))
                self._base.execute("COMMIT")
                self._base.execute("PRAGMA part.journal_mode = WAL")
            finally:
                if self._base.in_transaction:
                    self._base.rollback()
                self._base.execute("DETACH part")
            with open(path, "rb+") as file:
                os.fsync(file.fileno())
        except sqlite3.Error as error:
            raise refusal(path, error) from error


class StoreFile(Store):
    """A store in a file, of which one account is looked at."""

    def __init__(self, path: str, account: str, make: bool = False) -> None:
        """Opens the file, which is made if it is not there and `make` is given."""
        if not keys.is_account(account):
            raise BadStore(f"{account!r} is no account: a name has 1 to 16 letters or digits")
        self.account = account
        super().__init__(path, make)

    def rows(self, name: str, subscripts: keys.Subscripts = ()) -> Iterator[tuple[bytes, bytes]]:
        """The keys and texts of a node and of those below it, in their order."""
        first = keys.key(self.account, name, subscripts)
        try:
            yield from self._base.execute("SELECT k, v FROM node WHERE k >= ? AND k < ? ORDER BY k", (first, keys.end_of_subtree(first)))
        except sqlite3.Error as error:
            raise refusal(self.path, error) from error

    def nodes(self, name: str, subscripts: keys.Subscripts = ()) -> Iterator[tuple[keys.Subscripts, str]]:
        """A node and those below it that have a text, in their order."""
        skipped = len(keys.start(self.account, name))
        for row, text in self.rows(name, subscripts):
            yield keys.subscripts(row, skipped), text.decode("ascii")

    def has_account(self) -> bool:
        """Whether the account has a node."""
        return self._base.execute("SELECT 1 FROM node WHERE k >= ? AND k < ? LIMIT 1", keys.bounds(self.account)).fetchone() is not None

    def names(self) -> list[str]:
        """The names of the account's globals."""
        found: list[str] = []
        after, end = keys.bounds(self.account)
        while row := self._base.execute("SELECT k FROM node WHERE k >= ? AND k < ? ORDER BY k LIMIT 1", (after, end)).fetchone():
            name = keys.node(row[0])[1]
            found.append(name)
            after = keys.end_of_subtree(keys.start(self.account, name))
        return found


def refuse_journal(path: str) -> None:
    """BadStore if a journal of another program is beside the file. The log that a server leaves which was ended by a signal is no hindrance:
    it is read as the program reads it, and copied into the file."""
    journal = path + "-journal"
    if os.path.exists(journal) and os.path.getsize(journal):
        raise BadStore(f"{path}: a journal {journal} stands beside it, which mserve never makes: what has changed the file was not mserve")


def refusal(path: str, error: sqlite3.Error) -> BadStore:
    """What an error of the file means to its user."""
    name = getattr(error, "sqlite_errorname", "")
    if name.startswith(("SQLITE_BUSY", "SQLITE_LOCKED")):
        return BadStore(f"{path}: the file is in use ({name}): a server has it, or another command of the clients. Go through a terminal, or stop the server")
    if name == "SQLITE_NOTADB":
        return BadStore(f"{path}: this is no store of mserve: it is no database ({name})")
    return BadStore(f"{path}: {error} ({name or 'no more is known'}); the file is as it was before this command")
