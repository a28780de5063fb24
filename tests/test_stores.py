# SPDX-License-Identifier: Apache-2.0
"""Stores that are refused: status 4, the fault, and the file is the same byte for byte; a log may be made beside it. A store that another
process has, one that may not be written, and a disk that gets full."""
from __future__ import annotations

import contextlib
import os
import sqlite3
import subprocess
from pathlib import Path

import pytest
from blocks import SERVED
from running import ONE_ACCOUNT, run, run_words
from support import LINE, REPLY, content, full_after, refused, run_as_nobody

NODE = "CREATE TABLE node (k BLOB PRIMARY KEY NOT NULL, v BLOB NOT NULL)"
META = "CREATE TABLE meta (name TEXT PRIMARY KEY, n INTEGER)"
VERSION = "INSERT INTO meta (name, n) VALUES ('version', {})"
ROW = "INSERT INTO node VALUES (x'{}', {})"
EMPTY = [NODE, META, VERSION.format(2)]
WHOLE = [*EMPTY, ROW.format("42004300024200", "x'41'")]
# Statements that make a database, and the fault of a store over it.
DATABASES = {
    "another version": ([NODE, META, VERSION.format(7)], "BadVersion"),
    "no version": ([NODE, META], "BadVersion"),
    "no table of versions": ([NODE], "BadVersion"),
    "no table of nodes": ([META, VERSION.format(2)], "BadVersion"),
    "a key without a name": ([*EMPTY, ROW.format("4200", "x'41'")], "BadKey"),
    "a key that goes on": ([*EMPTY, ROW.format("4200430002420000", "x'41'")], "BadKey"),
    "a value of another byte": ([*EMPTY, ROW.format("42004300024200", "x'80'")], "BadKey"),
    "a value that is a text": ([*EMPTY, ROW.format("42004300024200", "'text'")], "BadKey"),
    "nodes without a key": (["CREATE TABLE node (k BLOB NOT NULL, v BLOB NOT NULL)", META, VERSION.format(2)], "BadVersion"),
    "nodes without a rowid": ([f"{NODE} WITHOUT ROWID", META, VERSION.format(2)], "BadVersion"),
    "nodes of strict types": ([f"{NODE} STRICT", META, VERSION.format(2)], "Store"),
    "nodes with a third column": ([NODE.replace(")", ", more)"), META, VERSION.format(2)], "Store"),
    "a trigger on nodes": ([*WHOLE, "CREATE TRIGGER t AFTER INSERT ON node BEGIN DELETE FROM meta; END"], "BadVersion"),
    "an index on some nodes": ([*WHOLE, "CREATE INDEX i ON node (v) WHERE v > x'41'"], "BadVersion"),
    "an index that allows a text once": ([*WHOLE, "CREATE UNIQUE INDEX i ON node (v)"], "Store"),
    "a table that refers to nodes": ([*WHOLE, "CREATE TABLE other (k BLOB REFERENCES node (k) ON DELETE CASCADE)"], "Store"),
    "a table that refers to nodes to come": (["CREATE TABLE other (k BLOB REFERENCES node (k))"], "Store"),
    "a table that refers to the version": ([*WHOLE, "CREATE TABLE other (name TEXT REFERENCES meta (name))"], "Store"),
    "a view with the name": (["CREATE TABLE other (x)", "CREATE VIEW node AS SELECT x FROM other"], "Store"),
    "an index with the name": (["CREATE TABLE other (x)", "CREATE INDEX node ON other (x)"], "Store"),
}
OTHERS = ["CREATE TABLE other (id INTEGER PRIMARY KEY AUTOINCREMENT, x)", "INSERT INTO other (x) VALUES ('theirs'), (2)", "CREATE INDEX o ON other (x)"]
# Statements that make a database that others use too, or that was made in another order.
SHARED = {
    "a third table": [*WHOLE, *OTHERS],
    "other tables first": [*OTHERS, *WHOLE],
    "other tables alone": OTHERS,
    "the tables in the other order": [META, VERSION.format(2), NODE],
    "version 1 beside other tables": [*OTHERS, META, VERSION.format(1), NODE],
    "an index on texts": [*WHOLE, "CREATE INDEX i ON node (v)"],
    "a view of nodes": [*WHOLE, "CREATE VIEW w AS SELECT v FROM node"],
    "a trigger on another table": [*WHOLE, *OTHERS, "CREATE TRIGGER t AFTER INSERT ON other BEGIN DELETE FROM other; END"],
    "a table that others refer to": [*WHOLE, *OTHERS, "CREATE TABLE more (x INTEGER REFERENCES other (id))"],
    "what ANALYZE counts": [*WHOLE, *OTHERS, "ANALYZE"],
}
SETS = range(1, 501)
FULL = 1_000_000


def made(path: str, statements: list[str]) -> str:
    """A file with a database that these statements make."""
    database = sqlite3.connect(path)
    for statement in statements:
        database.execute(statement)
    database.commit()
    database.close()
    return path


def holding(path: str, data: bytes) -> str:
    """A file with these bytes."""
    Path(path).write_bytes(data)
    return path


def is_refused(store: str, fault: str) -> None:
    """The store is refused, and its file is not changed."""
    before = content(store)
    assert run(LINE, ONE_ACCOUNT, store) == refused(4, "store", fault)
    assert content(store) == before


@pytest.mark.parametrize(("statements", "fault"), DATABASES.values(), ids=DATABASES.keys())
def test_a_database_that_is_no_store(statements: list[str], fault: str, store: str) -> None:
    is_refused(made(store, statements), fault)


def test_a_file_that_is_no_database(store: str) -> None:
    is_refused(holding(store, b"no database\n" * 100), "Store")


def test_a_damaged_database(store: str) -> None:
    damaged = bytearray(content(made(store, WHOLE)))
    damaged[100:] = bytes(len(damaged) - 100)
    is_refused(holding(store, bytes(damaged)), "Store")


def test_a_whole_database(store: str) -> None:
    assert run(LINE, ONE_ACCOUNT, made(store, WHOLE)) == (0, REPLY, b"")


def others(path: str) -> list[tuple[object, ...]]:
    """What a database has beside the two tables: the schema, and the rows of each other table."""
    with contextlib.closing(sqlite3.connect(path)) as database:
        found = database.execute("SELECT type, name, sql FROM sqlite_master WHERE tbl_name NOT IN ('node', 'meta') OR name IN ('i', 'w') "
                                 "ORDER BY name").fetchall()
        names = [name for kind, name, _ in found if kind == "table"]
        return found + [(name, *row) for name in names for row in database.execute(f"SELECT * FROM {name}")]


@pytest.mark.parametrize("statements", SHARED.values(), ids=SHARED.keys())
def test_a_database_that_others_use(statements: list[str], store: str) -> None:
    """It is taken, twice, its globals are there, and what is others' stays."""
    theirs = others(made(store, statements))
    assert run(b"1 S ^A(1)=1,^A(2)=2 K ^A(1)\n1 S ^A(2)=5,^A(3)=5\n", ONE_ACCOUNT, store) == (0, b"1.\n1.\n", b"")
    assert run(b'1 W $D(^A(1)),$O(^A("")),$O(^A(""),-1),^A(2)\n', ONE_ACCOUNT, store) == (0, b"1-0235\n1.\n", b"")
    assert others(store) == theirs
    with contextlib.closing(sqlite3.connect(store)) as database:
        assert database.execute("PRAGMA integrity_check").fetchall() == [("ok",)]
        assert database.execute("SELECT n FROM meta WHERE name = 'version'").fetchall() == [(2,)]
        assert database.execute("SELECT count(*) FROM node WHERE v = x'35'").fetchall() == [(2,)]


@pytest.mark.parametrize("path", [".", "missing/store", "/dev/full"])
def test_a_path_at_which_none_can_be(path: str, tmp_path: Path) -> None:
    assert run(LINE, ONE_ACCOUNT, os.path.join(tmp_path, path)) == refused(4, "store", "Store")


@pytest.mark.parametrize("path", [":memory:", ""], ids=["of SQLite's own", "empty"])
def test_a_path_that_names_none(path: str) -> None:
    assert run(LINE, ONE_ACCOUNT, path) == refused(4, "store", "Store")


def test_a_store_that_another_process_has(store: str) -> None:
    """The second process is refused, and the first one loses nothing."""
    with subprocess.Popen(run_words(store=store), stdin=subprocess.PIPE, stdout=subprocess.PIPE) as first:
        first.stdin.write(b"1 S ^A=1\n")
        first.stdin.flush()
        assert first.stdout.readline() == b"1.\n"
        assert run(b"1 S ^A=2\n", store=store) == refused(4, "store", "Store")
        first.stdin.write(b"1 W ^A\n")
        first.stdin.close()
        assert first.stdout.read() == b"1-1\n1.\n"
    assert run(b"1 W ^A\n", store=store) == (0, b"1-1\n1.\n", b"")


@pytest.mark.parametrize("there", [True, False], ids=["a file that may only be read", "a folder in which none may be made"])
def test_read_only(there: bool, open_folder: str) -> None:
    """A superuser may write both, so these runs are another user's."""
    settings, folder = os.path.join(open_folder, "settings.toml"), os.path.join(open_folder, "closed")
    os.makedirs(folder)
    holding(settings, content(ONE_ACCOUNT))
    os.chmod(settings, 0o644)
    store = os.path.join(folder, "store")
    if there:
        os.chmod(made(store, EMPTY), 0o444)
    before = content(store) if there else b""
    os.chmod(folder, 0o555)
    assert run_as_nobody(open_folder, settings, store) == refused(4, "store", "Store")
    os.chmod(folder, 0o755)
    assert os.path.exists(store) == there and (not there or content(store) == before)


def test_a_disk_without_room(store: str) -> None:
    assert run(LINE, store=store, preexec_fn=full_after(0)) == refused(4, "store", "Store")


def test_a_disk_that_gets_full(store: str) -> None:
    """The line is answered ZSTORE, and what was answered before stands."""
    sets = b"".join(b'1 S ^A(%d)=$J("",200)\n' % number for number in SETS)
    status, output, told = run(sets, store=store, preexec_fn=full_after(FULL))
    replies = output.split(b"\n")[:-1]
    assert (status, told, len(replies)) == (0, b"", len(SETS))
    assert (replies[0], replies[-1], set(replies)) == (b"1.", b"1!ZSTORE", {b"1.", b"1!ZSTORE"})
    held = run(b"".join(b"1 W $D(^A(%d))\n" % number for number in SETS), store=store)[1].split(b"\n")[:-1:2]
    assert [number for number, reply in zip(SETS, replies) if reply == b"1." and held[number - 1] != b"1-1"] == []


def told_bob(output: bytes) -> list[bytes]:
    """Of an output, what goes to BOB's terminal."""
    return [line for line in output.splitlines() if line.startswith((b"3-", b"3.", b"3!"))]


def test_only_if_a_line_of_a_reaching_account_fails(tmp_path: Path) -> None:
    """What BOB is shown is not whole then: ALICE reaches him by a grant, and a line of hers ends by ZSTORE. He is shown the same by `--only` as
    among all, and something else than with room on the disk."""
    settings = SERVED["terminals"]
    lines = b"".join(b'1 S ^X(%d)=$J("",200)\n3 W $D(^|"ALICE"|X(%d))\n' % (number, number) for number in SETS)
    stores = [str(tmp_path / name) for name in ("all", "only", "room")]
    among_all = run(lines, settings, stores[0], preexec_fn=full_after(FULL))
    alone = run(lines, settings, stores[1], "BOB", preexec_fn=full_after(FULL))
    assert (among_all[0], among_all[2]) == (alone[0], alone[2]) == (0, b"")
    assert b"1!ZSTORE\n" in among_all[1] and b"3-0\n" in among_all[1]
    assert alone[1].splitlines() == told_bob(among_all[1])
    assert alone[1].splitlines() != told_bob(run(lines, settings, stores[2])[1])
