# SPDX-License-Identifier: Apache-2.0
"""The backup that docs/OPERATING.md describes: a copy of a store's file and of the log beside it, taken while no line is under way, is the store as
it was; so is the file alone once the program has ended by itself; SQLite cannot read it beside the server."""
from __future__ import annotations

import os
import shutil
import socket
import sqlite3
from collections.abc import Callable
from pathlib import Path

import pytest
from running import connected, run
from support import MOST_STEPS, server

NODES = 100
SETS = b"".join(b'1 S ^B(%d)="%d:"_$J(%d,100)\n' % (number, number, number) for number in range(1, NODES + 1))
COUNT = b'1 S N=0,X="" F  S X=$O(^B(X)) Q:X=""  S:^B(X)=(X_":"_$J(X,100)) N=N+1\n1 W N,",",$D(^LATER)\n'


def copied(store: str, folder: Path) -> str:
    """A copy of the store's file, and of its log if it has one."""
    folder.mkdir()
    for end in ("", "-wal"):
        if os.path.exists(store + end):
            shutil.copyfile(store + end, folder / f"copy{end}")
    return str(folder / "copy")


def is_whole(settings: str, store: str, later: int) -> bool:
    """Whether the store holds all nodes, and `^LATER` if it should."""
    return run(COUNT, settings, store) == (0, b"1.\n1-%d,%d\n1.\n" % (NODES, later), b"")


def answered(client: socket.socket, stream: bytes, replies: int) -> None:
    """Sends lines, and reads this many lines of replies: then no line is under way."""
    client.sendall(stream)
    with client.makefile("rb") as file:
        assert [file.readline() for _ in range(replies)] == [b"1.\n"] * replies


def is_locked(store: str) -> bool:
    """Whether SQLite does not get at the file, so that its own backup cannot either."""
    database = sqlite3.connect(store, timeout=0.2)
    try:
        database.execute("SELECT count(*) FROM node").fetchall()
        return False
    except sqlite3.OperationalError:
        return True
    finally:
        database.close()


@pytest.mark.waits
def test_copy_beside_a_server(written: Callable[[str], str], store: str, tmp_path: Path) -> None:
    """It is taken while no line is under way; then the server goes on, and is killed. Its store, once a run over it has ended by itself, is the
    file alone."""
    settings = written(MOST_STEPS)
    with server(1, store, settings) as running, connected(running.port) as client:
        answered(client, SETS, NODES)
        copy = copied(store, tmp_path / "running")
        assert is_locked(store)
        answered(client, b"1 S ^LATER=1\n", 1)
        running.process.kill()
    assert is_whole(settings, copy, 0)
    assert is_whole(settings, store, 1)
    alone = tmp_path / "alone"
    shutil.copyfile(store, alone)
    database = sqlite3.connect(alone)
    assert database.execute("PRAGMA integrity_check").fetchall() == [("ok",)]
    database.close()
    assert is_whole(settings, str(alone), 1)
