# SPDX-License-Identifier: Apache-2.0
"""The library of examples/ and its two clinics, each loaded at a terminal of its own; the session over the store that is left is answered as shipped."""
from __future__ import annotations

import subprocess
from pathlib import Path

import pytest
import running
from conftest import CLIENTS, Command
from mserve_client import language
from mserve_client.grammar import LANGUAGES
from mserve_client.routine_files import read_source

LIBRARY = CLIENTS.parent / "examples" / "library"
SETTINGS = str(LIBRARY / "settings.toml")
# The accounts, each with a terminal and how many routines it has.
ACCOUNTS = {"LIB": (1, 3), "EYE": (2, 1), "SKIN": (4, 1)}


def test_accounts_load_and_run(command: Command, tmp_path: Path) -> None:
    """The server ends after three connections; check has nothing to say, of a library's labels either."""
    store, port = str(tmp_path / "library.db"), running.free_port()
    with subprocess.Popen(running.serve_words(port, len(ACCOUNTS) + 1, store, SETTINGS), stdin=subprocess.DEVNULL) as server:
        try:
            running.connected(port).close()
            for name, (terminal, count) in ACCOUNTS.items():
                ran = command("mroutine", port, terminal, "load", "--check", LIBRARY / "routines" / name)
                assert (ran.status, ran.told, ran.output.count(" lines from ")) == (0, "", count)
            assert server.wait(60) == 0
        finally:
            server.kill()
    session, replies = ((LIBRARY / name).read_bytes() for name in ("session.txt", "replies.txt"))
    assert running.run(session, SETTINGS, store) == (0, replies, b"")


@pytest.mark.parametrize("path", sorted(LIBRARY.rglob("*.m")), ids=lambda path: path.stem)
def test_each_line_needs_language_1_at_most(path: Path) -> None:
    """And those of the clinics do need it."""
    rests = [line.rest for line in read_source(str(path)).lines]
    assert [rest for rest in rests if language.fault(rest, max(LANGUAGES)) is not None] == []
    found = [fault.name for rest in rests if (fault := language.fault(rest)) is not None]
    assert ("a routine of another account, which needs language 1 of the account's settings" in found) is (path.parent.name != "LIB")
