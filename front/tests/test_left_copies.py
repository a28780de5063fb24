# SPDX-License-Identifier: Apache-2.0
"""Copies of a store that commands leave: of one that was refused, or killed, nothing is in the way of the next one, or takes room for ever."""
from __future__ import annotations

import json
import os
import sqlite3
import time
from pathlib import Path

import pytest
from front import toml
from journals import flushes, written
from mserve_front import backup_command, journal_command
from mserve_front.snapshots import LEFT, MANIFEST, PART, SCRATCH, SETTINGS, STORE


def snapshot(folder: Path, number: int) -> Path:
    """A snapshot of an empty store after a line."""
    folder.mkdir()
    base = sqlite3.connect(folder / STORE)
    base.execute("CREATE TABLE node (k BLOB PRIMARY KEY, v BLOB)")
    base.close()
    (folder / SETTINGS).write_text("")
    (folder / MANIFEST).write_text(json.dumps({"journal": 7, "number": number, "time": "2026-11-30T00:00:00+00:00", "open": [], "accounts": {}}))
    return folder


@pytest.mark.parametrize(("number", "to", "told"), [(3, 2, "comes before: take an earlier one"), (9, 9, "the journal ends before it")])
def test_a_replay_that_is_refused_leaves_no_copy(tmp_path: Path, capsys: pytest.CaptureFixture[str], number: int, to: int, told: str) -> None:
    """An operator who recovers in a hurry gives another moment, or another snapshot, and goes on."""
    written(tmp_path / "journal", flushes())
    words = ["--folder", str(tmp_path / "journal"), "replay", "--from", str(snapshot(tmp_path / "snapshot", number)), "--to", str(to), "--store",
             str(tmp_path / "store")]
    for _ in range(2):
        assert journal_command.does(words) in (1, 3)
        assert told in capsys.readouterr().err
    assert sorted(path.name for path in tmp_path.iterdir()) == ["journal", "snapshot"]


def test_what_a_killed_command_left_is_removed(tmp_path: Path, monkeypatch: pytest.MonkeyPatch, capsys: pytest.CaptureFixture[str]) -> None:
    """After a day: before that somebody may be at work there. What else is in the folder stays."""
    folder = tmp_path / "backup"
    for name in (f"{PART}old", f"{PART}new", f"{SCRATCH}old", "000000000003", "notes"):
        (folder / name).mkdir(parents=True)
        (folder / name / STORE).write_bytes(b"x")
        if not name.endswith("new"):
            os.utime(folder / name, (time.time() - LEFT - 60,) * 2)
    (tmp_path / "front.toml").write_text(toml({"users": {"file": "users.json"}, "journal": {"folder": "journal"}}))
    monkeypatch.setattr("sys.argv", ["mbackup", "take", str(folder), "--config", str(tmp_path / "front.toml")])
    assert backup_command.main() == 3
    told = capsys.readouterr().err
    assert told.count("a copy that a killed command left was removed") == 2 and "no front that keeps a journal is there" in told
    assert sorted(path.name for path in folder.iterdir()) == [f"{PART}new", "000000000003", "notes"]
