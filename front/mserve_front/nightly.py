# SPDX-License-Identifier: Apache-2.0
"""What a night does for a front, or for each island that is on a machine: an exact snapshot is taken and verified by a replay, and what is older than it is
to be goes, of the journal and of the snapshots. One that fails holds no other up."""
from __future__ import annotations

import argparse
import shutil
from collections.abc import Callable
from datetime import UTC, datetime, timedelta
from pathlib import Path

from . import journal_command
from .gate_command import placed_of, settings_of
from .placement import FRONT
from .settings import BadSettings, Table, journal_settings, read_toml
from .snapshots import BadSnapshot, read_manifest, snapshots_of


def fronts_of(config: Path) -> list[tuple[str, Path]]:
    """The settings of all fronts that settings are of: of a machine's islands, with their names, or of a front alone, whose name is empty."""
    if "machine" not in read_toml(config):
        return [("", config)]
    home, _ = settings_of(argparse.Namespace(config=config))
    placement = placed_of(home)
    try:
        here = [island.name for island in placement.islands().values() if island.machine == home.machine.name]
    finally:
        placement.close()
    return [(name, home.folder / name / FRONT) for name in sorted(here)]


def backup_of(config: Path) -> Path:
    """The folder of a front's snapshots, which is made. Raises `BadSettings`."""
    tables = read_toml(config)
    users = Table(config, "users", tables.get("users", {})).needed_file("file")
    found = journal_settings(Table(config, "journal", tables.get("journal", {})), users.parent).backup
    if found is None:
        raise BadSettings(f"{config}: journal.backup: is missing: the folder of snapshots")
    found.mkdir(mode=0o700, exist_ok=True)
    return found


def night(config: Path, keep: int | None, take: Callable[[argparse.Namespace], int], verify: Callable[[argparse.Namespace], int]) -> int:
    """Takes a snapshot of a front and verifies it; then what is older than the days to keep goes. Raises what these raise."""
    folder = backup_of(config)
    words = argparse.Namespace(folder=folder, config=config, end_sessions=True, all=False, scratch=None)
    status = take(words) or verify(words)
    if status == 0 and keep is not None:
        expire(config, folder, datetime.now(UTC) - timedelta(days=keep))
    return status


def expire(config: Path, folder: Path, before: datetime) -> None:
    """Has what the journal has before the latest exact snapshot of this time or earlier go, and the snapshots before it: from there on there is a way back to
    each moment. Raises `BadSnapshot`."""
    found = [path for path in snapshots_of(folder) if (one := read_manifest(path)).exact and datetime.fromisoformat(one.time) <= before]
    if not found:
        return
    if status := journal_command.does(["--config", str(config), "expire", str(found[-1])]):
        raise BadSnapshot(f"{found[-1]}: the journal does not expire up to there: status {status}")
    for path in snapshots_of(folder):
        if int(path.name) < int(found[-1].name):
            shutil.rmtree(path)
