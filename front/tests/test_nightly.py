# SPDX-License-Identifier: Apache-2.0
"""What a night does by one command: a snapshot of a front, or of each island of a machine, is taken and verified, and what is older goes."""
from __future__ import annotations

import json
from pathlib import Path

from front import SETTINGS, in_loop, tool, until
from machines import Gate
from test_lone_gate import ISLAND, NEW, gate, serving  # noqa: F401

KEPT = {"folder": "journal", "backup": "backup"}


@in_loop()
async def test_a_night_of_a_front(start) -> None:
    """The folder is made; the second night is verified from the first, and what came before it goes if nothing is to be kept."""
    front = start(store="store.db", journal=KEPT)
    folder, config = front.folder / "backup", ("--config", front.folder / "front.toml")
    for number in (1, 2):
        async with front.person("ada") as ada:
            assert await ada.told(f"S ^X={number} W ^X") == str(number)
        status, output, told = tool("mbackup")("nightly", *config, "--keep", "1")
        assert status == 0, told
        assert f"good: a replay from {'the beginning of the journal' if number == 1 else sorted(folder.glob('0*'))[0]} holds the same" in output
    first, second = sorted(folder.glob("0*"))
    assert json.loads((folder / "verified.json").read_text())["line"] == int(second.name)
    status, _, told = tool("mbackup")("nightly", *config, "--keep", "0")
    assert status == 0, told
    assert list(folder.glob("0*")) == [second] and not first.exists()
    status, _, told = tool("mjournal", *map(str, config))("replay", "--store", front.folder / "all", "--from", second)
    assert status == 0, told


def test_a_front_without_a_folder_for_snapshots(start) -> None:
    front = start(store="store.db", journal={"folder": "journal"})
    status, _, told = tool("mbackup")("nightly", "--config", front.folder / "front.toml")
    assert status == 2 and "journal.backup: is missing" in told


@in_loop()
async def test_a_night_of_all_islands(gate: Gate) -> None:  # noqa: F811
    """One whose snapshots cannot be made is named, and the other one has its own; one that was removed has none."""
    home = gate.folder / "islands"
    for name in ("NEW", "GONE"):
        (gate.folder / "new.toml").write_text(NEW.replace("NEW", name))
        assert gate.does("place", name, gate.folder / "new.toml", "one")[0] == 0
    await until(lambda: serving(gate) == 3, "fronts that serve")
    assert gate.does("remove", "GONE")[0] == 0
    (home / ISLAND / "backup").write_text("no folder")
    status, output, told = tool("mbackup")("nightly", "--config", gate.config)
    assert status == 3 and f"island {ISLAND}: status 3" in told and "NEW" not in told.replace(str(home), "")
    assert output.count("good: ") == 1 and (home / "NEW" / "backup" / "verified.json").exists() and not (home / "GONE" / "backup").exists()
    (home / ISLAND / "backup").unlink()
    status, output, told = tool("mbackup")("nightly", "--config", gate.config)
    assert status == 0 and output.count("good: ") == 2, told


def test_settings_that_are_of_nothing(tmp_path: Path) -> None:
    status, _, told = tool("mbackup")("nightly", "--config", tmp_path / "none.toml")
    assert status == 2 and "none.toml" in told
    assert tool("mbackup")("nightly", "--config", SETTINGS)[0] == 2
