# SPDX-License-Identifier: Apache-2.0
"""A hand-over from one version to another over one journal, and gates of both. Here the other one is this front with the program under another name:
`front/versions.py REVISION` tries one that was released."""
from __future__ import annotations

import re
import shutil
from dataclasses import replace
from pathlib import Path

import pytest
import versions
from front import FRONT, in_loop
from mserve_front.records import VERSION
from running import PROGRAM

SECONDS = r"[\d.]+ s"


@pytest.fixture
def other(tmp_path: Path) -> versions.Version:
    """Another version."""
    program = tmp_path / "mserve-of-another-version"
    program.write_text(f'#!/bin/sh\nexec {PROGRAM} "$@"\n')
    program.chmod(0o755)
    return replace(versions.HERE, name="another", program=program)


@pytest.mark.long
@in_loop()
async def test_a_version_hands_over_to_another(other: versions.Version, tmp_path: Path) -> None:
    told = await versions.handed_over(other, versions.HERE, tmp_path)
    found = re.fullmatch(r"another to these sources: (\d+) lines with one digest, no line was answered for [\d.]+ s; "
                         "replays: another: the same store, these sources: the same store", told)
    assert found and int(found[1]) >= len(versions.USERS) * versions.LINES, told


@pytest.mark.long
@in_loop()
async def test_gates_of_two_versions(other: versions.Version, tmp_path: Path) -> None:
    """An island moves there and back while its users come by both gates, and a gate is upgraded."""
    told = await versions.gates_of_two(other, versions.HERE, tmp_path)
    wanted = (f"another to these sources: the island moved, and no line was answered for {SECONDS}",
              f"these sources to another: the island moved, and no line was answered for {SECONDS}",
              f"another to these sources: a gate that is upgraded: served again after {SECONDS}",
              r"\d+ lines, none lost or twice; replays: another: the same store, these sources: the same store")
    assert len(told) == len(wanted) and all(map(re.fullmatch, wanted, told)), told


@pytest.fixture
def later(tmp_path: Path) -> versions.Version:
    """A version that writes what this one does not know."""
    for name in ("front", "clients"):
        shutil.copytree(FRONT.parent / name, tmp_path / "later" / name, ignore=shutil.ignore_patterns("tests", "__pycache__"))
    records = tmp_path / "later" / "front" / "mserve_front" / "records.py"
    text = records.read_text()
    for now, then in ((f"\nVERSION = {VERSION}\n", f"\nVERSION = {VERSION + 1}\n"), ("rest[0] != VERSION", f"rest[0] not in ({VERSION}, VERSION)")):
        assert text.count(now) == 1
        text = text.replace(now, then)
    records.write_text(text)
    return replace(versions.HERE, name="later", folder=records.parent.parent)


@pytest.mark.long
@in_loop()
async def test_a_later_version_that_is_no_way_back(later: versions.Version, tmp_path: Path) -> None:
    """What it writes is refused by name: users of the island work on where they are, and it comes back once that machine is upgraded too."""
    told = await versions.gates_of_two(versions.HERE, later, tmp_path)
    wanted = (f"these sources to later: the island moved, and no line was answered for {SECONDS}",
              f"later to these sources: the gate refuses by name what comes: {versions.LATER}; users work on, for {SECONDS} without an answer at most",
              f"these sources to later: a gate that is upgraded: served again after {SECONDS}",
              f"later to later: the island moved, and no line was answered for {SECONDS}",
              rf"\d+ lines, none lost or twice; replays: these sources: {versions.LATER}, later: the same store")
    assert len(told) == len(wanted) and all(map(re.fullmatch, wanted, told)), told


@pytest.mark.long
@in_loop()
async def test_a_gate_that_is_alone_and_its_way_back(later: versions.Version, tmp_path: Path) -> None:
    """Each goes on where the other one has ended in order, though the version before could not run all of the journal again."""
    told = await versions.upgraded_alone(versions.HERE, later, tmp_path)
    wanted = (f"these sources to later, alone: served again after {SECONDS}", f"later to these sources, alone: served again after {SECONDS}",
              r"\d+ lines, none lost or twice; replay: the same store")
    assert len(told) == len(wanted) and all(map(re.fullmatch, wanted, told)), told
