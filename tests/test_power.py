# SPDX-License-Identifier: Apache-2.0
"""The power goes at each moment of a short stream of SETs over a store in a file, and at many of a long one, whose log is copied into the file
meanwhile: by the library tests/lose_power.c, which takes back what was written since the last sync, and makes a part of the last write. Opened
again, the store holds each SET that was answered, and at most one more.

In runs beside these the last write that was synced is taken back too: there SETs are lost, so the test would see it."""
from __future__ import annotations

import os
import random
import signal
import subprocess
from collections.abc import Callable
from pathlib import Path

import pytest
from counted_sets import found, set_line
from running import run_words
from support import MOST_STEPS

# This many SETs of each stream, and at this many moments of the long one the power goes.
SHORT, LONG, SOME = 20, 400, 160
PARTS = 8
# How many calls that were not synced stay, and how much of the last write.
KEPT, SIZES = (0, 0, 1, 2), (0, 1, 7, 512, 4000, 100000)


def lines(count: int) -> bytes:
    """This many SETs."""
    return b"".join(set_line(number) for number in range(1, count + 1))


def ran(library: str, settings: str, store: str, count: int, **variables: object) -> tuple[int, int, int]:
    """A run of this many SETs in which the power may go: its status, how many were answered, and how many calls on files it made if it did not."""
    read, write = os.pipe()
    environment = {**os.environ, "LD_PRELOAD": library, "LOSE_TOLD": str(write), **{name: str(value) for name, value in variables.items()}}
    try:
        answer = subprocess.run(run_words(settings, store), input=lines(count), capture_output=True, env=environment, pass_fds=[write], timeout=60)
    finally:
        os.close(write)
        told = os.read(read, 32)
        os.close(read)
    replies = answer.stdout.split(b"\n")[:-1]
    assert set(replies) <= {b"1."} and answer.stderr == b""
    return answer.returncode, len(replies), int(told or b"0")


def moments(library: str, settings: str, folder: Path, more: int) -> list[tuple[int, int]]:
    """The moments at which the power goes: of a stream of this many SETs, at this call."""
    calls = {count: ran(library, settings, str(folder / str(count)), count)[2] for count in (SHORT, LONG)}
    chance = random.Random("power")
    short = [(SHORT, call) for call in range(1, calls[SHORT] + 1)]
    return short + [(LONG, chance.randint(calls[SHORT], calls[LONG])) for _ in range(more * SOME)]


def lost(library: str, settings: str, store: str, moment: tuple[int, int], **variables: object) -> tuple[int, int | None]:
    """How many SETs were answered before the power went, and how many the store holds then."""
    count, call = moment
    status, answered, _ = ran(library, settings, store, count, LOSE_AT=call, **variables)
    assert status == -signal.SIGKILL
    return answered, found(settings, store)


@pytest.mark.parametrize("part", range(PARTS))
def test_power_goes(part: int, power_library: str, written: Callable[[str], str], folder_in_memory: Path, count: int) -> None:
    settings = written(MOST_STEPS)
    every = moments(power_library, settings, folder_in_memory, count)
    assert len(every) >= 200
    for number, moment in enumerate(every[part::PARTS]):
        chance = random.Random(f"power {moment}")
        variables = {"LOSE_KEPT": chance.choice(KEPT), "LOSE_PART": chance.choice(SIZES)}
        answered, now = lost(power_library, settings, str(folder_in_memory / f"store{number}"), moment, **variables)
        assert now in (answered, answered + 1), f"{moment}, {variables}: {answered} answered, {now} held"


def test_a_lost_write_is_seen(power_library: str, written: Callable[[str], str], folder_in_memory: Path) -> None:
    """Where the disk loses a write that it had synced, a SET that was answered is lost."""
    settings = written(MOST_STEPS)
    ends = ran(power_library, settings, str(folder_in_memory / "whole"), SHORT)[2]
    every = [lost(power_library, settings, str(folder_in_memory / str(call)), (SHORT, call), LOSE_SYNCED=1) for call in range(1, ends + 1)]
    losses = [(answered, now) for answered, now in every if now not in (answered, answered + 1)]
    assert len(losses) >= 3 * SHORT, every
