# SPDX-License-Identifier: Apache-2.0
"""The program is killed at many moments while it answers a stream of SETs over a store in a file. Opened again, the store holds each SET that was
answered, and at most one more; and the next run goes on from there."""
from __future__ import annotations

import contextlib
import random
import subprocess
import threading
import time
from collections.abc import Callable
from typing import IO

import pytest
from counted_sets import held, set_line
from running import run_words
from support import MOST_STEPS

# Each of this many stores is used for this many kills: a log that was left is read again by the next run.
STORES, KILLS = 8, 5
SETS = 400


def feed(pipe: IO[bytes], first: int) -> None:
    """Sends SETs until the program is gone."""
    with pipe, contextlib.suppress(OSError):
        for number in range(first, first + SETS):
            pipe.write(set_line(number))


def answered_before_kill(settings: str, store: str, first: int, replies: int, wait: float) -> int:
    """How many SETs are answered if the program is killed after this many replies, and this many seconds more."""
    with subprocess.Popen(run_words(settings, store), bufsize=0, stdin=subprocess.PIPE, stdout=subprocess.PIPE) as process:
        feeder = threading.Thread(target=feed, args=(process.stdin, first))
        feeder.start()
        got = b""
        while got.count(b"\n") < replies and (piece := process.stdout.read(64)):
            got += piece
        time.sleep(wait)
        process.kill()
        got += process.stdout.read()
        feeder.join()
    lines = got.split(b"\n")[:-1]
    assert set(lines) <= {b"1."}
    return len(lines)


def kill_often(settings: str, store: str, chance: random.Random) -> None:
    """Kills the program over a store: the first time soon after the start, then after some replies."""
    before = 0
    for kill in range(KILLS):
        replies = 0 if kill == 0 else chance.randrange(1, SETS // 2)
        wait = chance.random() * (0.05 if replies == 0 else 0.004)
        answered = answered_before_kill(settings, store, before + 1, replies, wait)
        now = held(settings, store)
        assert before + answered <= now <= before + answered + 1, f"kill {kill}: {before} before, {answered} answered, {now} held"
        before = now


@pytest.mark.waits
@pytest.mark.parametrize("number", range(STORES))
def test_killed_over_a_file(number: int, written: Callable[[str], str], store: str, count: int) -> None:
    for turn in range(count):
        kill_often(written(MOST_STEPS), f"{store}{turn}", random.Random(f"1756 {number} {turn}"))
