# SPDX-License-Identifier: Apache-2.0
"""The run of a day in parts: what a part has verified is in the record, and counts with that of others."""
from __future__ import annotations

import json
import subprocess
import sys
from pathlib import Path

import pytest
from day import Kept
from front import FRONT

BEFORE = {"part": 1, "time": "2026-11-30 12:00", "revision": "abc", "kind": "files", "seconds": 5400, "lines": 1000, "troubles": 3, "median": 2.0, "late": 9.0,
          "megabytes": 100.0, "files": 50, "share": 0.05, "load": 1.0, "longest": 20.0, "snapshot": "good"}


def test_parts_are_counted_together(tmp_path: Path) -> None:
    """One that failed is named, and what was cut off is left out."""
    record = tmp_path / "record"
    assert Kept(record).part == 1
    rows = [BEFORE, BEFORE | {"seconds": 1800, "megabytes": 101.0, "files": 51}, {"part": 2, "revision": "def", "kind": "files", "failed": "a counter is 7"}]
    record.write_text("".join(json.dumps(row) + "\n" for row in rows) + '{"part": 3, "seco')
    kept = Kept(record)
    assert kept.part == 3
    assert kept.told().splitlines() == [
        "2.00 hours of a day's 24, in 1 parts; 2000 lines answered, none lost or twice; 6 troubles, each taken over; 2 snapshots verified by a replay; "
        "0 times the stores of leader and standby were a replay's at the end",
        "part 2 FAILED: a counter is 7",
        "medians: reply 2.0 ms, 99th percentile 9.0 ms, share of the machine 5.00 %, load 1.0",
        "part 1, files, 2.0 hours of abc: first 100 MB and 50 open files, last 101 MB and 51 open files"]


def test_parts_that_run_beside_each_other_have_numbers_of_their_own(tmp_path: Path) -> None:
    record = tmp_path / "record"
    parts = [Kept(record) for _ in range(2)]
    for kept in (*parts, *parts):
        kept.add(seconds=1)
    assert [json.loads(line)["part"] for line in record.read_text().splitlines()] == [1, 2, 1, 2]


@pytest.mark.long
def test_a_short_part(tmp_path: Path) -> None:
    record = tmp_path / "record"
    record.write_text(json.dumps(BEFORE) + "\n")
    words = [sys.executable, FRONT / "day.py", record, "--seconds", "8", "--stretch", "0.7", "--snapshot", "2", "--share", "100"]
    done = subprocess.run(words, capture_output=True, text=True, timeout=400)
    assert done.returncode == 0, done.stdout + done.stderr
    rows = [json.loads(line) for line in record.read_text().splitlines()]
    assert [row["part"] for row in rows] == [1, *[2] * (len(rows) - 1)] and "snapshot" in rows[1] and "end" in rows[-1]
    assert rows[1]["lines"] > 0
    assert f", in 2 parts; {sum(row['lines'] for row in rows)} lines answered, none lost or twice; " in done.stdout
