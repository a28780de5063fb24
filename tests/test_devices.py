# SPDX-License-Identifier: Apache-2.0
"""Standard streams that fail of themselves: status 5 and the fault; and lines of terminals that nobody has. tests/test_io.py refuses calls in turn."""
from __future__ import annotations

import os
import subprocess
from pathlib import Path

import pytest
from running import run, run_words
from support import LINE, refused

RUNS = pytest.mark.parametrize("words", [run_words(), run_words(only="ALICE")], ids=["all", "only"])


@RUNS
def test_a_full_output(words: list[str]) -> None:
    with open("/dev/full", "wb") as full:
        ran = subprocess.run(words, input=LINE, stdout=full, stderr=subprocess.PIPE, timeout=60)
    assert (ran.returncode, ran.stderr) == (5, b"mserve: wire: Write\n")


@RUNS
def test_an_input_whose_reads_fail(words: list[str], tmp_path: Path) -> None:
    place = os.open(tmp_path, os.O_RDONLY)
    ran = subprocess.run(words, stdin=place, capture_output=True, timeout=60)
    os.close(place)
    assert (ran.returncode, ran.stdout, ran.stderr) == refused(5, "wire", "Read")


def test_terminals_that_are_not_in_the_settings() -> None:
    lines = b"9 W 1\n2 W 1\n0 W 1\n10000 W 1\nALICE W 1\n1 W 1\n"
    assert run(lines) == (0, b"9!ZTERM\n2!ZTERM\n?!ZWIRE\n?!ZWIRE\n?!ZWIRE\n1-1\n1.\n", b"")
