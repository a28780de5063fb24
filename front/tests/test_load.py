# SPDX-License-Identifier: Apache-2.0
"""The load script in its short form: nothing is lost, and nothing goes to the wrong user."""
from __future__ import annotations

import subprocess
import sys

from front import FRONT


def test_short_load() -> None:
    words = [sys.executable, FRONT / "load.py", "--users", "30", "--rate", "5", "--seconds", "4"]
    done = subprocess.run(words, capture_output=True, text=True, timeout=120)
    assert done.returncode == 0, done.stdout + done.stderr
    assert done.stdout.splitlines()[0] == "30 users, 600 lines: 0 lost, 0 wrong"
