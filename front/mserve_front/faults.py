# SPDX-License-Identifier: Apache-2.0
"""Why a line has no reply that is handed out, where the journal is the cause; and which causes of a fault that lasts are reported."""
from __future__ import annotations

import re

# What is said of a journal that another front has.
TAKEN = "another front writes this journal"


class NoJournal(Exception):
    """The line was not sent: the journal cannot be written."""


class HeldBack(Exception):
    """The line was run, and its reply was not handed out: it could not be noted in the journal."""


# Causes of one fault that are reported at most: what is another text each time is not to fill the log.
MOST = 8


class Causes:
    """The causes that a fault was reported with, as long as it lasts: each once, however often it is met. Numbers in it may be others each time, as those of
    processes."""

    def __init__(self) -> None:
        self._told: set[str] = set()

    def has(self, error: Exception) -> bool:
        """Whether a cause was reported, or is not to be; it counts as reported from then on."""
        cause = re.sub(r"\d+", "", str(error))
        if cause in self._told or len(self._told) >= MOST:
            return True
        self._told.add(cause)
        return False

    def clear(self) -> None:
        """The fault is no more."""
        self._told.clear()
