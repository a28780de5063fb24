# SPDX-License-Identifier: Apache-2.0
"""Where a fault was: what a reply has after its code with `--detail` (wip/names-of-globals.md)."""
from __future__ import annotations

import re

from . import reader
from .decimals import Stop
from .places import Level

LONGEST_NAME, MOST_OUTWARD, LONGEST_REPLY = 60, 8, 800
# A text that a level runs: the terminal's line, or that of an XECUTE.
SENT, RUN = "*", "X"


def escaped(text: str) -> str:
    """A text as output has it."""
    return re.sub(r"[\x00-\x1f\x7f\\]", lambda one: f"\\{ord(one[0]):02X}", text)


def place_of(level: Level, language: int) -> str:
    """The line at which a level is, from the label before it, or counted from 1 as $TEXT counts."""
    if level.text:
        return level.text
    for line in range(level.line, -1, -1):
        label = reader.label_of(level.lines[line], language)
        if label:
            return f"{label}{f'+{level.line - line}' if level.line > line else ''}^{level.routine}"
    return f"+{level.line + 1}^{level.routine}"


def places_of(levels: list[Level], language: int) -> list[str]:
    """The innermost line with the number of its command, if one was reached, and the lines of the levels outwards."""
    first, *outward = [place_of(level, language) for level in reversed(levels)]
    return [first + (f",{levels[-1].command}" if levels[-1].command else ""), *outward]


def detail(front: str, stop: Stop, locks: int) -> str:
    """What follows the code: the place, the name that was undefined, the levels outwards, and how many names the session holds locked.

    Places are left out from the ninth on, and those that would not fit."""
    if not stop.places:
        return ""
    held = f" +{locks}" if locks else ""
    told = f" {stop.places[0]}" + (f" {escaped(stop.name[:LONGEST_NAME])}" if stop.name else "")
    outward = stop.places[1:]
    for number, place in enumerate(outward):
        if number == MOST_OUTWARD or len(front) + len(told) + len(f" < {place} < ..") + len(held) > LONGEST_REPLY:
            return f"{told} < ..{held}"
        told += f" < {place}"
    return told + held
