# SPDX-License-Identifier: Apache-2.0
"""What a start of the journal says of the store: docs/FORMATS.md has the rule."""
from __future__ import annotations

from dataclasses import dataclass

from .records import StoreAtStart


@dataclass(frozen=True, slots=True)
class Known:
    """What the one who starts knows. `fresh`: the store was made with its server; `readable`: it is in a file of this front's own; `first`: the journal has
    nothing yet; `line`: the store has run all lines up to this one and nothing else, or None; `sent` and `answered`: the last line that was sent, and the
    last one with a reply; `cut`: a line was cut short, out of memory or disk; `covers`: the store's log was begun before the first line without a
    reply was sent."""

    fresh: bool
    readable: bool
    first: bool
    line: int | None
    sent: int
    answered: int
    cut: bool
    covers: bool


def held(known: Known) -> tuple[StoreAtStart, int]:
    """What the start says, and the line that it names with RUN."""
    if known.fresh:
        return StoreAtStart.ALL, 0
    if not known.readable:
        return StoreAtStart.UNKNOWN, 0
    if known.first or known.cut:
        return StoreAtStart.ALL, 0
    line = known.answered if known.line is None and known.sent == known.answered else known.line
    if line is not None:
        return (StoreAtStart.RUN, line) if line >= known.answered else (StoreAtStart.ALL, 0)
    return (StoreAtStart.CHANGED, 0) if known.covers else (StoreAtStart.ALL, 0)
