# SPDX-License-Identifier: Apache-2.0
"""What a standby says of itself beside the journal that it follows, and what its leader makes of that: how far it lags, and whether it is heard of.

It is a line of text (docs/FORMATS.md): in a file of the journal's folder, or as the name of its connection to the database. It changes each time that it is
said, so that one who says nothing any more is found by that."""
from __future__ import annotations

import socket
import time
import zlib
from collections import deque
from collections.abc import Iterable
from dataclasses import dataclass, field
from pathlib import Path

from .metrics import family

# Seconds between two times that a standby says where it is, and between two looks of its leader: at files, and at a database, which takes a connection.
SAYS, LOOK, SELDOM = 1.0, 2.0, 15.0
# Seconds after which one that says nothing any more is no standby of this journal any more.
FORGOTTEN = 86_400.0
# How many looks are kept: by them it is known when a line had its reply. They are ten minutes, and of a database an hour and more.
LOOKS = 300
# What the text begins with, and how many characters of a machine's name it has: a database keeps 63.
WORD, HOST = "standby", 12


def name_of(store: str | None, config: Path) -> str:
    """The name of a standby: its machine, and what tells those of one machine apart."""
    host = "".join(one if one.isascii() and one.isalnum() or one in "-_" else "_" for one in socket.gethostname())
    return f"{host[:HOST]}-{zlib.crc32(f'{config} {store}'.encode()):08x}"


@dataclass(frozen=True, slots=True)
class Said:
    """What a standby says: who it is, the last line that its store has run, whether something keeps it from going on, and how often it has said so."""

    name: str
    line: int
    waits: bool
    count: int

    def text(self) -> str:
        """The text."""
        return f"{WORD} {self.name} {self.line} {int(self.waits)} {self.count % 1000}"


def said_in(text: str) -> Said | None:
    """What a text says; None if it is none of a standby."""
    words = text.split()
    if len(words) != 5 or words[0] != WORD or not all(word.isascii() and word.isdigit() for word in words[2:]):
        return None
    return Said(words[1], int(words[2]), words[3] != "0", int(words[4]))


@dataclass(slots=True)
class Standby:
    """A standby as its leader knows it: what it said last, and when that was heard."""

    said: Said
    heard: float = field(default_factory=time.monotonic)


@dataclass(frozen=True, slots=True)
class Behind:
    """How far a standby lags, in lines and in seconds; for how long it has said nothing; and whether it cannot go on."""

    name: str
    line: int
    lines: int
    seconds: float
    silent: float
    waits: bool


class Standbys:
    """The standbys of a leader."""

    def __init__(self) -> None:
        self._known: dict[str, Standby] = {}
        # When it was looked, and the last line that had a reply then.
        self._looks: deque[tuple[float, int]] = deque(maxlen=LOOKS)

    def take(self, texts: Iterable[str], answered: int, have_left: bool) -> None:
        """Takes what is said by now, while this is the last line with a reply. `have_left`: those of whom there is no word have left in order."""
        now = time.monotonic()
        self._looks.append((now, answered))
        found = {said.name: said for said in map(said_in, texts) if said is not None}
        for name, said in found.items():
            if name not in self._known or self._known[name].said != said:
                self._known[name] = Standby(said, now)
        self._known = {name: one for name, one in self._known.items() if now - one.heard < FORGOTTEN and (name in found or not have_left)}

    def behind(self, answered: int) -> list[Behind]:
        """How far each lags the last line with a reply."""
        now = time.monotonic()
        return [Behind(name, one.said.line, max(0, answered - one.said.line), self._since(one.said.line, now), now - one.heard, one.said.waits)
                for name, one in sorted(self._known.items())]

    def _since(self, line: int, now: float) -> float:
        """The seconds for which a later line has had its reply, as far as that was seen."""
        return next((now - when for when, answered in self._looks if answered > line), 0.0)


def figures_of(found: list[Behind]) -> list[str]:
    """Figures of standbys, by their names."""
    def each(name: str, about: str, values: Iterable[float]) -> list[str]:
        return family(name, "gauge", about, {f'standby="{one.name}"': value for one, value in zip(found, values, strict=True)})
    return [*family("mfront_standbys", "gauge", "Standbys that follow this journal, as far as this front has heard of them.", {"": len(found)}),
            *each("mfront_standbys_behind_lines", "Lines with a reply that a standby has not run, by what it said last.", (one.lines for one in found)),
            *each("mfront_standbys_behind_seconds", "For how long such a line has had its reply.", (round(one.seconds, 1) for one in found)),
            *each("mfront_standbys_silent_seconds", "For how long a standby has said nothing.", (round(one.silent, 1) for one in found)),
            *each("mfront_standbys_waiting", "1 if a standby cannot go on, and waits.", (int(one.waits) for one in found))]


def most_of(found: list[Behind]) -> dict[str, float]:
    """The worst of each figure, for alarms."""
    if not found:
        return {}
    return {"mfront_standbys_behind_lines": max(one.lines for one in found), "mfront_standbys_behind_seconds": round(max(one.seconds for one in found), 1),
            "mfront_standbys_silent_seconds": round(max(one.silent for one in found), 1), "mfront_standbys_waiting": sum(one.waits for one in found)}
