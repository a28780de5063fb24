# SPDX-License-Identifier: Apache-2.0
"""Where a store stands: FILE.at, beside a store that was left in order or put back, names the line of the journal up to which it has run all lines,
and no more. While a front serves with the store, it names that front as the journal's writer; while a standby has it, it is not there."""
from __future__ import annotations

import contextlib
import json
from dataclasses import asdict, dataclass
from pathlib import Path

from .folders import sync_folder, write_whole
from .records import BadJournal


@dataclass(frozen=True, slots=True)
class Standing:
    """A journal, the last line that the store has run, and the terminals that had variables or locks then: these are in no store. `restored` says that
    the store was put back on purpose. `writers` are in place of the line while a front serves: the journal's last one has to be one of them."""

    journal: int
    number: int | None
    open: tuple[int, ...] = ()
    restored: bool = False
    writers: tuple[int, ...] = ()


def place_of(store: Path) -> Path:
    """The file beside a store."""
    return store.with_name(store.name + ".at")


def read_standing(store: Path) -> Standing | None:
    """Where a store stands, or None if nobody knows. Raises `BadJournal` if the file is not in form."""
    place = place_of(store)
    try:
        found = json.loads(place.read_bytes())
        number = None if found["number"] is None else int(found["number"])
        return Standing(int(found["journal"]), number, tuple(map(int, found["open"])), bool(found["restored"]), tuple(map(int, found["writers"])))
    except FileNotFoundError:
        return None
    except OSError as error:
        raise BadJournal(f"{place}: cannot be read: {error.strerror}") from error
    except (ValueError, KeyError, TypeError) as error:
        raise BadJournal(f"{place}: does not say where the store stands: {error}") from error


def write_standing(store: Path, standing: Standing) -> None:
    """Notes where a store stands; it is on the disk once this returns."""
    found = asdict(standing) | {"open": sorted(standing.open)}
    write_whole(place_of(store), json.dumps(found).encode() + b"\n")


def forget_standing(store: Path) -> None:
    """Takes the note away, before the store changes."""
    with contextlib.suppress(FileNotFoundError):
        place_of(store).unlink()
        sync_folder(store.parent)
