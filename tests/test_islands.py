# SPDX-License-Identifier: Apache-2.0
"""The law of islands over the built program: drawn settings of three to five accounts and drawn lines of all of them, hostile ones among them.

Over a store in memory, an island is answered among all as it is alone, with its own settings and lines. Over a store in a file, settings and
store are split by island in the middle of the lines, by the module under `clients/misland`: each island is answered on as by the whole, whose
sessions end at that moment too; and joined again, the parts have the whole's globals."""
from __future__ import annotations

import sqlite3
import tempfile
from collections import Counter
from pathlib import Path

import pytest
from drawn_settings import REPLY, Case, Line, Setting, for_cases, runs_over, sent_by
from mserve_client import islands, settings_file
from running import IN_MEMORY, run

SETTINGS = 100


def islands_of(setting: Setting) -> list[set[str]]:
    """The islands of settings: accounts are gathered until no grant leads out or in."""
    found: list[set[str]] = []
    for account in setting.accounts:
        island, size = {account}, 0
        while size < len(island):
            size = len(island)
            island |= {end for giver, taker, *_ in setting.grants if {giver, taker} & island for end in (giver, taker)}
        if island not in found:
            found.append(island)
    return found


def at(setting: Setting, members: set[str], answer: list[bytes]) -> list[bytes]:
    """Of an answer, what goes to the terminals of some accounts."""
    own = setting.terminals(members)
    return [line for line in answer if (found := REPLY.match(line)) and int(found[1]) in own]


@pytest.mark.long
def test_an_island_is_answered_as_alone(count: int) -> None:
    seen: Counter[str] = Counter()

    @for_cases(count * SETTINGS)
    def alone(case: Case) -> None:
        setting, lines = case
        with runs_over("memory") as runs:
            answer = runs.answered(setting, lines)
            for island in islands_of(setting):
                own = setting.cut(island)
                assert at(setting, island, answer) == at(own, island, runs.answered(own, sent_by(setting, island, lines)))
                seen.update({"islands": 1, "lines": len(at(setting, island, answer)), "of several": len(island) > 1 and island != set(setting.accounts)})

    alone()
    print(dict(seen))
    assert seen["islands"] >= 1.5 * count * SETTINGS and seen["of several"] >= 0.3 * count * SETTINGS


def rows(store: Path) -> list[tuple[bytes, bytes]]:
    """All rows of a store."""
    base = sqlite3.connect(store)
    found = base.execute("SELECT k, v FROM node ORDER BY k").fetchall()
    base.close()
    return found


def answered(place: Path, lines: list[Line]) -> list[bytes]:
    """What is answered to lines by the settings and over the store of a folder."""
    status, output, told = run(b"".join(line for _, line in lines), str(place / islands.SETTINGS), str(place / islands.STORE))
    assert (status, told) == (0, b"")
    return output.splitlines(True)


@pytest.mark.long
def test_islands_move_to_machines_of_their_own(count: int) -> None:
    seen: Counter[str] = Counter()

    @for_cases(count * SETTINGS)
    def moved(case: Case) -> None:
        setting, lines = case
        with tempfile.TemporaryDirectory(dir=IN_MEMORY) as folder:
            whole, parts = Path(folder) / "whole", Path(folder) / "parts"
            whole.mkdir()
            (whole / islands.SETTINGS).write_text(setting.document(), encoding="ascii")
            middle = len(lines) // 2
            answered(whole, lines[:middle])
            made, strangers = islands.split(islands.Pair(whole / islands.SETTINGS, whole / islands.STORE), parts)
            assert [set(part.settings.names) for part in made] == islands_of(setting) and not strangers
            answer = answered(whole, lines[middle:])
            for part in made:
                island = set(part.settings.names)
                assert at(setting, island, answer) == at(setting, island, answered(parts / part.name, sent_by(setting, island, lines[middle:])))
            islands.join(*islands.pairs_of(parts), Path(folder) / "joined")
            assert rows(Path(folder) / "joined" / islands.STORE) == rows(whole / islands.STORE)
            assert set(settings_file.read(Path(folder) / "joined" / islands.SETTINGS).names) == set(setting.accounts)
            seen.update({"islands": len(made), "rows": len(rows(whole / islands.STORE)), "lines": len(answer)})

    moved()
    print(dict(seen))
    assert seen["islands"] >= 1.5 * count * SETTINGS and seen["rows"] >= 5 * count * SETTINGS
