# SPDX-License-Identifier: Apache-2.0
"""The library of examples/: routines of one account that two clinics have run. Its session is answered as replies.txt has it, by the second interpreter
and by the program over a store in memory and over one in a file; each account is shown the same by `--only` and alone with those that reach it.

As a loader does, tabs become spaces. That the files load is tested in clients/tests/test_library.py."""
from __future__ import annotations

from datetime import date
from pathlib import Path

import pytest
from drawn_forms import quoted
from running import TOP, run
from second_interpreter.world import LONGEST_LINE, World, deep
from support import accounts_of, content, grants_of, reaching, shown_to

LIBRARY = Path(TOP, "examples", "library")
SETTINGS = str(LIBRARY / "settings.toml")
REPLIES = content(str(LIBRARY / "replies.txt"))
SESSION = content(str(LIBRARY / "session.txt")).splitlines(True)
ACCOUNTS = accounts_of(SETTINGS)


def stored(account: str) -> list[bytes]:
    """The lines that store an account's routines, at its first terminal."""
    found = []
    for path in sorted((LIBRARY / "routines" / account).glob("*.m")):
        for number, text in enumerate(path.read_text(encoding="ascii").splitlines(), 1):
            found.append(f"{ACCOUNTS[account][0]} S ^ROUTINE({quoted(path.stem)},{number})={quoted(text.expandtabs(1))}\n".encode("ascii"))
    return found


STORED = [line for account in ACCOUNTS for line in stored(account)]


def silent(lines: list[bytes]) -> bytes:
    """The replies to lines that write nothing and fail nowhere."""
    return b"".join(line.split()[0] + b".\n" for line in lines)


def of(account_names: set[str], lines: list[bytes]) -> list[bytes]:
    """The lines of some accounts."""
    terminals = {terminal for name in account_names for terminal in ACCOUNTS[name]}
    return [line for line in lines if int(line.split()[0]) in terminals]


def by_second_interpreter(lines: list[bytes]) -> bytes:
    """Its replies to lines."""
    return deep(lambda: World(content(SETTINGS).decode("ascii")).replies(b"".join(lines)))


def test_second_interpreter_answers_as_shipped() -> None:
    assert by_second_interpreter(STORED + SESSION) == silent(STORED) + REPLIES


def test_over_memory() -> None:
    assert run(b"".join(STORED + SESSION), SETTINGS) == (0, silent(STORED) + REPLIES, b"")


def test_over_a_file(store: str) -> None:
    """Its routines are stored in one run, as by a loader, and the session is another."""
    assert run(b"".join(STORED), SETTINGS, store) == (0, silent(STORED), b"")
    assert run(b"".join(SESSION), SETTINGS, store) == (0, REPLIES, b"")


@pytest.mark.parametrize("account", ACCOUNTS)
def test_each_account_alone_with_those_that_reach_it(account: str) -> None:
    """The library with nobody, each clinic with the library: what it is answered is what it is answered among all."""
    members = reaching(account, grants_of(SETTINGS))
    assert members == {account} | ({"LIB"} if account != "LIB" else set())
    lines = STORED + SESSION
    shown = shown_to(silent(STORED) + REPLIES, ACCOUNTS[account])
    assert shown_to(by_second_interpreter(of(members, lines)), ACCOUNTS[account]) == shown
    assert run(b"".join(lines), SETTINGS, only=account) == (0, shown, b"")
    assert shown_to(run(b"".join(of(members, lines)), SETTINGS)[1], ACCOUNTS[account]) == shown


def test_days_and_dates_are_the_calendars() -> None:
    """Some days of two centuries, by Python's calendar: their numbers, their dates again, and their names."""
    days = [1, 58, 59, 60, 365, 366, 7305, 21608, 21609, 43889, 58073, 58074, 58132, 58439, 67904, 84675]
    dates = [date.fromordinal(date(1840, 12, 31).toordinal() + day) for day in days]
    lines = [f'2 D DATE^|"LIB"|LDATE({day},.A),DAY^|"LIB"|LDATE(A,.B),WEEKDAY^|"LIB"|LDATE(A,.C) W A," ",B," ",C\n'.encode() for day in days]
    wanted = "".join(f"2-{one:%Y%m%d} {day} {one:%a}\n2.\n" for day, one in zip(days, dates, strict=True))
    assert by_second_interpreter(stored("LIB") + lines) == silent(stored("LIB")) + wanted.encode()


def test_lines_fit_on_the_wire() -> None:
    assert max(map(len, STORED + SESSION)) <= LONGEST_LINE
