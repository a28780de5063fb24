# SPDX-License-Identifier: Apache-2.0
"""Isolation through the front: drawn streams of all accounts, their users at once, and each account is answered the same as alone.

Settings, lines and the check of who reaches whom are those of tests/drawn_settings.py and tests/support.py. An account is answered alone what
`mserve run` answers to the lines of the accounts that reach it; so that this can be compared, the users of accounts that reach one another send in the
drawn order, and all others send at the same time as they like. Some accounts have language 0, and some language 1."""
from __future__ import annotations

import asyncio
import random
from pathlib import Path

import pytest
from drawn_settings import Runs, Setting, drawn_lines, drawn_setting, sent_by, told
from front import Front, Person, in_loop
from mserve_client.wire import Reply, ReplyReader
from mserve_front.lines import Line, LineRefused
from support import reaching

SETTINGS = 6
ROUNDS = 3


def groups(settings: Setting) -> list[set[str]]:
    """The accounts, parted so that no grant leads from one part to another."""
    parts: list[set[str]] = []
    for name in settings.accounts:
        joined = {name} | {other for giver, taker, _, _ in settings.grants for other in (giver, taker) if name in (giver, taker)}
        for part in [part for part in parts if part & joined]:
            joined |= part
            parts.remove(part)
        parts.append(joined)
    return parts


def lines_of(rng: random.Random, settings: Setting) -> list[tuple[int, bytes]]:
    """Drawn lines that can be sent, each with its terminal."""
    found = []
    for _ in range(ROUNDS):
        for terminal, data in drawn_lines(rng, settings):
            text = data.partition(b" ")[2].rstrip(b"\r\n")
            if terminal is None or terminal == 99:
                continue
            try:
                found.append((terminal, Line(text).data))
            except LineRefused:
                continue
    return found


def alone(runs: Runs, settings: Setting, account: str, lines: list[tuple[int, bytes]]) -> dict[int, list[dict[str, object]]]:
    """What the terminals of an account are answered if there is nothing but the accounts that reach it."""
    members = reaching(account, settings.grants)
    stream = [(terminal, b"%d %s\n" % (terminal, text)) for terminal, text in lines]
    answer = runs.answered(settings.cut(members), sent_by(settings, members, stream))
    found = {}
    for terminal in settings.terminals({account}):
        own = [line for line in answer if line.startswith((b"%d:" % terminal, b"%d-" % terminal, b"%d." % terminal, b"%d!" % terminal))]
        replies: list[Reply] = ReplyReader(terminal).feed(b"".join(own))
        found[terminal] = [{"output": list(reply.lines), "rest": reply.rest, "code": reply.code} for reply in replies]
    return found


async def signed_on(front: Front, settings: Setting) -> dict[int, Person]:
    """A user at each terminal."""
    people = {}
    for name, account in settings.accounts.items():
        for number in range(len(account.terminals)):
            person = front.person(f"{name}{number}")
            await person.__aenter__()
            assert person.record["account"] == name
            people[person.record["terminal"]] = person
    return people


async def sent(people: dict[int, Person], lines: list[tuple[int, bytes]], shown: dict[int, list[dict[str, object]]]) -> None:
    """Sends lines of one part, in their order, and keeps the records."""
    for terminal, text in lines:
        shown.setdefault(terminal, []).append(await people[terminal].line(text.decode("ascii")))


@pytest.mark.parametrize("number", range(SETTINGS))
@in_loop()
async def test_each_account_is_told_what_it_is_told_alone(start, tmp_path: Path, number: int) -> None:
    rng = random.Random(f"front {number}")
    settings = drawn_setting(rng)
    (tmp_path / "drawn.toml").write_text(settings.document())
    lines = lines_of(rng, settings)
    users = {f"{name}{place}": name for name, account in settings.accounts.items() for place in range(len(account.terminals))}
    store = str(tmp_path / "store.db") if number % 2 else "memory"
    front = start(users=users, settings=tmp_path / "drawn.toml", store=store)
    people = await signed_on(front, settings)
    shown: dict[int, list[dict[str, object]]] = {}
    parts = [settings.terminals(part) for part in groups(settings)]
    runs = Runs("memory", str(tmp_path))
    await asyncio.gather(*(sent(people, [line for line in lines if line[0] in part], shown) for part in parts))
    for account in settings.accounts:
        for terminal, records in alone(runs, settings, account, lines).items():
            assert shown.get(terminal, []) == records, f"setting {number}: {account} at {terminal}"
    for person in people.values():
        assert person.events == []
        await person.__aexit__()


def test_the_streams_would_show_a_leak(tmp_path: Path) -> None:
    """If all accounts had all grants, some would be told otherwise by the same lines."""
    differ, runs = 0, Runs("memory", str(tmp_path))
    for number in range(SETTINGS):
        rng = random.Random(f"front {number}")
        settings = drawn_setting(rng)
        stream = [(terminal, b"%d %s\n" % (terminal, text)) for terminal, text in lines_of(rng, settings)]
        closed, opened = runs.answered(settings, stream), runs.answered(settings.with_all_grants(), stream)
        differ += sum(told(settings, account, closed) != told(settings, account, opened) for account in settings.accounts)
    assert differ > SETTINGS


@in_loop()
async def test_users_of_all_accounts_at_once_meet_only_their_own(start) -> None:
    """Each account's users count together at a global of the same name; nobody's count is another account's."""
    users = {f"c{n}": "CLINIC" for n in range(3)} | {f"l{n}": "LAB" for n in range(2)} | {"s0": "SHORT"}
    front = start(users=users)

    async def work(name: str, account: str) -> list[str]:
        async with front.person(name) as person:
            found = []
            for _ in range(200):
                rest = await person.told(f'S ^N=$G(^N)+1,^A="{account}" W ^N,";",^A')
                count, seen = str(rest).split(";")
                assert seen == account
                found.append(count)
            return found
    counts = await asyncio.gather(*(work(name, account) for name, account in users.items()))
    for account, size in (("CLINIC", 3), ("LAB", 2), ("SHORT", 1)):
        own = [int(count) for name, found in zip(users, counts, strict=True) if users[name] == account for count in found]
        assert sorted(own) == list(range(1, 200 * size + 1))
