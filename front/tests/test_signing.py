# SPDX-License-Identifier: Apache-2.0
"""Whose password is computed when, and who waits after wrong ones: without a front, so that it is no matter of the machine's speed."""
from __future__ import annotations

import asyncio
import threading
from collections.abc import Iterator
from pathlib import Path
from types import SimpleNamespace

import pytest
from front import PASSWORD, in_loop, write_users
from mserve_front import slowdown
from mserve_front.audit import Audit
from mserve_front.metrics import Metrics
from mserve_front.signing import COMPUTING, NAME_FREE, PAIR_FREE, Attempt, Signing, Slowed, Wrong
from mserve_front.users import Register, User

OWN, OTHER = "198.51.100.7", "203.0.113.9"


@pytest.fixture
def signing(tmp_path: Path, monkeypatch: pytest.MonkeyPatch) -> Iterator[Signing]:
    """What finds two users. For pauses no time goes by."""
    monkeypatch.setattr(slowdown, "time", SimpleNamespace(monotonic=lambda: 1000.0))
    write_users(tmp_path / "users.json", {"ada": "CLINIC", "cleo": "LAB"})
    made = Signing(Register(tmp_path / "users.json"), Audit(None, Metrics()), Metrics())
    yield made
    made.close()


async def wrong_tries(signing: Signing, name: str, count: int) -> None:
    """Tries wrong passwords of a name from many addresses, as often as each may without a pause."""
    for number in range(count):
        with pytest.raises(Wrong):
            await signing.by_password(name, "wrong", f"192.0.2.{number // PAIR_FREE}")


@in_loop()
async def test_wrong_tries_from_elsewhere_slow_nobody(signing: Signing) -> None:
    """After fifty of them a name waits where it is not known; where its user has signed on before it does not."""
    await wrong_tries(signing, "cleo", NAME_FREE - 1)
    assert (await signing.by_password("cleo", PASSWORD, OWN))[0].account == "LAB"
    await wrong_tries(signing, "ada", NAME_FREE + 1)
    with pytest.raises(Slowed):
        await signing.by_password("ada", PASSWORD, OTHER)
    for address in ("192.0.3.1", "192.0.3.2"):
        with pytest.raises(Wrong):
            await signing.by_password("cleo", "wrong", address)
    with pytest.raises(Slowed):
        await signing.by_password("cleo", PASSWORD, OTHER)
    assert (await signing.by_password("cleo", PASSWORD, OWN))[0].account == "LAB"


@in_loop()
async def test_a_name_that_fails_at_an_address_waits_there(signing: Signing) -> None:
    for _ in range(PAIR_FREE + 1):
        with pytest.raises(Wrong):
            await signing.by_password("cleo", "wrong", OWN)
    with pytest.raises(Slowed):
        await signing.by_password("cleo", PASSWORD, OWN)
    assert (await signing.by_password("ada", PASSWORD, OWN))[0].account == "CLINIC"


@in_loop()
async def test_addresses_take_turns_and_within_one_the_names(signing: Signing, monkeypatch: pytest.MonkeyPatch) -> None:
    """Who comes after many of another address waits for those that are being computed, and for one more."""
    order: list[str] = []
    all_wait, chosen = threading.Event(), signing._next

    def computed(name: str, password: str) -> User | None:
        all_wait.wait(60)
        return None

    def noted() -> Attempt | None:
        if (found := chosen()) is not None:
            order.append(found.name)
        return found
    monkeypatch.setattr(signing._register, "by_password", computed)
    monkeypatch.setattr(signing, "_next", noted)

    async def tried(name: str, address: str) -> None:
        with pytest.raises(Wrong):
            await signing.by_password(name, PASSWORD, address)
    names = [(f"user{number // 3}", OTHER) for number in range(12)] + [(name, OWN) for name in ("cleo", "cleo", "ada")]
    tries = [asyncio.create_task(tried(*one)) for one in names]
    while sum(map(len, signing._lines.values())) < len(names) - COMPUTING:
        await asyncio.sleep(0)
    all_wait.set()
    await asyncio.gather(*tries)
    assert order[:9] == ["user0", "user0", "user0", "cleo", "user1", "ada", "user2", "cleo", "user3"] and len(order) == len(names)
