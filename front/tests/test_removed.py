# SPDX-License-Identifier: Apache-2.0
"""A user who is removed, or has another password, is gone: also one who signs on all the time."""
from __future__ import annotations

import asyncio
import subprocess
from types import SimpleNamespace

import aiohttp
import pytest
from front import COMMAND, Front, in_loop, until, write_users
from mserve_front.audit import Audit
from mserve_front.metrics import Metrics
from mserve_front.server import Server
from mserve_front.sessions import PAGE, Over, Sessions
from mserve_front.settings import read_settings
from mserve_front.signing import Wrong
from mserve_front.users import Register, load
from test_programs import Program, new_token


def sessions_of(folder) -> tuple[Sessions, Register]:
    """The sessions of a service whose server is up and answers nothing, and its users."""
    write_users(folder / "users.json", {"ada": "ONE"})
    (folder / "settings.toml").write_text('[[account]]\nname = "ONE"\nterminals = [1, 2]\nsteps = 1000\n')
    (folder / "front.toml").write_text('[server]\nsettings = "settings.toml"\nstore = "memory"\n[users]\nfile = "users.json"\n')
    settings, metrics, register = read_settings(folder / "front.toml", True), Metrics(), Register(folder / "users.json")
    server = Server(settings, metrics)
    server.state = "up"
    made = Sessions(settings, server, metrics, Audit(None, metrics), register)
    return made, register


@in_loop()
async def test_who_was_removed_between_the_password_and_the_session_has_none(tmp_path) -> None:
    """The hash was looked at before the change of the users, and the session is made after it."""
    sessions, register = sessions_of(tmp_path)
    user = register.users["ada"]
    write_users(tmp_path / "users.json", {})
    register.refresh()
    with pytest.raises(Wrong):
        await sessions.sign_on(user, PAGE, "127.0.0.1", user.hash)
    assert not list(sessions)


@in_loop()
async def test_a_connection_does_not_join_or_leave_a_session_that_has_ended(tmp_path) -> None:
    """Its terminal may be somebody else's by then, whose variables HALT would take."""
    sessions, register = sessions_of(tmp_path)
    user = register.users["ada"]
    session = await sessions.sign_on(user, PAGE, "127.0.0.1", user.hash)
    listener, asked = SimpleNamespace(), []

    async def ask(*line: object) -> None:
        asked.append(line)
    sessions.server.ask = ask
    session.clean = False
    sessions.sign_off(session, "signed off")
    await asyncio.sleep(0)
    await asyncio.sleep(0)
    released = len(asked)
    with pytest.raises(Over):
        await sessions.attach(session, listener)
    session.listener = listener
    sessions.detach(session, listener)
    await asyncio.sleep(0)
    await asyncio.sleep(0)
    assert len(asked) == released == 1


@in_loop()
async def test_a_user_who_signs_on_all_the_time_is_gone_once_removed(start) -> None:
    front: Front = start()
    people = [front.person("ada") for _ in range(4)]
    over = asyncio.Event()

    async def again(person) -> None:
        while not over.is_set():
            try:
                status, _ = await person.sign_on()
            except aiohttp.ClientError:
                continue
            if status != 200:
                await asyncio.sleep(0.05)
    tasks = [asyncio.create_task(again(person)) for person in people]
    await asyncio.sleep(1)
    write_users(front.folder / "users.json", {"cleo": "LAB"})

    async def refused() -> bool:
        return (await front.person("ada").sign_on())[0] in (401, 429)
    await until(refused, "the change of the users")
    await asyncio.sleep(1.5)

    async def gone() -> bool:
        ends = []
        for person in people:
            async with person.http.get("/session") as response:
                ends.append(response.status)
        return ends == [401] * 4
    # Who has one is signed off at the next look at the users, and nobody has one afterwards.
    await until(gone, "the end of their sessions")
    await asyncio.sleep(1)
    assert await gone()
    over.set()
    await asyncio.gather(*tasks)
    for person in people:
        await person.http.close()


@in_loop()
async def test_another_password_ends_tokens_and_sessions(start) -> None:
    # Nobody answers a ping while the command runs, which takes as long as the machine lets it.
    front: Front = start(limits={"heartbeat": 600})
    token = await new_token(front, "ada")
    async with front.person("ada") as ada, Program(front, f"ada {token}") as program:
        assert program.record["user"] == "ada"
        done = subprocess.run([*COMMAND, "user", "passwd", "ada", "--config", front.folder / "front.toml"], input="another password\n", text=True,
                              capture_output=True)
        assert done.returncode == 0, done.stderr
        assert await ada.event() == await program.next() == {"event": "signed-off", "why": "removed"}
        assert load(front.folder / "users.json")["ada"].tokens == {}
        async with ada.http.post("/line", json={"line": "W 1"}, headers={"Authorization": f"Bearer {token}"}) as response:
            assert response.status == 401
        assert (await ada.sign_on())[0] == 401
        assert (await ada.sign_on("another password"))[0] == 200
