# SPDX-License-Identifier: Apache-2.0
"""A front takes other settings of its server while users stay signed on: a new customer ends nobody's session."""
from __future__ import annotations

import asyncio
import re
from pathlib import Path

import pytest
from front import CHEAP, PASSWORD, SETTINGS, Front, Ran, in_loop, mjournal, stopped, tool, until
from mserve_front.users import User, changed
from running import PROGRAM
from test_replay import held
from test_restarts import Counting

NEW = '[[account]]\nname = "NEW"\nterminals = [77]\nsteps = 1000\n'


def with_own_settings(start, folder: Path) -> tuple[Front, Path]:
    """A front with a journal, and the settings of its server, which a test may change."""
    settings = folder / "settings.toml"
    settings.write_text(SETTINGS.read_text())
    return start(tls=False, settings=settings, store="store.db", journal={"folder": "journal"}), settings


def takes(front: Front) -> Ran:
    """Has a front take the settings as they stand."""
    return tool("mfront")("change", "--config", front.folder / "front.toml")


@in_loop()
async def test_a_new_customer_ends_no_session(start, tmp_path: Path) -> None:
    front, settings = with_own_settings(start, tmp_path)
    async with front.person("ada") as ada:
        terminal = ada.record["terminal"]
        assert await ada.told("S ^X=7,A=5 W A") == "5"
        await refused(front, settings)
        assert await ada.told("W A") == "5"
        settings.write_text(SETTINGS.read_text() + NEW)
        with changed(front.folder / "users.json") as users:
            users["nora"] = User("nora", "NEW", CHEAP.hash(PASSWORD))
        status, output, told = await asyncio.to_thread(takes, front)
        assert status == 0, told
        assert re.fullmatch(r"4 accounts; new: NEW; no line was run for [\d.]+ s\n", output)
        # She is signed on as before, hears that her variables are gone, and has what she stored.
        async with ada.http.get("/session") as response:
            assert response.status == 200 and (await response.json())["terminal"] == terminal
        assert await ada.told("W $D(A),^X") == "07"
        assert [event["event"] for event in ada.events] == ["restarted"]
        nora = front.person("nora")
        await until(nora.signs_on, "a user of the new account")
        assert nora.record["account"] == "NEW" and nora.record["terminal"] == 77
        await nora.connect()
        assert await nora.told("F  S N=1") == "ZSTEPS"
        await nora.sign_off()
        await nora.http.close()
    assert [record["new"] for record in front.audit() if record["event"] == "change"] == [["NEW"]]


async def refused(front: Front, settings: Path) -> None:
    """Settings that are none, that the server would not take, and that lack a terminal: the server goes on."""
    good = SETTINGS.read_text()
    for text, wanted in (("account = 1", "account: each is to have a name"), (good.replace("steps = 40", "steps = 0"), "mserve: settings: Steps"),
                         (good.replace("[1, 2, 3]", "[1, 2]"), "CLINIC: terminal 3 is there no more, which takes a restart of the front"),
                         (good.replace('"SHORT"', '"OTHER"'), "SHORT: terminal 9999 is there no more")):
        settings.write_text(text)
        status, _, told = await asyncio.to_thread(takes, front)
        assert status == 3 and wanted in told, told


@in_loop()
async def test_an_account_gets_another_language(start, tmp_path: Path) -> None:
    """From the change on its lines and its routines are read in it; nobody signs on again, and a replay has the store."""
    front, settings = with_own_settings(start, tmp_path)
    async with front.person("ada") as ada, front.person("cleo") as cleo:
        for person in (ada, cleo):
            assert await person.told('S ^ROUTINE("R",1)="T S ^X=$RE(12) W ^X"') == ""
            assert await person.told("D T^R") == "ZSYNTAX"
        settings.write_text(SETTINGS.read_text().replace("[1, 2, 3]\n", "[1, 2, 3]\nlanguage = 1\n"))
        status, _, told = await asyncio.to_thread(takes, front)
        assert status == 0, told
        assert (await ada.told("D T^R"), await cleo.told("D T^R"), await ada.told("W $RE(34)")) == ("21", "ZSYNTAX", "43")
        settings.write_text(SETTINGS.read_text().replace("[1, 2, 3]\n", "[1, 2, 3]\nlanguage = 2\n"))
        status, _, told = await asyncio.to_thread(takes, front)
        assert status == 3 and "mserve: settings: Shape" in told, told
        assert await ada.told("D T^R") == "21"
    assert sum(record["event"] == "sign-on" for record in front.audit()) == 2
    await stopped(front)
    status, _, told = mjournal(front.folder / "journal")("replay", "--program", PROGRAM, "--store", tmp_path / "all")
    assert status == 0, told
    assert held(tmp_path / "all") == held(front.folder / "store.db")


@pytest.mark.long
@in_loop()
async def test_settings_change_while_users_work(start, tmp_path: Path, count: int) -> None:
    """Each time more steps: nothing that was answered is lost, nothing runs twice, and a replay has the store."""
    (front, settings), counting = with_own_settings(start, tmp_path), Counting()
    counting.begin(front)
    for number in range(4 * count):
        answered = counting.answered
        await until(lambda before=answered: counting.answered > before + 5, "users who work")
        settings.write_text(SETTINGS.read_text().replace("steps = 40", f"steps = {400 + number}"))
        status, output, told = await asyncio.to_thread(takes, front)
        assert status == 0, told
        print(output, end="")
    await counting.end()
    await counting.seen_by(front)
    async with front.person("dora") as dora:
        await dora.line("F  S N=$G(N)+1")
        assert int(str(await dora.told("W N"))) > 50
    sign_ons = sum(record["event"] == "sign-on" for record in front.audit())
    # Each user signed on once for the work, once to look, and dora once: no change made anybody sign on again.
    assert sign_ons == 2 * 3 + 1
    await stopped(front)
    status, _, told = mjournal(front.folder / "journal")("replay", "--program", PROGRAM, "--store", tmp_path / "all")
    assert status == 0, told
    assert held(tmp_path / "all") == held(front.folder / "store.db")
