# SPDX-License-Identifier: Apache-2.0
"""What one account can take: its quotas of rows, memory, the journal and the audit log, and what the units bound; and an audit log that is full."""
from __future__ import annotations

import asyncio
import json
import os
import signal
import time
from pathlib import Path

import aiohttp
import pytest
from front import PASSWORD, Front, Patience, Person, in_loop, small_disk, toml, until
from mserve_front import quotas as quotas_module
from mserve_front.quotas import AUDIT, HOUR, JOURNAL, PAUSE, Day, Memory, Quotas
from mserve_front.sessions import OFTEN
from mserve_front.settings import Limits
from test_programs import Program, new_token, posted

# A line that fills some 20 MB of variables, and one that stores a hundred rows of several pages each: the store's log is copied after a thousand.
VARIABLES, ROWS = 'F I=1:1:5000 S N=$G(N)+1,A(N)=$J("",4000)', 'F I=1:1:100 S N=$G(N)+1,^H(N)=$J("",4000)'
# As LimitAS and LimitFSIZE of the units, and less.
MEMORY, FILE = 1_500_000_000, 20_000_000


async def fills(person: Person, line: str, pause: float = 0.1) -> dict[str, object]:
    """Sends a line again and again, until its account is over a quota, and gives the reply that says so. What is taken is looked at once a second."""
    found: list[dict[str, object]] = []

    async def is_over() -> bool:
        found.append(await person.line(line))
        return "quota" in found[-1]
    await until(is_over, "an account that is over its quota", pause)
    return found[-1]


async def others_go_on(slow: Person, other: Person, most: int = 1 << 30) -> None:
    """One line a second of an account that is over its quota, and any number of another one's, up to what is given: no reply says that it is slowed."""
    async def lines() -> float:
        began = time.monotonic()
        for _ in range(4):
            assert "quota" in await slow.line("W 1")
        return time.monotonic() - began
    slowed, waits = asyncio.create_task(lines()), []
    while len(waits) < most and (len(waits) < 9 or not slowed.done()):
        began = time.monotonic()
        assert await other.line(f"W {len(waits)}") == {"output": [], "rest": str(len(waits)), "code": None}
        waits.append(time.monotonic() - began)
    assert await slowed > 2.5 * PAUSE and min(waits) < PAUSE / 2 and not other.events


@pytest.mark.long
@in_loop()
async def test_an_account_over_its_quota_of_rows_is_slowed_and_told(start) -> None:
    """By each way in; another account is not met by it. With fewer rows it goes on as before."""
    front: Front = start(store="store", limits={"rows": 150})
    token = await new_token(front, "ben")
    async with front.person("ada") as ada, front.person("cleo") as cleo, Program(front, f"ben {PASSWORD}") as ben:
        assert " rows of 150): it has one line a second" in (await fills(ada, ROWS))["quota"]
        await until(lambda: ada.events, "the event")
        [event] = ada.events
        assert event["event"] == "quota" and event["over"]["rows"]["used"] > event["over"]["rows"]["most"] == 150 and "rows" in event["why"]
        assert (await ben.next())["event"] == "quota" and "quota" in await ben.line("W 1")
        async with front.person().http as http:
            assert "quota" in (await posted(http, token, "W 1"))[1]
        await others_go_on(ada, cleo)
        async with cleo.http.get("/metrics") as response:
            assert 'mfront_account_over_quota{account="CLINIC",what="rows"} 1\n' in await response.text()
        await ada.line("K ^H")

        async def is_free() -> bool:
            # Rows are counted in the store's file, into which the log is copied after some hundred writes, of any account.
            await cleo.line('F I=1:1:100 S ^J(I)=$J("",4000)')
            return "quota" not in await ada.line("W 1")
        await until(is_free, "an account within its quota")
        assert ada.events[1:] == [{"event": "quota", "over": {}}]
    assert [(one["account"], list(one["over"])) for one in front.audit() if one["event"] == "quota"] == [("CLINIC", ["rows"]), ("CLINIC", [])]


@in_loop()
async def test_an_account_over_its_quota_of_memory_is_slowed_until_its_sessions_end(start) -> None:
    front: Front = start(limits={"memory": 100_000_000})
    async with front.person("cleo") as cleo:
        async with front.person("ada") as ada:
            assert " bytes of memory of 100,000,000)" in (await fills(ada, VARIABLES))["quota"]
            await others_go_on(ada, cleo)
        async with front.person("ada") as ada:
            async def is_free() -> bool:
                return "quota" not in await ada.line("W 1")
            await until(is_free, "an account whose variables are gone")


@in_loop()
async def test_an_account_over_its_quota_of_the_journal_is_slowed(start) -> None:
    """It fills the disk that all need no faster than by a line a second. A reload gives it more."""
    front: Front = start(store="store", journal={"folder": "journal"}, limits={"journal": 5000})
    async with front.person("ada") as ada, front.person("cleo") as cleo:
        assert " bytes of the journal in 24 hours of 5,000): it has one line a second" in (await fills(ada, "S ^X=1"))["quota"]
        # They take some sixty bytes each: with ninety of them the other account would be over its quota too.
        await others_go_on(ada, cleo, 30)
        async with cleo.http.get("/metrics") as response:
            assert 'mfront_account_over_quota{account="CLINIC",what="journal"} 1\n' in await response.text()
        await reloads(front, {"limits": {"journal": 10 ** 12}}, "reloaded: limits")

        async def is_free() -> bool:
            return "quota" not in await ada.line("W 1")
        await until(is_free, "an account within its quota")
        assert [list(event["over"]) for event in ada.events] == [["journal"], []]


@in_loop()
async def test_an_account_over_its_quota_of_the_audit_log_is_slowed(start) -> None:
    """It fills the disk that all sign-ons need no faster than by a line a second, also with texts in the log. A reload gives it more."""
    front: Front = start(audit={"texts": True}, limits={"audit": 5000})
    async with front.person("ada") as ada, front.person("cleo") as cleo:
        # Its text is in the log, so the other account's lines are shorter than the quota by far.
        assert " bytes of the audit log in 24 hours of 5,000): it has one line a second" in (await fills(ada, f"S X=1 ;{'x' * 200}"))["quota"]
        await others_go_on(ada, cleo, 10)
        async with cleo.http.get("/metrics") as response:
            assert 'mfront_account_over_quota{account="CLINIC",what="audit"} 1\n' in await response.text()
        await reloads(front, {"limits": {"audit": 10 ** 12}}, "reloaded: limits")

        async def is_free() -> bool:
            return "quota" not in await ada.line("W 1")
        await until(is_free, "an account within its quota")
        assert [list(event["over"]) for event in ada.events] == [["audit"], []]


@pytest.mark.parametrize("what", [JOURNAL, AUDIT])
@in_loop()
async def test_users_of_an_account_that_fills_a_disk_sign_on_once_a_second(start, what: str) -> None:
    """By each way in: a sign-on takes of the journal and of the audit log too. Each user has their own turns, and other accounts go on."""
    front: Front = start(**({"store": "store", "journal": {"folder": "journal"}} if what == JOURNAL else {}), limits={what: 5000})
    token = await new_token(front, "ben")
    async with front.person("ada") as ada, front.person("cleo") as cleo:
        await fills(ada, "S X=1")
        began, good, answers = time.monotonic(), 0, []
        while time.monotonic() - began < 2.5 * PAUSE or good < 2:
            assert time.monotonic() - began < Patience.seconds, "a user who signs on"
            # At once: however busy the machine is, some come within a second.
            answers += await asyncio.gather(*(signs_on_as(front, "ben", token) for _ in range(4)))
            good = [answer[0] for answer in answers].count(200)
        assert good <= (time.monotonic() - began) / PAUSE + 1
        refused = [answer for answer in answers if answer[0] != 200]
        assert refused and set(map(str, refused)) == {str((429, {"error": f"{OFTEN}: wait 1 seconds"}, "1"))}
        assert OFTEN in "".join(await asyncio.gather(*(refusal_of_lines(front, f"ben {token}") for _ in range(3))))
        async with front.person().http as http:
            headers = {"Authorization": f"Bearer {token}", "Origin": front.origin}
            assert 429 in await asyncio.gather(*(joined(http, headers) for _ in range(3)))
        # Another user of the account, and one of another account.
        for name in ("ada", "cleo", "cleo", "cleo"):
            assert (await signs_on_as(front, name, PASSWORD))[0] == 200
        assert await cleo.told("W 1") == "1"


async def signs_on_as(front: Front, name: str, secret: str) -> tuple[int, dict[str, object], str | None]:
    """The status of a sign-on by a client of its own, its record and when to come again; it signs off at once."""
    async with front.person(name).http as http:
        async with http.post("/signon", json={"user": name, "password": secret}) as response:
            found = response.status, await response.json(), response.headers.get("Retry-After")
        if found[0] == 200:
            async with http.post("/signoff"):
                pass
        return found


async def refusal_of_lines(front: Front, first: str) -> str:
    """Why a program at the line port is refused; empty if it is not."""
    async with Program(front, first) as program:
        return str(program.record.get("error", ""))


async def joined(http: aiohttp.ClientSession, headers: dict[str, str]) -> int:
    """The status of a program's WebSocket by a token."""
    try:
        async with http.ws_connect("/ws", headers=headers):
            return 101
    except aiohttp.WSServerHandshakeError as error:
        return error.status


def test_what_is_a_day_old_does_not_count(monkeypatch: pytest.MonkeyPatch) -> None:
    now = [1000.0]
    monkeypatch.setattr(quotas_module.time, "monotonic", lambda: now[0])
    day = Day()
    for hour in range(30):
        day.look()
        day.add("A", 1 << hour)
        now[0] += HOUR
    # That of the hour that began now, and of the 23 before it.
    day.look()
    assert day.taken == {"A": sum(1 << hour for hour in range(7, 30))}
    now[0] += 23 * HOUR
    day.look()
    assert not day.taken["A"] and len(day._hours) == 24


@in_loop()
async def test_limits_are_raised_while_users_work(start) -> None:
    """By a reload: who is signed on stays so and keeps variables, and hears that the account is within its quota. What else has changed in the settings is
    named. Settings that are wrong leave the limits as they were, and the audit log is opened again all the same."""
    front: Front = start(limits={"memory": 100_000_000})
    async with front.person("ada") as ada:
        assert " bytes of memory of 100,000,000)" in (await fills(ada, VARIABLES))["quota"]
        (front.folder / "audit.log").rename(front.folder / "audit.old")
        await reloads(front, {"limits": {"memory": -1}}, "not reloaded: limits: ", "limits.memory: is to be a whole number")
        assert (front.folder / "audit.log").exists() and "quota" in await ada.line("W 1")
        await reloads(front, {"limits": {"memory": 10 ** 12, "reply": 5000}, "metrics": {"from": []}}, "reloaded: limits",
                      "limits.reply, metrics.from: this counts from the next start of the front")

        async def is_free() -> bool:
            return "quota" not in await ada.line("W 1")
        await until(is_free, "an account within its quota")
        assert ada.events[1:] == [{"event": "quota", "over": {}}] and await ada.told("W $D(A(1))") == "1"


async def reloads(front: Front, tables: dict[str, dict[str, object]], *told: str) -> None:
    """Gives a front other tables in its settings, and has it read them; it tells these texts."""
    (front.folder / "front.toml").write_text(toml(front.tables | tables))
    front.process.send_signal(signal.SIGHUP)
    for text in told:
        await asyncio.to_thread(front.hears, text)


def test_memory_is_charged_to_who_had_the_server() -> None:
    """What came while several accounts had it is charged to nobody, and neither is what was there before."""
    used, size = {"A": (0, 0.0), "B": (0, 0.0)}, [500]
    memory = Memory(lambda: dict(used), lambda: size[0])

    def ran(seconds: dict[str, float], now: int) -> dict[str, int]:
        for account, more in seconds.items():
            used[account] = (used[account][0] + 1, used[account][1] + more)
        size[0] = now
        memory.look()
        return dict(memory.grown)
    assert ran({"A": 1.0}, 700) == {}, "the first look"
    assert ran({"A": 1.0, "B": 0.05}, 800) == {"A": 100}
    assert ran({"A": 1.0, "B": 0.5}, 900) == {"A": 100}
    assert ran({"B": 1.0}, 850) == {"A": 100}
    assert ran({"B": 0.01}, 860) == {"A": 100, "B": 10}
    assert ran({}, 900) == {"A": 100, "B": 10}
    # What came while no line was answered is of the one that was on its way.
    assert ran({"B": 3.0}, 910) == {"A": 100, "B": 60}
    memory.keep(["B"])
    assert memory.grown == {"B": 60}


@in_loop()
async def test_who_waits_for_a_turn_goes_on_once_the_account_is_within_its_quota() -> None:
    """Also at a stop: thousands of lines may wait, which would take hours."""
    for ends in (lambda quotas: quotas.memory.keep([]) or quotas.look(), Quotas.end):
        told: list[tuple[str, bool]] = []
        memory = Memory(dict, lambda: 0)
        quotas = Quotas(Limits(rows=10, memory=100), memory, dict, lambda account, over: told.append((account, bool(over))))
        memory.grown["A"] = 101
        quotas.look()
        quotas.look()
        assert told == [("A", True)]
        waiting = [asyncio.create_task(quotas.turn("A")) for _ in range(3000)]
        await asyncio.sleep(0)
        ends(quotas)
        await asyncio.gather(*waiting)


@in_loop()
async def test_a_line_that_fills_the_memory_is_answered_zmem_and_others_go_on(start) -> None:
    """Its variables are gone; the front and the server stay."""
    # Who reads nothing while another one's line takes long answers no ping.
    front: Front = start(before=["prlimit", f"--as={MEMORY}"], limits={"memory": 4 * MEMORY, "heartbeat": 600})
    child = front.child
    async with front.person("ada") as ada, front.person("cleo") as cleo:
        assert await cleo.told("S A=7") == ""
        codes = [await ada.told('F I=1:1 S N=$G(N)+1,A(N)=$J("",4000)')]
        while codes[-1] == "ZSTEPS" and len(codes) < 8:
            codes.append(await ada.told('F I=1:1 S N=$G(N)+1,A(N)=$J("",4000)'))
        assert codes[-1] == "ZMEM", codes
        assert await cleo.told("W A") == "7" and await ada.told("W $D(A)") == "0"
        assert front.child == child and not cleo.events and not ada.events


@in_loop()
async def test_a_store_that_is_as_long_as_files_may_be_answers_zstore_and_is_read_on(start) -> None:
    front: Front = start(before=["prlimit", f"--fsize={FILE}"], store="store")
    child = front.child
    async with front.person("ada") as ada, front.person("cleo") as cleo:
        assert await cleo.told("S ^X=7") == ""
        code = ""
        for _ in range(40):
            code = await ada.told('F I=1:1:500 S N=$G(N)+1,^H(N)=$J("",4000)')
            # Who reads nothing for long answers no ping.
            assert await cleo.told("W 1") == "1"
            if code:
                break
        assert code == "ZSTORE"
        assert await cleo.told("W ^X") == "7" and front.child == child
        assert all(path.stat().st_size <= FILE for path in front.folder.iterdir() if path.is_file())


@in_loop()
async def test_no_line_goes_on_while_the_audit_log_is_full(certificate: tuple[Path, Path], tmp_path: Path) -> None:
    """Nobody signs on, and lines are refused with a word of its own. What had happened before is noted once there is room, so nothing goes unnoted."""
    folder = tmp_path / "front"
    folder.mkdir()
    small = folder / "log"
    small.mkdir()
    front = Front(folder, certificate, before=small_disk(small, "64k"), audit={"file": "log/audit.log"})
    try:
        # A disk that only the front sees: it is filled and emptied by way of its process.
        seen = Path(f"/proc/{front.process.pid}/root{small}")
        async with front.person("ada") as ada:
            assert (await ada.line("W 1"))["rest"] == "1"
            with pytest.raises(OSError):
                (seen / "filling").write_bytes(b"x" * 1_000_000)
            while "refused" not in (record := await ada.line("S ^N=$G(^N)+1")):
                pass
            assert record["refused"] == "audit" and "audit" in record["why"]
            assert "the audit log cannot be written" in front.told()
            assert (await front.person("cleo").sign_on())[0] == 503
            (seen / "filling").unlink()
            front.hears("the audit log is written again")

            async def goes_on() -> bool:
                return "refused" not in (await ada.line("W 2"))
            await until(goes_on, "room for the audit log")
            count = int(await ada.told("W ^N"))
        records = [json.loads(line) for line in (seen / "audit.log").read_text().splitlines()]
        lines = [record for record in records if record["event"] == "line" and record["user"] == "ada"]
        # The first, each that counted, the one when it went on, and the one that read the count.
        assert len(lines) == 1 + count + 1 + 1
    finally:
        await asyncio.to_thread(front.stop)


def test_the_units_bound_memory_and_files() -> None:
    for unit in ("mfront", "mgate"):
        text = (Path(__file__).resolve().parent.parent.parent / "packaging" / f"{unit}.service").read_text()
        keys = dict(line.split("=", 1) for line in text.splitlines() if "=" in line and line[0] not in "#[")
        assert {"LimitAS", "MemoryMax", "LimitFSIZE"} <= keys.keys() and keys["OOMPolicy"] == "continue" and keys["LimitCORE"] == "0"


@in_loop()
async def test_rows_are_counted_once_for_each_time_that_the_store_is_written(tmp_path: Path, monkeypatch: pytest.MonkeyPatch) -> None:
    """Also if they cannot be: a front that has nothing to do looks at the file's time, and opens nothing."""
    store, counted, lines, found = tmp_path / "store", [], {"A": (1, 0.1)}, [None]

    def rows_of(store: Path, account: str) -> int | None:
        counted.append(account)
        return found[0]

    def written(ago: float) -> None:
        store.write_text("x")
        os.utime(store, (time.time() - ago,) * 2)
    monkeypatch.setattr(quotas_module, "rows_of", rows_of)
    quotas = Quotas(Limits(rows=10, memory=100), Memory(dict, lambda: 0), lambda: lines, lambda account, over: None)

    async def counts() -> list[str]:
        counted.clear()
        quotas._due = 0.0
        await quotas.count(store)
        return list(counted)
    written(60)
    assert (await counts(), await counts()) == (["A"], [])
    # Nothing came, and the file is another: what could not be counted is tried again, and what was counted is not.
    written(50)
    found[0] = 7
    assert (await counts(), await counts(), quotas.rows) == (["A"], [], {"A": 7})
    written(40)
    assert await counts() == []
    lines = {"A": (2, 0.1), "B": (1, 0.1)}
    assert (await counts(), await counts()) == (["A", "B"], [])
    # A file that was just written may be written again within the same moment.
    written(0)
    lines = {"A": (3, 0.1), "B": (1, 0.1)}
    assert await counts() == ["A"]
    lines = {"A": (4, 0.1), "B": (1, 0.1)}
    assert await counts() == ["A"]
