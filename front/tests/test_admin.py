# SPDX-License-Identifier: Apache-2.0
"""What operators see: the page at its own socket, and the alarms and pictures that the package has for Prometheus and Grafana."""
from __future__ import annotations

import asyncio
import contextlib
import json
import os
import re
import shutil
import signal
import ssl
import stat
import subprocess
import time
from collections import Counter
from collections.abc import Callable
from pathlib import Path
from typing import Any

import aiohttp
import pytest
from front import FRONT, Front, Patience, at_rest, in_loop, small_disk, until
from mserve_front import certificates, figures, standbys
from mserve_front.admin import ALARMS, alarms_of
from mserve_front.control import asked
from mserve_front.figures import STEPS as BOUNDS
from mserve_front.gate_page import UNANSWERED, together
from mserve_front.journal_file import FileReader
from mserve_front.libraries import FIGURE
from mserve_front.places import last_line
from mserve_front.records import LineRecord, ReplyRecord
from mserve_front.settings import JournalSettings
from mserve_front.standbys import SAYS, Behind, Said
from standing_by import caught_up, leading, promoted, standby

MONITORING = FRONT.parent / "packaging" / "monitoring"
PAGE = (FRONT.parent / "docs" / "OPERATING.md").read_text(encoding="utf-8")
NAMES = re.compile(r"\bmfront_[a-z_]+")


async def told(folder: Path, place: str = "/admin.json", host: str = "localhost:9100") -> aiohttp.ClientResponse:
    """An answer of the operator's page, at the socket of a folder, once somebody listens there."""
    found: list[aiohttp.ClientResponse] = []

    async def asks() -> bool:
        connector = aiohttp.UnixConnector(path=str(folder / "admin.socket"))
        with contextlib.suppress(aiohttp.ClientConnectionError):
            async with aiohttp.ClientSession(connector=connector) as http, http.get(f"http://{host}{place}") as response:
                await response.read()
                found.append(response)
        return bool(found)
    await until(asks, "the operator's page")
    return found[0]


async def shows(folder: Path, holds: Callable[[dict[str, Any]], object], what: str) -> dict[str, Any]:
    """What the operator's page has, once something holds of it."""
    found: dict[str, Any] = {}

    async def asks() -> object:
        found.clear()
        found.update(await (await told(folder)).json())
        return holds(found)
    await until(asks, what)
    return found


@in_loop()
async def test_the_operators_page(start) -> None:
    """Who is signed on, what each account uses, and the page itself; users cannot reach it, and nobody else of the machine."""
    front: Front = start(admin={"socket": "admin.socket"}, journal={"folder": "journal"}, store="store")
    admin = front.folder / "admin.socket"
    await told(front.folder)
    assert stat.S_IMODE(admin.stat().st_mode) == 0o600
    async with front.person("ada") as ada, front.person("cleo"):
        for _ in range(5):
            await ada.line("F I=1:1:1000 S A(I)=I")
        found = await (await told(front.folder)).json()
        assert sorted((one["user"], one["account"], one["way"]) for one in found["users"]) == [("ada", "CLINIC", "page"), ("cleo", "LAB", "page")]
        [clinic] = [one for one in found["accounts"] if one["account"] == "CLINIC"]
        assert clinic["lines"] >= 5 and clinic["seconds"] > 0 and clinic["signed_on"] == 1
        assert found["figures"]["mfront_up"] == 1 and found["figures"]["mfront_journal_up"] == 1
        assert "The server is not up." not in [alarm["what"] for alarm in found["alarms"]]
        for place, kind in (("/", "text/html"), ("/admin.js", "text/javascript"), ("/admin.css", "text/css")):
            response = await told(front.folder, place)
            assert (response.status, response.content_type) == (200, kind) and "default-src 'self'" in response.headers["Content-Security-Policy"]
        for path in ("/admin", "/admin.json", "/admin.js", "/page/admin.js"):
            async with ada.http.get(path) as response:
                assert response.status == 404
    assert await asyncio.to_thread(front.stop) == 0
    assert not admin.exists()


@in_loop()
async def test_each_figure_of_alarms_and_pictures_is_one_that_the_front_has(start, tmp_path) -> None:
    (tmp_path / "backup").mkdir()
    (tmp_path / "backup" / figures.VERIFIED).write_text(json.dumps({"line": 1, "at": 1}))
    front: Front = start(journal={"folder": "journal", "backup": str(tmp_path / "backup")}, store="store")
    async with front.person("ada") as ada:
        await ada.line("W 1")
        async with ada.http.get("/metrics") as response:
            text = await response.text()
    text += figures.of_standby({"state": "standby", "line": 1, "fault": "", "behind": 0, "seconds": 0.0})
    known = set(NAMES.findall(text)) | {"mfront_audit_waiting"}
    rules, board = (MONITORING / "mserve.rules.yml").read_text(), (MONITORING / "mserve-grafana.json").read_text()
    shown = [target["expr"] for panel in json.loads(board)["panels"] for target in panel["targets"]]
    assert len(shown) > 10 and rules.count("- alert:") > 10
    assert rules.count("- alert:") == rules.count("description:") == rules.count("summary:")
    # Each alarm has its row in the table of what to do, those of the pages too.
    runbook = PAGE[PAGE.index("### What to watch"):]
    for rule in re.findall(r'expr: "(.*)"', rules):
        assert any(f"`{name}" in runbook for name in NAMES.findall(rule)), rule
    for alarm in ALARMS:
        assert f"`{alarm.figure}`" in runbook, alarm.figure
    assert f"`ISLAND: {UNANSWERED}`" in runbook
    for name in {*NAMES.findall(rules), *NAMES.findall(" ".join(shown)), *(alarm.figure for alarm in ALARMS if alarm.figure.startswith("mfront"))}:
        assert name in known, name


@in_loop()
async def test_figures_of_each_account(start) -> None:
    """How long its lines wait, so that a percentile can be watched, and what they take of the disk: each byte of the audit log is somebody's, and each of the
    journal but for the heads of its flushes and for starts."""
    front: Front = start(store="store", journal={"folder": "journal"})
    async with front.person("ada") as ada, front.person("ben"), front.person("cleo") as cleo:
        for number in range(20):
            await ada.line(f"S ^X({number})={number}")
        await ada.line("W 1/0")
        await cleo.line("W 1")
        async with ada.http.get("/metrics") as response:
            lines = (await response.text()).splitlines()
        figures = {name: float(value) for name, _, value in (line.rpartition(" ") for line in lines if not line.startswith("#"))}
        noted, kept = Counter[str](), Counter[str]()
        for text in (front.folder / "audit.log").read_text().splitlines(keepends=True):
            noted[json.loads(text)["account"]] += len(text)
        accounts: dict[int, str] = {}
        for record in (record for flush in FileReader(front.folder / "journal").more() for record in flush.records):
            if isinstance(record, LineRecord):
                accounts[record.number] = "LAB" if record.terminal > 1000 else "CLINIC"
            if isinstance(record, LineRecord | ReplyRecord):
                kept[accounts[record.number]] += 4 + len(record.packed())
    for account, count, signed_on in (("CLINIC", 21, 2), ("LAB", 1, 1)):
        label = f'account="{account}"'
        assert figures[f"mfront_account_signed_on{{{label}}}"] == signed_on
        assert figures[f"mfront_account_audit_bytes_total{{{label}}}"] == noted[account]
        assert figures[f"mfront_account_journal_bytes_total{{{label}}}"] == kept[account]
        below = [figures[f'mfront_account_reply_seconds_bucket{{{label},le="{bound}"}}'] for bound in (*BOUNDS, "+Inf")]
        assert below == sorted(below) and below[-1] == figures[f"mfront_account_reply_seconds_count{{{label}}}"] == count
        assert figures[f"mfront_account_lines_total{{{label}}}"] == count
        assert 0 < figures[f"mfront_account_reply_seconds_sum{{{label}}}"] < count * Patience.seconds


@pytest.mark.parametrize(("host", "status"), [("localhost", 200), ("127.0.0.1:9100", 200), ("evil.example", 421), ("127.0.0.1.evil.example:9100", 421)])
@in_loop()
async def test_the_operators_page_is_for_who_asks_the_loopback(start, host: str, status: int) -> None:
    """A page of another origin could have its own name stand for the loopback, and read through an operator's tunnel."""
    front: Front = start(admin={"socket": "admin.socket"})
    assert [(await told(front.folder, place, host)).status for place in ("/admin.json", "/")] == [status, status]


@in_loop()
async def test_snapshots_that_nobody_has_verified_are_an_alarm(start, tmp_path: Path) -> None:
    front: Front = start(admin={"socket": "admin.socket"}, journal={"folder": "journal", "backup": str(tmp_path / "backup")}, store="store")

    async def alarms() -> list[str]:
        return [alarm["what"] for alarm in (await (await told(front.folder)).json())["alarms"]]
    assert "No snapshot was verified for two days." in await alarms()
    async with front.person("ada") as ada, ada.http.get("/metrics") as response:
        assert "\nmfront_backup_verified_timestamp_seconds 0\n" in await response.text()
    (tmp_path / "backup").mkdir()
    (tmp_path / "backup" / figures.VERIFIED).write_text(json.dumps({"line": 1, "at": int(time.time())}))
    assert "No snapshot was verified for two days." not in await alarms()


@in_loop()
async def test_a_disk_that_is_nearly_full_is_an_alarm(start, tmp_path: Path) -> None:
    """That of the store, and that of the audit log: nobody works once they are full."""
    disk = tmp_path / "disk"
    disk.mkdir()
    front: Front = start(admin={"socket": "admin.socket"}, store=str(disk / "store"), audit={"file": str(disk / "audit.log")}, before=small_disk(disk, "900m"))
    found = [alarm["what"] for alarm in (await (await told(front.folder)).json())["alarms"]]
    assert {"Less than 1 GB is left for the store.", "Less than 1 GB is left for the audit log."} <= set(found)


def test_a_disk_that_is_gone_leaves_the_other_figures(tmp_path: Path) -> None:
    assert "mfront_journal_open_lines 3" in figures.of_journal(3, 0, 0.0, tmp_path / "none")
    assert [line for line in figures.of_disks(tmp_path / "none" / "store", tmp_path / "audit.log") if line[0] != "#"][0].startswith("mfront_audit_room_bytes ")


def self_signed(folder: Path, days: int) -> dict[str, object]:
    """Makes a certificate that is good for so long, and names it as settings do."""
    made = folder / "certificate.pem", folder / "key.pem"
    subprocess.run(["openssl", "req", "-x509", "-newkey", "ec", "-pkeyopt", "ec_paramgen_curve:prime256v1", "-nodes", "-days", str(days), "-subj",
                    "/CN=localhost", "-keyout", made[1], "-out", made[0]], check=True, capture_output=True)
    return {"certificate": str(made[0]), "key": str(made[1])}


@in_loop()
async def test_a_certificate_that_expires_soon_is_an_alarm(start, tmp_path: Path) -> None:
    """That is the one that users are shown: a new one counts once it was read."""
    front: Front = start(admin={"socket": "admin.socket"}, listen=self_signed(tmp_path, 15))

    def rings(found: dict[str, Any]) -> bool:
        return "A certificate expires in less than 14 days." in [alarm["what"] for alarm in found["alarms"]]
    assert not rings(await (await told(front.folder)).json())
    self_signed(tmp_path, 13)
    found = await (await told(front.folder)).json()
    assert not rings(found) and found["figures"]["certificate_seconds_left"] > 14 * 86_400
    front.process.send_signal(signal.SIGHUP)
    found = await shows(front.folder, rings, "an alarm")
    end = subprocess.run(["openssl", "x509", "-enddate", "-noout", "-in", tmp_path / "certificate.pem"], check=True, capture_output=True, text=True).stdout
    assert found["figures"][certificates.FIGURE] == ssl.cert_time_to_seconds(end.strip().partition("=")[2])


@in_loop()
async def test_libraries_that_were_updated_are_an_alarm(start, tmp_path: Path) -> None:
    """As an update does it: another file has the name, and the front runs the one of before until it is started again. What the status says is what a
    collector of a standby is given."""
    used, library = max(re.findall(r"/\S*/libz\.so\S*", Path("/proc/self/maps").read_text())), tmp_path / "libz.so.1"
    shutil.copy(used, library)
    front: Front = start(admin={"socket": "admin.socket"}, journal={"folder": "journal"}, store="store", before=["env", f"LD_PRELOAD={library}"])

    def rings(found: dict[str, Any]) -> list[str]:
        return [alarm["do"] for alarm in found["alarms"] if alarm["what"] == "Libraries were updated, and those of before still run."]
    assert not rings(await (await told(front.folder)).json())
    shutil.copy(used, tmp_path / "new")
    (tmp_path / "new").replace(library)
    found = await shows(front.folder, rings, "an alarm")
    assert found["figures"][FIGURE] == 1
    status = await asyncio.to_thread(asked, front.folder / "mfront.control", {"ask": "status"}, 60)
    assert f"\n{FIGURE} 1\n" in figures.of_standby(status)


@in_loop()
async def test_the_operators_page_of_a_standby(start, tmp_path: Path) -> None:
    """How far it lags its leader, and what it waits for. A reload leaves it there, and once it serves the page is a front's."""
    leader = leading(start, tmp_path / "journal")
    second = standby(start, tmp_path / "journal", admin={"socket": "admin.socket"})
    async with leader.person("ada") as ada:
        await ada.line("S ^X=1")
        await caught_up(second, tmp_path / "journal")
        # Its server is held up, so that it lags by the line that comes now.
        os.kill(second.child, signal.SIGSTOP)
        try:
            await ada.line("S ^X=2")
            await shows(second.folder, lambda found: found["state"] == "It stands by, 1 line behind its leader", "a standby that is behind by a line")
        finally:
            os.kill(second.child, signal.SIGCONT)
    # The end of ada's session comes after her sign-off.
    await at_rest(leader.folder)
    await caught_up(second, tmp_path / "journal")
    found = await (await told(second.folder)).json()
    assert found["state"] == "It stands by, 0 lines behind its leader" and found["alarms"] == []
    assert found["figures"]["mfront_standby_behind_lines"] == 0
    second.process.send_signal(signal.SIGHUP)
    second.hears("it stands by: certificate and audit log are opened once it serves")
    leader.stop()
    await caught_up(second, tmp_path / "journal")
    assert promoted(second)[0] == 0
    found = await (await told(second.folder)).json()
    assert found["state"] == "The server is up; 0 signed on" and found["users"] == []


@pytest.mark.long
@in_loop()
async def test_a_leader_shows_how_far_its_standbys_are_behind(start, tmp_path: Path) -> None:
    """On its page and in its figures. One whose server is held up lags, one that is stopped in order is a standby no more, and one that is killed is not
    heard of."""
    leader = start(store="store.db", journal={"folder": str(tmp_path / "journal")}, admin={"socket": "admin.socket"})
    second, third = standby(start, tmp_path / "journal"), standby(start, tmp_path / "journal")

    async def seen(*lines: int) -> list[dict[str, Any]]:
        found = await shows(leader.folder, lambda found: sorted(one["lines"] for one in found.get("standbys", [])) == list(lines),
                            f"standbys behind by {lines}")
        return found.get("standbys", [])
    async with leader.person("ada") as ada:
        await ada.line("S ^X=1")
        assert len({one["standby"] for one in await seen(0, 0)}) == 2
        os.kill(second.child, signal.SIGSTOP)
        try:
            for number in range(3):
                await ada.line(f"S ^X={number}")
            behind = max(await seen(0, 3), key=lambda one: one["lines"])
            last = last_line(JournalSettings(tmp_path / "journal"))
            assert behind["line"] == last - 3 and not behind["waits"]
            async with ada.http.get("/metrics") as response:
                figures = await response.text()
            assert f'\nmfront_standbys_behind_lines{{standby="{behind["standby"]}"}} 3\n' in figures and "\nmfront_standbys 2\n" in figures
        finally:
            os.kill(second.child, signal.SIGCONT)
        await seen(0, 0)
        assert await asyncio.to_thread(third.stop) == 0
        await seen(0)
        second.process.kill()
        await shows(leader.folder, lambda found: found["standbys"][0]["silent"] > 3 * SAYS, "a standby that says nothing")
        assert [place.name for place in (tmp_path / "journal").glob("standby-*")] == [f"standby-{behind['standby']}"]


def test_what_a_leader_makes_of_what_standbys_say(monkeypatch: pytest.MonkeyPatch) -> None:
    """How long they lag, and say nothing; which alarms that is; and when they are forgotten."""
    clock = [1000.0]
    monkeypatch.setattr(standbys.time, "monotonic", lambda: clock[0])
    known = standbys.Standbys()

    def looks(after: float, answered: int, *said: Said, have_left: bool = False) -> list[Behind]:
        clock[0] += after
        known.take([*(one.text() for one in said), "standby x", "mfront"], answered, have_left)
        return known.behind(answered)

    def alarms() -> list[str]:
        return [alarm["what"] for alarm in alarms_of(standbys.most_of(known.behind(100)))]
    assert looks(0, 10, Said("a", 10, False, 1)) == [Behind("a", 10, 0, 0.0, 0.0, False)]
    assert looks(2, 50, Said("a", 10, False, 2)) == [Behind("a", 10, 40, 0.0, 0.0, False)]
    assert looks(70, 100, Said("a", 10, False, 3), Said("b", 100, True, 999)) == [Behind("a", 10, 90, 70.0, 0.0, False), Behind("b", 100, 0, 0.0, 0.0, True)]
    assert alarms() == ["A standby cannot go on.", "A standby is a minute behind."]
    # What says the same again says nothing; one who is not there may have left, or not.
    found = looks(61, 100, Said("a", 100, False, 4), Said("b", 100, True, 999))
    assert found == [Behind("a", 100, 0, 0.0, 0.0, False), Behind("b", 100, 0, 0.0, 61.0, True)]
    assert alarms() == ["A standby cannot go on.", "A standby has said nothing for a minute."]
    assert [one.name for one in looks(1, 100, Said("a", 100, False, 5))] == ["a", "b"]
    assert [one.name for one in looks(1, 100, Said("a", 100, False, 6), have_left=True)] == ["a"]
    assert looks(standbys.FORGOTTEN + 1, 100) == [] and alarms() == []
    assert standbys.said_in("standby a 1 0 \N{SUPERSCRIPT TWO}") is None and len(standbys.name_of("s", Path("c"))) <= 21


def test_pictures_of_several_fronts_are_one() -> None:
    """Lines and what waits are added up; of how busy servers are, and of the longest wait, the most counts."""
    assert together([[[30, 1.0, 0.5, 2, 0.1], [46, 2.0, 0.1, 0, 0.0]], [[31, 0.5, 0.9, 1, 3.0]]]) == [[30, 1.5, 0.9, 3, 3.0], [45, 2.0, 0.1, 0, 0.0]]
