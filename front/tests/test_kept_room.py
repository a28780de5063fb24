# SPDX-License-Identifier: Apache-2.0
"""Room of the disk that is kept for the journal: once the disk is full the journal goes on there, and users do not notice."""
from __future__ import annotations

import asyncio
import contextlib
import json
import os
import re
import signal
import subprocess
from collections.abc import Iterator
from pathlib import Path

import pytest
from front import Front, Person, in_loop, missed, mjournal, small_disk, until
from journals import flushes, read
from mserve_front import kept_room
from mserve_front.audit import Audit, NoAudit
from mserve_front.journal import LogFault
from mserve_front.journal_file import FileLog, FileReader, files_of, tail_of
from mserve_front.kept_room import SPARE, Spare, give_back, hold, kept_in
from mserve_front.metrics import Metrics
from mserve_front.records import Flush, RowsRecord
from test_quotas import fills, others_go_on

HELD = 65_536


class Disk:
    """A disk of this process's own, if it may have one: a file that takes what is free."""

    def __init__(self, folder: Path) -> None:
        self.folder = folder
        self._filling = folder / "filling"

    def fill(self) -> None:
        """Leaves nothing."""
        with self._filling.open("ab", buffering=0) as file, contextlib.suppress(OSError):
            while True:
                file.write(bytes(4096))

    def free(self) -> None:
        """Leaves all again."""
        self._filling.unlink(missing_ok=True)


@pytest.fixture
def disk(tmp_path: Path) -> Iterator[Disk]:
    """A disk of two megabytes."""
    place = tmp_path / "disk"
    place.mkdir()
    if subprocess.run(["mount", "-t", "tmpfs", "-o", "size=2m", "tmpfs", place], capture_output=True).returncode:
        missed("a disk cannot be mounted here: that takes root's rights")
    yield Disk(place)
    subprocess.run(["umount", "--lazy", place], check=True)


def test_room_is_kept_after_the_end_of_a_file(disk: Disk) -> None:
    path = disk.folder / "file"
    with path.open("wb", buffering=0) as file:
        file.write(b"12345")
        hold(file.fileno(), HELD)
        disk.fill()
        assert path.read_bytes() == b"12345" and path.stat().st_blocks * 512 >= HELD
        for _ in range(HELD // 1000):
            assert file.write(bytes(1000)) == 1000
        with pytest.raises(OSError, match="No space left"):
            hold(file.fileno(), HELD)
        disk.free()
        hold(file.fileno(), HELD)
        give_back(file.fileno())
    assert path.stat().st_blocks * 512 <= HELD + 4096


def test_a_journal_goes_on_in_its_spare_file(disk: Disk, monkeypatch: pytest.MonkeyPatch) -> None:
    """A flush that finds the disk full is the first one there. Its reader, and one who begins later, read on. Once that is full too it is as before."""
    monkeypatch.setattr("mserve_front.journal_file.LOOK", 0)
    told: list[str] = []
    parts, log, reader = flushes(3000), FileLog(disk.folder / "journal", 1 << 20, HELD, told.append), FileReader(disk.folder / "journal")
    log.take()
    assert kept_in(disk.folder / "journal") == HELD and told == []
    for flush in parts[:3]:
        log.append(flush)
    found = read(reader)
    disk.fill()
    done = 3
    with pytest.raises(LogFault, match="No space left"):
        for flush in parts[3:]:
            log.append(flush)
            done += 1
    assert done > 500 and log.mend() == done
    assert [begins for begins, _ in files_of(disk.folder / "journal")][0] == 1 and len(files_of(disk.folder / "journal")) == 2
    assert found + read(reader) == parts[:done] == read(FileReader(disk.folder / "journal")) and tail_of(disk.folder / "journal").sequence == done
    assert told == [f"{disk.folder / 'journal'}: the disk is full: the journal goes on in the room that was kept for it"]
    disk.free()
    log.append(parts[done])
    assert kept_in(disk.folder / "journal") == HELD and told[1:] == [f"{disk.folder / 'journal'}: room is kept for the journal again"]
    log.close()


def test_a_file_that_was_spare_is_not_left_while_there_is_no_other(disk: Disk, monkeypatch: pytest.MonkeyPatch) -> None:
    """What it still keeps would be anybody's. Once there is another spare file, what is left of the first is given back."""
    monkeypatch.setattr("mserve_front.journal_file.LOOK", 0)
    parts, folder = flushes(400), disk.folder / "journal"
    log = FileLog(folder, 1000, HELD)
    log.take()
    disk.fill()
    for flush in parts[:100]:
        log.append(flush)
    [(_, path)] = [one for one in files_of(folder) if one[1].stat().st_size > 2000]
    assert path.stat().st_blocks * 512 >= HELD
    disk.free()
    for flush in parts[100:]:
        log.append(flush)
    assert path.stat().st_blocks * 512 < HELD and len(files_of(folder)) > 20 and kept_in(folder) == HELD
    log.close()
    assert read(FileReader(folder)) == parts


def test_a_journal_is_taken_on_a_disk_that_is_full(disk: Disk) -> None:
    """The spare file outlives its front, and what a front that was killed kept after the end of a file is given back."""
    parts, folder = flushes(900), disk.folder / "journal"
    first = FileLog(folder, 1 << 20, 4 * HELD)
    first.take()
    disk.fill()
    first.append(parts[0])
    # As if it were killed.
    os.close(first._lock)
    [(_, path)] = files_of(folder)
    assert path.stat().st_blocks * 512 == 4 * HELD
    second = FileLog(folder, 1 << 20, 4 * HELD)
    assert second.take().sequence == 1
    assert path.stat().st_blocks * 512 <= 4096 and kept_in(folder) == 3 * HELD - 4096
    second.close()
    disk.free()
    third = FileLog(folder, 1 << 20, HELD)
    third.take()
    third.close()
    disk.fill()
    assert kept_in(folder) == HELD
    fourth = FileLog(folder, 1 << 20, HELD)
    assert fourth.take().sequence == 1
    for flush in parts[1:300]:
        fourth.append(flush)
    fourth.close()
    assert read(FileReader(folder)) == parts[:300]


def test_a_flush_that_is_larger_than_what_is_kept(disk: Disk) -> None:
    told: list[str] = []
    log, start = FileLog(disk.folder / "journal", 1 << 20, 8192, told.append), flushes(1)[0]
    log.take()
    log.append(start)
    disk.fill()
    large = Flush(7, 2, 1, 0, 2_000, (RowsRecord(0, bytes(100_000)),))
    with pytest.raises(LogFault, match="No space left"):
        log.append(large)
    assert log.mend() == 1
    disk.free()
    log.append(large)
    log.close()
    assert read(FileReader(disk.folder / "journal")) == [start, large]


def test_room_is_kept_only_where_others_have_as_much(disk: Disk) -> None:
    """A spare file is not what fills a disk; a smaller one of before stays, one of more than is wanted does not."""
    disk.free()
    spare = Spare(disk.folder, 1_200_000)
    with pytest.raises(OSError, match="No space left"):
        spare.keep()
    assert not spare.there and spare.wanted and not (disk.folder / SPARE).exists()
    Spare(disk.folder, 100_000).keep()
    had = kept_in(disk.folder)
    spare.keep()
    assert spare.there and kept_in(disk.folder) == had >= 100_000
    small = Spare(disk.folder, 4096)
    small.keep()
    assert small.there and kept_in(disk.folder) == 4096
    none = Spare(disk.folder, 0)
    none.keep()
    assert not none.there and not none.wanted and not (disk.folder / SPARE).exists()


def test_a_disk_that_keeps_no_room(tmp_path: Path, monkeypatch: pytest.MonkeyPatch) -> None:
    """As one that does not know how: the operator hears so once, and the journal is written as before."""
    def refuses(descriptor: int, size: int) -> None:
        raise OSError(95, "Operation not supported")
    monkeypatch.setattr(kept_room, "hold", refuses)
    monkeypatch.setattr("mserve_front.journal_file.LOOK", 0)
    told: list[str] = []
    log, parts = FileLog(tmp_path, 1 << 20, HELD, told.append), flushes()
    log.take()
    for flush in parts:
        log.append(flush)
    log.close()
    assert told == [f"{tmp_path}: no room is kept for the journal, as journal.spare wants it: Operation not supported; it is tried again"]
    assert read(FileReader(tmp_path)) == parts and not (tmp_path / SPARE).exists()


def test_an_audit_log_goes_on_in_what_is_kept_for_it(disk: Disk, monkeypatch: pytest.MonkeyPatch, capsys: pytest.CaptureFixture[str]) -> None:
    """Also after a start on a disk that is full. One that is moved away keeps nothing."""
    monkeypatch.setattr("mserve_front.audit.LOOK", 0)
    path = disk.folder / "audit.log"
    audit = Audit(path, Metrics(), HELD)
    disk.fill()
    for number in range(100):
        audit.note("line", number=number)
    audit.close()
    audit = Audit(path, Metrics(), HELD)
    number = 99
    with pytest.raises(NoAudit, match="full|No space left"):
        while True:
            audit.note("line", number=number + 1)
            number += 1
    assert number > 600 and [json.loads(line)["number"] for line in path.read_text().splitlines()] == list(range(number + 1))
    assert f"{path}: no more room is kept for the audit log, as audit.spare wants it: [Errno 28] No space left" in capsys.readouterr().err
    disk.free()
    audit.note("line", number=number + 1)
    assert path.stat().st_blocks * 512 >= path.stat().st_size + HELD - 4096
    assert f"{path}: room is kept for the audit log again" in capsys.readouterr().err
    path.rename(disk.folder / "audit.old")
    audit.reopen()
    assert (disk.folder / "audit.old").stat().st_blocks * 512 < (disk.folder / "audit.old").stat().st_size + 4096
    assert path.stat().st_size == 0 and path.stat().st_blocks * 512 == HELD
    audit.close()


@pytest.mark.parametrize("kept", [True, False])
@in_loop()
async def test_users_work_on_while_others_fill_the_disk(certificate: tuple[Path, Path], tmp_path: Path, kept: bool) -> None:
    """The store, the journal and the audit log have one disk, as they have by the package. Without room that is kept nobody can do anything."""
    folder = tmp_path / "front"
    (folder / "disk").mkdir(parents=True)
    spare = {"spare": 300_000 if kept else 0}
    front = Front(folder, certificate, store="disk/store", before=small_disk(folder / "disk", "2m"), audit={"file": "disk/audit.log", **spare},
                  journal={"folder": "disk/journal", **spare})
    disk = Disk(Path(f"/proc/{front.process.pid}/root{folder / 'disk'}"))
    try:
        async with front.person("ada") as ada:
            assert await ada.told("S ^X=1 W ^X") == "1"
            disk.fill()
            if not kept:
                assert await refusal(ada) in ("audit", "journal")
                return
            await work_on_a_full_disk(front, ada)
            disk.free()

            async def is_kept() -> bool:
                await ada.told("W ^X")
                return "room is kept for the journal again" in front.told()
            await until(is_kept, "room that is kept again")
            assert kept_in(disk.folder / "journal") >= 300_000

        async def is_whole() -> bool:
            # The user has gone, and the HALT that follows may be under way: how many lines there are is a matter of the machine.
            status, output, told = await asyncio.to_thread(mjournal(disk.folder / "journal"), "verify")
            found = re.fullmatch(r"lines 1 to ([0-9]+): ([0-9]+) answered, 1 starts\n", output)
            return (status, told) == (0, "") and found is not None and found[1] == found[2] and int(found[1]) > 300
        await until(is_whole, "a journal that has each line from the first on, and its reply")
    finally:
        front.stop()


async def refusal(person: Person) -> str:
    """Sends lines until one is refused, and says by which word."""
    while "refused" not in (record := await person.line("W 1")):
        pass
    return str(record["refused"])


async def work_on_a_full_disk(front: Front, ada: Person) -> None:
    """Users work, and sign on."""
    for _ in range(300):
        assert await ada.told("W ^X") == "1"
    async with front.person("cleo") as cleo, cleo.http.get("/metrics") as response:
        assert await cleo.told("W 2") == "2" and "\nmfront_journal_spare_bytes 0\n" in await response.text()
    assert "the disk is full: the journal goes on in the room that was kept for it" in front.told()


@in_loop()
async def test_an_account_that_takes_more_than_its_share_of_what_is_kept_is_slowed(certificate: tuple[Path, Path], tmp_path: Path) -> None:
    """So nobody has all of it: the others work on as before. Once there is room again, so does that account."""
    folder = tmp_path / "front"
    (folder / "disk").mkdir(parents=True)
    front = Front(folder, certificate, store="store", before=small_disk(folder / "disk", "1m"), journal={"folder": "disk/journal", "spare": 60_000})
    disk = Disk(Path(f"/proc/{front.process.pid}/root{folder / 'disk'}"))
    try:
        async with front.person("ada") as ada:
            for _ in range(250):
                assert "quota" not in await ada.line("W 1")
            disk.fill()
            over = await fills(ada, "W 1", 0.02)
            assert " bytes of the room that is left now that the disk is full of 10,000): it has one line a second" in over["quota"]
            # This one comes now: who reads nothing for long answers no ping.
            async with front.person("cleo") as cleo:
                await others_go_on(ada, cleo, 30)
            disk.free()

            async def is_free() -> bool:
                return "quota" not in await ada.line("W 1")
            await until(is_free, "an account that is free to go on")
            assert [list(event["over"]) for event in ada.events] == [["spare"], []]
    finally:
        front.stop()


@in_loop()
async def test_a_front_that_starts_on_a_full_disk_serves(certificate: tuple[Path, Path], tmp_path: Path, disk: Disk) -> None:
    """It was killed after the disk had become full, and goes on in what was kept. How far the journal went is known all the same."""
    front = Front(tmp_path, certificate, store=str(disk.folder / "store"), audit={"file": str(disk.folder / "audit.log"), "spare": 300_000},
                  journal={"folder": str(disk.folder / "journal"), "spare": 300_000})
    try:
        async with front.person("ada") as ada:
            assert await ada.told("S ^X=1 W ^X") == "1"
        disk.fill()
        os.killpg(front.process.pid, signal.SIGKILL)
        front.again()
        async with front.person("ada") as ada:
            for _ in range(30):
                assert await ada.told("W ^X") == "1"
        head = json.loads((disk.folder / "journal" / "head").read_bytes())
        assert head["epoch"] == 2 and head["answered"] > 30
    finally:
        front.stop()
