# SPDX-License-Identifier: Apache-2.0
"""The journal: its records and files, cut and turned anywhere; what `mjournal` says of it; and a disk that is full."""
from __future__ import annotations

import asyncio
import os
import re
import shutil
import subprocess
import threading
from collections.abc import Callable
from dataclasses import dataclass
from pathlib import Path

import pytest
from front import COMMAND, Front, Patience, in_loop, mjournal, small_disk, stopped
from journals import flushes, read, written
from mserve_front import journal_file, witness
from mserve_front.history import Began, History
from mserve_front.journal import LogFault, LogTaken
from mserve_front.journal_file import MARK, FileLog, FileReader, files_of, tail_of
from mserve_front.records import BadJournal, BeginRecord, Flush, LineRecord, ReplyRecord, RowsRecord, StartRecord, StoreAtStart, read_flush


def test_records_there_and_back() -> None:
    for flush in flushes(20):
        data = flush.packed()
        assert read_flush(b"x" + data + b"more", 1) == (flush, 1 + len(data))
    assert flushes()[3].first == 3 and flushes()[0].first == 1


@dataclass(frozen=True)
class Later:
    """A record of a later version."""

    data: bytes

    def packed(self) -> bytes:
        """Its bytes."""
        return self.data


def test_starts_there_and_back_and_records_of_a_later_version() -> None:
    """What another version wrote is refused by its name."""
    start = BeginRecord(7, 5, 6, StoreAtStart.CHANGED, 0, 2, b"[[account]]\n")
    flush = Flush(7, 3, 7, 6, 5, (RowsRecord(0, b"rows"), RowsRecord(1, b""), start, StartRecord(7, 5, 6, None, False, b"x")))
    assert read_flush(flush.packed(), 0)[0] == flush
    for data, told in ((b"Q", "there is no record of the kind b'Q': a later version wrote this journal"),
                       (b"B\x03" + start.packed()[2:], "a start of version 3, and this program knows 2: a later version wrote this journal")):
        with pytest.raises(BadJournal, match=told):
            read_flush(Flush(7, 1, 1, 0, 0, (Later(data),)).packed(), 0)


@pytest.mark.parametrize("head_first", [True, False])
def test_a_copy_of_a_journal_that_is_written_meanwhile(tmp_path: Path, head_first: bool) -> None:
    """With its head first, as docs/OPERATING.md has it, a copy is a journal; by the order of names its head says that an end is missing."""
    parts, log, copy = flushes(), FileLog(tmp_path / "journal", 1 << 20), tmp_path / "copy"
    log.take()
    log.append(parts[0])
    copy.mkdir()
    head, [(_, path)] = tmp_path / "journal" / "head", files_of(tmp_path / "journal")
    first, second = (head, path) if head_first else (path, head)
    shutil.copy(first, copy)
    log.append(parts[1])
    shutil.copy(second, copy)
    log.close()
    if head_first:
        assert tail_of(copy).sequence == 2
        return
    with pytest.raises(BadJournal, match="its end is missing"):
        tail_of(copy)


def test_a_file_that_its_writer_takes_away_while_it_is_looked_for(tmp_path: Path, monkeypatch: pytest.MonkeyPatch) -> None:
    """A writer whose disk is full takes away a file that it has just begun, and who reads meanwhile goes on with what is there. A standby ended by that."""
    parts, log = flushes(9), FileLog(tmp_path, 1)
    log.take()
    log.append(parts[0])
    log.append(parts[1])
    reader, found, real = FileReader(tmp_path), [], journal_file.files_of
    for flush in parts[2:]:
        # The file that is to have this flush was there for a moment.
        gone = flush.sequence, tmp_path / f"{flush.sequence:020d}.journal"
        monkeypatch.setattr(journal_file, "files_of", lambda folder, gone=gone: [*real(folder), gone])
        for _ in range(2):
            found += read(reader)
            assert tail_of(tmp_path).sequence == flush.sequence - 1
        monkeypatch.setattr(journal_file, "files_of", real)
        log.append(flush)
    assert found + read(reader) == parts and read(reader) == []
    log.close()


def test_a_disk_that_gives_nothing_now_is_waited_for(tmp_path: Path, monkeypatch: pytest.MonkeyPatch) -> None:
    """That is no damage of the journal: it is reported as a fault that may go."""
    parts = flushes(3)
    written(tmp_path, parts)

    def broken(*given: object, **named: object) -> None:
        raise OSError(5, "Input/output error")
    reader = FileReader(tmp_path)
    with monkeypatch.context() as patch:
        for name in ("open", "read_bytes"):
            patch.setattr(Path, name, broken)
        with pytest.raises(LogFault, match="Input/output error"):
            reader.more()
        with pytest.raises(LogFault, match="Input/output error"):
            tail_of(tmp_path)
    assert read(reader) == parts and tail_of(tmp_path).sequence == 3


def test_a_journal_that_is_cut_at_each_byte(tmp_path: Path) -> None:
    """What is left is what was written up to the cut, and a part of a flush counts for nothing."""
    parts = flushes()
    path = written(tmp_path, parts)
    data, ends = path.read_bytes(), [len(MARK)]
    for flush in parts:
        ends.append(ends[-1] + len(flush.packed()))
    assert ends[-1] == len(data)
    for cut in reversed(range(len(data))):
        os.truncate(path, cut)
        whole = sum(end <= cut for end in ends[1:])
        assert read(FileReader(tmp_path)) == parts[:whole], cut
        # The head says that it went further, whether or not the cut is at the end of a flush.
        with pytest.raises(BadJournal, match="its end is missing"):
            tail_of(tmp_path)
        tail = tail_of(tmp_path, False)
        assert (tail.sequence, tail.next) == ((whole, parts[whole - 1].next) if whole else (0, 1))
        assert ("torn flush" in tail.told) == (cut not in [0, *ends])
        # The zeros of a block that was never written are no damage either.
        os.truncate(path, cut + 600)
        assert tail_of(tmp_path, False).sequence == whole


def test_one_bit_that_is_turned(tmp_path: Path) -> None:
    """It is reported with its place, wherever it is, and nothing of the journal is taken for good."""
    path = written(tmp_path, flushes(4))
    data = path.read_bytes()
    with path.open("r+b", buffering=0) as file:
        for place in range(len(data)):
            for bit in (1 << number for number in range(8)):
                os.pwrite(file.fileno(), bytes([data[place] ^ bit]), place)
                with pytest.raises(BadJournal, match="at byte|does not begin with its mark"):
                    read(FileReader(tmp_path))
                with pytest.raises(BadJournal, match=path.name):
                    tail_of(tmp_path)
            os.pwrite(file.fileno(), data[place:place + 1], place)
    assert read(FileReader(tmp_path)) == flushes(4)


def test_a_torn_end_is_left_and_the_next_file_goes_on(tmp_path: Path) -> None:
    parts = flushes(6)
    path = written(tmp_path, parts[:3])
    with path.open("ab") as file:
        file.write(parts[3].packed()[:-1])
    log = FileLog(tmp_path, 1 << 20)
    tail = log.take()
    assert (tail.sequence, tail.next, tail.answered) == (3, 3, 1) and "torn flush" in tail.told
    for flush in parts[3:]:
        log.append(flush)
    log.close()
    assert [begins for begins, _ in files_of(tmp_path)] == [1, 4]
    assert read(FileReader(tmp_path)) == parts


def test_files_are_rolled_and_read_as_they_grow(tmp_path: Path) -> None:
    parts, log, reader = flushes(60), FileLog(tmp_path, 500), FileReader(tmp_path)
    log.take()
    assert reader.more() == []
    found: list[Flush] = []
    for number, flush in enumerate(parts):
        log.append(flush)
        if number % 7 == 0:
            found += read(reader)
    assert found + read(reader) == parts and len(files_of(tmp_path)) > 5
    for line in range(1, 61):
        [first, *_] = FileReader(tmp_path, line).more()
        assert first.first <= line
    log.close()
    files_of(tmp_path)[2][1].unlink()
    with pytest.raises(BadJournal, match="a part is missing"):
        read(FileReader(tmp_path))


def test_a_flush_waits_for_its_own_file_alone(tmp_path: Path, monkeypatch: pytest.MonkeyPatch) -> None:
    """How far the journal went is noted beside it, and comes to the disk while the flush is acknowledged."""
    log, goes, sync = FileLog(tmp_path, 1 << 20), threading.Event(), os.fdatasync

    def slow(descriptor: int) -> None:
        if Path(os.readlink(f"/proc/self/fd/{descriptor}")).name == "head":
            goes.wait(60)
        sync(descriptor)
    log.take()
    monkeypatch.setattr(witness, "SYNC", 0.0)
    monkeypatch.setattr(os, "fdatasync", slow)
    for flush in flushes(5):
        log.append(flush)
    assert tail_of(tmp_path).sequence == 5 and not goes.is_set()
    goes.set()
    log.close()
    assert witness.reached_in(tmp_path).sequence == 5


def test_a_flush_that_failed_stands_in_the_next_file(tmp_path: Path) -> None:
    """A reader that has seen it takes the one that took its place."""
    parts, log, reader = flushes(6), FileLog(tmp_path, 1 << 20), FileReader(tmp_path)
    log.take()
    for flush in parts[:4]:
        log.append(flush)
    assert read(reader) == parts[:4]
    log._whole = True
    log.mend()
    with files_of(tmp_path)[0][1].open("ab") as file:
        file.write(parts[4].packed()[:-3])
    other = Flush(7, 4, 4, 2, 2_000, (LineRecord(3, 2_000, 1, "ben", b"W 2"), ReplyRecord(2, bytes(16), "")))
    log.append(other)
    assert read(reader) == [other]
    history = History()
    events = list(history.take([*parts[:4], other]))
    assert isinstance(events[0], Began) and [one.line.number for one in events[1:]] == [1, 2] and history.unanswered == [other.records[0]]


def test_a_flush_that_is_whole_and_may_not_be_durable(tmp_path: Path, monkeypatch: pytest.MonkeyPatch) -> None:
    """The disk fails after it was written: it stays where it is, since it may have been read, and stands again in the next file, as often as that fails."""
    parts, log, reader = flushes(6), FileLog(tmp_path, 1 << 20), FileReader(tmp_path)
    log.take()
    for flush in parts[:3]:
        log.append(flush)

    def fails(_: int) -> None:
        raise OSError(5, "Input/output error")
    with monkeypatch.context() as broken:
        broken.setattr(os, "fdatasync", fails)
        for _ in range(3):
            with pytest.raises(LogFault, match="Input/output error"):
                log.append(parts[3])
            assert log.mend() == 3
    assert read(reader) == parts[:3] + 3 * [parts[3]]
    log.append(parts[3])
    log.append(parts[4])
    assert read(reader) == parts[3:5] and [begins for begins, _ in files_of(tmp_path)] == [1, 4, 4, 4]
    assert tail_of(tmp_path).sequence == 5
    history = History()
    events = list(history.take(read(FileReader(tmp_path))))
    assert [one.line.number for one in events[1:]] == [1, 2, 3] and history.last == 4


def test_only_one_writes(tmp_path: Path) -> None:
    log = FileLog(tmp_path, 4096)
    log.take()
    with pytest.raises(LogTaken, match="another front"):
        FileLog(tmp_path, 4096).take()
    log.close()
    FileLog(tmp_path, 4096).take()


def test_two_that_write_are_kept_apart_by_the_epoch(tmp_path: Path) -> None:
    """One that takes the journal by force, from one that lives on: what that one writes later is acknowledged to nobody, and is in nobody's way."""
    parts, old, new = flushes(6), FileLog(tmp_path, 1 << 20), FileLog(tmp_path, 1 << 20)
    old.take()
    for flush in parts[:3]:
        old.append(flush)
    assert new.take(force=True).sequence == 3
    with pytest.raises(LogTaken, match="another front has taken this journal"):
        old.append(parts[3])
    other = Flush(7, 4, 4, 2, 2_000, (LineRecord(3, 2_000, 1, "ben", b"W 2"), ReplyRecord(2, bytes(16), "")), 9)
    new.append(other)
    with pytest.raises(LogTaken):
        old.append(parts[4])
    old.close()
    # The lock is the new one's, whatever the old one does.
    with pytest.raises(LogTaken, match="another front writes"):
        FileLog(tmp_path, 4096).take()
    new.close()
    history = History()
    list(history.take(read(FileReader(tmp_path))))
    assert [line.user for line in history.unanswered] == ["ben"] and tail_of(tmp_path).sequence == 4


@pytest.mark.parametrize("missing", [1, 2, 3])
def test_lines_that_are_missing(missing: int) -> None:
    parts = flushes(6)
    del parts[missing]
    with pytest.raises(BadJournal, match="missing"):
        list(History().take(parts))


@pytest.fixture(scope="module")
def told_of(tmp_path_factory: pytest.TempPathFactory) -> Front:
    """A front that has ended, with a journal of what three users did."""
    folder = tmp_path_factory.mktemp("told")
    front = Front(folder, None, store="store.db", journal={"folder": "journal", "roll": 4096})

    async def lines() -> None:
        async with front.person("ada") as ada, front.person("cleo") as cleo:
            for number in range(40):
                await ada.line(f"S ^X({number})={number},A=$G(A)+{number} W A")
                await cleo.line(f'S ^RESULT({number})="é\t"' if number == 7 else f"S ^RESULT({number})={number}")
            assert await ada.told('W ^|"LAB"|RESULT(3),B') == "M6"
        await stopped(front)
    asyncio.run(lines())
    return front


@pytest.mark.long
def test_tail_grep_and_verify(told_of: Front) -> None:
    run = mjournal(told_of.folder / "journal")
    status, output, told = run("verify")
    assert (status, told) == (0, "") and output == "lines 1 to 82: 82 answered, 1 starts\n"
    assert run("tail", "-n", "2")[1].splitlines()[-1].split(" ", 2)[0::2] == ["82", run("tail", "-n", "1")[1].strip().split(" ", 2)[2]]
    [line] = run("grep", "--code", "M6")[1].splitlines()
    number, at, terminal, user, code, text = line.split(" ", 5)
    assert (number, terminal, user, code, text) == ("80", "1", "ada", "M6", 'W ^|"LAB"|RESULT(3),B')
    assert len(run("grep", "--user", "cleo")[1].splitlines()) == 39 and len(run("grep", r"X\(3\d?\)")[1].splitlines()) == 11
    assert len(run("grep", "--terminal", "1", "--since", at)[1].splitlines()) == 2 and run("grep", "--until", "2001-01-01")[0] == 1
    # A text that is no line was not sent, so it is not there.
    assert run("grep", "RESULT.7")[0] == 1


@pytest.mark.parametrize(("harm", "status", "wanted"), [
    (lambda data: data + data[8:50], 0, r"a torn flush of \d+ bytes at its end counts for nothing"),
    (lambda data: data[:-7], 1, r"the journal ends with flush \d+ and line \d+, and it went to flush \d+ and line \d+, at 20.*: its end is missing"),
    (lambda data: data[:-7] + bytes([data[-7] ^ 4]) + data[-6:], 1, r"journal: at byte \d+: the records of a flush are damaged"),
    (lambda data: data[:100] + bytes([data[100] ^ 32]) + data[101:], 1, r"journal: at byte \d+: the (head|records) of a flush (is|are) damaged"),
    (lambda data: data[:9] + bytes([data[9] ^ 1]) + data[10:], 1, r"journal: at byte 8: the head of a flush is damaged"),
], ids=["torn", "cut", "turned at the end", "turned at the beginning", "turned in a head"])
def test_what_verify_tells_of_harm(told_of: Front, tmp_path: Path, harm: Callable[[bytes], bytes], status: int, wanted: str) -> None:
    """Its place is reported; a part of a flush at the end is no harm, and is reported too."""
    shutil.copytree(told_of.folder / "journal", tmp_path / "journal")
    _, path = files_of(tmp_path / "journal")[-1]
    path.write_bytes(harm(path.read_bytes()))
    found, output, told = mjournal(tmp_path / "journal")("verify")
    assert found == status and re.search(wanted, told) and str(tmp_path / "journal") in told and len(told.splitlines()) == 1
    assert status or re.match(r"lines 1 to 8\d: 8\d answered", output)


def test_words_of_mjournal(told_of: Front, tmp_path: Path) -> None:
    run = mjournal(told_of.folder / "journal")
    assert run("grep", "(")[0] == run("grep", "--since", "soon")[0] == run()[0] == 2
    assert mjournal(tmp_path / "none")("verify") == (1, "", f"mjournal: {tmp_path / 'none'}: cannot be read: No such file or directory\n")
    (tmp_path / "front.toml").write_text('[users]\nfile = "u"\n')
    status, _, told = mjournal()("--config", str(tmp_path / "front.toml"), "verify")
    assert status == 2 and "keeps no journal" in told


@pytest.mark.long
@in_loop()
async def test_a_disk_that_is_full(certificate: tuple[Path, Path], tmp_path: Path) -> None:
    """No line goes on, users and the operator hear so, and once there is room all goes on. What was answered is in the journal."""
    folder = tmp_path / "front"
    disk = folder / "disk"
    disk.mkdir(parents=True)
    front = Front(folder, None, store="store.db", before=small_disk(disk, "512k,nr_inodes=100"), journal={"folder": "disk/journal"})
    seen = Path(f"/proc/{front.process.pid}/root{disk}")
    try:
        async with front.person("ada") as ada, front.person("cleo") as cleo:
            assert await ada.told("S ^X=1 W ^X") == "1"
            with (seen / "filler").open("wb", buffering=0) as filler:
                try:
                    while True:
                        filler.write(b"x" * 4096)
                except OSError:
                    pass
            answered = 1
            while True:
                record = await ada.line(f"S ^X={answered + 1}")
                if "refused" in record:
                    break
                answered += 1
            assert record["refused"] == "journal" and "was not sent" in record["why"]
            assert (await cleo.line("W 1"))["refused"] == "journal"
            assert "No space left on device: no line goes on until it can" in front.told()
            os.truncate(seen / "filler", 0)
            while "refused" in (record := await cleo.line("W 1")):
                await asyncio.sleep(0.1)
            assert record["rest"] == "1" and await ada.told("W ^X") == str(answered)
            assert "the journal is written again" in front.told()
        status, output, told = mjournal(seen / "journal")("verify")
        assert (status, told) == (0, "") and re.search(r": \d+ answered, 1 starts", output)
    finally:
        front.stop()


def test_settings_of_the_journal(tmp_path: Path) -> None:
    (tmp_path / "settings.toml").write_text("[[account]]\nname = 'A'\nterminals = [1]\nsteps = 1\n")
    good = '[server]\nsettings = "settings.toml"\nstore = "s"\n[users]\nfile = "u"\n[journal]\n'
    for text, told in (('folder = 1', "journal.folder: is to be a text"), ('folder = "j"\ndatabase = "d"', "journal.database: is not for a journal"),
                       ('folder = "j"\nroll = 1', "journal.roll: is to be a whole number"), ('speed = 1', "journal.speed: there is no such key")):
        (tmp_path / "front.toml").write_text(good + text)
        done = subprocess.run([*COMMAND, "check", "--config", tmp_path / "front.toml"], capture_output=True, text=True, timeout=2 * Patience.seconds)
        assert done.returncode == 2 and told in done.stderr
    (tmp_path / "front.toml").write_text(good)
    done = subprocess.run([*COMMAND, "--follow", "--config", tmp_path / "front.toml"], capture_output=True, text=True, timeout=2 * Patience.seconds)
    assert done.returncode == 2 and "a standby follows a journal" in done.stderr
