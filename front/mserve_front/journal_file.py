# SPDX-License-Identifier: Apache-2.0
"""A journal in a folder of files. Each file begins with a mark and has flushes; its name is the number of its first one. Nothing is ever written over: a
flush that failed, or that a crash tore, is left where it is, and the next file begins with the flush of its number. Once the disk is full, the next one is
a spare file, whose room was kept for that."""
from __future__ import annotations

import contextlib
import fcntl
import os
import re
import secrets
import time
from collections.abc import Callable
from io import FileIO
from pathlib import Path

from .faults import TAKEN
from .folders import sync_folder
from .journal import LogFault, LogTaken, Tail
from .kept_room import FULL, Spare, give_back
from .records import HEAD_SIZE, BadJournal, Flush, Torn, body_size, read_flush
from .standbys import FORGOTTEN
from .witness import JournalHead, Reached, lost, reached_in

MARK = b"mfront1\n"
READ = 1 << 20
# Seconds after which room is looked for again, where none could be kept.
LOOK = 5.0
# What a standby says of itself, beside these files, and how long it is at most.
WORDS, LONGEST_WORDS = "standby-", 100
# The number of the first flush, and of files that begin with the same one which of them it is.
NAME = re.compile(r"(\d{20})(?:-(\d+))?\.journal", re.ASCII)


def order_of(path: Path) -> tuple[int, int]:
    """Where a file stands among others."""
    found = NAME.fullmatch(path.name)
    assert found is not None, "other files were passed over"
    return int(found[1]), int(found[2] or 0)


def files_of(folder: Path) -> list[tuple[int, Path]]:
    """The files of a journal in their order, each with the number of its first flush. Raises `BadJournal` if the folder cannot be read."""
    try:
        found = [path for path in folder.iterdir() if NAME.fullmatch(path.name)]
    except OSError as error:
        raise BadJournal(f"{folder}: cannot be read: {error.strerror}") from error
    return [(order_of(path)[0], path) for path in sorted(found, key=order_of)]


def ends_of(path: Path) -> tuple[Flush | None, Flush | None, int]:
    """The first and the last flush of a file, without their records, and how many bytes at its end are none. Raises `BadJournal` if one is damaged."""
    data = path.read_bytes()
    if not _is_marked(path, data):
        return None, None, len(data)
    first, last, at = None, None, len(MARK)
    while at < len(data):
        try:
            last, at = read_flush(data, at, records=False)
        except Torn:
            break
        except BadJournal as error:
            raise BadJournal(f"{path}: at byte {at}: {error}") from error
        first = first or last
    return first, last, len(data) - at


def _is_marked(path: Path, data: bytes) -> bool:
    """Whether the mark is written. Raises `BadJournal` if something else is."""
    if not data.startswith(MARK) and not MARK.startswith(data.rstrip(b"\0")):
        raise BadJournal(f"{path}: this is no file of a journal: it does not begin with its mark")
    return data.startswith(MARK)


class FileLog:
    """The journal in a folder, as its one writer has it."""

    def __init__(self, folder: Path, roll: int, kept: int = 0, tell: Callable[[str], None] = lambda text: None) -> None:
        """`roll` is the size after which the next file is begun, `kept` how much of the disk is kept for when it is full; `tell` is called with what the
        operator is to know."""
        self._folder = folder
        self._roll = roll
        self._tell = tell
        self._spare = Spare(folder, kept)
        # Whether the file that is written was the spare one; whether the operator was told that there is none; and when to look for its room again.
        self._was_spare = self._told = False
        self._due = 0.0
        self._lock = -1
        self._descriptor = -1
        self._path = folder
        self._head = JournalHead(folder)
        # The size up to which all is durable, and whether what was written after it is a whole flush.
        self._size = 0
        self._whole = False
        self._last = 0

    def take(self, force: bool = False) -> Tail:
        """Takes the lock of the folder, which is made if it is not there, and finds the end. With `force` the one who has the lock writes no more, and a
        journal that has lost its end is taken as it is."""
        try:
            if not self._folder.exists():
                self._folder.mkdir(mode=0o700)
                sync_folder(self._folder.parent)
            self._lock = _locked(self._folder / "lock", force)
            own = 0 if force else self._give_back()
            self._spare.lend()
            self._head.take(force)
        except BlockingIOError:
            self.close()
            raise LogTaken(f"{self._folder}: {TAKEN}") from None
        except OSError as error:
            self.close()
            raise LogFault(f"{self._folder}: {error.strerror}") from error
        tail = tail_of(self._folder, not force)
        self._last = tail.sequence
        self._head.reached(Reached(tail.journal, tail.sequence, tail.next, tail.answered, tail.time))
        self._keep_room(own)
        return tail

    @property
    def in_spare(self) -> bool:
        """Whether the file that is written was the spare one, and there is no other yet."""
        return self._was_spare and self._spare.wanted

    def append(self, flush: Flush) -> None:
        """Writes a flush, and returns once it is on the disk. One that another front's taking overtakes may be there, and `LogTaken` says so."""
        data = flush.packed()
        try:
            self._hold(again=True)
            try:
                self._put(flush.sequence, data)
            except OSError as error:
                if error.errno not in FULL or not self._spare.there:
                    raise
                self._tell(f"{self._folder}: the disk is full: the journal goes on in the room that was kept for it")
                self._put_in_spare(flush.sequence, data)
        except OSError as error:
            raise LogFault(f"{self._path}: {error.strerror}") from error
        self._size += len(data)
        self._last = flush.sequence
        self._head.reached(flush)
        if self._spare.wanted and time.monotonic() >= self._due:
            self._keep_room()
        self._hold()

    def _put(self, sequence: int, data: bytes) -> None:
        """Writes a flush, in a new file if it is time. One that was the spare file goes on until there is another one: its room would be anybody's."""
        if self._descriptor < 0 or self._size >= self._roll and not self.in_spare:
            self._begin(sequence)
        self._whole = False
        self._write(data)
        self._whole = True
        os.fdatasync(self._descriptor)

    def _put_in_spare(self, sequence: int, data: bytes) -> None:
        """Writes a flush that found the disk full: the spare file is the next one."""
        self._told = True
        self.mend()
        self._begin(sequence, spare=True)
        self._put(sequence, data)

    def _keep_room(self, own: int = 0) -> None:
        """Keeps room for when the disk is full; if that cannot be, the operator hears so once, and it is tried again."""
        self._due = time.monotonic() + LOOK
        try:
            self._spare.keep(own)
        except OSError as error:
            if not self._told:
                self._tell(f"{self._folder}: no room is kept for the journal, as journal.spare wants it: {error.strerror}; it is tried again")
            self._told = True
            return
        if self._told and self._spare.there:
            self._tell(f"{self._folder}: room is kept for the journal again")
            self._told = False

    def _give_back(self) -> int:
        """Gives back what the last file keeps after its end, if who wrote it was killed in what was the spare one, and says how many bytes that were."""
        for _, path in files_of(self._folder)[-1:]:
            with path.open("ab") as file:
                return give_back(file.fileno())
        return 0

    def _hold(self, again: bool = False) -> None:
        """Raises `LogTaken` if another front has taken the journal."""
        if not self._head.is_own(again):
            raise LogTaken(f"{self._folder}: another front has taken this journal")

    def mend(self) -> int:
        """Leaves the file in which a flush failed. A part of it is taken back, for there may be no room; a whole one may have been read, and stays, but
        counts for nothing."""
        if self._descriptor < 0:
            return self._last
        with contextlib.suppress(OSError):
            if not self._whole and self._size > len(MARK):
                os.ftruncate(self._descriptor, self._size)
            elif not self._whole:
                self._path.unlink()
        self._leave()
        return self._last

    def close(self) -> None:
        """Gives the lock back."""
        self._leave()
        self._head.close()
        if self._lock >= 0:
            os.close(self._lock)
            self._lock = -1

    def abandon(self) -> None:
        """A disk answers some time."""

    def _begin(self, sequence: int, spare: bool = False) -> None:
        """Begins a file, which is in its folder durably before it has a flush; `spare`: the spare one becomes it."""
        self._leave()
        same = [order_of(path)[1] for begins, path in files_of(self._folder) if begins == sequence]
        self._path = self._folder / f"{sequence:020d}{f'-{max(same) + 1}' if same else ''}.journal"
        self._descriptor = (self._spare.becomes(self._path) if spare else
                            os.open(self._path, os.O_WRONLY | os.O_CREAT | os.O_EXCL | os.O_CLOEXEC, 0o600))
        self._size, self._whole, self._was_spare = 0, False, spare
        self._write(MARK)
        self._size = len(MARK)
        sync_folder(self._folder)

    def _write(self, data: bytes) -> None:
        left = memoryview(data)
        while left:
            left = left[os.write(self._descriptor, left):]

    def _leave(self) -> None:
        if self._descriptor >= 0:
            if self._was_spare:
                with contextlib.suppress(OSError):
                    give_back(self._descriptor)
            os.close(self._descriptor)
            self._descriptor, self._was_spare = -1, False


def _locked(path: Path, force: bool) -> int:
    """The lock's file, locked. With `force` a new one takes the place of one that somebody has. Raises BlockingIOError or OSError."""
    place = path.with_name(path.name + ".new") if force else path
    while True:
        found = os.open(place, os.O_RDWR | os.O_CREAT | os.O_CLOEXEC, 0o600)
        try:
            fcntl.flock(found, fcntl.LOCK_EX | fcntl.LOCK_NB)
            if force:
                place.replace(path)
            if os.fstat(found).st_ino == path.stat().st_ino:
                return found
        except BaseException:
            os.close(found)
            raise
        # Another one took its place meanwhile.
        os.close(found)


def said_in(folder: Path) -> list[str]:
    """What standbys say of themselves beside the journal in a folder. One that leaves takes its words with it; those of one that was killed count no more
    after a day. Raises `LogFault`."""
    found = []
    try:
        for place in folder.glob(f"{WORDS}*"):
            # It may have left just now.
            with contextlib.suppress(FileNotFoundError):
                if time.time() - place.stat().st_mtime < FORGOTTEN:
                    found.append(place.read_bytes()[:LONGEST_WORDS].decode("ascii", "replace"))
    except OSError as error:
        raise LogFault(f"{folder}: {error.strerror}") from error
    return found


def tail_of(folder: Path, whole: bool = True) -> Tail:
    """The end of the journal in a folder; of an empty one, that of a new journal. Raises `BadJournal` if it is damaged there, and, unless `whole` is not
    wanted, if it went further once; and `LogFault` if the disk does not give it."""
    # This comes first: a front that writes meanwhile notes in the head what is in the files already.
    reached = reached_in(folder) if whole else None
    try:
        tail = _tail_of(folder)
    except OSError as error:
        raise LogFault(f"{folder}: {error.strerror}") from error
    if reached is not None and (reached.sequence > tail.sequence or reached.journal != tail.journal and reached.sequence):
        raise BadJournal(f"{folder}: {lost(reached, tail)}. Put back what is missing. If it is lost, a standby can be promoted with --force; or move the "
                         "journal away, remove the store's .at and .head, and serve: a new journal begins with all that the store holds")
    return tail


def _tail_of(folder: Path) -> Tail:
    told = ""
    for first, path in reversed(files_of(folder)):
        try:
            begins, last, rest = ends_of(path)
        except FileNotFoundError:
            # Its writer has taken it away: it had nothing.
            continue
        if rest:
            told = f"{path}: a torn flush of {rest} bytes at its end counts for nothing: it is not durable"
        if begins is not None and last is not None:
            if begins.sequence != first:
                raise BadJournal(f"{path}: it begins with flush {begins.sequence}")
            return Tail(last.journal, last.sequence, last.next, last.answered, last.time, told, last.writer)
    return Tail(secrets.randbits(63) | 1, 0, 1, 0, 0, told)


def _first_flush(path: Path) -> Flush:
    """The first flush of a file. Raises `Torn` if it has none, and `BadJournal` if that is damaged."""
    with path.open("rb") as file:
        data = file.read(len(MARK) + HEAD_SIZE)
        data += file.read(body_size(data[len(MARK):]))
    return read_flush(data, len(MARK))[0]


def first_line(path: Path) -> int | None:
    """The number of the first line of a file, or of the next one if its first flush has none; None if the file has no whole flush."""
    try:
        return _first_flush(path).first
    except (Torn, BadJournal):
        return None


def first_of(folder: Path) -> int:
    """The number of the first line that the journal in a folder has, or of the next one if it has none. Raises `BadJournal` if it is damaged there, and
    `LogFault` if the disk does not give it."""
    try:
        for _, path in files_of(folder):
            with contextlib.suppress(Torn):
                return _first_flush(path).first
    except OSError as error:
        raise LogFault(f"{folder}: {error.strerror}") from error
    return 1


class FileReader:
    """Reads the journal in a folder from the file on that a line is in. Its writer may be writing meanwhile."""

    def __init__(self, folder: Path, line: int = 1) -> None:
        """Begins at the file that the line of this number is in, or at the first one."""
        self._folder = folder
        self._line = line
        self._path = folder
        self._file: FileIO | None = None
        # The number of the next flush, the place of what is not read yet, and the bytes from there on.
        self._expected = -1
        self._at = 0
        self._rest = b""

    def more(self) -> list[Flush]:
        """Some of the flushes that have come since, or none if none has. Raises `BadJournal` if one is damaged or missing, and `LogFault` if the disk does
        not give them."""
        try:
            while True:
                # What comes after this file is looked for first: once there is such a file, nothing is written here any more.
                later = self._later()
                found = [] if self._file is None else self._here(None if later is None else later[0])
                if found or later is None:
                    return found
                self._go_on(*later)
        except FileNotFoundError:
            # Its writer has taken away a file that had nothing, since the disk is full: what comes is in another one.
            return []
        except OSError as error:
            raise LogFault(f"{self._folder}: {error.strerror}") from error

    def says(self, name: str, text: str) -> None:
        """Notes beside the files what a standby says of itself; nothing, once it leaves. Raises `LogFault`."""
        place = self._folder / f"{WORDS}{name}"
        try:
            if text:
                with open(os.open(place, os.O_WRONLY | os.O_CREAT | os.O_CLOEXEC, 0o600), "wb", buffering=0) as file:
                    file.write(text.encode().ljust(LONGEST_WORDS - 1) + b"\n")
            else:
                place.unlink(missing_ok=True)
        except OSError as error:
            raise LogFault(f"{place}: {error.strerror}") from error

    def close(self) -> None:
        """Leaves the journal."""
        if self._file is not None:
            self._file.close()
            self._file = None

    def _later(self) -> tuple[int, Path] | None:
        """The file to go on with, and the number of its first flush."""
        files = files_of(self._folder)
        if self._file is None:
            return self._first(files)
        inode = os.fstat(self._file.fileno()).st_ino
        for begins, path in files:
            # One of the same name is another one if the first was taken away, since it had nothing.
            if order_of(path) > order_of(self._path) or path == self._path and path.stat().st_ino != inode:
                return begins, path
        return None

    def _first(self, files: list[tuple[int, Path]]) -> tuple[int, Path] | None:
        """Of files that begin before the line the last one, of those that begin alike the first; else the first that has a flush. One that begins at the
        line may begin with a later part of the rows of a start."""
        chosen, begins = None, 0
        for sequence, path in files:
            first = first_line(path)
            if first is not None and (chosen is None or begins < first < self._line):
                chosen, begins = (sequence, path), first
        return chosen or (files[0] if files else None)

    def _go_on(self, begins: int, path: Path) -> None:
        if self._file is not None and not self._expected - 1 <= begins <= self._expected:
            raise BadJournal(f"{path}: flush {self._expected} is to come after {self._path}, and this file begins with flush {begins}: a part is missing")
        # This comes first: the file may be gone again, and then it goes on after the one before.
        file = path.open("rb", buffering=0)
        self.close()
        self._file, self._path = file, path
        self._expected = begins
        self._at, self._rest = 0, b""

    def _here(self, later: int | None) -> list[Flush]:
        """Some of the flushes that have come in this file; `later` is the first flush of the file after it."""
        found: list[Flush] = []
        while not found and self._file is not None and (data := self._file.read(READ)):
            self._rest += data
            if self._at == 0 and _is_marked(self._path, self._rest):
                self._at, self._rest = len(MARK), self._rest[len(MARK):]
            if self._at:
                found = self._parsed(later)
        return found

    def _parsed(self, later: int | None) -> list[Flush]:
        """The whole flushes of what is read."""
        found, place = [], 0
        try:
            while place < len(self._rest):
                flush, place = self._counted(place)
                found.append(flush)
        except Torn:
            pass
        except BadJournal as error:
            # What failed, or was torn, stands again at the beginning of the next file.
            if later != self._expected:
                raise BadJournal(f"{self._path}: at byte {self._at + place}: {error}") from error
        self._at, self._rest = self._at + place, self._rest[place:]
        return found

    def _counted(self, place: int) -> tuple[Flush, int]:
        flush, end = read_flush(self._rest, place)
        if flush.sequence != self._expected:
            raise BadJournal(f"flush {flush.sequence} stands where flush {self._expected} is to be")
        self._expected += 1
        return flush, end


def expire_files(folder: Path, journal: int, line: int) -> int:
    """Removes the files that have no line after this one, and gives how many. The last file stays. Raises `BadJournal` if it is another journal."""
    tail = tail_of(folder)
    if tail.journal != journal or tail.next <= line:
        raise BadJournal(f"{folder}: the snapshot is of another journal than this one")
    files = files_of(folder)
    begins = [first_line(path) for _, path in files]
    removed = 0
    for (_, path), after in zip(files, begins[1:], strict=False):
        if after is None or after > line:
            break
        path.unlink()
        removed += 1
    return removed
