# SPDX-License-Identifier: Apache-2.0
"""The command `mjournal`: it looks into a journal, and runs it again."""
from __future__ import annotations

import argparse
import asyncio
import os
import re
import tempfile
import time
from collections import Counter, deque
from collections.abc import Iterator
from dataclasses import dataclass
from datetime import UTC, datetime
from pathlib import Path

from . import ending
from .connection import NoStart
from .ending import DEFAULT, FAILED, FOUND, USAGE
from .history import CUT_SHORT, Answered, Began, Event, History
from .journal import LogFault
from .places import end_of, expire, last_line, reader_of
from .player import Stage, Stopped
from .records import BadJournal, LineRecord
from .settings import PROGRAM, BadSettings, JournalSettings, Table, journal_settings, read_toml
from .snapshots import MANIFEST, SETTINGS, BadSnapshot, check, name_store, put_back, read_manifest
from .standing import Standing, forget_standing

NAME = "mjournal"
STATUSES = "Status: 0 all went well; 1 something was found: damage, a reply that differs, a line whose effect is not known, or no line that was looked for; " \
           "2 the words or the settings are wrong; 3 it cannot be done; 130 an interrupt."
TIME = "a time as 2026-11-26T10:15 or 2026-11-26T10:15:30.5+01:00; without an offset it is this machine's"
# Where files are in memory.
MEMORY = "/dev/shm"
# Seconds between two looks at a journal that is being written.
POLL = 0.2


def words() -> argparse.ArgumentParser:
    """The reader of the command's words."""
    parser = argparse.ArgumentParser(prog=NAME, epilog=STATUSES, description="Looks into the journal of a front, and runs it again. The front may be "
                                     "writing it meanwhile. The journal has users' lines, and so their data.")
    place = parser.add_mutually_exclusive_group()
    place.add_argument("--config", type=Path, default=Path(DEFAULT), metavar="FILE", help=f"the settings of the front (default {DEFAULT})")
    place.add_argument("--folder", type=Path, metavar="FOLDER", help="the journal's folder, without settings")
    place.add_argument("--database", metavar="CONNECTION", help="the journal's database, without settings")
    parser.add_argument("--name", default="main", help="the journal's name in its database (default main)")
    commands = parser.add_subparsers(title="commands", metavar="COMMAND", required=True)

    def add(name: str, about: str, more: str = "") -> argparse.ArgumentParser:
        one = commands.add_parser(name, epilog=STATUSES, help=about, description=f"{about[0].upper()}{about[1:]}. {more}")
        one.set_defaults(act=globals()[f"act_{name}"])
        return one
    one = add("tail", "print the last lines", "Each with its number, its time, its terminal, its user (- is the front), its code (. for none, ? for no reply) "
              "and its text.")
    one.add_argument("-n", "--lines", type=int, default=10, metavar="COUNT", help="how many (default 10)")
    one.add_argument("-f", "--follow", action="store_true", help="go on with what comes")
    _grep_words(add("grep", "print the lines that fit all that is given", "As tail prints them."))
    add("verify", "read all of the journal, and count what is in it", "It says where the journal is damaged, and what is missing.")
    one = add("expire", "remove what comes before a snapshot", "The snapshot is checked first, and has to be exact, so that a replay can begin with it.")
    one.add_argument("snapshot", type=Path, metavar="SNAPSHOT")
    _replay_words(add("replay", "run the journal over a snapshot, and compare each reply", "It stops at the first line that is answered otherwise, and says "
                      "which. Lines that had no memory or no disk, and those without a reply, are named."))
    return parser


def _grep_words(one: argparse.ArgumentParser) -> None:
    one.add_argument("pattern", nargs="?", type=_pattern, metavar="PATTERN", help="a regular expression that the text has")
    one.add_argument("--user", help="who sent it")
    one.add_argument("--terminal", type=int, help="at which terminal")
    one.add_argument("--code", help="its code, as M6")
    one.add_argument("--since", type=moment, metavar="TIME", help=TIME)
    one.add_argument("--until", type=moment, metavar="TIME", help="up to then")


def _replay_words(one: argparse.ArgumentParser) -> None:
    one.add_argument("--from", dest="snapshot", type=Path, metavar="SNAPSHOT", help="the snapshot to begin with; without it the journal's own beginning")
    one.add_argument("--store", required=True, metavar="FILE", help="the store to make, which is not there yet; memory keeps none")
    one.add_argument("--to", type=_goal, default=Goal(), metavar="NUMBER|TIME|SNAPSHOT",
                     help=f"the last line to run; or {TIME}; or a snapshot, which the store is to be as (default: all)")
    one.add_argument("--program", type=Path, metavar="FILE", help="the server (default: that of the settings, or /usr/lib/mserve/mserve)")


def moment(text: str) -> int:
    """A time in microseconds since 1970."""
    try:
        return int(datetime.fromisoformat(text).astimezone(UTC).timestamp() * 1e6)
    except (ValueError, OverflowError):
        raise argparse.ArgumentTypeError(f"{text!r} is no time: {TIME}") from None


@dataclass(frozen=True, slots=True)
class Goal:
    """Where a replay ends: after the line of a number, or after the last one that is not later than a time. Starts after that line are taken up to a flush:
    a snapshot has what they say of the store."""

    number: int | None = None
    time: int | None = None
    sequence: int = 0

    def passed(self, event: Event, sequence: int) -> bool:
        """Whether an event, which a flush tells, comes after it."""
        what = event.line if isinstance(event, Answered) else event.start
        if self.number is None:
            return self.time is not None and what.time > self.time
        return what.number > self.number + (isinstance(event, Began) and sequence <= self.sequence)


def _goal(text: str) -> Goal:
    if text.isascii() and text.isdigit():
        return Goal(int(text))
    if not (Path(text) / MANIFEST).exists():
        return Goal(time=moment(text))
    try:
        manifest = read_manifest(Path(text))
    except BadSnapshot as error:
        raise argparse.ArgumentTypeError(str(error)) from error
    return Goal(manifest.number, sequence=manifest.sequence)


def _pattern(text: str) -> re.Pattern[str]:
    try:
        return re.compile(text)
    except re.error as error:
        raise argparse.ArgumentTypeError(f"{text!r} is no regular expression: {error}") from None


def journal_of(options: argparse.Namespace) -> JournalSettings:
    """Where the journal is."""
    if options.folder is not None or options.database is not None:
        return JournalSettings(options.folder, options.database, options.name)
    table = Table(options.config, "journal", read_toml(options.config).get("journal", {}))
    found = journal_settings(table, options.config.parent)
    if not found.kept:
        raise BadSettings(f"{options.config}: journal.folder: is missing: this front keeps no journal")
    return found


def events_of(journal: JournalSettings, line: int = 1, follow: bool = False) -> Iterator[Event | LineRecord]:
    """What a journal tells, from a line on or a little before, and the lines that have no reply in the end."""
    history, reader = History(None), reader_of(journal, line)
    try:
        while True:
            flushes = reader.more()
            yield from history.take(flushes)
            if not flushes and not follow:
                break
            if not flushes:
                time.sleep(POLL)
    finally:
        reader.close()
    yield from history.unanswered


def told(event: Answered | LineRecord) -> str:
    """A line as it is printed: control characters of its text stand as on the wire."""
    line, code = (event.line, event.reply.code or ".") if isinstance(event, Answered) else (event, "?")
    at = datetime.fromtimestamp(line.time / 1e6, UTC).isoformat(timespec="microseconds")
    text = re.sub(rb"[\x00-\x1f\x7f\\]", lambda found: b"\\%02X" % found[0][0], line.text).decode("latin1")
    return f"{line.number} {at} {line.terminal} {line.user or '-'} {code} {text}"


def lines_in(event: Event | LineRecord) -> list[Answered | LineRecord]:
    """The lines that an event tells of."""
    return [*event.unknown, *event.unsent] if isinstance(event, Began) else [event]


def act_tail(options: argparse.Namespace) -> int:
    """Prints the last lines."""
    journal = journal_of(options)
    first = max(1, last_line(journal) - options.lines + 1)
    kept: deque[Answered | LineRecord] = deque(maxlen=options.lines if not options.follow else None)
    for event in events_of(journal, first, options.follow):
        for line in lines_in(event):
            number = line.line.number if isinstance(line, Answered) else line.number
            if number < first:
                continue
            kept.append(line)
            while options.follow and kept:
                print(told(kept.popleft()), flush=True)
    for line in kept:
        print(told(line))
    return 0


def act_grep(options: argparse.Namespace) -> int:
    """Prints the lines that fit."""
    count = 0
    for event in events_of(journal_of(options)):
        for one in lines_in(event):
            if _fits(options, one):
                count += 1
                print(told(one))
    return 0 if count else FOUND


def _fits(options: argparse.Namespace, one: Answered | LineRecord) -> bool:
    line, code = (one.line, one.reply.code) if isinstance(one, Answered) else (one, None)
    return (options.user in (None, line.user) and options.terminal in (None, line.terminal) and options.code in (None, code)
            and (options.since is None or line.time >= options.since) and (options.until is None or line.time <= options.until)
            and (options.pattern is None or options.pattern.search(line.text.decode("latin1")) is not None))


def act_verify(options: argparse.Namespace) -> int:
    """Reads all, and counts."""
    counts: Counter[str] = Counter()
    first = last = None
    journal = journal_of(options)
    for event in events_of(journal):
        for one in lines_in(event):
            line = one.line if isinstance(one, Answered) else one
            first, last = first or line.number, line.number
            code = one.reply.code if isinstance(one, Answered) else None
            counts["without a reply" if code is None else f"answered {code}" if code in CUT_SHORT else "answered"] += 1
        counts["starts"] += isinstance(event, Began)
    if end := end_of(journal).told:
        say(end)
    print(f"lines {first} to {last}: " + ", ".join(f"{count} {name}" for name, count in sorted(counts.items())) if last else "no lines")
    return 0


def act_expire(options: argparse.Namespace) -> int:
    """Removes what comes before a snapshot."""
    journal, manifest = journal_of(options), check(options.snapshot)
    if not manifest.exact:
        raise BadSnapshot(f"{options.snapshot}: {len(manifest.open)} sessions were open then, so the journal cannot be replayed from it in full: "
                          "mbackup take --end-sessions makes one that is exact")
    removed = expire(journal, manifest.journal, manifest.number)
    print(f"{removed} of what comes before line {manifest.number + 1} removed")
    return 0


@dataclass(slots=True)
class Replay:
    """A replay: where it begins, and where it is to end."""

    stage: Stage
    goal: Goal
    journal: int = 0

    async def run(self, settings: JournalSettings) -> None:
        """Runs lines up to the goal, or to the journal's end."""
        history, reader = History(self.stage.at), reader_of(settings, self.stage.at + 1)
        try:
            while flushes := reader.more():
                if self.journal not in (0, flushes[0].journal):
                    raise BadJournal("the snapshot is of another journal than this one")
                self.journal = flushes[0].journal
                for flush, event in ((flush, event) for flush in flushes for event in history.take([flush])):
                    if self.goal.passed(event, flush.sequence):
                        return
                    await self.stage.take(event)
        finally:
            reader.close()
            await self.stage.drained()
        unanswered = [line.number for line in history.unanswered]
        if unanswered:
            say(f"lines {unanswered[0]} to {unanswered[-1]} have no reply in the journal, and are not run")


def act_replay(options: argparse.Namespace) -> int:
    """Runs a journal again."""
    return asyncio.run(_replayed(options))


async def _replayed(options: argparse.Namespace) -> int:
    if options.store != "memory":
        return await _replayed_into(options, Path(options.store).absolute())
    # A start may give rows of the store, and only a file takes them: it is one where nothing waits for the disk.
    with tempfile.TemporaryDirectory(prefix="mjournal-", dir=MEMORY if os.access(MEMORY, os.W_OK) else None) as folder:
        return await _replayed_into(options, Path(folder) / "store")


async def _replayed_into(options: argparse.Namespace, store: Path) -> int:
    journal = journal_of(options)
    # It has another name until it is what it is to be.
    part = store.with_name(store.name + ".part")
    stage = Stage(_program(options), str(part), say, connections=1)
    replay = Replay(stage, options.to)
    for path in (store, part):
        if path.exists():
            raise BadSnapshot(f"{path}: is there already: move it away first")
    try:
        if options.snapshot is not None:
            await _begin(replay, options, part)
        first, began = stage.at + 1, time.monotonic()
        try:
            await replay.run(journal)
        except Stopped as error:
            say(str(error))
            return FOUND
        taken, terminals = time.monotonic() - began, tuple(stage.open)
    finally:
        await stage.end()
    if part.exists():
        name_store(part, store, Standing(replay.journal, stage.at, terminals, restored=True))
    count = stage.at - first + 1
    print(f"lines {first} to {stage.at} run in {taken:.1f} s, {count / taken:.0f} in a second: each was answered as it was" if count else "no line to run")
    return FOUND if stage.reported else 0


async def _begin(replay: Replay, options: argparse.Namespace, part: Path) -> None:
    """Begins with a snapshot. What refuses it comes first: a copy would be in the way of the next replay."""
    manifest = read_manifest(options.snapshot)
    if manifest.number > last_line(journal_of(options)):
        raise BadJournal(f"the snapshot stands after line {manifest.number}, and the journal ends before it: it has lost a part, or is another")
    if replay.goal.number is not None and replay.goal.number < manifest.number:
        raise BadSnapshot(f"{options.snapshot}: it stands after line {manifest.number}, and line {replay.goal.number} comes before: take an earlier one")
    if not manifest.exact:
        say(f"{len(manifest.open)} sessions were open at the snapshot, and their variables and locks are not in it: a line that needs them differs")
    put_back(options.snapshot, part)
    replay.stage.at, replay.journal = manifest.number, manifest.journal
    await replay.stage.begin((options.snapshot / SETTINGS).read_bytes())
    forget_standing(part)


def _program(options: argparse.Namespace) -> Path:
    named: Path | None = options.program
    if named is not None:
        return named
    if options.folder is None and options.database is None:
        server = read_toml(options.config).get("server", {})
        program = Table(options.config, "server", server).file("program")
        if program is not None:
            return program
    return PROGRAM


def say(text: str) -> None:
    """Writes a line to the standard error."""
    ending.say(NAME, text)


def does(given: list[str] | None = None) -> int:
    """The status of the command by its words, or by those of the process."""
    return ending.ended(NAME, words().parse_args(given), {BadSettings: USAGE, BadJournal: FOUND, BadSnapshot: FAILED, LogFault: FAILED, NoStart: FAILED})


def main() -> int:
    """The status of the command."""
    return does()
