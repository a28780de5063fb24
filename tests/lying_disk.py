# SPDX-License-Identifier: Apache-2.0
"""Stores in files of which one read is answered with other bytes than the file holds (the library tests/lie_disk.c), and the session that is
played over them: what it has to answer, and how a run is judged."""
from __future__ import annotations

import contextlib
import itertools
import os
import re
import shutil
import sqlite3
import struct
import subprocess
from collections.abc import Iterable
from dataclasses import dataclass
from pathlib import Path

from old_stores import NEW, TABLES, key
from running import run, run_words
from support import MOST_STEPS

# What is read in place of the truth, in the order in which the library counts.
KINDS = ("other bytes", "one bit", "older bytes", "zeros")
# The program takes the log back to its start at a change after this many frames, of which a change makes two or more.
FRAMES = 1000
ZSTORE = b"1!ZSTORE\n"
REPLY = re.compile(rb"(?:1[-:].*\n)*1[.!].*\n")
# Nodes ^K(1), ^K(2), .. with their texts.
Held = dict[int, str]


def text_of(number: int, version: str) -> str:
    """The text of a node in a version of the store."""
    return f"{number}:{version}:".ljust(200, ".")


@dataclass(frozen=True)
class Step:
    """A line that reads a node, asks for the next one, sets one or kills one."""
    does: str
    number: int
    text: str = ""

    def line(self) -> bytes:
        """It as the wire has it."""
        form = {"read": "W ^K({0})", "next": "W $O(^K({0}))", "set": 'S ^K({0})="{1}"', "kill": "K ^K({0})"}[self.does]
        return f"1 {form.format(self.number, self.text)}\n".encode()

    def reply(self, held: Held) -> bytes:
        """The right reply over a store that holds these."""
        if self.does == "read":
            return b"1-%s\n1.\n" % held[self.number].encode()
        if self.does == "next":
            return b"1-%d\n1.\n" % min(number for number in held if number > self.number)
        return b"1.\n"

    def after(self, held: Held) -> Held:
        """What the store holds then."""
        if self.does == "set":
            return {**held, self.number: self.text}
        return {number: text for number, text in held.items() if (self.does, number) != ("kill", self.number)}


def sets(numbers: Iterable[int], version: str) -> list[Step]:
    """SETs of these nodes to this version."""
    return [Step("set", number, text_of(number, version)) for number in numbers]


def reads(numbers: Iterable[int]) -> list[Step]:
    """Reads of these nodes."""
    return [Step("read", number) for number in numbers]


def after_all(steps: Iterable[Step], held: Held) -> Held:
    """What a store holds after steps of which none failed."""
    for step in steps:
        held = step.after(held)
    return held


@dataclass(frozen=True)
class Scene:
    """A store with a log beside it, as a killed process left them, and older forms of both; what it holds; a session over it; and what it held
    before each of the last changes."""
    folder: Path
    settings: str
    held: Held
    session: list[Step]
    earlier: tuple[Held, ...] = ()

    def path(self, name: str) -> str:
        """The path of the store, or of its older form."""
        return str(self.folder / name)


def copied(source: str, target: str) -> None:
    """Copies the two files of a store."""
    for end in ("", "-wal"):
        shutil.copyfile(source + end, target + end)


def played(scene: Scene, steps: list[Step]) -> None:
    """A run of steps, which all succeed, to its end."""
    output = b"".join(step.reply(scene.held) for step in steps)
    assert run(b"".join(step.line() for step in steps), scene.settings, scene.path("store")) == (0, output, b"")


def killed_after(scene: Scene, steps: list[Step], shown: int) -> None:
    """A run of SETs whose process is killed then, so that the log stays; after this many of them the log is copied, as an older form."""
    with subprocess.Popen(run_words(scene.settings, scene.path("store")), stdin=subprocess.PIPE, stdout=subprocess.PIPE) as process:
        for number, step in enumerate(steps):
            if number == shown:
                shutil.copyfile(scene.path("store-wal"), scene.path("older-wal"))
            process.stdin.write(step.line())
            process.stdin.flush()
            assert process.stdout.readline() == b"1.\n"
        process.kill()


def blank_with_sums(path: str) -> None:
    """A database of one empty page, 4,096 bytes of which the last eight are the sum of SQLite's extension cksumvfs."""
    page = bytearray(4096)
    page[0:28] = b"SQLite format 3\0" + bytes([16, 0, 2, 2, 8, 64, 32, 32]) + (1).to_bytes(4, "big")
    page[28:32], page[44:48], page[56:60] = (1).to_bytes(4, "big"), (4).to_bytes(4, "big"), (1).to_bytes(4, "big")
    page[92:100] = (1).to_bytes(4, "big") + (3050000).to_bytes(4, "big")
    page[100:108] = bytes([13, 0, 0, 0, 0, *(4088).to_bytes(2, "big"), 0])
    first = second = 0
    for left, right in struct.iter_unpack("<II", bytes(page[:4088])):
        first = (first + left + second) % 2**32
        second = (second + right + first) % 2**32
    page[4088:] = struct.pack("<II", first, second)
    Path(path).write_bytes(page)


def small_scene(folder: Path, has_sums: bool) -> Scene:
    """Sixty nodes on nine pages. Of the lower ones some were changed in an earlier run, and are in the file; of the upper ones some are in the
    log alone, which had been taken back to its start."""
    settings, numbers = str(folder / "settings.toml"), range(1, 61)
    Path(settings).write_text(MOST_STEPS, encoding="ascii")
    if has_sums:
        blank_with_sums(str(folder / "store"))
    scene = Scene(folder, settings, {}, [])
    before = [sets(numbers, "first"), sets(range(4, 34, 6), "second")]
    for steps in before:
        played(scene, steps)
        if not (folder / "older").exists():
            shutil.copyfile(folder / "store", folder / "older")
    logged = sets([36 + 2 * (number % 12) for number in range(FRAMES + 8)], "third") + sets(range(37, 60, 4), "fourth")
    killed_after(scene, logged, FRAMES - 2)
    # eight bytes of each page are kept for its sum, or none
    assert Path(scene.path("store")).read_bytes()[20] == (8 if has_sums else 0)
    changes = [*sets([1, 20, 40], "last"), Step("kill", 9), Step("next", 8), *sets([10, 59], "last")]
    forms = list(itertools.accumulate([*before[0], *before[1], *logged], lambda held, step: step.after(held), initial=Held()))
    return Scene(folder, settings, forms[-1], reads(numbers) + changes + reads([1, 10, 11, 59, 60]), tuple(forms[-30:-1]))


def database_of(path: str, numbers: Iterable[int], version: str, page: int) -> None:
    """A database with a store that SQLite has made, by pages of this size."""
    with contextlib.closing(sqlite3.connect(path)) as database:
        for statement in (f"PRAGMA page_size = {page}", *TABLES, "INSERT INTO meta (name, n) VALUES ('version', 2)"):
            database.execute(statement)
        rows = [(key(("ALICE", "K", (str(number),)), NEW), text_of(number, version).encode()) for number in numbers]
        database.executemany("INSERT INTO node VALUES (?, ?)", rows)
        database.commit()


# The program keeps 2,000 pages, each in the place that its number has there. This many nodes, two on a page of 512 bytes, need 2,679 of them, and
# pages at the end take the places of those in front.
MANY = 4600


def large_scene(folder: Path, changes: int, session: list[Step]) -> Scene:
    """A store of more pages than the program keeps. A node on each page was changed in an earlier run, and this many changes are in the log, but for
    those before it was taken back to its start."""
    settings = str(folder / "settings.toml")
    Path(settings).write_text(MOST_STEPS, encoding="ascii")
    numbers = range(1, MANY + 1)
    database_of(str(folder / "store"), numbers, "first", 512)
    shutil.copyfile(folder / "store", folder / "older")
    scene = Scene(folder, settings, {number: text_of(number, "first") for number in numbers}, session)
    changed = sets(range(2, MANY, 2), "second")
    played(scene, changed)
    logged = sets([1 + 16 * (number % 280) for number in range(changes)], "third")
    killed_after(scene, logged, changes // 2)
    return Scene(folder, settings, after_all([*changed, *logged], scene.held), session)


@dataclass(frozen=True)
class Lie:
    """Which read is answered with other bytes, which ones, and whether later reads of them are too."""
    at: int
    kind: str
    lasts: bool
    seed: int = 0


@dataclass(frozen=True)
class Seen:
    """What a run over a lying disk did: how many reads the open made, with lines, and with the end; how many were answered with other bytes than the
    file's, and of which file the first was; how many lines were answered ZSTORE; the verdict on its replies; and what an honest restart finds."""
    of_open: int
    of_lines: int
    of_all: int
    told: int
    file: str
    refused: int
    verdict: str
    after: str


def environment(library: str, scene: Scene, lie: Lie | None, to: int) -> dict[str, str]:
    """The environment of a run with a lie, or with none."""
    more = {"LD_PRELOAD": library, "LIE_TOLD": str(to)}
    if lie is not None:
        more |= {"LIE_AT": str(lie.at), "LIE_KIND": str(KINDS.index(lie.kind) + 1), "LIE_LASTS": str(int(lie.lasts)),
                 "LIE_SEED": str(1000 * lie.at + lie.seed), "LIE_OLDER": scene.path("older")}
    return {**os.environ, **more}


def answered(session: list[Step], replies: list[bytes], held: Held) -> tuple[str, Held]:
    """Whether replies are right over a store that holds these, and what it holds then. A line that is answered ZSTORE has changed nothing."""
    verdict = "right"
    for step, reply in zip(session, replies):
        if reply == ZSTORE:
            verdict = "refused by a line" if verdict == "right" else verdict
        else:
            verdict = verdict if reply == step.reply(held) else "false"
            held = step.after(held)
    return verdict, held


def judged(scene: Scene, ran: subprocess.CompletedProcess[bytes]) -> tuple[str, Held]:
    """The verdict of a run, and what the store has to hold then. Wrong replies are those over the store before its last changes, or false."""
    if ran.returncode == 4 and not ran.stdout:
        assert re.fullmatch(rb"mserve: store: \w+\n", ran.stderr), ran.stderr
        return "refused by the open", scene.held
    replies = REPLY.findall(ran.stdout)
    assert (ran.returncode, ran.stderr, b"".join(replies), len(replies)) == (0, b"", ran.stdout, len(scene.session))
    verdict, held = answered(scene.session, replies, scene.held)
    if verdict == "false":
        for form in reversed(scene.earlier):
            if (found := answered(scene.session, replies, form))[0] == "right":
                return "earlier", found[1]
    return verdict, held


def shown(numbers: Iterable[int]) -> list[bytes]:
    """Lines that show what the nodes hold, and count all nodes."""
    groups = [list(numbers)[start:start + 50] for start in range(0, len(list(numbers)), 50)]
    lines = [b'1 F I=%d:1:%d W $G(^K(I),"none"),!\n' % (group[0], group[-1]) for group in groups]
    return [*lines, b'1 S N=0,X="" F  S X=$O(^K(X)) Q:X=""  S N=N+1\n', b"1 W N\n"]


def found_after(scene: Scene, store: str, held: Held) -> str:
    """What an honest restart finds: all that has to be there and nothing else (`whole`), or something else (`changed`); or it is refused."""
    numbers = range(1, max(scene.held) + 1)
    status, output, told = run(b"".join(shown(numbers)), scene.settings, store)
    if status == 4:
        assert output == b"" and re.fullmatch(rb"mserve: store: \w+\n", told), told
        return "refused"
    assert (status, told) == (0, b"")
    texts = [line[2:].decode() for line in output.splitlines() if line.startswith(b"1:")]
    is_whole = texts == [held.get(number, "none") for number in numbers] and output.endswith(b"1-%d\n1.\n" % len(held))
    with contextlib.closing(sqlite3.connect(store)) as database:
        assert database.execute("PRAGMA integrity_check").fetchall() == [("ok",)]
    return "whole" if is_whole else "changed"


def seen(library: str, scene: Scene, folder: Path, lie: Lie | None) -> Seen:
    """Plays a session over a copy of its store; and then restarts over the honest files, unless the disk had nothing to lie about."""
    store = str(folder / "store")
    copied(scene.path("store"), store)
    reading, writing = os.pipe()
    try:
        stream = b"".join(step.line() for step in scene.session)
        ran = subprocess.run(run_words(scene.settings, store), input=stream, capture_output=True, timeout=60, pass_fds=[writing],
                             env=environment(library, scene, lie, writing))
    finally:
        os.close(writing)
        figures = os.read(reading, 96).decode().split()
        os.close(reading)
    verdict, held = judged(scene, ran)
    *numbers, file = figures
    is_looked_at = lie is None or file != "-"
    return Seen(*map(int, numbers), file, ran.stdout.count(ZSTORE), verdict, found_after(scene, store, held) if is_looked_at else "")
