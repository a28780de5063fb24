# SPDX-License-Identifier: Apache-2.0
"""What a store's log has changed, as it is read from the files: beside SQLite, over drawn lines and a server that is killed anywhere."""
from __future__ import annotations

import random
import shutil
import sqlite3
import subprocess
import tempfile
from collections.abc import Iterator
from pathlib import Path

import pytest
from database import IN_MEMORY
from mserve_front import witness
from mserve_front.records import Flush
from mserve_front.rows import apply, packed, unpacked
from mserve_front.store_log import changed, image
from running import PROGRAM

SETTINGS = '[[account]]\nname = "A"\nterminals = [1]\nsteps = 1000000\n'
LINES = ["S ^X({n})={n}", "F I=1:1:{m} S ^X({n},I)=I_\"some text that fills pages\"", "K ^X({n})", "K ^X", 'S ^Y({n})=$J("",{long})',
         "F I=1:1:{m} K ^X({n},I)", 'S ^Z(\"{key}\",{n})={n}', "S (^P({n}),^Q({m}))={n}", "K ^P,^Q", "S ^X(1)=1", "W ^X(1)"]


@pytest.fixture
def folder() -> Iterator[Path]:
    """A folder where nothing waits for the disk."""
    with tempfile.TemporaryDirectory(dir=IN_MEMORY) as made:
        yield Path(made)


class Server:
    """A server over a store, which is killed."""

    def __init__(self, folder: Path) -> None:
        (folder / "settings.toml").write_text(SETTINGS)
        self.store = folder / "store"
        self._process = subprocess.Popen([PROGRAM, "run", "--settings", folder / "settings.toml", "--store", self.store], stdin=subprocess.PIPE,
                                         stdout=subprocess.PIPE)

    def line(self, text: str) -> None:
        """Runs a line."""
        self.send(text)
        while not self._process.stdout.readline().startswith((b"1.", b"1!")):
            pass

    def send(self, text: str) -> None:
        """Sends a line."""
        self._process.stdin.write(f"1 {text}\n".encode())
        self._process.stdin.flush()

    def kill(self) -> None:
        """Ends it at once."""
        self._process.kill()
        self._process.communicate()


def held(store: Path, copy: Path) -> dict[bytes, bytes]:
    """What a store holds by SQLite, over a copy."""
    for end in ("", "-wal", "-shm"):
        Path(f"{copy}{end}").unlink(missing_ok=True)
        if Path(f"{store}{end}").exists():
            shutil.copyfile(f"{store}{end}", f"{copy}{end}")
    base = sqlite3.connect(copy)
    found = dict(base.execute("SELECT k, v FROM node"))
    base.close()
    return found


@pytest.mark.parametrize("said", [True, False])
def test_what_is_noted_of_a_store_counts_during_one_start_of_the_machine(tmp_path: Path, monkeypatch: pytest.MonkeyPatch, said: bool) -> None:
    """The next front believes it. Where the system does not say which start this is, as a unit that hides it (ProcSubset=pid), a front begins all the same,
    and believes nothing of before."""
    if not said:
        monkeypatch.setattr(witness, "BOOT", tmp_path / "none")
    (tmp_path / "store").write_bytes(b"store")
    before = witness.StoreWitness(tmp_path / "store", True)
    before.sending(1)
    before.flushed(Flush(7, 1, 2, 0, 1_000, ()))
    before.close()
    assert before.covers and witness.StoreWitness(tmp_path / "store", True).covers is said


def drawn(rng: random.Random) -> str:
    return rng.choice(LINES).format(n=rng.randrange(30), m=rng.randrange(1, 60), long=rng.choice([5, 300, 3900]), key="k" * rng.choice([1, 60, 90]))


@pytest.mark.parametrize("seed", range(6))
def test_rows_that_changed_since_the_log_was_begun(folder: Path, seed: int) -> None:
    """A store as it was when the log was begun, or any time after it, is the one that is there once it has the rows that the log can have changed."""
    rng, server = random.Random(seed), Server(folder)
    seen = server.store.stat().st_mtime_ns if server.store.exists() else 0
    before: list[dict[bytes, bytes]] = []
    for _ in range(250):
        server.line(drawn(rng))
        if server.store.stat().st_mtime_ns != seen:
            seen, before = server.store.stat().st_mtime_ns, []
        if rng.random() < 0.1:
            before.append(held(server.store, folder / "copy"))
    server.send("F I=1:1:20000 S ^X(I)=I")
    server.kill()
    last = held(server.store, folder / "copy")
    if server.store.stat().st_mtime_ns == seen:
        print(f"{len(before)} states of before")
        rows = changed(server.store)
        for found in before:
            now = {key: text for key, text in (found | rows).items() if text is not None}
            assert now == last
    assert dict(image(server.store)) == last


def test_rows_there_and_back(folder: Path) -> None:
    """They make a store, change it, and take the place of all that it has."""
    server = Server(folder)
    server.line("F I=1:1:3000 S ^X(I)=I")
    server.line('S ^Y=$J("",4000)')
    server.kill()
    rows = held(server.store, folder / "copy")
    parts = list(packed(rows.items()))
    assert dict(unpacked(parts)) == rows
    for whole in (False, True):
        apply(folder / "other", parts, whole)
        assert held(folder / "other", folder / "copy") == rows
    keys = sorted(rows)
    apply(folder / "other", list(packed([(keys[0], None), (keys[1], b"new"), (b"42004300", None)])), False)
    del rows[keys[0]]
    assert held(folder / "other", folder / "copy") == rows | {keys[1]: b"new"}
    apply(folder / "other", [], True)
    assert held(folder / "other", folder / "copy") == {}
    again = Server(folder)
    again.line("S ^X=1")
    again.kill()
