# SPDX-License-Identifier: Apache-2.0
"""The audit log as the package has it moved away, and as docs/OPERATING.md ships it: what is there in the end is each record once, however long it goes on.

It is skipped by name where logrotate or rsync is not there, wherever that is: apt-get install logrotate rsync."""
from __future__ import annotations

import asyncio
import gzip
import json
import re
import shutil
import subprocess
from collections.abc import Iterator
from pathlib import Path

import pytest
from front import FRONT, Front, Record, in_loop, until

TOP = FRONT.parent
PAGE = (TOP / "docs" / "OPERATING.md").read_text(encoding="utf-8")
# How often the log is moved away, and how many of those are kept where it is written.
ROTATIONS, KEPT = 4, 2


def words_of(log: str) -> str:
    """What the package has logrotate do with a log."""
    [words] = re.findall(rf"^{re.escape(log)} \{{\n(.*?)^\}}$", (TOP / "packaging/deb/logrotate").read_text(), re.MULTILINE | re.DOTALL)
    return str(words)


def require(name: str) -> None:
    """Skips a test if a program is not there."""
    if shutil.which(name) is None:
        pytest.skip(f"{name} is not there: apt-get install {name}")


class Rotated:
    """The log of a front that logrotate moves away by the package's words."""

    def __init__(self, front: Front, there: Path) -> None:
        self.log, self._front = front.folder / "audit.log", front
        words = re.sub(r"rotate \d+", f"rotate {KEPT}", re.sub(r"^ *su .*\n", "", words_of("/var/log/mserve/audit.log"), flags=re.MULTILINE))
        words, count = re.subn(r"(postrotate\n).*?(^ *endscript)", rf"\1kill -HUP {front.process.pid}\n\2", words, flags=re.MULTILINE | re.DOTALL)
        assert count == 1
        self._config = front.folder / "logrotate"
        self._config.write_text(f"{self.log} {{\n{words}}}\n")
        [self._ships] = re.findall(r"^ {4}(rsync .* /var/log/mserve/ there:.*)$", PAGE, re.MULTILINE)
        self._ships = self._ships.replace("/var/log/mserve", str(front.folder)).replace(f"there:{front.folder}/HOST", str(there))

    def moves(self) -> None:
        """Moves the log away, as each night."""
        done = subprocess.run(["logrotate", "--force", "--state", self.log.with_name("state"), self._config], capture_output=True, text=True)
        assert done.returncode == 0 and "error" not in done.stderr, done.stderr

    def ships(self) -> None:
        """Has the page's command copy what was moved away."""
        done = subprocess.run(["bash", "-c", self._ships], capture_output=True, text=True)
        assert done.returncode == 0, f"{self._ships}: {done.stderr}"


def records(files: Iterator[Path]) -> list[Record]:
    """The records of logs, packed or not."""
    return [json.loads(line) for path in files for line in (gzip.decompress(path.read_bytes()) if path.suffix == ".gz" else path.read_bytes()).splitlines()]


def test_logs_of_islands_are_moved_away_alike() -> None:
    front, islands = words_of("/var/log/mserve/audit.log"), words_of("/var/lib/mserve/islands/*/audit.log")
    assert islands.replace("    sharedscripts\n", "").replace("mgate.service", "mfront.service") == front


@in_loop()
async def test_what_is_shipped_has_each_record_once(start, tmp_path: Path) -> None:
    """While users work the log is moved away more often than logs are kept. What was shipped stays where it is, and is sent once."""
    for name in ("logrotate", "rsync"):
        require(name)
    there = tmp_path / "there"
    there.mkdir()
    front: Front = start(audit={"texts": True})
    rotated, sent, stop = Rotated(front, there), {"ada": 0, "cleo": 0}, asyncio.Event()

    async def works(name: str) -> None:
        async with front.person(name) as person:
            while not stop.is_set():
                sent[name] += 1
                assert await person.told(f"W {sent[name]}") == str(sent[name])
    working = [asyncio.create_task(works(name)) for name in sent]
    shipped: dict[str, bytes] = {}
    for _ in range(ROTATIONS):
        before = dict(sent)
        await until(lambda before=before: all(sent[name] > before[name] + 5 for name in sent), "users who work")
        await asyncio.to_thread(rotated.moves)
        await until(rotated.log.exists, "a new log")
        # The names of logs have the second in which they were moved away.
        await asyncio.sleep(1.1)
        await asyncio.to_thread(rotated.ships)
        now = {path.name: path.read_bytes() for path in there.iterdir()}
        assert shipped.items() <= now.items(), "what had been shipped is another now"
        shipped = now
    stop.set()
    await asyncio.gather(*working)
    await asyncio.to_thread(front.stop)
    left = sorted(path for path in front.folder.glob("audit.log*") if path.name not in shipped)
    found = records([*(there / name for name in sorted(shipped)), *left[1:], left[0]])
    for name in sent:
        lines = [record["text"] for record in found if record["event"] == "line" and record["user"] == name]
        assert lines == [f"W {number}" for number in range(1, sent[name] + 1)]
        assert [record["event"] for record in found if record.get("user") == name and record["event"].startswith("sign-")] == ["sign-on", "sign-off"]
    assert len(shipped) >= ROTATIONS - 1 > KEPT
