# SPDX-License-Identifier: Apache-2.0
"""The commands of docs/OPERATING.md for snapshots, recovery and fail-over do what the page says."""
from __future__ import annotations

import asyncio
import re
import shlex
import shutil
import signal
import subprocess
from datetime import UTC, datetime
from pathlib import Path

from front import FRONT, Front, in_loop, toml, tool
from running import free_port

PAGE = (FRONT.parent / "docs" / "OPERATING.md").read_text(encoding="utf-8")
MOST = 10


class Operator:
    """Runs the page's commands for a front, in a folder in place of the system's: its own, or that of another machine."""

    def __init__(self, front: Front, folder: Path | None = None, second: str = "standby.toml") -> None:
        """`second` is the standby's settings."""
        self.front = front
        self.folder = folder or front.folder
        self.second = second
        self.line = ""
        self.moment = ""
        self.standby: Front | None = None

    def does(self, heading: str) -> int:
        """Runs the commands below a heading, and gives how many these are."""
        count = 0
        text = re.search(rf"^### {re.escape(heading)}\n(.*?)(?=^##)", PAGE, re.MULTILINE | re.DOTALL)[1]
        for block in re.findall(r"^```\n(.*?)^```$", text, re.MULTILINE | re.DOTALL):
            for command in block.splitlines():
                self._run(command)
                count += 1
        return count

    def _run(self, command: str) -> None:
        for name, value in (("/var/lib/mserve", self.folder), ("/etc/mserve/standby.toml", self.front.folder / self.second),
                            ("/etc/mserve", self.front.folder), ("LINE", self.line), ("MOMENT", self.moment)):
            command = command.replace(name, str(value))
        name, *words = shlex.split(command)
        if name == "systemctl":
            self.front.stop() if words[0] == "stop" else self.front.again()
        elif name == "mfront" and words[0] == "--follow":
            self.standby = self._follows()
        elif name in ("mfront", "mjournal", "mbackup"):
            if words[0] == "promote":
                # That is done once the leader is gone.
                self.front.process.send_signal(signal.SIGKILL)
                self.front.process.wait()
            self._tool(name, words)
        else:
            assert name in ("mkdir", "mv", "rm"), command
            done = subprocess.run([name, *words], capture_output=True, text=True)
            assert done.returncode == 0, done.stderr

    def _tool(self, name: str, words: list[str]) -> None:
        config = ["--config", str(self.front.folder / self.front._config)]
        before, after = (config, []) if name == "mjournal" else ([], config if words[0] == "take" else [])
        status, output, told = tool(name)(*before, *words, *after)
        assert status == 0, told
        if words[0] == "take":
            self.line = Path(output.strip()).name

    def _follows(self) -> Front:
        """A standby by settings at the page's place."""
        made = Front.__new__(Front)
        made.__dict__ |= self.front.__dict__
        made.port, made.lines_port = free_port(), free_port()
        made.__dict__ |= {"_words": ["--follow"], "_awaited": "standing by", "_config": self.second, "_told": f"{self.second}.told"}
        tables = self.front.tables | {"journal": self.front.tables["journal"] | {"control": f"{self.second}.control"}}
        tables["listen"] = tables["listen"] | {"port": made.port, "lines_port": made.lines_port}
        tables["server"] = tables["server"] | {"store": str(self.folder / "standby" / "store")}
        (made.folder / self.second).write_text(toml(tables))
        made.process = made._started()
        return made


@in_loop()
async def test_commands_of_the_page(start) -> None:
    front = start(store="store", journal={"folder": "journal"})
    operator = Operator(front)
    async with front.person("ada") as ada:
        await ada.line("S ^X=1")
        assert await asyncio.to_thread(operator.does, "Backup while users work") <= MOST
        await ada.line("S ^X=2")
        operator.moment = datetime.now(UTC).isoformat()
        await asyncio.sleep(0.01)
        await ada.line("K ^X")
    assert await asyncio.to_thread(operator.does, "Recovery to a moment") <= MOST
    async with front.person("ada") as ada:
        assert await ada.told("W ^X") == "2"
    assert await asyncio.to_thread(operator.does, "A standby, and fail-over") <= MOST
    # The machine that failed stands by by the same commands, and takes over in its turn.
    other = front.folder / "other"
    (other / "backup").mkdir(parents=True)
    back = Operator(operator.standby, other, "again.toml")
    try:
        operator.standby.hears("serving at")
        async with operator.standby.person("ada") as ada:
            assert await ada.told("W ^X S ^X=3") == "2"
        assert await asyncio.to_thread(back.does, "A standby, and fail-over") <= MOST
        back.standby.hears("serving at")
        async with back.standby.person("ada") as ada:
            assert await ada.told("W ^X") == "3"
    finally:
        for one in (operator.standby, back.standby):
            if one is not None:
                one.stop()


@in_loop()
async def test_a_machine_that_is_lost_with_its_journal(start) -> None:
    """A copy of a snapshot is enough to serve again, by the page's commands, and the new journal has snapshots of its own."""
    front = start(store="store", journal={"folder": "journal"})
    operator = Operator(front)
    async with front.person("ada") as ada:
        await ada.line("S ^X=1")
    assert await asyncio.to_thread(operator.does, "Backup while users work") <= MOST
    async with front.person("ada") as ada:
        await ada.line("S ^X=2")
    front.stop()
    (front.folder / "backup").rename(front.folder / "copy")
    shutil.rmtree(front.folder / "journal")
    for path in front.folder.glob("store*"):
        path.unlink()
    assert await asyncio.to_thread(operator.does, "If the journal is lost too") <= MOST
    async with front.person("ada") as ada:
        assert await ada.told("W ^X") == "1"
    assert tool("mbackup")("verify", front.folder / "backup", "--config", front.folder / front._config)[0] == 0
