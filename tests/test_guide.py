# SPDX-License-Identifier: Apache-2.0
"""What docs/GUIDE.md and README.md show, read from the pages themselves, so that no command can be left out, and compared with what is printed.

A block `console` has commands after `$ `, their further lines after `> `, and what they print. A block whose first line names a file, as
```toml hospital.toml, is that file. All commands of a page are one shell's, in a folder of its own in which `./mserve` is the built program, or
the one that the variable MSERVE names. The port 9000 becomes a free one. A block `session` has lines with their replies beside them, by the
settings of examples/laboratory."""
from __future__ import annotations

import os
import re
import shutil
import signal
import subprocess
from dataclasses import dataclass, field
from pathlib import Path

import pytest
from running import PROGRAM, TOP, free_port, run

pytestmark = [pytest.mark.waits, pytest.mark.together]
PAGE = os.path.join(TOP, "docs", "GUIDE.md")
FRONT = os.path.join(TOP, "README.md")
SETTINGS = os.path.join(TOP, "examples", "laboratory", "settings.toml")
FENCE = re.compile(r"^```(\w*) ?([\w.]*)\n(.*?)^```$", re.MULTILINE | re.DOTALL)
ROW = re.compile(r"^(.*?)(?: {2,}|^)(\S+[^ ]*(?: \S+)*)$")
MARK = "@@ the end of a command @@"
# What the page waits a second for, and a busy machine may need longer for: that somebody listens at the port.
PAUSE = "sleep 1"
LISTENS = "until grep -q ':{:04X} 00000000:0000 0A' /proc/net/tcp; do sleep 0.05; done"
SECONDS = 300
# The folder that the page works in.
OWN = "guide"


@dataclass
class Command:
    """A command of the page: the text for the shell, and what it prints there."""
    text: str
    printed: list[str] = field(default_factory=list)


def blocks(path: str) -> list[tuple[str, str, str]]:
    """The blocks of a page: kind, name of a file or nothing, text."""
    return FENCE.findall(Path(path).read_text(encoding="utf-8"))


def commands_of(text: str) -> list[Command]:
    """The commands of a block `console`."""
    found: list[Command] = []
    for line in text.splitlines():
        if line.startswith("$ "):
            found.append(Command(line[2:]))
        elif line.startswith("> ") and not found[-1].printed:
            found[-1].text += "\n" + line[2:]
        else:
            found[-1].printed.append(line)
    return found


COMMANDS = [command for kind, name, text in blocks(PAGE) if kind == "console" and not name for command in commands_of(text)]


def prepare(folder: Path, port: str) -> None:
    """Puts there what a clone has, and the files that the page names."""
    for name in ("examples", "tools", "clients"):
        if os.path.isdir(os.path.join(TOP, name)):
            shutil.copytree(os.path.join(TOP, name), folder / name)
    os.symlink(os.path.realpath(PROGRAM), folder / "mserve")
    (folder / OWN).mkdir()
    for _, name, text in blocks(PAGE):
        if name:
            (folder / OWN / name).write_text(text.replace("9000", port), encoding="utf-8")


def script_of(port: int) -> str:
    """All commands of the page, each followed by a mark."""
    waiting = LISTENS.format(port)
    texts = (command.text.replace("9000", str(port)) for command in COMMANDS)
    return "".join(f"{waiting if text == PAUSE else text}\necho '{MARK}'\n" for text in texts)


@pytest.fixture(scope="module")
def printed(tmp_path_factory: pytest.TempPathFactory) -> list[str]:
    """What each command prints, in one shell."""
    folder, port = tmp_path_factory.mktemp("guide"), free_port()
    prepare(folder, str(port))
    script = folder / ".commands"
    script.write_text(script_of(port), encoding="utf-8")
    with subprocess.Popen(["bash", script], cwd=folder, stdin=subprocess.DEVNULL, stdout=subprocess.PIPE, stderr=subprocess.STDOUT,
                          text=True, errors="replace", start_new_session=True) as shell:
        try:
            output, _ = shell.communicate(timeout=SECONDS)
        except subprocess.TimeoutExpired:
            os.killpg(shell.pid, signal.SIGKILL)
            output, _ = shell.communicate()
    return [part.replace(str(port), "9000") for part in output.split(MARK + "\n")]


def test_the_page_has_commands() -> None:
    assert len(COMMANDS) >= 10
    assert (COMMANDS[0].text, COMMANDS[-1].text) == (f"mkdir -p {OWN} && cd {OWN}", f"cd .. && rm -r {OWN}")


def test_nothing_is_left(printed: list[str], tmp_path_factory: pytest.TempPathFactory) -> None:
    """The page removes its folder, and has made nothing beside it."""
    [folder] = [path for path in tmp_path_factory.getbasetemp().glob("guide*") if not path.is_symlink()]
    assert sorted(path.name for path in folder.iterdir()) == [".commands", "clients", "examples", "mserve", "tools"]


@pytest.mark.parametrize("place", range(len(COMMANDS)), ids=[f"{place}: {command.text[:40]}" for place, command in enumerate(COMMANDS)])
def test_command(place: int, printed: list[str]) -> None:
    """It prints what the page has."""
    assert place < len(printed), "the shell ended before"
    assert printed[place].splitlines() == COMMANDS[place].printed


def test_the_first_session() -> None:
    """The session on the front page is answered as it is there."""
    rows = [text for kind, _, text in blocks(FRONT) if kind == "session"][0].splitlines()
    parted = [ROW.match(row) for row in rows]
    assert [row for row, found in zip(rows, parted) if found is None] == []
    lines = "".join(found[1] + "\n" for found in parted if found[1].strip())
    status, output, told = run(lines.encode("ascii"), settings=SETTINGS)
    assert (status, told, output.decode("ascii").splitlines()) == (0, b"", [found[2] for found in parted])
