# SPDX-License-Identifier: Apache-2.0
"""`./mserve` and `./mislands` as a newcomer runs them: in a copy of what git tracks, with bash and python3 and without the kit.

The first line is answered within five seconds; a later start takes at most 50 ms longer than the program alone, of the processor, since the
machine may be busy; a changed document leaves the release valid; a changed source is met by one line that says what is missing. `-s` prints
the times."""
from __future__ import annotations

import os
import resource
import shutil
import subprocess
import time
from pathlib import Path

import pytest
from running import TOP

pytestmark = pytest.mark.alone
# The folders of bash, python3 and find; the kit's command is in none of them.
PATH = "/usr/bin:/bin"
# Seconds, milliseconds, and how many starts are measured.
FIRST_RUN, OVERHEAD, STARTS = 5.0, 50, 40
WORDS = ("run", "--settings", "examples/laboratory/settings.toml", "--store", "memory")
LINE, REPLY = b"1 WRITE 1+2*3\n", b"1-9\n1.\n"


@pytest.fixture
def top(tmp_path: Path) -> Path:
    """A copy of the files that git tracks."""
    copy = tmp_path / "mserve"
    listed = subprocess.run(["git", "ls-files", "-z"], cwd=TOP, check=True, capture_output=True, text=True).stdout
    for path in filter(None, listed.split("\0")):
        if os.path.exists(os.path.join(TOP, path)):
            (copy / path).parent.mkdir(parents=True, exist_ok=True)
            shutil.copy(os.path.join(TOP, path), copy / path)
    return copy


def start(top: Path, words: tuple[str, ...] = WORDS) -> tuple[int, bytes, bytes]:
    """The status, the output and the errors of a start without the kit."""
    ran = subprocess.run(["./mserve", *words], cwd=top, env={"PATH": PATH, "HOME": str(top)}, input=LINE, capture_output=True, timeout=60)
    return ran.returncode, ran.stdout, ran.stderr


def test_islands(top: Path) -> None:
    """The program is the released one, whether it is run by itself or by a client."""
    words, settings = {"cwd": top, "env": {"PATH": PATH, "HOME": str(top)}, "capture_output": True, "timeout": 60}, "examples/laboratory/settings.toml"
    for _ in range(2):
        ran = subprocess.run(["./mislands"], input=(top / settings).read_bytes(), **words)
        assert (ran.returncode, ran.stdout, ran.stderr) == (0, b"LAB CLINIC\n", b"")
    ran = subprocess.run(["clients/misland", "list", settings], **words)
    assert (ran.returncode, ran.stderr) == (0, b"") and ran.stdout.startswith(b"LAB: 2 accounts, ")
    append(top / "crates" / "mislands" / "src" / "main.rt", "\n")
    ran = subprocess.run(["clients/misland", "list", settings], **words)
    assert (ran.returncode, ran.stdout) == (1, b"") and b"docs/INSTALL.md" in ran.stderr and ran.stderr.endswith(b"ended with status 1\n"), ran


def used() -> float:
    """The processor seconds of all programs that have ended."""
    found = resource.getrusage(resource.RUSAGE_CHILDREN)
    return found.ru_utime + found.ru_stime


def least_times(words: list[str], top: Path) -> tuple[float, float]:
    """The least time of many starts over an empty input: by the clock, and of the processor."""
    clock, processor = [], []
    for _ in range(STARTS):
        begun, before = time.monotonic(), used()
        subprocess.run(words, cwd=top, env={"PATH": PATH}, stdin=subprocess.DEVNULL, stdout=subprocess.DEVNULL, check=True)
        clock.append(time.monotonic() - begun)
        processor.append(used() - before)
    return min(clock), min(processor)


def append(path: Path, text: str) -> None:
    """Changes a file."""
    with path.open("a", encoding="utf-8") as file:
        file.write(text)


def test_times(top: Path) -> None:
    begun, before = time.monotonic(), used()
    assert start(top) == (0, REPLY, b"")
    seconds, taken = time.monotonic() - begun, used() - before
    program = str(top / "release" / "unpacked" / "mserve")
    whole, alone = (least_times([word, *WORDS], top) for word in ("./mserve", program))
    clock, processor = (1000 * (more - less) for more, less in zip(whole, alone))
    print(f"the first line took {seconds:.2f} s; a later start takes {clock:.0f} ms longer than the program alone, {processor:.0f} of the processor")
    # By the clock; of a processor where the machine has other work.
    assert min(seconds, taken) <= FIRST_RUN
    assert processor <= OVERHEAD


@pytest.mark.parametrize("words", [("--help",), ("help",), ("run", "--help"), ("serve", "-h")], ids=" ".join)
def test_help_is_on_the_standard_output(top: Path, words: tuple[str, ...]) -> None:
    """The same bytes as the program's, at the first start and at a later one, and its status; the standard error names what says more of a refusal."""
    for _ in range(2):
        status, output, errors = start(top, words)
        alone = subprocess.run([top / "release" / "unpacked" / "mserve", *words], capture_output=True, timeout=60)
        assert (status, output) == (2, alone.stderr) and output and alone.stdout == b""
        assert errors.count(b"\n") == 1 and b"clients/msettings FILE --store STORE says where and why" in errors
    assert start(top, ("nothing",))[1] == b""


def test_a_changed_document(top: Path) -> None:
    assert start(top) == (0, REPLY, b"")
    append(top / "README.md", "\n")
    assert start(top) == (0, REPLY, b"")
    status, output, _ = start(top, ("--version",))
    assert status == 0 and output.startswith(b"mserve ") and b"the released program" in output


def test_a_changed_source(top: Path) -> None:
    assert start(top) == (0, REPLY, b"")
    append(top / "crates" / "mserve" / "src" / "main.rt", "\n")
    status, output, errors = start(top)
    assert (status, output, errors.count(b"\n")) == (1, b"", 1)
    assert errors.startswith(b"mserve: ") and b"docs/INSTALL.md" in errors
