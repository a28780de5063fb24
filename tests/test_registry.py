# SPDX-License-Identifier: Apache-2.0
"""The registry of examples/: routines with parameters and functions. The program, the second interpreter and GT.M answer its session alike, as
replies.txt has it: the text of each line, and its code on a line of its own if it ends by one.

GT.M takes the routines as they are. Here their tabs become spaces, as a loader makes of them."""
from __future__ import annotations

import os
import re
import subprocess
import sys
from pathlib import Path

import pytest
from against_gtm import Reply, replies
from drawn_forms import quoted
from gtm import Gtm, gtm_folder
from running import OF_LANGUAGE, TOP, run
from second_interpreter.world import LONGEST_LINE, World, deep

REGISTRY = Path(TOP, "examples", "registry")
ROUTINES = {path.stem: path.read_text(encoding="ascii").splitlines() for path in sorted((REGISTRY / "routines").glob("*.m"))}
SESSION = (REGISTRY / "session.txt").read_text(encoding="ascii").splitlines()
needs_gtm = pytest.mark.skipif(gtm_folder() is None and not os.environ.get("CI"), reason="GT.M is not there: apt-get install fis-gtm")


def told(answers: list[Reply]) -> str:
    """Replies as replies.txt has them."""
    return "".join(re.sub(r"(?<!\n)\Z", "\n", one.text) * bool(one.text) + f"{one.code}\n" * bool(one.code) for one in answers)


STORED = [f"S ^ROUTINE({quoted(name)},{number})={quoted(text.expandtabs(1))}" for name, lines in ROUTINES.items() for number, text in enumerate(lines, 1)]
GIVEN = "".join(f"1 {line}\n" for line in [*STORED, *SESSION]).encode("ascii")
SETTINGS = REGISTRY / "settings.toml"


def of_session(output: bytes) -> list[Reply]:
    """The replies to the lines of the session, which come after those that store the routines: these are answered by nothing."""
    answers = list(replies(output.decode("ascii")))
    assert answers[:len(STORED)] == [Reply("")] * len(STORED) and len(answers) == len(STORED) + len(SESSION)
    return answers[len(STORED):]


def by_second_interpreter() -> list[Reply]:
    """Its replies to the session."""
    return of_session(deep(lambda: World(SETTINGS.read_text(encoding="ascii")).replies(GIVEN)))


def test_second_interpreter_answers_as_shipped() -> None:
    assert told(by_second_interpreter()) == (REGISTRY / "replies.txt").read_text(encoding="ascii")


@pytest.mark.parametrize("over", ["memory", "file"])
def test_program_answers_as_shipped(over: str, store: str) -> None:
    status, output, faults = run(GIVEN, str(SETTINGS), store if over == "file" else "memory")
    assert (status, faults) == (0, b"")
    assert told(of_session(output)) == (REGISTRY / "replies.txt").read_text(encoding="ascii")
    assert of_session(output) == by_second_interpreter()


def test_program_takes_each_line() -> None:
    """As it stands, by language 1."""
    tool = [sys.executable, Path(TOP, "tools", "coverage.py"), REGISTRY / "routines", "--language", str(max(OF_LANGUAGE))]
    printed = subprocess.run(tool, capture_output=True, text=True, check=True, timeout=120).stdout
    assert f"| routines of {len(ROUTINES)}, whole | 0 | {len(ROUTINES)} |" in printed


@needs_gtm
def test_gtm_answers_as_shipped(tmp_path: Path) -> None:
    answers = Gtm(tmp_path, ROUTINES).play(SESSION)
    assert told(answers) == (REGISTRY / "replies.txt").read_text(encoding="ascii")
    assert answers == by_second_interpreter()


def test_it_is_a_program_of_functions() -> None:
    """Some 200 lines, that fit on the wire, and most of whose labels have a formal list."""
    lines = [line for texts in ROUTINES.values() for line in texts]
    labels = [line for line in lines if re.match("[A-Z]", line)]
    assert 200 <= len(lines) <= 260 and max(map(len, lines)) <= LONGEST_LINE
    assert sum("(" in re.match("[A-Z0-9]+(.?)", line)[0] for line in labels) >= 0.8 * len(labels)
    assert sum(line.count("$$") for line in lines) >= 55
    assert any(re.search(r"W .*\?[0-9]+", line) for line in lines) and any(re.search(r"\$J\([^,]+,[0-9]+,[0-9]\)", line) for line in lines)
