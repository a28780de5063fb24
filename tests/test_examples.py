# SPDX-License-Identifier: Apache-2.0
"""The examples of examples/ as they are shipped: lines.txt by settings.toml is answered by replies.txt, over a store in memory and over one in a
file, and each account is shown the replies at its terminals by `--only`.

An example without lines.txt is loaded by the commands of clients/, and clients/tests plays it."""
from __future__ import annotations

import os

import pytest
from running import TOP, run
from support import accounts_of, content

FOLDER = os.path.join(TOP, "examples")
NAMES = [name for name in sorted(os.listdir(FOLDER)) if os.path.exists(os.path.join(FOLDER, name, "lines.txt"))]


def settings(name: str) -> str:
    """The path of an example's settings."""
    return os.path.join(FOLDER, name, "settings.toml")


def shipped(name: str) -> tuple[bytes, bytes]:
    """An example's lines and replies."""
    lines, replies = (content(os.path.join(FOLDER, name, file)) for file in ("lines.txt", "replies.txt"))
    return lines, replies


def test_there_is_an_example() -> None:
    assert NAMES


@pytest.mark.parametrize("name", NAMES)
def test_over_memory(name: str) -> None:
    lines, replies = shipped(name)
    assert run(lines, settings(name)) == (0, replies, b"")


@pytest.mark.parametrize("name", NAMES)
def test_over_a_file(name: str, store: str) -> None:
    lines, replies = shipped(name)
    assert run(lines, settings(name), store) == (0, replies, b"")


@pytest.mark.parametrize(("name", "account", "terminals"), [(name, *account) for name in NAMES for account in accounts_of(settings(name)).items()])
def test_only(name: str, account: str, terminals: list[int]) -> None:
    lines, replies = shipped(name)
    marks = tuple(b"%d%c" % (terminal, mark) for terminal in terminals for mark in b":-.!")
    own = b"".join(line for line in replies.splitlines(True) if line.startswith(marks))
    assert run(lines, settings(name), only=account) == (0, own, b"")
