# SPDX-License-Identifier: Apache-2.0
"""Settings that are refused: status 3, the fault, and nothing is read, written or made. Faults of settings come before those of the store,
so the store of these runs is one that is refused too."""
from __future__ import annotations

import os
from collections.abc import Callable
from pathlib import Path

import pytest
from blocks import SERVED
from running import ONE_ACCOUNT, run
from support import ACCOUNT, LINE, REPLY, content, refused, run_as_nobody

TWO = content(SERVED["terminals"]).decode("ascii")
# A document with these texts in place of others, and its first fault.
DOCUMENTS = [
    ([("[[account]]\nname = \"ALICE\"", "=")], "Toml"),
    ([("steps = 2000", "steps = 99999999999999999999")], "Toml"),
    ([("mode = \"read\"", "mode = \"read\"\nx = 1")], "Shape"),
    ([("steps = 2000\n\n[[account]]", "\n[[account]]")], "Shape"),
    ([("steps = 2000", "steps = true")], "Shape"),
    ([("steps = 2000", "steps = 2000\nlanguage = 2")], "Shape"),
    ([("steps = 2000", "steps = 2000\nlanguage = true")], "Shape"),
    ([("steps = 2000", "steps = 0\nlanguage = 1")], "Steps"),
    ([("\"BOB\"\nterminals", "\"A-B\"\nterminals")], "Name"),
    ([("\"BOB\"\nterminals", "\"ALICE\"\nterminals")], "Name"),
    ([("[3]", "[10000]")], "Terminal"),
    ([("[3]", "[1]")], "Terminal"),
    ([("[1, 2]", "[1, 1]")], "Terminal"),
    ([("steps = 2000", "steps = 0")], "Steps"),
    ([("steps = 2000", "steps = 1000001")], "Steps"),
    ([("to = \"BOB\"", "to = \"CAROL\"")], "Grant"),
    ([("from = \"ALICE\"", "from = \"BOB\"")], "Grant"),
    ([("mode = \"read\"", "mode = \"Read\"")], "Grant"),
    ([("steps = 2000", "steps = 0"), ("to = \"BOB\"", "to = \"CAROL\"")], "Steps"),
    ([("[3]", "[0]"), ("\"BOB\"\nterminals", "\"B B\"\nterminals")], "Name"),
]
LONGEST = 1_000_000
LONG = TWO + "#" * (LONGEST - len(TWO))
# Paths below the test's own folder, or absolute ones, at which no settings can be read.
UNREADABLE = {
    "missing": "missing.toml", "in a missing folder": "missing/settings.toml", "a folder": ".", "a file whose reads fail": "/proc/self/mem",
    "a file without an end": "/dev/zero",
}
NO_ACCOUNTS = ("CAROL", "alice", "ALICE ", "", "A" * 300)
Written = Callable[[str], str]


@pytest.mark.parametrize("path", UNREADABLE.values(), ids=UNREADABLE.keys())
def test_no_file_to_read(path: str, tmp_path: Path) -> None:
    assert run(LINE, os.path.join(tmp_path, path), str(tmp_path)) == refused(3, "settings", "Read")


def test_an_empty_path(tmp_path: Path) -> None:
    assert run(LINE, "", str(tmp_path)) == refused(3, "settings", "Read")


def test_a_file_without_the_right_to_read_it(open_folder: str) -> None:
    path = os.path.join(open_folder, "settings.toml")
    with open(path, "w", encoding="ascii") as file:
        file.write(TWO)
    os.chmod(path, 0)
    assert run_as_nobody(open_folder, path, open_folder) == refused(3, "settings", "Read")
    os.chmod(path, 0o644)
    assert run_as_nobody(open_folder, path, "memory") == (0, REPLY, b"")


def test_the_longest_document(written: Written) -> None:
    assert run(LINE, written(LONG)) == (0, REPLY, b"")


def test_a_document_that_is_too_long(written: Written, tmp_path: Path) -> None:
    assert run(LINE, written(LONG + "#"), str(tmp_path)) == refused(3, "settings", "Read")


@pytest.mark.parametrize(("changes", "fault"), DOCUMENTS, ids=[f"{fault}: {changes[-1][1]}" for changes, fault in DOCUMENTS])
def test_a_document_with_a_fault(changes: list[tuple[str, str]], fault: str, written: Written, tmp_path: Path) -> None:
    document = TWO
    for old, new in changes:
        assert old in document
        document = document.replace(old, new, 1)
    assert run(LINE, written(document), str(tmp_path)) == refused(3, "settings", fault)


@pytest.mark.parametrize(("language", "reply"), [("", b"1!ZSYNTAX\n"), ("language = 0\n", b"1!ZSYNTAX\n"), ("language = 1\n", b"1-21\n1.\n")],
                         ids=["none", "0", "1"])
def test_language_of_an_account(language: str, reply: bytes, written: Written, store: str) -> None:
    """Over memory, over a file, and of the account alone."""
    settings = written(ACCOUNT.format(1, 2000) + language)
    for ran in (run(b"1 W $RE(12)\n", settings), run(b"1 W $RE(12)\n", settings, store), run(b"1 W $RE(12)\n", settings, only="A1")):
        assert ran == (0, reply, b"")


def test_language_that_changes_over_a_store(written: Written, store: str) -> None:
    """The store has no language: routines that are there are read in the one that the settings give, and back."""
    stored = b'1 S ^ROUTINE("R",1)="T W $RE(12)"\n'
    for language, stream, replies in ((0, stored + b"1 D T^R\n", b"1.\n1!ZSYNTAX\n"), (1, b"1 D T^R\n", b"1-21\n1.\n"), (0, b"1 D T^R\n", b"1!ZSYNTAX\n")):
        assert run(stream, written(f"{ACCOUNT.format(1, 2000)}language = {language}\n"), store) == (0, replies, b"")


def test_no_account_at_all(written: Written) -> None:
    assert run(LINE, written("")) == (0, b"1!ZTERM\n", b"")


@pytest.mark.parametrize("name", NO_ACCOUNTS, ids=["another", "small letters", "a space at the end", "empty", "long"])
def test_only_an_account_that_nobody_has(name: str, store: str, tmp_path: Path) -> None:
    """It is found after the faults of settings and before the store, which is not made."""
    assert run(LINE, ONE_ACCOUNT, str(tmp_path), name) == refused(3, "settings", "Only")
    assert run(LINE, ONE_ACCOUNT, store, name) == refused(3, "settings", "Only")
    assert not os.path.exists(store)


def test_only_by_no_settings(tmp_path: Path) -> None:
    assert run(LINE, str(tmp_path), str(tmp_path), "CAROL") == refused(3, "settings", "Read")


def test_only_over_no_store(tmp_path: Path) -> None:
    assert run(LINE, ONE_ACCOUNT, str(tmp_path), "ALICE") == refused(4, "store", "Store")


def test_only_an_account_that_there_is(store: str) -> None:
    assert run(LINE, ONE_ACCOUNT, store, "ALICE") == (0, REPLY, b"")
