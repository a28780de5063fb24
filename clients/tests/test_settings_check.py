# SPDX-License-Identifier: Apache-2.0
"""What is said of settings and stores that the program refuses: the place, the key and what to do, in the program's order."""
from __future__ import annotations

import os
import sqlite3
import subprocess
import tempfile
from collections.abc import Callable
from pathlib import Path
from random import Random

import pytest
import running
from conftest import SETTINGS, Command, Server
from mserve_client import settings_check, store_check
from mserve_client.settings_check import faults
from mserve_client.store_file import TABLES

GOOD = """# two accounts
[[account]]
name = "CLINIC"
terminals = [1, 2]
steps = 2000

[[account]]
name = "LAB"
terminals = [
  3,
  4,
]
steps = 1_000

[[grant]]
from = "LAB"
to = "CLINIC"
global = "RESULT"
mode = "read"
"""
CHANGES = [("account", "acount"), ("[[", "["), ("]]", "]"), ('"CLINIC"', '"CL-INIC"'), ('"CLINIC"', "'LAB'"), ('"LAB"', '"CLINIC"'), ("[1, 2]", "[1, 1]"),
           ("[1, 2]", "[0]"), ("3,", "2,"),
           ("3,", '"3",'), ("3,", "99999999999999999999,"), ("2000", "0"), ("2000", "1000001"), ("2000", "2e3"), ("2000", "true"), ("1_000", "-1"),
           ("steps", "step"), ("name", "names"),
           ('mode = "read"', ""), ('"read"', '"READ"'), ('"RESULT"', '"^RESULT"'), ('to = "CLINIC"', 'to = "LAB"'), ("global", "# global"),
           ("grant", "account"),
           ('"LAB"', '"""LAB"""'), ("[\n", "[ # more\n"), ("name =", '"name" ='), ("=", "=="), ('"', ""), ("\n", "\r\n"), ("\n", "\r"),
           ("steps = 2000", "steps = 2000\nsteps = 1"),
           ("# two", "x = 1\n# two"), ("# two", "\ufeff# two"), ("two", "tw\0o"), ("two", "zw\u00f6lf"), ('"CLINIC"', '"KLINIK\u00c4"'),
           ("[[grant]]", "[x]\ny = 1979-05-27\n[[grant]]"),
           ("4,", "4, 5, 6, 7, 4,"), ("2000", "0x7D0"), ("2000", "02000"), ("2000", "+2000"), ("name", "na.me"), ("[[grant]]", "[[grant.x]]"),
           ("[1, 2]", "[1, [2]]"), ("[1, 2]", "{a = 1}"),
           *[("steps = 2000", f"steps = 2000\nlanguage = {value}")
             for value in ("0", "1", "1", "+1", "2", "-1", "true", '"1"', "1.0", "[1]", "99999999999999999999", "0x1")],
           ('mode = "read"', 'mode = "read"\nlanguage = 1'), ("language = 1", "languages = 1"), ("steps = 1_000", "steps = 0\nlanguage = 1")]
CHARACTERS = "[]={}\"'#.,\\\n\t 0aZ_-\u00e9"


def drawn_document(draw: Random) -> bytes:
    """Good settings with some changes, or with characters put in or taken out."""
    text = GOOD
    for _ in range(draw.choice([0, 1, 1, 1, 2, 3])):
        old, new = draw.choice(CHANGES)
        text = text.replace(old, new, 1)
    for _ in range(draw.choice([0, 0, 0, 1, 2])):
        place = draw.randint(0, len(text))
        text = text[:place] + draw.choice(["", draw.choice(CHARACTERS)]) + text[place + draw.randint(0, 1):]
    data = text.encode()
    return data if draw.random() < .98 else data.replace(b"L", b"\xff", 1)


def word_of(path: str) -> str:
    """The program's word for the fault of a settings file; empty if it takes it."""
    status, _, told = running.run(b"", path)
    assert status in (0, 3)
    return told.decode().strip().removeprefix("mserve: settings: ")


def test_drawn_documents_have_the_programs_word(times: int) -> None:
    """300, and with `--count 17` more than five thousand: the first fault's kind is the word, and there is none if the program takes the document."""
    draw, words = Random(73), set()
    with tempfile.TemporaryDirectory() as folder:
        path = os.path.join(folder, "settings.toml")
        for _ in range(300 * times):
            data = drawn_document(draw)
            Path(path).write_bytes(data)
            found, word = faults(data), word_of(path)
            assert (found[0].kind if found else "") == word, data
            assert all(1 <= fault.line <= data.count(b"\n") + 2 for fault in found), data
            words.add(word)
    assert words == {"", "Toml", "Shape", "Name", "Terminal", "Steps", "Grant"}


@pytest.mark.parametrize(("old", "new", "line", "key", "text"), [
    ("steps = 2000", "steps = ", 5, "", "no TOML, at column 9"), ("[[grant]]", "[grant", 15, "", "no TOML"),
    ("1_000", "9" * 20, 13, "steps", "has more than 64 bits"),
    ("  4,", "  99999999999999999999,", 9, "terminals", "has more than 64 bits"), ("# two", "x = 1\n# two", 1, "x", "there is no such key"),
    ("steps = 1_000", "step = 1", 13, "step", "there is no such key"), ('mode = "read"', "", 15, "mode", "is missing"),
    ("2000", "true", 5, "steps", "has another type"),
    ("3,", '"3",', 9, "terminals", "has another type"), ('"LAB"', '"L A B"', 8, "name", "'L A B' is no name of an account"),
    ('"LAB"', '"CLINIC"', 8, "name", "CLINIC is an account already, of line 3"),
    ("2000", "2000\nlanguage = 2", 6, "language", "is not 0 or 1"), ("2000", "2000\nlanguage = true", 6, "language", "is not 0 or 1"),
    ('mode = "read"', 'mode = "read"\nlanguage = 1', 20, "language", "there is no such key"),
    ("4,", "1,", 9, "terminals", "1 is a terminal already, of line 4"), ("4,", "10000,", 9, "terminals", "10000 is not 1 to 9,999"),
    ("1_000", "0", 13, "steps", "0 is not 1 to 1,000,000"),
    ('to = "CLINIC"', 'to = "CLINC"', 17, "to", "'CLINC' is no account"), ('"RESULT"', '"^RESULT"', 18, "global", "'^RESULT' is no name of a global"),
    ('"read"', '"Read"', 19, "mode", "'Read' is no mode"),
    ('to = "CLINIC"', 'to = "LAB"', 17, "to", "LAB grants something to itself"), ("[[account]]", "[account]", 2, "account", "it is no list"),
])
def test_place_of_a_fault(old: str, new: str, line: int, key: str, text: str) -> None:
    data = GOOD.replace(old, new, 1).encode() if old != "[[account]]" else b'# one\n[account]\nname = "A"\n'
    found = faults(data)[0]
    assert (found.line, found.key) == (line, key) and text in found.text and found.remedy


def test_each_fault_is_told(command: Command, tmp_path: Path) -> None:
    (tmp_path / "s.toml").write_text(GOOD.replace("[1, 2]", "[0, 2, 3]").replace('"read"', '"x"').replace("2000", "0"))
    ran = command("msettings", "s.toml")
    assert [line for line in ran.output.splitlines() if not line.startswith(" ")] == [
        "s.toml:4: terminals: 0 is not 1 to 9,999", "s.toml:9: terminals: 3 is a terminal already, of line 4", "s.toml:5: steps: 0 is not 1 to 1,000,000",
        "s.toml:19: mode: 'x' is no mode"]
    assert ran.status == 1 and ran.output.splitlines()[1] == "    Take another number."


def test_good_settings(command: Command) -> None:
    ran = command("msettings", SETTINGS)
    assert (ran.output, ran.status) == (f"{SETTINGS}: good: 4 accounts, 5 terminals, 1 grant\n", 0)


def test_settings_that_cannot_be_read(command: Command, tmp_path: Path) -> None:
    assert "none.toml: it cannot be read: No such file or directory" in command("msettings", "none.toml").output
    (tmp_path / "long.toml").write_bytes(b"#" * 1_000_001)
    assert "long.toml: it has 1,000,001 bytes" in command("msettings", "long.toml").output


def a_text(path: Path) -> None:
    """A file that is no database."""
    path.write_text("# a page\n" * 50)


def a_rule(path: Path) -> None:
    """A store beside a table that refers to it."""
    later_version(path, 2)
    with sqlite3.connect(path) as base:
        base.execute("CREATE TABLE more (k BLOB REFERENCES node (k))")
    base.close()


def one_table(path: Path) -> None:
    """A database with one of the two tables."""
    with sqlite3.connect(path) as base:
        base.execute(TABLES[1])
    base.close()


def later_version(path: Path, version: int = 9) -> None:
    """A store of a version, that of a later program if no other is given."""
    with sqlite3.connect(path) as base:
        for table in TABLES:
            base.execute(table)
        base.execute("INSERT INTO meta VALUES ('version', ?)", (version,))
    base.close()


@pytest.mark.parametrize(("made", "word", "text"), [
    (None, "", ""), (a_text, "Store", "it is no store: it is no database"), (a_rule, "Store", "more is a rule of others on its tables"),
    (one_table, "BadVersion", "of `node` and `meta` one is missing"), (lambda path: later_version(path, 2), "", ""),
    (later_version, "BadVersion", "it is of version 9, and this program is for 2"), (lambda path: path.mkdir(), "Store", "it is a folder"),
    (lambda path: path.touch(), "", ""),
])
def test_stores_have_the_programs_word(tmp_path: Path, made: Callable[[Path], None] | None, word: str, text: str) -> None:
    """The same word as the program's, and nothing is changed."""
    path = tmp_path / "store.db"
    if made is not None:
        made(path)
    before = sorted((place.name, place.stat().st_size) for place in tmp_path.iterdir())
    found = store_check.fault(str(path))
    assert sorted((place.name, place.stat().st_size) for place in tmp_path.iterdir()) == before
    assert (found.kind if found else "") == word and (not found or text in found.text and found.remedy)
    _, _, told = running.run(b"", SETTINGS, str(path))
    assert told.decode().strip().removeprefix("mserve: store: ") == word


def test_a_database_of_others(tmp_path: Path) -> None:
    """It is given the two tables, as docs/FORMATS.md says."""
    with sqlite3.connect(tmp_path / "store.db") as base:
        base.execute("CREATE TABLE theirs (a)")
    base.close()
    assert store_check.fault(str(tmp_path / "store.db")) is None


def test_store_without_a_folder(tmp_path: Path) -> None:
    path = str(tmp_path / "none" / "store.db")
    assert "there is no such folder" in store_check.fault(path).text
    assert running.run(b"", SETTINGS, path)[2] == b"mserve: store: Store\n"


def test_store_that_a_server_has(file_server: Server, command: Command) -> None:
    with file_server.connection() as connection:
        connection.send("S ^X=1")
        ran = command("msettings", SETTINGS, "--store", file_server.store)
        assert ran.status == 1 and f"{file_server.store}: it is in use: mserve (process {file_server.process.pid}) has it" in ran.output
        assert connection.send("W ^X").rest == "1"
    assert running.run(b"", SETTINGS, file_server.store)[2] == b"mserve: store: Store\n"
    file_server.stop()
    before = os.path.getsize(f"{file_server.store}-wal")
    assert command("msettings", SETTINGS, "--store", file_server.store).status == 0
    assert os.path.getsize(f"{file_server.store}-wal") == before


@pytest.mark.skipif(os.geteuid() != 0, reason="only root can run as somebody else")
def test_store_without_the_right_to_it(tmp_path: Path) -> None:
    path = Path(tempfile.mkdtemp()) / "store.db"
    path.touch(mode=0o600)
    path.parent.chmod(0o755)
    words = ["setpriv", "--reuid=65534", "--regid=65534", "--clear-groups", "/usr/bin/python3", "-c",
             f"import sys; sys.path.insert(0, {str(Path(settings_check.__file__).parent.parent)!r}); from mserve_client import store_check; "
             f"print(store_check.fault({str(path)!r}).text)"]
    assert "may not be written by the user 65534" in subprocess.run(words, capture_output=True, text=True, timeout=60).stdout
    path.parent.chmod(0o777)
    assert "it may not be read and written by the user 65534" in subprocess.run(words, capture_output=True, text=True, timeout=60).stdout
