# SPDX-License-Identifier: Apache-2.0
"""Islands of settings, and files split by island and joined again.

The islands are those that the program mislands prints. They are compared with a second computation, which tries all sets of accounts, and with
what the proved call answers in transcripts/settings.txt."""
from __future__ import annotations

import contextlib
import os
import re
import sqlite3
import subprocess
import sys
from itertools import combinations
from pathlib import Path
from random import Random

import blocks
import pytest
import running
from conftest import CLIENTS, SETTINGS, Command, Server
from hypothesis import given
from hypothesis import strategies as st
from mserve_client import islands, keys, settings_file
from mserve_client.settings_file import Account, BadSettings, Grant, Settings
from mserve_client.store_file import Store

NAMES = ("A", "B", "C", "D", "E")
Rows = list[tuple[bytes, bytes]]


def settings_of(grants: list[tuple[str, str]], names: tuple[str, ...] = NAMES) -> Settings:
    """Accounts of one terminal each, every other one with language 1, and grants between them."""
    return Settings(tuple(Account(name, (number,), 2000, 1 - number % 2) for number, name in enumerate(names, 1)),
                    tuple(Grant(giver, taker, "X", "read") for giver, taker in grants))


def island_by_definition(settings: Settings, account: str) -> set[str]:
    """The least set of accounts that has an account and is closed in both directions, by a trial of all sets, smaller ones first."""
    for size in range(1, len(settings.names) + 1):
        for members in combinations(settings.names, size):
            if account in members and all((grant.giver in members) == (grant.taker in members) for grant in settings.grants):
                return set(members)
    raise AssertionError


@given(st.lists(st.tuples(st.sampled_from(NAMES), st.sampled_from(NAMES)).filter(lambda pair: pair[0] != pair[1]), max_size=5))
def test_islands_are_those_of_the_definition(grants: list[tuple[str, str]]) -> None:
    settings = settings_of(grants)
    found = islands.islands_of(str(settings).encode())
    assert sorted(name for island in found for name in island) == sorted(NAMES)
    for island in found:
        assert all(set(island) == island_by_definition(settings, name) for name in island)
        assert island == [name for name in NAMES if name in island]
    assert [island[0] for island in found] == [name for name in NAMES if name in {island[0] for island in found}]


def test_islands_are_those_that_the_proved_call_answers() -> None:
    asked = 0
    for block in blocks.blocks():
        document = b"".join(blocks.line_bytes(case).removeprefix(b"line ") for case, _ in block.cases if case.startswith("line "))
        for case, given_lines in block.cases:
            if block.kind == "settings" and case.startswith("island_of "):
                account = case.removeprefix("island_of ")
                assert [island for island in islands.islands_of(document) if account in island] == [given_lines[0].split()]
                asked += 1
    assert asked >= 8


def mislands(document: bytes, *words: str | bytes) -> tuple[int, bytes, bytes]:
    """The status of the program over a document, what it prints and what it tells."""
    done = subprocess.run([running.ISLANDS, *words], input=document, capture_output=True, timeout=60)
    return done.returncode, done.stdout, done.stderr


def test_program_that_prints_islands() -> None:
    assert mislands(b"") == (0, b"", b"")
    assert mislands(GOOD.encode()) == (0, b"A B\n", b"")
    assert mislands(GOOD.encode() + b"#" * (1_000_000 - len(GOOD))) == (0, b"A B\n", b"")
    for word in ("--help", "settings.toml", b"\xff"):
        assert mislands(GOOD.encode(), word) == (2, b"", b"mislands: usage: mislands <SETTINGS\n")
    with open("/dev/full", "wb") as full:
        done = subprocess.run([running.ISLANDS], input=GOOD.encode(), stdout=full, stderr=subprocess.PIPE, timeout=60)
    assert (done.returncode, done.stderr) == (5, b"mislands: output: Write\n")
    folder = os.open("/", os.O_RDONLY)
    try:
        done = subprocess.run([running.ISLANDS], stdin=folder, capture_output=True, timeout=60)
    finally:
        os.close(folder)
    assert (done.returncode, done.stdout, done.stderr) == (3, b"", b"mislands: settings: Read\n")


@pytest.mark.parametrize(("count", "tied"), [(9_999, False), (9_200, True)])
def test_islands_of_the_most_accounts(count: int, tied: bool) -> None:
    """Each alone, or all in a chain: within seconds."""
    names = tuple(f"A{number}" for number in range(count))
    settings = Settings(tuple(Account(name, (), 1) for name in names),
                        tuple(Grant(one, two, "X", "read") for one, two in zip(names, names[1:])) if tied else ())
    document = str(settings).replace(" ", "").encode()
    assert len(document) <= 1_000_000
    assert islands.islands_of(document) == ([list(names)] if tied else [[name] for name in names])


def test_program_that_cannot_be_had(source: islands.Pair, command: Command, tmp_path: Path) -> None:
    """The message says which one was wanted, and nothing is made."""
    for name, text, told in (("absent", None, "cannot be run: No such file or directory. The variable MISLANDS names another one"),
                             ("fails", "#!/bin/sh\nexit 3\n", "ended with status 3"),
                             ("others", "#!/bin/sh\necho A B C\n", "printed other accounts than those of")):
        path = tmp_path / name
        if text is not None:
            path.write_text(text)
            path.chmod(0o755)
        for words in (["list", source.settings], ["split", source.settings, source.store, "--to", "parts"]):
            ran = command("misland", *words, MISLANDS=str(path))
            assert (ran.status, ran.output) == (1, "") and ran.told.startswith(f"misland: {path}, which computes the islands, {told}"), ran
    assert not (tmp_path / "parts").exists()


def test_settings_there_and_back(tmp_path: Path) -> None:
    settings = settings_file.read(SETTINGS)
    (tmp_path / "again.toml").write_text(str(settings))
    assert settings_file.read(tmp_path / "again.toml") == settings
    assert str(settings) == Path(SETTINGS).read_text()


GOOD = ('[[account]]\nname = "A"\nterminals = [1]\nsteps = 1\n\n[[account]]\nname = "B"\nterminals = []\nsteps = 1\n\n'
        '[[grant]]\nfrom = "A"\nto = "B"\nglobal = "X"\nmode = "read"\n')


@pytest.mark.parametrize(("old", "new", "fault"), [
    ("=", "", "Toml"), ("steps = 1\n\n[[account]]", "\n[[account]]", "Shape"), ("[[grant]]", "x = 1\n[[grant]]", "Shape"), ("[1]", '["1"]', "Shape"),
    ("steps = 1\n", "steps = true\n", "Shape"),
    ('"A"', '"A_B"', "Name"), ('name = "B"', 'name = "A"', "Name"), ("[1]", "[0]", "Terminal"), ("[]", "[1]", "Terminal"), ("[]", "[10000]", "Terminal"),
    ("steps = 1\n", "steps = 1\nlanguage = 2\n", "Shape"), ("[[grant]]", "[[grant]]\nlanguage = 1", "Shape"),
    ("steps = 1\n", "steps = 1\nlanguage = false\n", "Shape"),
    ("steps = 1\n", "steps = 0\n", "Steps"), ("steps = 1\n", "steps = 1000001\n", "Steps"), ('"X"', '"1X"', "Grant"), ('"read"', '"READ"', "Grant"),
    ('to = "B"', 'to = "C"', "Grant"),
    ('to = "B"', 'to = "A"', "Grant"),
])
def test_settings_that_the_program_refuses(tmp_path: Path, old: str, new: str, fault: str) -> None:
    """They are refused here too, and by mislands, by the name of the same fault."""
    path = tmp_path / "settings.toml"
    path.write_text(GOOD.replace(old, new, 1))
    assert running.run(b"", str(path)) == (3, b"", f"mserve: settings: {fault}\n".encode())
    assert mislands(path.read_bytes()) == (3, b"", f"mislands: settings: {fault}\n".encode())
    with pytest.raises(BadSettings, match=f": {fault}: "):
        settings_file.read(path)


def test_settings_that_are_too_long(tmp_path: Path) -> None:
    path = tmp_path / "settings.toml"
    path.write_text(GOOD + "#" * 1_000_000)
    assert running.run(b"", str(path)) == (3, b"", b"mserve: settings: Read\n")
    assert mislands(path.read_bytes()) == (3, b"", b"mislands: settings: Read\n")
    with pytest.raises(BadSettings, match=": Read: it has more than 1,000,000 bytes"):
        settings_file.read(path)


def test_settings_that_would_be_too_long(tmp_path: Path) -> None:
    """Those of a part have more bytes than the program reads, and those of two parts together more accounts than it takes."""
    many = tuple(Account(f"A{number}", (), 1) for number in range(9_999))
    with pytest.raises(BadSettings, match="the settings would have 1,[0-9,]+ bytes"):
        settings_file.write(tmp_path / "settings.toml", Settings(many, (Grant("A1", "A2", "X", "read"),) * 9_999))
    assert not (tmp_path / "settings.toml").exists()
    with pytest.raises(BadSettings, match="both: Shape: there are more than 9,999 accounts or grants"):
        settings_file.check("both", Settings((*many, Account("B", (), 1)), ()))


def rows(path: Path) -> Rows:
    """All rows of a store."""
    base = sqlite3.connect(path)
    found = base.execute("SELECT k, v FROM node ORDER BY k").fetchall()
    base.close()
    return found


def made_store(path: Path, accounts: dict[str, int]) -> None:
    """A store in which accounts have this many nodes."""
    drawn = Random(len(accounts))
    with Store(str(path), make=True) as store, store.change():
        for account, count in accounts.items():
            for number in range(count):
                name, subscripts = drawn.choice(["X", "%Y", "ROUTINE"]), (str(number), drawn.choice(["-1.5", "a b", "\x7f"]))
                store.put([(keys.key(account, name, subscripts), f"{account} {number}".encode())])


@pytest.fixture
def source(tmp_path: Path) -> islands.Pair:
    """Settings of five accounts in three islands, and a store with two strangers."""
    (tmp_path / "settings.toml").write_text(str(settings_of([("A", "C"), ("E", "C")])))
    made_store(tmp_path / "store.db", {"A": 3, "C": 2, "D": 400, "E": 1, "B1": 7, "OLD": 5})
    return islands.Pair(tmp_path / "settings.toml", tmp_path / "store.db")


def test_list(source: islands.Pair, command: Command) -> None:
    ran = command("misland", "list", source.settings, source.store)
    assert (ran.status, ran.told) == (0, "")
    assert [re.sub(r", [\d,]+ bytes", "", line) for line in ran.output.splitlines()] == [
        "A: 3 accounts, 3 terminals, 6 nodes: A C E", "B: 1 account, 1 terminal, 0 nodes: B", "D: 1 account, 1 terminal, 400 nodes: D",
        "not in the settings: 12 nodes: B1 OLD", "3 islands, 5 accounts"]
    assert command("misland", "list", source.settings).output == (
        "A: 3 accounts, 3 terminals: A C E\nB: 1 account, 1 terminal: B\nD: 1 account, 1 terminal: D\n3 islands, 5 accounts\n")


def test_split_and_join(source: islands.Pair, command: Command, tmp_path: Path) -> None:
    """Each part has its accounts' nodes and settings, together they have all, and the files that were split are as they were."""
    before = source.settings.read_bytes(), source.store.read_bytes(), rows(source.store)
    ran = command("misland", "split", source.settings, source.store, "--to", "parts")
    assert (ran.status, ran.told) == (0, "")
    assert sorted(str(path.relative_to(tmp_path / "parts")) for path in (tmp_path / "parts").rglob("*")) == [
        "A", "A/settings.toml", "A/store.db", "B", "B/settings.toml", "B/store.db", "D", "D/settings.toml", "D/store.db", "strangers.db"]
    for island in ("ACE", "B", "D"):
        part = tmp_path / "parts" / island[0]
        assert settings_file.read(part / "settings.toml") == settings_file.read(source.settings).parts([island])[0]
        assert rows(part / "store.db") == [row for row in before[2] if keys.node(row[0])[0] in set(island)]
    assert {keys.node(row[0])[0] for row in rows(tmp_path / "parts" / "strangers.db")} == {"B1", "OLD"}
    told = set(re.findall(r"^  \w+: [\d,]+ nodes?, sha256 [0-9a-f]{64}$", ran.output, re.MULTILINE))
    ran = command("misland", "join", "parts", "--to", "whole")
    assert (ran.status, ran.told) == (0, "")
    assert set(re.findall(r"^  \w+: .*$", ran.output, re.MULTILINE)) == told and len(told) == 6
    assert rows(tmp_path / "whole" / "store.db") == before[2]
    whole = settings_file.read(tmp_path / "whole" / "settings.toml")
    assert (set(whole.accounts), set(whole.grants)) == (set(settings_file.read(source.settings).accounts), set(settings_file.read(source.settings).grants))
    assert (source.settings.read_bytes(), source.store.read_bytes(), rows(source.store)) == before
    assert sorted(path.name for path in tmp_path.iterdir()) == ["parts", "settings.toml", "store.db", "whole"]


def test_one_island_moves_to_other_settings(source: islands.Pair, command: Command, tmp_path: Path) -> None:
    """The islands of two accounts come apart, the rest stays together; and a part is joined with other settings and their store."""
    assert command("misland", "split", source.settings, source.store, "E", "D", "--to", "parts").status == 0
    assert settings_file.read(tmp_path / "parts" / "the-rest" / "settings.toml").names == ["B"]
    (tmp_path / "other.toml").write_text('[[account]]\nname = "Z"\nterminals = [9]\nsteps = 1\n')
    made_store(tmp_path / "other.db", {"Z": 2})
    assert command("misland", "join", "parts/A", "--with", "other.toml", "other.db", "--to", "there").status == 0
    assert settings_file.read(tmp_path / "there" / "settings.toml").names == ["Z", "A", "C", "E"]
    assert rows(tmp_path / "there" / "store.db") == sorted([row for row in rows(source.store) if keys.node(row[0])[0] in "ACE"] + rows(tmp_path / "other.db"))


def test_stores_are_left_as_the_program_leaves_them(source: islands.Pair, command: Command, tmp_path: Path) -> None:
    """The program takes each part, and answers out of it."""
    assert command("misland", "split", source.settings, source.store, "--to", "parts").status == 0
    for number, account, count in ((1, "A", 3), (2, "B", 0), (4, "D", 400)):
        line = f"{number} W $D(^X)#10,$D(^NONE)\n".encode()
        place = tmp_path / "parts" / account
        assert running.run(line, str(place / "settings.toml"), str(place / "store.db")) == (0, f"{number}-00\n{number}.\n".encode(), b"")
    assert running.run(b"5 W 1\n", str(tmp_path / "parts" / "D" / "settings.toml"), str(tmp_path / "parts" / "D" / "store.db"))[1] == b"5!ZTERM\n"


def damaged(source: islands.Pair, tmp_path: Path, how: str) -> None:
    """Makes the files of a part such that they cannot be split, or joined with it."""
    base = sqlite3.connect(source.store)
    if how == "row":
        base.execute("INSERT INTO node VALUES (?, ?)", (b"no key", b""))
    elif how == "version":
        base.execute("UPDATE meta SET n = 1")
    elif how == "table":
        base.execute("CREATE TABLE more (k BLOB REFERENCES node (k))")
    base.commit()
    base.close()
    if how == "database":
        source.store.write_bytes(b"no database" * 100)
    elif how == "cut":
        source.store.write_bytes(source.store.read_bytes()[:5000])
    elif how == "store":
        source.store.unlink()
    elif how == "settings":
        source.settings.write_text("x = 1\n")
    elif how == "folder":
        (tmp_path / "parts").mkdir()


@pytest.mark.parametrize(("how", "told"), [
    ("row", "a row that mserve did not write"), ("version", "of version 1"), ("table", "more is a rule of others on its tables"),
    ("database", "it is no database"), ("cut", "malformed"),
    ("store", "there is no such file"), ("settings", "Shape: there is no key x"), ("folder", "it is there already"),
])
def test_what_cannot_be_split(source: islands.Pair, command: Command, tmp_path: Path, how: str, told: str) -> None:
    """It is refused with a message, nothing is made, and the files are as they were."""
    damaged(source, tmp_path, how)
    before = {path.name: path.is_file() and path.read_bytes() for path in tmp_path.iterdir()}
    ran = command("misland", "split", source.settings, source.store, "--to", "parts")
    assert (ran.status, ran.output) == (1, "") and told in ran.told, ran
    assert {path.name: path.is_file() and path.read_bytes() for path in tmp_path.iterdir()} == before


def copied_without(path: Path, others: list[str]) -> Path:
    """A copy of a store from which things are dropped, as a message names them."""
    copy = path.with_name("copy.db")
    copy.write_bytes(path.read_bytes())
    with contextlib.closing(sqlite3.connect(copy, isolation_level=None)) as base:
        for other in others:
            base.execute(f"DROP {other}")
    return copy


def test_what_others_made_in_a_store_is_not_lost_unseen(source: islands.Pair, command: Command, tmp_path: Path) -> None:
    """Neither a split nor a join takes such a store, and the message is the way on; what SQLite makes by itself is no hindrance."""
    with contextlib.closing(sqlite3.connect(source.store, isolation_level=None)) as base:
        for text in ("CREATE TABLE notes (id INTEGER PRIMARY KEY AUTOINCREMENT, text TEXT UNIQUE)", "INSERT INTO notes (text) VALUES ('ours')",
                     "CREATE VIEW shown AS SELECT v FROM node", "CREATE INDEX by_text ON node (v)", "ANALYZE"):
            base.execute(text)
    before = rows(source.store)
    others = ["view shown", "table notes", "index by_text"]
    assert f"\nmade by others, which split and join refuse: {', '.join(others)}\n" in command("misland", "list", source.settings, source.store).output
    for words in (["split", source.settings, source.store], ["join", tmp_path]):
        ran = command("misland", *words, "--to", "parts")
        assert ran.status == 1 and f"store.db: others have made {', '.join(others)} in it, which no part would have" in ran.told, ran
        assert not (tmp_path / "parts").exists()
    ran = command("misland", "split", source.settings, copied_without(source.store, others), "--to", "parts")
    assert (ran.status, ran.told) == (0, "")
    assert sorted(row for place in (tmp_path / "parts").rglob("*.db") for row in rows(place)) == before == rows(source.store)


def test_account_that_is_not_there(source: islands.Pair, command: Command) -> None:
    ran = command("misland", "split", source.settings, source.store, "NOBODY", "--to", "parts")
    assert ran.status == 1 and ran.told == "misland: no account of the settings has the name NOBODY\n"


@pytest.mark.parametrize(("settings", "accounts", "told"), [
    ('[[account]]\nname = "A"\nterminals = []\nsteps = 1\n', {}, "Name: the account A is given twice"),
    ('[[account]]\nname = "Z"\nterminals = [3]\nsteps = 1\n', {}, "Terminal: 3 is given twice"),
    ('[[account]]\nname = "Z"\nterminals = []\nsteps = 1\n', {"C": 1}, "C has globals in another part too"),
])
def test_what_cannot_be_joined(source: islands.Pair, command: Command, tmp_path: Path, settings: str, accounts: dict[str, int], told: str) -> None:
    assert command("misland", "split", source.settings, source.store, "--to", "parts").status == 0
    (tmp_path / "other.toml").write_text(settings)
    made_store(tmp_path / "other.db", accounts)
    ran = command("misland", "join", "parts", "--with", "other.toml", "other.db", "--to", "whole")
    assert (ran.status, ran.output) == (1, "") and told in ran.told
    assert not (tmp_path / "whole").exists()


def test_what_is_no_part(command: Command, tmp_path: Path) -> None:
    (tmp_path / "empty").mkdir()
    ran = command("misland", "join", "empty", "--to", "whole")
    assert ran.status == 1 and "this is no part: it has no settings.toml" in ran.told


def test_file_that_a_server_has(file_server: Server, command: Command) -> None:
    with file_server.connection() as connection:
        assert connection.send("S ^X(1)=1").ok
    for words in (["list", SETTINGS, file_server.store], ["split", SETTINGS, file_server.store, "--to", "parts"]):
        ran = command("misland", *words)
        assert ran.status == 1 and "the file is in use (SQLITE_BUSY" in ran.told


def test_folder_is_made_whole_or_not_at_all(source: islands.Pair, monkeypatch: pytest.MonkeyPatch, tmp_path: Path) -> None:
    """What was written is compared with what was read; if they differ, nothing is left."""
    before = sorted(path.name for path in tmp_path.iterdir())
    monkeypatch.setattr(Store, "give", lambda store, accounts, path: Store(path, make=True).close())
    with pytest.raises(islands.BadStore, match="what was written is not what was read"):
        islands.split(source, tmp_path / "parts")
    assert sorted(path.name for path in tmp_path.iterdir()) == before


def test_words_that_are_wrong(command: Command) -> None:
    for words in ([], ["split", "a"], ["join", "--to", "x"], ["move"]):
        assert command("misland", *words).status == 2


SHIMS = {
    "systemctl": "exit 0",
    "runuser": 'shift 3; exec "$@"',
    "rsync": 'cp -a "$2" "$THERE/"',
    "misland": f'exec {sys.executable} {CLIENTS / "misland"} "$@"',
}


def moving() -> list[list[str]]:
    """The commands of docs/OPERATING.md that move a customer: those on the machine that it leaves, and those on the other one."""
    page = (CLIENTS.parent / "docs" / "OPERATING.md").read_text(encoding="utf-8")
    section = page[page.index("\n## Moving a customer\n"):page.index("\n## When something is wrong\n")]
    found = re.findall(r"^```(\w*)\n(.*?)^```$", section, re.MULTILINE | re.DOTALL)
    return [block.splitlines() for kind, block in found if not kind]


def placed(folder: Path, settings: Settings) -> None:
    """A machine's folder, in which the link `now` leads to its settings and an empty store."""
    (folder / "first").mkdir(parents=True)
    (folder / "first" / "settings.toml").write_text(str(settings))
    made_store(folder / "first" / "store.db", {})
    (folder / "now").symlink_to("first")


def answered(folder: Path, lines: str) -> bytes:
    """What the machine of a folder answers to lines."""
    status, output, told = running.run(lines.encode(), str(folder / "now" / "settings.toml"), str(folder / "now" / "store.db"))
    assert (status, told) == (0, b"")
    return output


def test_a_customer_moves_by_the_commands_of_the_page(tmp_path: Path) -> None:
    """At most ten commands. Each account is answered as by one server that has all of them, and whose sessions end at that moment."""
    here, there, whole = tmp_path / "here", tmp_path / "there", tmp_path / "one"
    names = ("BANK", "CLINIC", "LAB", "SHOP")
    settings = settings_of([("LAB", "CLINIC")], names)
    placed(whole, settings)
    for folder, part in zip((here, there), settings.parts([names[:3], names[3:]])):
        placed(folder, part)
    before = {"BANK": '1 S ^X(1)="bank",A=1\n', "CLINIC": '2 S ^X(1)="clinic",A=1 L +^X\n', "LAB": '3 S ^X(1)="lab"\n', "SHOP": '4 S ^X(1)="shop"\n'}
    behind = {"BANK": '1 W ^X(1),$D(A) S ^X(2)=1\n', "CLINIC": '2 W ^X(1),^|"LAB"|X(1),$D(A),$D(^X(2)) S ^X(2)=1\n2 W ^|"BANK"|X(1)\n',
              "LAB": '3 L +^X W $D(^X)\n', "SHOP": '4 W ^X(1),$O(^X(1))\n'}
    answered(whole, "".join(before.values()))
    answered(here, "".join(before[name] for name in names[:3]))
    answered(there, before["SHOP"])
    (tmp_path / "bin").mkdir()
    for name, text in SHIMS.items():
        (tmp_path / "bin" / name).write_text(f"#!/bin/sh\n{text}\n")
        (tmp_path / "bin" / name).chmod(0o755)
    words = {**os.environ, "PATH": f"{tmp_path / 'bin'}:{os.environ['PATH']}", "THERE": str(there)}
    commands = moving()
    assert len(commands) == 2 and sum(map(len, commands)) <= 10
    # The island has two accounts, and its part is named after the first of them.
    for folder, block in zip((here, there), commands):
        done = subprocess.run(["sh", "-e", "-c", "\n".join(block)], cwd=folder, env=words, capture_output=True, timeout=60)
        assert (done.returncode, done.stderr) == (0, b""), done
    alone = answered(here, behind["BANK"]) + answered(there, behind["CLINIC"] + behind["LAB"] + behind["SHOP"])
    assert alone == answered(whole, "".join(behind.values()))
    assert alone.count(b"\n") == 9 and answered(here, behind["CLINIC"]) == b"2!ZTERM\n2!ZTERM\n"
    assert sorted(path.name for path in here.iterdir()) == ["first", "now", "parts"]
