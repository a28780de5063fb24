# SPDX-License-Identifier: Apache-2.0
"""Globals in and out: through a terminal, and straight to a store file."""
from __future__ import annotations

import argparse
import contextlib
import os
import pty
import re
import signal
import socket
import sqlite3
import subprocess
import sys
import threading
from pathlib import Path
from types import SimpleNamespace

import pytest
import running
from conftest import ALICE, BOB, CLIENTS, SETTINGS, SHORT, Command, Server, start
from mserve_client import keys, progress
from mserve_client.extracts import Entry
from mserve_client.global_command import reading
from mserve_client.store_file import TABLES
from mserve_client.terminal_way import ImportStopped, TerminalWay
from mserve_client.walk import Walker
from mserve_client.wire import LONGEST_LINE

HEAD = "GT.M MUPIP EXTRACT\n26-NOV-2026  01:45:37 ZWR\n"
DEEP = tuple("s" * 250 + str(number) for number in range(15))
DEEP_NODE = "^X(" + ",".join(f'"{text}"' for text in DEEP) + ")"
# Nodes of many kinds, as GT.M writes them, in the order in which it does.
NODES = ['^X="root"', '^X(-1.5)="negative"', '^X(.000000000000000001)=""', '^X(1)="q""uote"', '^X(1,"a b",3)="' + "t" * 600 + '"',
         '^X(2)=$C(10,13)_"x"_$C(0)_"y"_$C(127)',
         '^X("-0")="1"', '^X("01")="' + '""' * 300 + '"', '^X("a",$C(9)_"b"_$C(10))="1000"', '^X("a""b")=$C(1)', DEEP_NODE + '="deep"',
         '^Y("z")="' + "y" * 4095 + '"']
ZWR = HEAD + "".join(node + "\n" for node in NODES)


def without_head(text: str) -> str:
    """An extract without its first two lines."""
    return text.split("\n", 2)[2]


def fold(store: Path | str) -> None:
    """Copies the log of a store into its file, as its operator does."""
    subprocess.run(running.run_words(SETTINGS, str(store)), stdin=subprocess.DEVNULL, check=True, timeout=120)


def test_in_and_out_through_a_terminal(server: Server, command: Command, tmp_path: Path) -> None:
    (tmp_path / "in.zwr").write_text(ZWR)
    with server.connection() as connection:
        connection.send("S %m=7")
    ran = command("mglobal", server.port, ALICE, "import", "in.zwr")
    assert ran.output.startswith("12 nodes imported") and (ran.told, ran.status) == ("", 0)
    ran = command("mglobal", server.port, ALICE, "export", "^X", "^Y")
    assert without_head(ran.output) == without_head(ZWR) and ran.told.startswith("mglobal: 12 nodes exported")
    assert command("mglobal", server.port, ALICE, "compare", "in.zwr").output == "12 nodes compared: all equal\n"
    assert command("mglobal", server.port, ALICE, "count", "^X", "^Y", "^X(1)", "^Z").output == "^X: 11 nodes\n^Y: 1 node\n^X(1): 2 nodes\n^Z: 0 nodes\n"
    with server.connection() as connection:
        assert connection.send('W ^X(1),$L(^X("01")),$A(^X(2)),%m,$D(%m1)').rest == 'q"uote3001070'


def test_nodes_as_the_language_has_them(server: Server) -> None:
    with server.connection() as connection:
        connection.send('S ^X(1)="a",^X("x","y")="b",X(1,2)="c",X="d"')
        assert list(Walker(connection, "^X").nodes()) == [(("1",), "a"), (("x", "y"), "b")]
        assert list(Walker(connection, "X").nodes()) == [((), "d"), (("1", "2"), "c")]
        assert list(Walker(connection, "^X").nodes(("x",))) == [(("x", "y"), "b")]
        assert list(Walker(connection, "^NONE").nodes()) == []


def test_walk_of_a_deep_local(server: Server) -> None:
    with server.connection() as connection:
        connection.send('S A("a long subscript",2,"another one")=1,%m=7')
        assert list(Walker(connection, "A").nodes()) == [(("a long subscript", "2", "another one"), "1")]
        assert connection.send("W %m,$D(%m1)").rest == "70"


@pytest.mark.parametrize("name", ["%i", "%t", "%m"])
def test_walk_of_a_local_whose_name_walks_use(server: Server, name: str) -> None:
    long = "a subscript that is too long for a line of the walk's own"
    with server.connection() as connection:
        connection.send(f'S {name}=1,{name}(2)=3,{name}("{long}",4)=5')
        assert list(Walker(connection, name).nodes()) == [((), "1"), (("2",), "3"), ((long, "4"), "5")]
        assert connection.send(f'W {name},{name}(2),{name}("{long}",4)').rest == "135"


@pytest.mark.parametrize("terminal", [ALICE, SHORT], ids=["2000 steps", "40 steps"])
@pytest.mark.parametrize("children", [0, 1, 9, 149, 150, 151, 310])
def test_count_of_children(server: Server, terminal: int, children: int) -> None:
    long = "a subscript that is too long for a line of the walk's own" * 4
    with server.connection(terminal) as connection:
        connection.send("S %m=7")
        for place in ("^X", f'^X("{long}")'):
            replies = connection.pipeline(f"S {place[:-1] + ',' if '(' in place else place + '('}{number},1)=1" for number in range(children))
            assert all(reply.ok for reply in replies)
        assert Walker(connection, "^X").count((long,)) == children
        assert Walker(connection, "^X").count() == children + (children > 0)
        assert connection.send("W %m,$D(%m1)").rest == "70"


@pytest.mark.parametrize("terminal", [ALICE, SHORT], ids=["2000 steps", "40 steps"])
def test_walk_of_many_children(server: Server, terminal: int) -> None:
    """More children than one line writes, and more than its steps allow."""
    with server.connection(terminal) as connection:
        for first in range(0, 120, 10):
            assert connection.send(f"F I={first}:1:{first + 9} S ^X(I)=I").code is None or terminal == SHORT
        for number in range(120) if terminal == SHORT else ():
            connection.send(f"S ^X({number})={number}")
        connection.send("S ^X(7,1)=8")
        wanted = [((str(number),), str(number)) for number in range(120)]
        wanted.insert(8, (("7", "1"), "8"))
        assert list(Walker(connection, "^X").nodes()) == wanted


def test_import_through_a_terminal_stops_at_what_cannot_come_in(server: Server, command: Command, tmp_path: Path) -> None:
    (tmp_path / "in.zwr").write_text(HEAD + '^X(1)="a"\n^X("")="b"\n^X(3)="c"\n')
    ran = command("mglobal", server.port, ALICE, "import", "in.zwr")
    assert ran.output.startswith("1 node imported, 1 line cannot come in; it stopped there") and ran.status == 1
    assert ran.told == 'mglobal: line 4: ^X(""): its subscript 1 is empty\n'
    ran = command("mglobal", server.port, ALICE, "import", "in.zwr", "--skip")
    assert ran.output.startswith("2 nodes imported, 1 line cannot come in") and ran.status == 1
    assert without_head(command("mglobal", server.port, ALICE, "export", "^X").output) == '^X(1)="a"\n^X(3)="c"\n'


def test_import_through_a_terminal_says_which_nodes_stand(server: Server, command: Command, tmp_path: Path) -> None:
    """The second of the three nodes needs more than 40 steps: its text is put together out of too many parts."""
    (tmp_path / "in.zwr").write_text(HEAD + '^X(1)="a"\n^X(2)=$C(' + ",".join(["10"] * 40) + ')\n^X(3)="c"\n')
    ran = command("mglobal", server.port, SHORT, "import", "in.zwr")
    assert ran.status == 1
    assert ran.told == ("mglobal: line 4: ^X(2) was answered ZSTEPS: steps used up; 2 nodes stand, those up to line 3, and 1 of the lines after it that were "
                        "on their "
                        "way already\n")


def test_export_through_a_terminal_wants_names(server: Server, command: Command) -> None:
    ran = command("mglobal", server.port, ALICE, "export")
    assert ran.status == 1 and "name the globals" in ran.told


@pytest.mark.parametrize(("text", "told"), [("X", "a global is ^NAME"), ("^X(1", "no ) after the subscripts"), ("^X(A)", "no text"),
                                            ('^X("")', "its subscript 1 is empty"),
                                            ("^X(1)2", "no global"), ("^1", "no node")])
def test_names_that_are_none(server: Server, command: Command, text: str, told: str) -> None:
    ran = command("mglobal", server.port, ALICE, "count", text)
    assert ran.status == 1 and told in ran.told


@pytest.mark.parametrize("form", ["zwr", "json", "go"])
def test_forms_straight(command: Command, tmp_path: Path, form: str) -> None:
    (tmp_path / "in.zwr").write_text(ZWR)
    assert command("mglobal", "store.db", "LAB", "import", "--new-account", "in.zwr").status == 0
    ran = command("mglobal", "store.db", "LAB", "export", "--format", form, "--to", "out")
    assert ran.status == (1 if form == "go" else 0) and ("1 left out" in ran.told) == (form == "go")
    assert command("mglobal", "other.db", "LAB", "import", "--new-account", "out").status == 0
    left = [node for node in NODES if form != "go" or "$C(10,13)" not in node]
    assert without_head(command("mglobal", "other.db", "LAB", "export").output) == "".join(node + "\n" for node in left)
    assert not [name for name in os.listdir(tmp_path) if name.endswith(("-wal", "-shm", ".part"))]


def test_straight_in_and_the_program_reads_it(command: Command, tmp_path: Path) -> None:
    (tmp_path / "in.zwr").write_text(ZWR)
    assert command("mglobal", "store.db", "ALICE", "import", "--new-account", "in.zwr").status == 0
    lines = b'1 W ^X(1),^X("a",$C(9)_"b"_$C(10)),$L(^Y("z")),$O(^X(""),-1)\n3 W $D(^X)\n1 S ^X(1)="new"\n'
    assert running.run(lines, SETTINGS, str(tmp_path / "store.db")) == (0, b'1-q"uote10004095' + DEEP[0].encode() + b"\n1.\n3-0\n3.\n1.\n", b"")
    assert '^X(1)="new"\n' in command("mglobal", "store.db", "ALICE", "export").output
    assert command("mglobal", "store.db", "BOB", "export", "--settings", SETTINGS).output.count("\n") == 2


def test_straight_out_of_what_the_program_wrote(command: Command, tmp_path: Path) -> None:
    lines = b'1 S ^X(1)="a",^X("b",-.5)=$C(10)_"c",^%A=1\n3 S ^X(1)="other account"\n'
    assert running.run(lines, SETTINGS, str(tmp_path / "store.db"))[0] == 0
    ran = command("mglobal", "store.db", "ALICE", "export")
    assert without_head(ran.output) == '^%A="1"\n^X(1)="a"\n^X("b",-.5)=$C(10)_"c"\n'
    assert command("mglobal", "store.db", "BOB", "count").output == "^X: 1 node\n"


def test_file_is_left_as_the_program_leaves_it(command: Command, tmp_path: Path) -> None:
    """Tables, version, journal mode and keys are those of a file that the program made of the same nodes."""
    (tmp_path / "in.zwr").write_text(HEAD + '^X(1)="a"\n^X("b")="c"\n')
    assert command("mglobal", "made.db", "ALICE", "import", "--new-account", "in.zwr").status == 0
    assert running.run(b'1 S ^X(1)="a",^X("b")="c"\n', SETTINGS, str(tmp_path / "program.db"))[0] == 0
    found = []
    for name in ("made.db", "program.db"):
        assert not (tmp_path / f"{name}-wal").exists() or (tmp_path / f"{name}-wal").stat().st_size < 512
        with sqlite3.connect(tmp_path / name) as base:
            found.append([base.execute(words).fetchall() for words in (
                "SELECT sql FROM sqlite_master ORDER BY rowid", "SELECT * FROM meta", "SELECT k, v FROM node ORDER BY k", "PRAGMA journal_mode",
                "PRAGMA integrity_check")])
        base.close()
    assert found[0] == found[1]


def test_straight_import_is_everything_or_nothing(command: Command, tmp_path: Path) -> None:
    (tmp_path / "good.zwr").write_text(HEAD + '^X(1)="old"\n')
    (tmp_path / "bad.zwr").write_text(HEAD + '^X(1)="new"\n^X("")="b"\n^X(1E30)="c"\n^X(2)="d"\n')
    assert command("mglobal", "store.db", "LAB", "import", "--new-account", "good.zwr").status == 0
    ran = command("mglobal", "store.db", "LAB", "import", "--new-account", "bad.zwr")
    assert ran.status == 1 and ran.output.startswith("0 nodes imported, 2 lines cannot come in; nothing was changed")
    assert ran.told.startswith('mglobal: line 4: ^X(""): its subscript 1 is empty\nmglobal: line 5: ^X: the number 1E30 is no number here')
    assert without_head(command("mglobal", "store.db", "LAB", "export").output) == '^X(1)="old"\n'
    ran = command("mglobal", "store.db", "LAB", "import", "--new-account", "bad.zwr", "--skip")
    assert ran.status == 1 and ran.output.startswith("2 nodes imported, 2 lines cannot come in")
    assert without_head(command("mglobal", "store.db", "LAB", "export").output) == '^X(1)="new"\n^X(2)="d"\n'


def interrupted(process: subprocess.Popen[bytes]) -> tuple[bytes, bytes]:
    """What a process has written and told once it is interrupted. Python looks at a signal when a read ends: one that came just before the read began is
    not seen until the next one, which a person would send too."""
    for _ in range(6):
        process.send_signal(signal.SIGINT)
        with contextlib.suppress(subprocess.TimeoutExpired):
            return process.communicate(timeout=15)
    pytest.fail("it goes on after six interrupts")


def test_interrupt_of_a_straight_import(command: Command, tmp_path: Path) -> None:
    """The reading of a pipe that stays open is interrupted: nothing of what came stands."""
    (tmp_path / "good.zwr").write_text(HEAD + '^X(1)="old"\n')
    assert command("mglobal", "store.db", "LAB", "import", "--new-account", "good.zwr").status == 0
    os.mkfifo(tmp_path / "pipe")
    process = subprocess.Popen([sys.executable, CLIENTS / "mglobal", "store.db", "LAB", "import", "--new-account", "pipe"], cwd=tmp_path,
                               stdout=subprocess.PIPE, stderr=subprocess.PIPE)
    with open(tmp_path / "pipe", "wb") as pipe:
        pipe.write(HEAD.encode() + b"".join(b'^X(%d)="new"\n' % number for number in range(20_000)))
        pipe.flush()
        output, told = interrupted(process)
    assert (process.returncode, output, told) == (130, b"", b"mglobal: interrupted\n")
    assert without_head(command("mglobal", "store.db", "LAB", "export").output) == '^X(1)="old"\n'


def test_dry_run_changes_nothing(command: Command, tmp_path: Path) -> None:
    (tmp_path / "bad.zwr").write_text(HEAD + '^X(1)="new"\n^X("")="b"\n')
    ran = command("mglobal", "store.db", "LAB", "import", "--new-account", "bad.zwr", "--dry-run")
    assert (ran.output, ran.status) == ("1 node can come in, 1 line cannot; nothing was changed\n", 1)
    assert not os.path.exists(tmp_path / "store.db")


@pytest.mark.parametrize(("words", "told"), [
    (("store.db", "LAB", "import", "none.zwr"), "none.zwr: No such file or directory"),
    (("none/store.db", "LAB", "import", "--new-account", "in.zwr"), "unable to open database file"),
    ((".", "LAB", "count"), "unable to open database file"), (("store.db", "LAB", "import", "--new-account", "."), ".: Is a directory"),
])
def test_files_that_cannot_be_opened(command: Command, tmp_path: Path, words: tuple[str, ...], told: str) -> None:
    (tmp_path / "in.zwr").write_text(ZWR)
    ran = command("mglobal", *words)
    assert ran.status == 1 and told in ran.told


def test_compare(command: Command, tmp_path: Path) -> None:
    (tmp_path / "a.zwr").write_text(HEAD + '^A="1"\n^X(1)="a"\n^X(2)="b"\n^X(4)="d"\n^Y="1"\n')
    (tmp_path / "b.zwr").write_text(HEAD + '^X(2)="B"\n^X(3)="c"\n^X(4)="d"\n^Y="1"\n^Z="2"\n')
    (tmp_path / "c.zwr").write_text(HEAD + '^X(2)="B"\n^X(1)="c"\n')
    assert command("mglobal", "store.db", "LAB", "import", "--new-account", "a.zwr").status == 0
    ran = command("mglobal", "store.db", "LAB", "compare", "b.zwr")
    assert ran.output.splitlines() == ["only in the store: ^X(1)", "different: ^X(2)", "only in the file: ^X(3)", "only in the file: ^Z",
                                       "only in the store: ^A, 1 node",
                                       "5 nodes compared: 5 nodes different"]
    assert ran.status == 1
    ran = command("mglobal", "store.db", "LAB", "compare", "c.zwr")
    assert ran.status == 1 and "line 4: ^X(1) does not come after the node before it" in ran.told


def test_file_that_a_server_has(file_server: Server, command: Command, tmp_path: Path) -> None:
    """It is refused while the server runs, and read once that was ended by a signal, with all that its log has."""
    (tmp_path / "in.zwr").write_text(ZWR)
    with file_server.connection() as connection:
        assert connection.send("S ^X(1)=1").ok
    for act in (["import", "--new-account", "in.zwr"], ["export"], ["count"]):
        ran = command("mglobal", file_server.store, "ALICE", *act)
        assert ran.status == 1 and "the file is in use (SQLITE_BUSY" in ran.told
    with file_server.connection() as connection:
        assert connection.send("W ^X(1) S ^X(2)=2").rest == "1"
    file_server.stop()
    assert os.path.getsize(f"{file_server.store}-wal") > 4096
    assert command("mglobal", file_server.store, "ALICE", "count").output == "^X: 2 nodes\n"
    assert running.run(b"1 W ^X(2)\n", SETTINGS, file_server.store)[1] == b"1-2\n1.\n"


def test_file_of_a_server_that_was_killed(file_server: Server, command: Command) -> None:
    with file_server.connection() as connection:
        assert connection.send("F I=1:1:200 S ^X(I)=I").ok
    file_server.process.kill()
    file_server.process.wait()
    assert command("mglobal", file_server.store, "ALICE", "count").output == "^X: 200 nodes\n"


def test_journal_of_another_program(command: Command, tmp_path: Path) -> None:
    (tmp_path / "store.db-journal").write_text("x")
    ran = command("mglobal", "store.db", "ALICE", "count")
    assert ran.status == 1 and "which mserve never makes" in ran.told


def test_account_that_nobody_has(command: Command, tmp_path: Path) -> None:
    """A name that neither the store nor the settings have is taken for a wrong one."""
    (tmp_path / "in.zwr").write_text(HEAD + '^X(1)="a"\n')
    ran = command("mglobal", "store.db", "ALICE", "import", "in.zwr")
    assert ran.status == 1 and "there is no such file" in ran.told and not (tmp_path / "store.db").exists()
    assert command("mglobal", "store.db", "ALICE", "import", "--settings", SETTINGS, "in.zwr").output == "1 node imported\n"
    for act in (["import", "in.zwr"], ["export"], ["count"], ["compare", "in.zwr"], ["import", "--settings", SETTINGS, "in.zwr"]):
        ran = command("mglobal", "store.db", "ALICCE", *act)
        assert ran.status == 1 and "store.db has no node of an account ALICCE: it has those of ALICE" in ran.told and "--new-account takes it" in ran.told
    assert command("mglobal", "store.db", "ALICCE", "import", "--new-account", "in.zwr").output == "1 node imported\n"
    assert command("mglobal", "store.db", "ALICCE", "count").output == "^X: 1 node\n"


def test_null_subscripts(server: Server, command: Command, tmp_path: Path) -> None:
    (tmp_path / "in.zwr").write_text(HEAD + '^X("")="a"\n^X("",2)="b"\n')
    null = ["--null-subscript", "(none)"]
    assert command("mglobal", server.port, ALICE, "import", *null, "in.zwr").output == "2 nodes imported\n"
    assert command("mglobal", server.port, ALICE, "compare", *null, "in.zwr").status == 0
    assert without_head(command("mglobal", server.port, ALICE, "export", *null, "^X").output) == '^X("")="a"\n^X("",2)="b"\n'
    assert without_head(command("mglobal", server.port, ALICE, "export", "^X").output) == '^X("(none)")="a"\n^X("(none)",2)="b"\n'
    ran = command("mglobal", server.port, ALICE, "import", "--null-subscript", "x" * 256, "in.zwr")
    assert ran.status == 1 and "--null-subscript: its subscript 1 has 256 characters" in ran.told


@pytest.mark.parametrize("way", ["straight", "terminal"])
def test_export_of_what_is_not_there(server: Server, command: Command, tmp_path: Path, way: str) -> None:
    """What is there is written; a name that has no node may be a slip, so it is named, and the status says so."""
    (tmp_path / "in.zwr").write_text(ZWR)
    place = (server.port, ALICE) if way == "terminal" else ("store.db", "LAB")
    assert command("mglobal", *place, "import", "in.zwr", *(["--new-account"] if way == "straight" else [])).status == 0
    ran = command("mglobal", *place, "export", "^Y", "^NONE", '^X("none")')
    assert ran.status == 1 and without_head(ran.output) == without_head(ZWR).splitlines(True)[-1]
    assert ran.told == 'mglobal: ^NONE: there is no such node\nmglobal: ^X("none"): there is no such node\nmglobal: 1 node exported\n'
    assert command("mglobal", *place, "export", "^Y").status == 0


def test_several_nodes_go_by_one_line(server: Server, command: Command, tmp_path: Path) -> None:
    """Short and long texts in turns; a name twice keeps the last text; what a code stops is said node by node."""
    nodes = {f"{number}": "x" * (number % 9 * 40 if number % 50 else 3000) for number in range(1, 300)}
    (tmp_path / "in.zwr").write_text(HEAD + '^X(1)="first"\n' + "".join(f'^X({name})="{text}"\n' for name, text in nodes.items()))
    assert command("mglobal", server.port, ALICE, "import", "in.zwr").output == "300 nodes imported\n"
    with server.connection() as connection:
        assert {place[0]: text for place, text in TerminalWay(connection).nodes("X")} == nodes


def peer_that_answers_at_the_end(listener: socket.socket, nodes: int, seen: list[bytes]) -> None:
    """Says at once that a local variable is not there, and answers lines that set nodes once all the nodes have come."""
    peer, _ = listener.accept()
    with peer, peer.makefile("rb") as lines:
        while sum(line.count(b"^X(") for line in seen) < nodes:
            line = lines.readline()
            if line.startswith(b"1 S "):
                seen.append(line.rstrip(b"\n"))
            else:
                peer.sendall(b"1-0\n1.\n")
        peer.sendall(b"1.\n" * len(seen))


def test_import_is_sent_ahead_in_full_lines(command: Command, tmp_path: Path) -> None:
    """So it is as fast as the store commits, whatever a reply takes: who waits for a reply of this peer, waits for ever."""
    count, seen = 2000, []
    (tmp_path / "in.zwr").write_text(HEAD + "".join(f'^X({number})="the text of {number}"\n' for number in range(count)))
    with socket.create_server(("127.0.0.1", 0)) as listener:
        peer = threading.Thread(target=peer_that_answers_at_the_end, args=(listener, count, seen), daemon=True)
        peer.start()
        ran = command("mglobal", "--timeout", 50, listener.getsockname()[1], ALICE, "import", "in.zwr")
        peer.join(30)
    assert (ran.status, ran.output, ran.told) == (0, "2,000 nodes imported\n", "")
    longest = len(',^X(1999)="the text of 1999"')
    # The terminal and a space come before a line.
    assert all(LONGEST_LINE - longest < len(line) - 2 <= LONGEST_LINE for line in seen[:-1])


def test_nodes_of_an_account_with_few_steps(server: Server) -> None:
    """A line of several nodes that runs out of steps is sent again, node by node, and further lines set fewer."""
    with server.connection(SHORT) as connection:
        TerminalWay(connection).put((Entry(number, "X", (str(number % 40), "a"), str(number)) for number in range(400)), lambda: None)
        assert [(place[0], text) for place, text in TerminalWay(connection).nodes("X")] == [(str(number), str(360 + number)) for number in range(40)]


@pytest.mark.parametrize("place", [0, 3, 70, 199])
def test_node_that_is_refused_among_others(server: Server, place: int) -> None:
    """A text that takes more steps than a line has, among nodes that go by one line."""
    nodes = [Entry(number, "X", (str(number),), '\n' * 30 if number == place else "a") for number in range(200)]
    counted: list[int] = []
    with server.connection(SHORT) as connection:
        with pytest.raises(ImportStopped, match=rf"^line {place}: \^X\({place}\) was answered ZSTEPS") as error:
            TerminalWay(connection).put(nodes, lambda: counted.append(1))
        there = {int(found[0]) for found, _ in TerminalWay(connection).nodes("X")}
    told = re.search(r"; ([\d,]+) nodes stand(?:, those up to line (\d+))?(?:, and ([\d,]+) of the lines after it)?", str(error.value))
    assert set(range(place)) <= there and place not in there
    assert int(told[1]) == len(there) and int(told[2] or place - 1) == place - 1 and int(told[3] or 0) == len(there) - place


# A name, or a word for a person, of thirty languages.
NAMES_OF_LANGUAGES = ["Müller", "Noël", "Muñoz", "São", "Dvořák", "Łukasz", "Szűcs", "Šimić", "Ștefan", "Çelik", "Øystein", "Åsa", "Þóra", "Siân", "Ċensu",
                      "Jānis", "Žemaitė", "Õnne",
                      "Иван", "Юлія", "Παύλος", "Արամ", "გიორგი", "אברהם", "محمد", "فریدون", "अमित", "தமிழ்", "สมชาย", "Nguyễn", "陈伟", "佐藤ゆき", "김철수", "𝔘𝔫𝔦",
                      "👩‍⚕️"]


@pytest.mark.parametrize("way", ["straight", "terminal"])
def test_names_of_thirty_languages(server: Server, command: Command, tmp_path: Path, way: str) -> None:
    """A file of UTF-8 comes in, is ASCII there, and comes back byte for byte; texts that look like escapes do too."""
    assert len(NAMES_OF_LANGUAGES) >= 30
    texts = [*NAMES_OF_LANGUAGES, "~e9;", "~7e;e9;", "~", "~E9;", "~~fc;", 'a ""quote"" ~']
    nodes = "".join(f'^X("n{number:02}",1)="{text}"\n' for number, text in enumerate(texts))
    nodes += "".join(f'^Y("{name}")="{number}"\n' for name, number in sorted((name, number) for number, name in enumerate(NAMES_OF_LANGUAGES)))
    (tmp_path / "in.zwr").write_text("GT.M MUPIP EXTRACT UTF-8\n26-NOV-2026  01:45:37 ZWR\n" + nodes)
    place = [server.port, ALICE] if way == "terminal" else ["store.db", "ALICE"]
    new = [] if way == "terminal" else ["--new-account"]
    ran = command("mglobal", "--text", "utf-8", *place, "import", *new, "in.zwr")
    assert (ran.output, ran.told) == (f"{len(texts) + len(NAMES_OF_LANGUAGES)} nodes imported\n", "")
    for names in (["^X"], ["^Y"]):
        assert command("mglobal", "--text", "utf-8", *place, "export", *names, "--to", names[0][1:]).status == 0
    found = (tmp_path / "X").read_bytes().split(b"\n", 2)[2]
    assert found == nodes.encode()[:len(found)] and found.count(b"\n") == len(texts)
    assert sorted((tmp_path / "Y").read_bytes().splitlines()[2:]) == sorted(line for line in nodes.encode().splitlines() if line.startswith(b"^Y"))
    plain = command("mglobal", *place, "export", "^X")
    assert plain.output.isascii() and '^X("n00",1)="M~fc;ller"\n' in plain.output and '="~7e;e9;"\n' in plain.output


def test_file_that_a_server_has_and_has_not_changed(command: Command, tmp_path: Path) -> None:
    fold(tmp_path / "store.db")
    server = start(str(tmp_path / "store.db"))
    try:
        ran = command("mglobal", "store.db", "ALICE", "import", "--new-account", "/dev/null")
        assert ran.status == 1 and "store.db: the file is in use (SQLITE_BUSY" in ran.told and "stop the server" in ran.told
        with server.connection() as connection:
            assert connection.send("S ^X=1 W ^X").rest == "1"
    finally:
        server.stop()


def test_file_that_another_process_has(command: Command, tmp_path: Path) -> None:
    (tmp_path / "in.zwr").write_text(ZWR)
    assert command("mglobal", "store.db", "LAB", "import", "--new-account", "in.zwr").status == 0
    base = sqlite3.connect(tmp_path / "store.db", isolation_level=None)
    base.execute("PRAGMA journal_mode = DELETE")
    base.execute("BEGIN EXCLUSIVE")
    ran = command("mglobal", "store.db", "LAB", "export")
    base.close()
    assert ran.status == 1 and "store.db: the file is in use (SQLITE_BUSY" in ran.told


@pytest.mark.parametrize(("made", "told"), [
    (None, "there is no such file"), ("text", "it is no database"), ("other", "it has tables of others alone"), ("version", "is of version 1"),
    ("none", "is of version none"),
])
def test_files_that_are_no_stores(command: Command, tmp_path: Path, made: str | None, told: str) -> None:
    path = tmp_path / "store.db"
    if made == "text":
        path.write_text("no database at all, but a text of some length, which a person may name by mistake" * 9)
    elif made is not None:
        base = sqlite3.connect(path)
        for table in TABLES if made != "other" else ["CREATE TABLE t (a)"]:
            base.execute(table)
        if made == "version":
            base.execute("INSERT INTO meta VALUES ('version', 1)")
        base.commit()
        base.close()
    before = path.read_bytes() if path.exists() else None
    ran = command("mglobal", "store.db", "LAB", "export")
    assert ran.status == 1 and told in ran.told
    assert (path.read_bytes() if path.exists() else None) == before


@pytest.mark.parametrize("before", [[], TABLES[::-1]], ids=["none of the two", "both, made in the other order"])
def test_a_file_that_others_use(command: Command, tmp_path: Path, before: list[str]) -> None:
    """Globals go into it and come out, and what is others' stays."""
    with contextlib.closing(sqlite3.connect(tmp_path / "store.db")) as base:
        for statement in ["CREATE TABLE theirs (a UNIQUE)", "INSERT INTO theirs VALUES (1), ('b')", *before]:
            base.execute(statement)
        if before:
            base.execute("INSERT INTO meta VALUES ('version', 2)")
        base.commit()
    (tmp_path / "in.zwr").write_text(ZWR)
    assert command("mglobal", "store.db", "LAB", "import", "--new-account", "in.zwr").status == 0
    assert without_head(command("mglobal", "store.db", "LAB", "export").output) == without_head(ZWR)
    with contextlib.closing(sqlite3.connect(tmp_path / "store.db")) as base:
        assert base.execute("SELECT a FROM theirs").fetchall() == [(1,), ("b",)]


@pytest.mark.parametrize(("rule", "named"), [
    ("CREATE TABLE more (k REFERENCES node (k))", "more"), ("CREATE UNIQUE INDEX once ON node (v)", "once"),
    ("CREATE TRIGGER t AFTER INSERT ON node BEGIN DELETE FROM meta; END", "t"), ("CREATE INDEX some ON node (v) WHERE v > 1", "some"),
])
def test_rules_of_others(command: Command, tmp_path: Path, rule: str, named: str) -> None:
    """What the program refuses beside the two tables is refused here too."""
    (tmp_path / "in.zwr").write_text(ZWR)
    assert command("mglobal", "store.db", "LAB", "import", "--new-account", "in.zwr").status == 0
    with contextlib.closing(sqlite3.connect(tmp_path / "store.db")) as base:
        base.execute(rule)
    ran = command("mglobal", "store.db", "LAB", "export")
    assert ran.status == 1 and f"{named} is a rule of others on its tables" in ran.told


@pytest.mark.parametrize("account", ["", "A_B", "A" * 17, "\u00e9"])
def test_accounts_that_are_none(command: Command, account: str) -> None:
    ran = command("mglobal", "store.db", account, "count")
    assert ran.status == 1 and "is no account" in ran.told


def test_numbers_for_where_and_who(command: Command) -> None:
    ran = command("mglobal", 70000, 1, "count", "^X")
    assert ran.status == 1 and "is not a whole number from 1 to 65535" in ran.told and "./70000" in ran.told


def test_key_of_the_store_is_the_key_of_the_module(command: Command, tmp_path: Path) -> None:
    (tmp_path / "in.zwr").write_text(ZWR)
    assert command("mglobal", "store.db", "LAB", "import", "--new-account", "in.zwr").status == 0
    base = sqlite3.connect(tmp_path / "store.db")
    found = [keys.node(row[0])[2] for row in base.execute("SELECT k FROM node ORDER BY k")]
    base.close()
    assert len(found) == 12 and found[10] == DEEP


def test_progress_is_shown_to_a_person(server: Server, tmp_path: Path) -> None:
    """A bar with the rate and the time that is left, if the standard error is a terminal of the system."""
    (tmp_path / "in.zwr").write_text(HEAD + "".join(f'^X({number})="a text"\n' for number in range(2_000)))
    for words in (["import", tmp_path / "in.zwr"], ["export", "^X"]):
        shown = shown_to_a_person([sys.executable, CLIENTS / "mglobal", str(server.port), str(ALICE), *words])
        told = rf"\[#*\.*\] {words[0]}: [\d,]+ nodes, [\d,]+ a second, \d+ s left"
        assert re.search(told.encode(), shown), shown[-1000:]


def shown_to_a_person(words: list[str | Path]) -> bytes:
    """What a command writes to its standard error if that is a terminal of the system."""
    near, far = pty.openpty()
    process = subprocess.Popen(words, stdin=subprocess.DEVNULL, stdout=subprocess.DEVNULL, stderr=far)
    os.close(far)
    shown = b"".join(iter(lambda: shown_part(near), b""))
    os.close(near)
    assert process.wait(60) == 0, shown[-1000:]
    return shown


def test_rate_is_told_of_long_work(monkeypatch: pytest.MonkeyPatch) -> None:
    """Of 600 nodes: none at five seconds, and one after them."""
    now = 0.0
    monkeypatch.setattr(progress, "time", SimpleNamespace(monotonic=lambda: now))
    with progress.Progress("import") as work:
        work.step(600)
        now = 5.0
        assert work.shown_rate == ""
        now = 6.0
        assert work.shown_rate == ", 100 a second"


def test_part_of_a_file_that_is_read(tmp_path: Path) -> None:
    """The whole, once the last line is read: the replies that are due then are counted too."""
    (tmp_path / "in.zwr").write_text(HEAD + '^X(1)="a"\n')
    with reading(argparse.Namespace(file=tmp_path / "in.zwr", format=None, null_subscript="", text="ascii")) as source:
        assert source.part() == 0
        assert len(list(source.entries(is_strict=True))) == 1 and source.part() == 1


def shown_part(near: int) -> bytes:
    """What comes next to a terminal of the system; nothing, once its other end is closed."""
    try:
        return os.read(near, 65536)
    except OSError:
        return b""


def test_account_of_a_terminal(server: Server, command: Command, tmp_path: Path) -> None:
    (tmp_path / "in.zwr").write_text(HEAD + '^X(1)="a"\n')
    assert command("mglobal", server.port, BOB, "import", "in.zwr").status == 0
    assert command("mglobal", server.port, ALICE, "count", "^X").output == "^X: 0 nodes\n"
    assert command("mglobal", server.port, BOB, "count", "^X").output == "^X: 1 node\n"
