# SPDX-License-Identifier: Apache-2.0
"""The clients through a front, over TLS: sign-on by a password and by a token, routines and globals, and what a person sees of a loss."""
from __future__ import annotations

import json
import os
import socket
import ssl
import subprocess
import sys
import time
import types
from collections.abc import Callable, Iterator
from pathlib import Path

import pytest
from conftest import Starter
from front import FRONT, PASSWORD, SETTINGS, Front, in_loop, toml
from mserve_client import routines
from mserve_client.front import FrontConnection, NoSignOn, reply_of
from mserve_client.wire import NoServer, Reply, ServerGone
from mserve_front.gate import Gate, Request
from mserve_front.http_head import read_head
from mserve_front.users import token_hash
from pseudo_terminal import opened

CLIENTS = FRONT.parent / "clients"

Ran = subprocess.CompletedProcess[str]


def token_of(front: Front, user: str = "ada") -> str:
    """A new token of a user, which the front knows then."""
    words = [sys.executable, FRONT / "mfront", "token", "add", user, "--config", front.folder / "front.toml"]
    made = subprocess.run(words, check=True, capture_output=True, text=True, timeout=60).stdout.strip()
    end = time.monotonic() + 30
    while not knows(front, user, made):
        assert time.monotonic() < end, "the front does not read the users' file"
        time.sleep(0.5)
    return made


def knows(front: Front, user: str, secret: str) -> bool:
    """Whether a user can sign on at the line port."""
    with socket.create_connection(("127.0.0.1", front.lines_port), timeout=60) as plain, \
            front.context.wrap_socket(plain, server_hostname="localhost") as connection:
        connection.sendall(f"{user} {secret}\n".encode())
        return "terminal" in json.loads(connection.makefile("rb").readline())


def authority(front: Front) -> str:
    """The file of the front's certificate."""
    assert front.certificate is not None
    return str(front.certificate[0])


@pytest.fixture
def connect(lasting: Front) -> Iterator[Callable[..., FrontConnection]]:
    """Signs on as a user."""
    made: list[FrontConnection] = []

    def connected(user: str = "ada", secret: str = PASSWORD, **more: object) -> FrontConnection:
        made.append(FrontConnection(lasting.origin, user, secret, authority=authority(lasting), **more))
        return made[-1]
    yield connected
    for one in made:
        one.close()


@pytest.fixture(scope="module")
def token(lasting: Front) -> str:
    """A token of ada."""
    return token_of(lasting)


@pytest.fixture
def command(lasting: Front, token: str, tmp_path: Path) -> Callable[..., Ran]:
    """Runs a command of clients/ as ada, by a token in a file."""
    (tmp_path / "token").write_text(token + "\n")
    (tmp_path / "token").chmod(0o600)

    def ran(name: str, *words: object, stdin: str = "", user: str = "ada", **variables: str) -> Ran:
        place = ["--front", lasting.origin, "--user", user, "--ca", authority(lasting), *([] if variables else ["--token", "token"])]
        return subprocess.run([sys.executable, CLIENTS / name, *place, *map(str, words)], input=stdin, capture_output=True, text=True, timeout=60, cwd=tmp_path,
                              env={**os.environ, "HOME": str(tmp_path), **variables})
    return ran


def test_lines_by_a_password(connect: Callable[..., FrontConnection]) -> None:
    front = connect()
    assert front.record["account"] == "CLINIC" and front.terminal in (1, 2, 3)
    assert [(reply.lines, reply.rest, reply.code) for reply in front.pipeline(["S A=5 W A,!,A+1", "W B", "W 1 2", 'W "ü"'])] == [
        (("5",), "6", None), ((), "", "M6"), ((), "", "ZSYNTAX"), ((), "", "ZCHAR")]


def test_many_lines_are_sent_ahead_and_large_replies_come_whole(connect: Callable[..., FrontConnection]) -> None:
    front = connect("cleo")
    replies = list(front.pipeline([f"W {number},! F I=1:1:20 W $J(I,1000),!" for number in range(100)]))
    assert [reply.lines[0] for reply in replies] == [str(number) for number in range(100)]
    assert all(len(reply.lines) == 21 and len(reply.lines[20]) == 1000 for reply in replies)


def test_a_pipeline_that_is_left(connect: Callable[..., FrontConnection]) -> None:
    front = connect()
    next(front.pipeline(f"W {number}" for number in range(10)))
    assert front.send('W "last"').rest == "last"


@pytest.mark.parametrize(("user", "secret"), [("ada", "wrong"), ("nobody", PASSWORD), ("ben", "a" * 20)])
def test_wrong_secret(start: Starter, user: str, secret: str) -> None:
    front = start()
    with pytest.raises(NoSignOn, match=f"{user} is not signed on: wrong name or password"):
        FrontConnection(front.origin, user, secret, authority=authority(front))


def test_certificate_that_is_not_verified(lasting: Front) -> None:
    """Without the authority nothing is sent; nor if the certificate is for another name."""
    with pytest.raises(NoServer, match="its certificate is not verified: .*--ca FILE names the authority"):
        FrontConnection(lasting.origin, "ada", PASSWORD)
    with pytest.raises(NoServer, match="its certificate is not verified: .*[Mm]ismatch"):
        FrontConnection(lasting.origin.replace("localhost", "127.1"), "ada", PASSWORD, authority=authority(lasting))


@pytest.mark.parametrize("url", ["http://front.example:8443", "https://", "ftp://localhost", "https://a@localhost", "https://localhost/page/x"])
def test_url_that_is_none(url: str) -> None:
    with pytest.raises(ValueError, match="is no front|without TLS a secret goes to this machine alone"):
        FrontConnection(url, "ada", PASSWORD)


def test_no_front_there(lasting: Front) -> None:
    with pytest.raises(NoServer, match="no front at https://localhost:1 "):
        FrontConnection("https://localhost:1", "ada", PASSWORD, authority=authority(lasting))
    with pytest.raises(NoServer, match="no TLS there|no front at"):
        FrontConnection(f"https://localhost:{lasting.lines_port}", "ada", PASSWORD, authority=authority(lasting))


def test_a_front_without_tls(start: Starter) -> None:
    front = start(tls=False)
    with FrontConnection(front.origin, "ada", PASSWORD) as connection:
        assert connection.send("W 6*7").rest == "42"


def test_sessions_end_with_their_client(connect: Callable[..., FrontConnection], command: Callable[..., Ran]) -> None:
    """The account SHORT has one terminal: it is free again once a client has left, with no variables of before."""
    for _ in range(3):
        front = connect("dora")
        assert front.send("W $D(A) S A=1").rest == "0"
        front.close()


def test_shell_by_a_token(command: Callable[..., Ran], token: str) -> None:
    ran = command("mshell", stdin="S A=1 W A+1\nW 1 2\n")
    assert (ran.stdout, ran.stderr, ran.returncode) == (
        "2\nZSYNTAX: not in the language: column 4: two expressions need a comma, or two commands one space\n", "", 1)
    ran = command("mshell", stdin="W 3", MSERVE_TOKEN=token)
    assert (ran.stdout, ran.returncode) == ("3\n", 0)


def test_secrets_that_are_not_given(command: Callable[..., Ran], tmp_path: Path) -> None:
    ran = command("mshell", stdin="W 1", MSERVE_OTHER="x")
    assert ran.returncode == 3 and "no password can be asked for here: give --token FILE" in ran.stderr
    (tmp_path / "token").chmod(0o644)
    ran = command("mshell", stdin="W 1")
    assert ran.returncode == 3 and "token: others may read it: chmod 600 token" in ran.stderr
    (tmp_path / "token").chmod(0o600)
    assert "the token is one of ada, and not of ben" in command("mshell", stdin="W 1", user="ben").stderr
    (tmp_path / "token").write_text("mft_wrong")
    assert "the token is wrong" in command("mshell", stdin="W 1").stderr


def test_a_token_says_whose_it_is(lasting: Front, token: str) -> None:
    """It opens lines, in a session of its own each time. That it is no password of a page, `test_password.py` shows."""
    with (FrontConnection(lasting.origin, "", token, authority=authority(lasting)) as one,
          FrontConnection(lasting.origin, "", token, authority=authority(lasting)) as other):
        assert one.user == other.user == "ada" and one.terminal != other.terminal
        assert one.send("S A=1 W A").rest == "1" and other.send("W $D(A)").rest == "0"


def test_routines_through_a_front(command: Callable[..., Ran], tmp_path: Path) -> None:
    (tmp_path / "in").mkdir()
    (tmp_path / "in" / "SQ.m").write_text("SQ W N*N\n Q\n")
    (tmp_path / "in" / "LONG.m").write_text('LONG ;\n W "' + "x" * 900 + '" ;\n ;a\0b\n')
    assert command("mroutine", "load", "--check", "in").returncode == 0
    assert command("mroutine", "diff", "in").stdout == ""
    assert "SQ: 2 lines" in command("mroutine", "list").stdout
    assert command("mroutine", "save", "SQ", "LONG", "--to", "out").returncode == 0
    assert (tmp_path / "out" / "SQ.m").read_text() == "SQ W N*N\n Q\n"
    assert (tmp_path / "out" / "LONG.m").read_text() == (tmp_path / "in" / "LONG.m").read_text()
    assert command("mshell", stdin="S N=7 D ^SQ\n").stdout == "49\n"
    assert command("mroutine", "delete", "SQ", "LONG").returncode == 0


def test_a_gate_hands_a_token_on_to_its_users_island() -> None:
    """A WebSocket with a token goes where the token's user is, and one with a cookie where the cookie says."""
    islands = types.SimpleNamespace(placed={"CLINIC": None, "LAB": None}, of_token={token_hash("mft_x"): "cleo"}, of_account={"LAB": "LAB"},
                                    users={"cleo": types.SimpleNamespace(account="LAB")})
    gate = Gate("one", islands, ssl.create_default_context())

    def island(field: str) -> str:
        return gate.of_request(Request(read_head(f"GET /ws HTTP/1.1\r\nHost: a\r\n{field}\r\n\r\n".encode(), 0), b""))

    assert (island("Authorization: Bearer mft_x"), island("Cookie: __Host-mfront=CLINIC.key")) == ("LAB", "CLINIC")


def test_deploying_while_users_work(connect: Callable[..., FrontConnection], command: Callable[..., Ran], tmp_path: Path) -> None:
    """Another user's lines run before, between and after; who deploys at the same time is refused, and may once the lock is released, also by a client that
    was cut off."""
    (tmp_path / "in").mkdir()
    (tmp_path / "in" / "WORK.m").write_text('WORK W "first"\n Q\n')
    user = connect("ben")
    assert command("mroutine", "load", "in").returncode == 0
    assert user.send("S A=1 D ^WORK").rest == "first"
    (tmp_path / "in" / "WORK.m").write_text('WORK W "second"\n Q\n')
    other = connect("ben")
    with routines.deploying(other):
        ran = command("mroutine", "load", "in")
        assert ran.returncode == 1 and "another terminal of the account holds the lock ^ROUTINE" in ran.stderr
        assert user.send("D ^WORK").rest == "first"
    assert command("mroutine", "load", "in").returncode == 0
    assert user.send("W A D ^WORK").rest == "1second"
    other.send("L +^ROUTINE")
    other._socket.close()
    end = time.monotonic() + 30
    while user.send("L +^ROUTINE:0 W $T").rest == "0":
        assert time.monotonic() < end
        time.sleep(0.1)
    user.send("L")
    assert command("mroutine", "delete", "WORK").returncode == 0


def test_globals_through_a_front(command: Callable[..., Ran], tmp_path: Path) -> None:
    nodes = "".join(f'^PATIENT({number},"n")="text {number}"\n' for number in range(1, 801)) + '^PATIENT("q\"\"",$C(13))=$C(0,13,10)_"""x"\n'
    (tmp_path / "in.zwr").write_text("title\ndate ZWR\n" + nodes)
    assert command("mglobal", "import", "in.zwr").stdout.startswith("801 nodes imported")
    assert command("mglobal", "compare", "in.zwr").stdout == "801 nodes compared: all equal\n"
    assert command("mglobal", "export", "^PATIENT", "--to", "out.zwr").returncode == 0
    assert (tmp_path / "out.zwr").read_text().split("\n", 2)[2] == nodes
    assert command("mshell", stdin="K ^PATIENT").returncode == 0


def test_shell_of_a_person_over_tls(start: Starter, tmp_path: Path) -> None:
    """The password is asked for and not shown; after a restart of the server and of the front the shell is connected again and says what was lost."""
    front = start()
    words = ["--front", front.origin, "--user", "ada", "--ca", authority(front), "--history", str(tmp_path / "history")]
    with opened(*words) as shell:
        shell.wait("Password of ada: ")
        shell.type(PASSWORD + "\r")
        assert PASSWORD not in shell.answers("S A=41 W A+1", "42")
        front.kill_child()
        shell.answers("W A", "variables and locks are gone")
        shell.wait("connected again, as terminal")
        shell.answers("W $D(A)", "0")
        front.stop()
        shell.answers("W 1", "ada was signed off (the front was stopped)")
        shell.wait("waiting for the server; Ctrl-C leaves")
        front.again()
        shell.wait("connected again, as terminal")
        shell.answers("W 6*7", "42")
        shell.leave()


@pytest.mark.long
@pytest.mark.parametrize(("more", "note"), [({}, ""), ({"cut": 7}, "the front left out 7 bytes of this reply (limits.reply)"),
                                            ({"quota": "the account is over"}, "the account is over"),
                                            ({"cut": 7, "quota": "over"}, "the front left out 7 bytes of this reply (limits.reply); over")])
def test_what_a_front_says_of_a_reply_is_its_note(more: dict[str, object], note: str) -> None:
    assert reply_of({"output": ["a"], "rest": "b", "code": None, **more}) == Reply(("a",), "b", None, note)


def test_an_idle_shell_answers_pings(start: Starter) -> None:
    """The front pings each three seconds here, and cuts off who does not answer within seven and a half."""
    front = start(limits={"heartbeat": 3})
    with FrontConnection(front.origin, "ada", PASSWORD, authority=authority(front)) as connection:
        connection.send("S A=1")
        time.sleep(9)
        assert connection.send("W A").rest == "1"


def test_session_that_idles_too_long(start: Starter) -> None:
    front = start(limits={"idle": 1})
    with FrontConnection(front.origin, "ada", PASSWORD, authority=authority(front)) as connection:
        connection.send("S A=1")
        assert isinstance(connection._events.get(timeout=60), ServerGone)
        with pytest.raises(ServerGone, match="nothing came for too long.*this line was not sent"):
            connection.send("W A")


@pytest.fixture(scope="module")
def in_utf_8(certificate: tuple[Path, Path], tmp_path_factory: pytest.TempPathFactory) -> Iterator[Front]:
    """A front whose users' texts are UTF-8."""
    front = Front(tmp_path_factory.mktemp("front"), certificate, server={"text": "utf-8"})
    yield front
    front.stop()


LINES = ['S ^X="Müller 陈 ~e9; ~" W ^X,!,$L("ü"),!,"~fc"_";"', 'W "é', "W é", 'S (^X(1),Y)="😀" W $E(Y,1,3),!,Y', 'W "a"";é"""']
REPLIES = [(["Müller 陈 ~e9; ~", "4"], "ü", None), ([], "", "ZSYNTAX"), ([], "", "ZCHAR"), (["~1f"], "😀", None), ([], 'a";é"', None)]


@in_loop()
async def test_lines_in_utf_8(in_utf_8: Front) -> None:
    """Strings and replies are in the characters that were written; the audit log and the store have what was sent."""
    async with in_utf_8.person() as ada:
        assert ada.record["text"] == "utf-8"
        for line, (output, rest, code) in zip(LINES, REPLIES, strict=True):
            record = await ada.line(line)
            assert (record.get("output", []), record.get("rest", ""), record.get("code", record.get("refused"))) == (output, rest, code), line
        assert await ada.told('W $D(^|"LAB"|RESULT)') == "0"
        assert await ada.told('W "' + "é" * 60 + '"') == "é" * 60
        assert (await ada.line('W "' + "é" * 63 + '"'))["refused"] == "ZLINE"


def test_bytes_that_are_no_utf_8(in_utf_8: Front) -> None:
    with socket.create_connection(("127.0.0.1", in_utf_8.lines_port), timeout=60) as plain, \
            in_utf_8.context.wrap_socket(plain, server_hostname="localhost") as connection:
        connection.sendall(f"ada {PASSWORD}\n".encode() + b'W "\xe9"\nW "\xc3\xa9"\n')
        lines = connection.makefile("rb")
        assert json.loads(lines.readline())["text"] == "utf-8"
        assert json.loads(lines.readline()) == {"refused": "ZCHAR", "why": "the line has bytes that are no UTF-8"}
        assert json.loads(lines.readline()) == {"output": [], "rest": "é", "code": None}


def test_text_of_the_settings(tmp_path: Path) -> None:
    """Other words are refused, with the key."""
    (tmp_path / "front.toml").write_text(toml({"server": {"settings": str(SETTINGS), "store": "memory", "text": "latin1"}, "users": {"file": "users.json"}}))
    done = subprocess.run([sys.executable, FRONT / "mfront", "check", "--volatile", "--config", tmp_path / "front.toml"], capture_output=True, text=True,
                          timeout=60)
    assert done.returncode == 2 and 'server.text: is to be "ascii", or "utf-8"' in done.stderr


def test_clients_in_utf_8(in_utf_8: Front, tmp_path: Path) -> None:
    """A client learns it from the front: a file of names comes back byte for byte, and so do a routine and a line."""
    (tmp_path / "token").write_text(token_of(in_utf_8))
    (tmp_path / "token").chmod(0o600)

    def ran(name: str, *words: str, stdin: str = "") -> Ran:
        place = ["--front", in_utf_8.origin, "--user", "ada", "--ca", authority(in_utf_8), "--token", "token"]
        return subprocess.run([sys.executable, CLIENTS / name, *place, *words], input=stdin, capture_output=True, text=True, timeout=60, cwd=tmp_path,
                              env={**os.environ, "HOME": str(tmp_path)})

    nodes = "".join(f'^PATIENT("{name}")="{name * 20}"\n' for name in sorted(["Müller", "Łukasz", "Юлія", "陈伟", "~e9;", "~7e;e9;"]))
    (tmp_path / "in.zwr").write_text("title UTF-8\ndate ZWR\n" + nodes)
    assert ran("mglobal", "import", "in.zwr").stdout.startswith("6 nodes imported")
    assert ran("mglobal", "export", "^PATIENT", "--to", "out.zwr").returncode == 0
    assert sorted((tmp_path / "out.zwr").read_text().splitlines()[2:]) == sorted(nodes.splitlines())
    (tmp_path / "GRUSS.m").write_text('GRUSS ; Grüße\n W "Grüß Gott, ",^PATIENT("Müller"),!\n Q\n')
    assert ran("mroutine", "load", "--check", "GRUSS.m").returncode == 0
    assert ran("mroutine", "save", "GRUSS", "--to", "-").stdout == (tmp_path / "GRUSS.m").read_text()
    shown = ran("mshell", stdin='D ^GRUSS\nW $D(^PATIENT("陈伟")),"~e9;"\nW "ü" é\n').stdout.splitlines()
    assert shown[:2] == ["Grüß Gott, " + "Müller" * 20, "1~e9;"] and "column 7: a character over 127" in shown[2]
