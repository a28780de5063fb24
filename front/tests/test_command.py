# SPDX-License-Identifier: Apache-2.0
"""The command: its words, the users' file, and a message of its own for each fault of the settings."""
from __future__ import annotations

import json
import os
import re
import shutil
import signal
import socket
import stat
import subprocess
from collections.abc import Callable
from pathlib import Path

import pytest
from front import COMMAND, FRONT, PASSWORD, SETTINGS, Patience, in_loop, toml, tool, write_users
from running import PROGRAM

Run = Callable[..., subprocess.CompletedProcess[str]]
COMMANDS = [[], ["check"], ["user", "add"], ["user", "passwd"], ["user", "remove"], ["user", "list"], ["token", "add"], ["token", "remove"],
            ["token", "list"], ["user"], ["token"], ["status"], ["promote"]]


@pytest.fixture
def command(tmp_path: Path) -> Run:
    """Runs the command by settings in a folder of its own."""
    (tmp_path / "front.toml").write_text(toml(good()))

    def run(*words: str, stdin: str = "", **more: object) -> subprocess.CompletedProcess[str]:
        return subprocess.run([*COMMAND, *words], input=stdin, capture_output=True, text=True, timeout=2 * Patience.seconds, cwd=tmp_path, **more)
    return run


def good() -> dict[str, dict[str, object]]:
    """Settings that are good."""
    return {"server": {"program": PROGRAM, "settings": str(SETTINGS), "store": "store.db"}, "users": {"file": "users.json"}}


CONFIG = ["--config", "front.toml"]


@pytest.mark.parametrize("words", COMMANDS, ids=" ".join)
def test_help_of_each_command(command: Run, words: list[str]) -> None:
    """Each has its help, and the manual page has each command and option."""
    manual = (FRONT / "man" / "mfront.1").read_text().replace("\\-", "-")
    done = command(*words, "--help")
    assert done.returncode == 0 and "Status: 0 all went well" in done.stdout.replace("\n", " ") and done.stderr == ""
    assert all(word in manual for word in words)
    assert all(option in manual or option == "--help" for option in re.findall(r"--\w+", done.stdout))


@pytest.mark.parametrize("name", ["mfront", "mgate"])
@pytest.mark.parametrize("abstract", [False, True])
def test_a_reload_ends_nothing_once_systemd_may_send_it(tmp_path: Path, name: str, abstract: bool) -> None:
    """A unit of `Type=notify` is reloaded no sooner than it says so, which is before it has loaded what it needs."""
    place = f"@mfront-test-{os.getpid()}-{name}" if abstract else str(tmp_path / "notify")
    with socket.socket(socket.AF_UNIX, socket.SOCK_DGRAM) as manager:
        manager.bind(f"\0{place[1:]}" if abstract else place)
        manager.settimeout(Patience.seconds)
        pipe, told_where = subprocess.PIPE, os.environ | {"NOTIFY_SOCKET": place}
        process = subprocess.Popen([FRONT / name, "--help"], env=told_where, stdout=pipe, stderr=pipe, text=True)
        assert manager.recv(100) == b"READY=1"
        process.send_signal(signal.SIGHUP)
        output, told = process.communicate(timeout=2 * Patience.seconds)
        assert (process.returncode, told) == (0, "") and output.startswith(f"usage: {name}")


@pytest.mark.parametrize(("name", "count"), [("mjournal", 5), ("mbackup", 7), ("mgate", 6)])
def test_help_of_the_tools(name: str, count: int) -> None:
    """Each command has its help, and the manual page has each command and option."""
    manual = (FRONT / "man" / f"{name}.1").read_text().replace("\\-", "-")
    shown = tool(name)("--help")[1]
    acts = re.search(r"COMMAND\n((?: +\w+ .*\n(?: {8,}.*\n)*)+)", shown)[1]
    acts = re.findall(r"^ {4}(\w+) ", acts, re.MULTILINE)
    assert len(acts) == count
    for act in acts:
        status, output, told = tool(name)(act, "--help")
        assert (status, told) == (0, "") and "Status: 0 all went well" in output.replace("\n", " ") and act in manual
        assert all(option in manual or option == "--help" for option in re.findall(r"--[\w-]+", shown + output)), output
    assert tool(name)("nothing")[0] == 2


@pytest.mark.skipif(shutil.which("groff") is None and not os.environ.get("CI"), reason="groff is not there: apt-get install groff-base")
@pytest.mark.parametrize("name", ["mfront", "mjournal", "mbackup", "mgate"])
def test_page_is_set_without_a_warning(name: str) -> None:
    done = subprocess.run(["groff", "-man", "-ww", "-z", "-Tutf8", FRONT / "man" / f"{name}.1"], capture_output=True, timeout=60)
    assert (done.returncode, done.stderr) == (0, b"")


def test_users_are_kept_in_a_file_of_their_own(command: Run, tmp_path: Path) -> None:
    path = tmp_path / "users.json"
    assert command("user", "list", *CONFIG).stdout == ""
    assert command(*CONFIG, "user", "add", "ada", "CLINIC", stdin=PASSWORD + "\n").returncode == 0
    assert stat.S_IMODE(path.stat().st_mode) == 0o600
    before = json.loads(path.read_text())["users"]["ada"]
    assert before["account"] == "CLINIC" and before["hash"].startswith("$argon2id$v=19$m=65536,t=3,p=4$") and PASSWORD not in path.read_text()
    assert command("user", "add", "cleo", "LAB", *CONFIG, stdin=PASSWORD).returncode == 0
    assert command("user", "list", *CONFIG).stdout == "ada CLINIC 0\ncleo LAB 0\n"
    assert command("user", "passwd", "ada", *CONFIG, stdin="another password\n").returncode == 0
    assert json.loads(path.read_text())["users"]["ada"]["hash"] != before["hash"]
    assert command("user", "remove", "cleo", *CONFIG).returncode == 0
    assert command("user", "list", *CONFIG).stdout == "ada CLINIC 0\n"
    assert sorted(name.name for name in tmp_path.iterdir()) == ["front.toml", "users.json"]


def test_tokens(command: Run, tmp_path: Path) -> None:
    write_users(tmp_path / "users.json", {"ada": "CLINIC", "cleo": "LAB"})
    secret = command("token", "add", "ada", "--note", "night run", *CONFIG).stdout.strip()
    assert secret.startswith("mft_") and len(secret) > 40 and secret not in (tmp_path / "users.json").read_text()
    command("token", "add", "cleo", *CONFIG)
    label, user, _, note = command("token", "list", "ada", *CONFIG).stdout.strip().split(" ", 3)
    assert (user, note) == ("ada", "night run")
    assert len(command("token", "list", *CONFIG).stdout.splitlines()) == 2
    assert command("token", "remove", label, *CONFIG).returncode == 0
    assert command("token", "list", "ada", *CONFIG).stdout == ""
    assert command("user", "list", *CONFIG).stdout == "ada CLINIC 0\ncleo LAB 1\n"


@pytest.mark.parametrize(("words", "stdin", "told"), [
    (["user", "add", "ada", "CLINIC"], PASSWORD, "user ada is there already"), (["user", "add", "ben", "NOBODY"], PASSWORD, "NOBODY is no account"),
    (["user", "add", "a b", "CLINIC"], PASSWORD, "is no name"), (["user", "add", "<b>", "CLINIC"], PASSWORD, "is no name"),
    (["user", "add", "x" * 65, "CLINIC"], PASSWORD, "is no name"), (["user", "add", "ben", "CLINIC"], "short", "12 to 1024 characters, and this one has 5"),
    (["user", "add", "ben", "CLINIC"], "x" * 1025, "12 to 1024"), (["user", "passwd", "ben"], PASSWORD, "there is no user ben"),
    (["user", "passwd", "ada"], "", "12 to 1024"), (["user", "remove", "ben"], "", "there is no user ben"),
    (["token", "add", "ben"], "", "there is no user ben"),
    (["token", "add", "ada", "--note", "a\nb"], "", "one line"), (["token", "remove", "00"], "", "there is no token 00"),
    (["token", "list", "ben"], "", "there is no user ben"),
])
def test_refusals_leave_the_file_as_it_was(command: Run, tmp_path: Path, words: list[str], stdin: str, told: str) -> None:
    write_users(tmp_path / "users.json", {"ada": "CLINIC"})
    before = (tmp_path / "users.json").read_bytes()
    done = command(*words, *CONFIG, stdin=stdin)
    assert done.returncode == 2 and told in done.stderr and len(done.stderr.splitlines()) == 1
    assert (tmp_path / "users.json").read_bytes() == before


def test_users_of_a_machine_with_islands(command: Run, tmp_path: Path) -> None:
    """By the machine's settings: the accounts are those of its islands, which may have been placed just now. A gate makes the users' file of an island of
    its machine's, so that one is changed."""
    (tmp_path / "machine.toml").write_text(toml({"machine": {"name": "one", "folder": "islands", "users": "all.json"},
                                                 "listen": {"port": 1, "lines_port": 2, "certificate": "c", "key": "k"}}))
    machine = ["--config", "machine.toml"]
    (tmp_path / "new.toml").write_text('[[account]]\nname = "NEW"\nterminals = [1]\nsteps = 10\n')
    assert tool("mgate")("place", "NEW", tmp_path / "new.toml", "one", "--config", tmp_path / "machine.toml")[0] == 0
    done = command("user", "add", "ada", "CLINIC", *machine, stdin=PASSWORD)
    assert done.returncode == 2 and "CLINIC is no account with terminals of any island (mgate list)" in done.stderr
    assert command("user", "add", "tim", "NEW", *machine, stdin=PASSWORD).returncode == 0
    (tmp_path / "front.toml").write_text(toml(good() | {"users": {"file": "users.json", "machine": "all.json"}}))
    assert command("token", "add", "tim", *CONFIG).returncode == 0 and not (tmp_path / "users.json").exists()
    assert command("user", "list", *machine).stdout == "tim NEW 1\n"
    # Of several machines the file is for who keeps it.
    (tmp_path / "front.toml").write_text(toml(good() | {"listen": {"gate": "gate.secret"}}))
    done = command("user", "remove", "tim", *CONFIG)
    assert done.returncode == 2 and "give --config the settings of the machine" in done.stderr


@pytest.mark.parametrize(("data", "mode", "told"), [
    ("{", 0o600, "is no users' file"), ("[]", 0o600, "is no users' file"), ('{"users": {"ada": {}}}', 0o600, "is no users' file"),
    ('{"users": {"ada": {"account": "CLINIC", "hash": "x"}}}', 0o600, "is no users' file"), ('{"users": {}}', 0o640, "chmod 600"),
    ('{"users": {}}', 0o604, "chmod 600"),
])
def test_users_files_that_are_refused(command: Run, tmp_path: Path, data: str, mode: int, told: str) -> None:
    (tmp_path / "users.json").write_text(data)
    (tmp_path / "users.json").chmod(mode)
    for words in (["user", "list"], ["user", "add", "ada", "CLINIC"], ["check"], []):
        done = command(*words, *CONFIG, stdin=PASSWORD)
        assert (done.returncode, done.stdout) == (2, "") and "users.json" in done.stderr and told in done.stderr
    assert (tmp_path / "users.json").read_text() == data


def test_check_says_what_it_found(command: Run, tmp_path: Path) -> None:
    write_users(tmp_path / "users.json", {"ada": "CLINIC"})
    done = command("check", *CONFIG)
    assert (done.returncode, done.stdout) == (0, "front.toml: good: 1 users, 6 terminals\n")
    assert not (tmp_path / "store.db").exists()


@pytest.mark.parametrize(("key", "mode"), [("server.store", 0o644), ("listen.key", 0o604), ("audit.file", 0o602), ("journal.folder", 0o701)])
def test_check_finds_what_others_may_read(command: Run, tmp_path: Path, certificate: tuple[Path, Path], key: str, mode: int) -> None:
    """Of the machine's other users; with the mode that the front gives it, it is good."""
    tables = good() | {"listen": {"certificate": str(certificate[0]), "key": "key.pem"}, "audit": {"file": "audit.log"}, "journal": {"folder": "journal"}}
    (tmp_path / "front.toml").write_text(toml(tables))
    write_users(tmp_path / "users.json", {"ada": "CLINIC"})
    (tmp_path / "journal").mkdir(mode=0o700)
    places = {"server.store": "store.db", "listen.key": "key.pem", "audit.file": "audit.log", "journal.folder": "journal"}
    for name in ("store.db", "audit.log"):
        (tmp_path / name).touch(0o600)
    shutil.copyfile(certificate[1], tmp_path / "key.pem")
    (tmp_path / "key.pem").chmod(0o600)
    assert command("check", *CONFIG).returncode == 0
    (tmp_path / places[key]).chmod(mode)
    done = command("check", *CONFIG)
    assert done.returncode == 2 and f"{key}: {tmp_path / places[key]}: every user of the machine may read it: chmod o=" in done.stderr


@pytest.mark.parametrize(("table", "key", "value", "told"), [
    ("server", "settings", None, "server.settings: is missing"), ("server", "settings", "none.toml", "none.toml: cannot be read: No such file"),
    ("server", "settings", 5, "server.settings: is to be a text"), ("server", "store", None, "server.store: is missing"),
    ("server", "store", "memory", "server.store: is memory, so that all data are gone"), ("server", "join", 9000, "server.store: is not for the front to say"),
    ("server", "join", 0, "server.join: is to be a whole number from 1 to 65535"), ("server", "port", 1, "server.port: there is no such key"),
    ("listen", "host", "0.0.0.0", "listen.host: is 0.0.0.0: without listen.certificate"),
    ("listen", "host", "front.example", "listen.host: is to be an address"),
    ("listen", "port", "8443", "listen.port: is to be a whole number"), ("listen", "port", 70_000, "listen.port: is to be a whole number"),
    ("listen", "lines_port", 8443, "listen.lines_port: is to be another port"), ("listen", "certificate", "c.pem", "listen.key: is missing"),
    ("listen", "key", "k.pem", "listen.certificate: is missing"), ("listen", "origins", ["front.example"], "listen.origins: 'front.example' is no origin"),
    ("listen", "origins", "https://x", "listen.origins: is to be a list"), ("users", "file", None, "users.file: is missing"),
    ("audit", "file", "none/audit.log", "audit.file:"), ("audit", "texts", 1, "audit.texts: is to be true or false"),
    ("metrics", "from", ["anybody"], "metrics.from: is to be a list of addresses"),
    ("limits", "idle", 0, "limits.idle: is to be a whole number from 1 to 86400"),
    ("limits", "idle", 1.5, "limits.idle: is to be a whole number"), ("limits", "reply", 10, "limits.reply: is to be"),
    ("limits", "speed", 1, "limits.speed: there is no such key"),
    ("lights", "on", 1, "lights: there is no such table"),
])
def test_faults_of_the_settings(command: Run, tmp_path: Path, table: str, key: str, value: object, told: str) -> None:
    tables = good()
    tables.setdefault(table, {})[key] = value
    if value is None:
        del tables[table][key]
    (tmp_path / "front.toml").write_text(toml(tables))
    for words in ([], ["check"]) if table == "server" else (["check"],):
        done = command(*words, *CONFIG)
        assert (done.returncode, done.stdout) == (2, "")
        assert told in done.stderr and done.stderr.startswith("mfront: ") and ".toml: " in done.stderr and len(done.stderr.splitlines()) == 1


@pytest.mark.parametrize(("data", "told"), [
    (b"\xff", "is no TOML"), (b"[server", "is no TOML"), (b"server = 1", "server: is to be a table"),
])
def test_settings_that_are_none(command: Run, tmp_path: Path, data: bytes, told: str) -> None:
    (tmp_path / "front.toml").write_bytes(data)
    done = command(*CONFIG)
    assert done.returncode == 2 and told in done.stderr


def test_settings_that_are_not_there(command: Run) -> None:
    done = command("--config", "none.toml")
    assert done.returncode == 2 and done.stderr == "mfront: none.toml: cannot be read: No such file or directory\n"


@pytest.mark.parametrize(("text", "told"), [
    ("", "no account has a terminal"), ("account = 1", "each is to have a name"),
    ("[[account]]\nname = 'A'\nterminals = [0]\nsteps = 1", "terminals, 1 to 9999"),
])
def test_settings_of_the_server_without_terminals(command: Run, tmp_path: Path, text: str, told: str) -> None:
    (tmp_path / "settings.toml").write_text(text)
    (tmp_path / "front.toml").write_text(toml(good() | {"server": {"settings": "settings.toml", "store": "s.db"}}))
    done = command(*CONFIG)
    assert done.returncode == 2 and told in done.stderr and "settings.toml" in done.stderr


def test_certificates_that_cannot_be_used(command: Run, tmp_path: Path, certificate: tuple[Path, Path]) -> None:
    (tmp_path / "bad.pem").write_text("no certificate")
    for first, second, told in ((certificate[0], "none.pem", "listen.key: "), ("none.pem", certificate[1], "listen.certificate: "),
                                ("bad.pem", certificate[1], "cannot be used"), (certificate[0], certificate[0], "cannot be used")):
        (tmp_path / "front.toml").write_text(toml(good() | {"listen": {"certificate": str(first), "key": str(second)}}))
        done = command(*CONFIG)
        assert done.returncode == 2 and told in done.stderr and "front.toml" in done.stderr and len(done.stderr.splitlines()) == 1


def test_user_of_an_account_that_is_not_there(command: Run, tmp_path: Path) -> None:
    write_users(tmp_path / "users.json", {"ada": "NOBODY"})
    done = command(*CONFIG)
    assert done.returncode == 2 and "user ada: NOBODY is no account with terminals" in done.stderr


def test_volatile_is_for_a_store_in_memory(command: Run) -> None:
    done = command("--volatile", *CONFIG)
    assert done.returncode == 2 and "server.store: is a file" in done.stderr


@pytest.mark.parametrize(("server", "told"), [
    ({"store": "folder/none/store.db"}, "mserve: store: Store"), ({"program": "/none/mserve"}, "/none/mserve: No such file"),
    ({"store": None, "join": 1}, "nobody listens at port 1"),
])
def test_server_that_does_not_start(command: Run, tmp_path: Path, server: dict[str, object], told: str) -> None:
    tables = good()
    tables["server"] |= server
    tables["server"] = {key: value for key, value in tables["server"].items() if value is not None}
    (tmp_path / "front.toml").write_text(toml(tables))
    done = command(*CONFIG)
    assert done.returncode == 3 and told in done.stderr and "the server does not start" in done.stderr


@in_loop()
async def test_port_that_is_taken(command: Run, start, tmp_path: Path) -> None:
    front = start()
    (tmp_path / "front.toml").write_text(toml(good() | {"listen": {"port": front.port}}))
    done = command(*CONFIG)
    assert done.returncode == 3 and str(front.port) in done.stderr


def test_file_is_replaced_whole(command: Run, tmp_path: Path) -> None:
    """A disk that is full leaves the users as they were."""
    write_users(tmp_path / "users.json", {"ada": "CLINIC"})
    before = (tmp_path / "users.json").read_bytes()
    limited = ["bash", "-c", 'ulimit -f 0; trap "" XFSZ; exec "$@"', "-", *COMMAND, "user", "remove", "ada", *CONFIG]
    done = subprocess.run(limited, capture_output=True, text=True, timeout=2 * Patience.seconds, cwd=tmp_path)
    assert done.returncode == 2 and "cannot be written" in done.stderr
    assert (tmp_path / "users.json").read_bytes() == before and os.listdir(tmp_path) in (["front.toml", "users.json"], ["users.json", "front.toml"])


def test_a_reload_that_comes_before_it_is_heard_of_ends_nothing() -> None:
    """logrotate sends it whenever it runs, also while a front begins."""
    code = ("import asyncio, os, signal\nfrom mserve_front import ending\n"
            "async def work():\n    os.kill(os.getpid(), signal.SIGHUP)\n    return 7\nprint(ending.run(work()))")
    done = subprocess.run([COMMAND[0], "-c", code], capture_output=True, text=True, cwd=FRONT, timeout=2 * Patience.seconds)
    assert (done.returncode, done.stdout) == (0, "7\n"), done.stderr
