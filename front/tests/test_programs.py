# SPDX-License-Identifier: Apache-2.0
"""Lines of programs, over the line port and by HTTP with a token, and what operators see."""
from __future__ import annotations

import asyncio
import json
import signal
import ssl
import subprocess
import time
import warnings

import pytest
from front import COMMAND, PASSWORD, Front, Patience, Record, in_loop, until

# Seconds after which a token that is not used gives its terminal back.
IDLE = 4


class Program:
    """A program at the line port."""

    def __init__(self, front: Front, first: str) -> None:
        self.front, self.first = front, first

    async def __aenter__(self) -> Program:
        self.reader, self.writer = await asyncio.open_connection("localhost", self.front.lines_port, ssl=self.front.context, limit=1 << 22)
        self.writer.write(self.first.encode() + b"\n")
        self.record = await self.next()
        return self

    async def __aexit__(self, *error: object) -> None:
        self.writer.close()

    async def signed_on(self) -> bool:
        """Whether it is signed on by now; if it was refused, it tries again."""
        if "error" in self.record:
            self.writer.close()
            await self.__aenter__()
        return "error" not in self.record

    async def next(self) -> Record:
        """The next line of JSON; None at the end."""
        line = await self.reader.readline()
        return json.loads(line) if line else None

    async def line(self, line: str) -> Record:
        """The record of a line."""
        self.writer.write(line.encode() + b"\n")
        return await self.next()


async def new_token(front: Front, user: str = "ada") -> str:
    """A new token of a user, which the front knows, and which has a terminal."""
    done = subprocess.run([*COMMAND, "token", "add", user, "--config", front.folder / "front.toml"], capture_output=True, text=True, check=True)
    token = done.stdout.strip()
    async with front.person().http as http:
        await has_terminal(http, token)
    return token


async def has_terminal(http, token: str) -> None:
    """Waits until a token has a terminal: the front looks for new tokens once a second, and a terminal may not be given back yet. What is asked is no line."""
    async def taken() -> bool:
        return (await posted(http, token, None))[0] == 400
    # Not often: each attempt of an address by a token that is not known counts.
    await until(taken, "a terminal for the token", 0.5)


async def posted(http, token: str, line: object) -> tuple[int, Record]:
    """The status and the record of a line by HTTP."""
    async with http.post("/line", json={"line": line}, headers={"Authorization": f"Bearer {token}"}) as response:
        return response.status, await response.json()


@in_loop()
async def test_lines_at_the_line_port(lasting: Front) -> None:
    async with Program(lasting, f"cleo {PASSWORD}") as program:
        assert program.record == {"user": "cleo", "account": "LAB", "terminal": program.record["terminal"], "volatile": True, "generation": 1, "session": 1}
        assert await program.line("S A=5 W A,!,A+1") == {"output": ["5"], "rest": "6", "code": None}
        assert await program.line("") == {"output": [], "rest": "", "code": None}
        assert (await program.line("W B"))["code"] == "M6"
        assert (await program.line("W 1\r"))["refused"] == "ZCHAR"
        assert (await program.line("x" * 256))["refused"] == "ZLINE"
        assert (await program.line("W A"))["rest"] == "5"


@in_loop()
async def test_sign_ons_that_are_refused_at_the_line_port(start) -> None:
    front = start()
    for first in ["nobody " + PASSWORD, "dora", "", "\r", "<b> </b>", f"cleo  {PASSWORD}", f" cleo {PASSWORD}", "cleo mft_x", f"ada {PASSWORD}\r"]:
        async with Program(front, first) as program:
            assert program.record == {"error": "wrong name or password"}, first
            assert await program.next() is None


@in_loop()
async def test_an_unfinished_line_is_not_run(lasting: Front) -> None:
    async with Program(lasting, f"cleo {PASSWORD}") as program:
        program.writer.write(b"S ^HALF=1")
        if program.writer.can_write_eof():
            program.writer.write_eof()
    await asyncio.sleep(0.3)
    async with Program(lasting, f"cleo {PASSWORD}") as program:
        assert (await program.line("W $D(^HALF)"))["rest"] == "0"


@in_loop()
async def test_a_program_is_told_of_a_restart(start) -> None:
    front = start()
    async with Program(front, f"ada {PASSWORD}") as program:
        await program.line("S A=1")
        front.kill_child()
        assert await program.next() == {"event": "restarted", "volatile": True, "generation": 2, "session": 2}
        assert (await program.line("W A"))["code"] == "M6"


@in_loop()
async def test_lines_with_a_token(start) -> None:
    front = start()
    token = await new_token(front)
    async with front.person().http as http:
        plain = {"output": [], "rest": "", "code": None, "volatile": True}
        assert await posted(http, token, "S A=1") == (200, plain | {"new": True})
        assert await posted(http, token, "W A,!") == (200, plain | {"output": ["1"]})
        assert (await posted(http, token, "W\n1"))[1]["refused"] == "ZCHAR"
        assert (await posted(http, token, 5))[0] == 400
        assert (await posted(http, "mft_wrong", "W 1"))[0] == 401
        assert (await posted(http, PASSWORD, "W 1"))[0] == 401
        many = await asyncio.gather(*(posted(http, token, f"S N=$G(N)+1 W {number}") for number in range(30)))
        assert [record["rest"] for _, record in many] == [str(number) for number in range(30)]
        assert (await posted(http, token, "W N"))[1]["rest"] == "30"
        front.kill_child()
        found: list[Record] = []

        async def answered() -> bool:
            found.append((await posted(http, token, "W 2"))[1])
            return found[-1].get("rest") == "2"
        await until(answered, "the server's start", 0.05)
        assert all("unknown" in record or record.get("refused") == "restarted" for record in found[:-1])
        assert found[-1]["new"] is True


@in_loop()
async def test_the_terminal_of_a_token_is_given_back_after_its_idle_time(start) -> None:
    front = start(limits={"token_idle": IDLE})
    token = await new_token(front)
    async with front.person().http as http:
        used = time.monotonic()
        assert await posted(http, token, "S N=1") == (200, {"output": [], "rest": "", "code": None, "volatile": True, "new": True})
        async with Program(front, f"ada {PASSWORD}") as first, Program(front, f"ben {token}") as wrong, Program(front, f"ben {PASSWORD}") as second:
            assert first.record["user"] == "ada" and wrong.record == {"error": "wrong name or password"} and second.record["user"] == "ben"
            async with Program(front, f"ada {token}") as third:
                # A machine that is busy may come to this after the token's time.
                assert third.record == {"error": "all terminals of CLINIC are in use"} or time.monotonic() - used > IDLE
                await until(third.signed_on, "the terminal of the token", 0.2)
                assert third.record["user"] == "ada" and (await third.line("W $D(N)"))["rest"] == "0"
                assert await posted(http, token, "W 1") == (503, {"error": "all terminals of CLINIC are in use"})
        await has_terminal(http, token)
        assert (await posted(http, token, "W $D(N)"))[1] == {"output": [], "rest": "0", "code": None, "volatile": True, "new": True}


@in_loop()
async def test_a_connection_of_one_who_is_not_signed_on_is_ended_in_order_after_many_requests(start) -> None:
    """An answer says that it is the last one. Those of a program with a token go on."""
    front = start()
    token = await new_token(front)
    async with front.person().http as http:
        for headers, wanted in (({}, 1), ({"Authorization": f"Bearer {token}"}, 0)):
            lasts = 0
            for _ in range(150):
                async with http.get("/health", headers=headers) as response:
                    assert response.status == 200 and await response.read()
                    lasts += response.headers.get("Connection") == "close"
            assert lasts == wanted


@in_loop()
async def test_a_token_that_is_removed_is_signed_off(start) -> None:
    front = start()
    token = await new_token(front)
    async with front.person().http as http, Program(front, f"ada {token}") as program:
        assert (await program.line("W 1"))["rest"] == "1" and (await posted(http, token, "W 1"))[0] == 200
        listed = subprocess.run([*COMMAND, "token", "list", "--config", front.folder / "front.toml"], capture_output=True, text=True, check=True).stdout
        subprocess.run([*COMMAND, "token", "remove", listed.split()[0], "--config", front.folder / "front.toml"], check=True)
        assert await program.next() == {"event": "signed-off", "why": "removed"}
        assert (await posted(http, token, "W 1"))[0] == 401


@in_loop()
async def test_health_and_figures(start) -> None:
    front = start()
    async with front.person("ada") as ada, Program(front, f"cleo {PASSWORD}") as program:
        for line in ("W 1", "W 2", "W 1/0", "\n"):
            await ada.line(line)
        await program.line("W B")
        async with ada.http.get("/health") as response:
            assert (response.status, await response.json()) == (200, {"child": "up", "volatile": True})
        async with ada.http.get("/metrics") as response:
            assert response.headers["Content-Type"] == "text/plain; version=0.0.4; charset=utf-8"
            text = await response.text()
        figures = dict(line.rsplit(" ", 1) for line in text.splitlines() if not line.startswith("#"))
        wanted = {'mfront_signed_on{way="page"}': "1", 'mfront_signed_on{way="lines"}': "1", 'mfront_signed_on{way="token"}': "0", "mfront_up": "1",
                  'mfront_lines_total{code="none"}': "2", 'mfront_lines_total{code="M9"}': "1", 'mfront_lines_total{code="M6"}': "1",
                  'mfront_lines_total{code="refused ZCHAR"}': "1", "mfront_lines_waiting": "0", "mfront_child_restarts_total": "0"}
        assert wanted.items() <= figures.items()
        assert 0 < float(figures["mfront_longest_wait_seconds"]) < 2 * Patience.seconds
        assert int(figures['mfront_wait_seconds_bucket{le="+Inf"}']) == int(figures["mfront_wait_seconds_count"]) > 4
        names = {line.split()[2] for line in text.splitlines() if line.startswith("# TYPE")}
        assert all(line.split("{")[0].split(" ")[0].removesuffix("_bucket").removesuffix("_sum").removesuffix("_count") in names
                   for line in text.splitlines() if not line.startswith("#"))


@in_loop()
async def test_health_while_the_server_is_down(start, tmp_path) -> None:
    """The store is taken away, so that the server cannot start again."""
    folder = tmp_path / "store"
    folder.mkdir()
    front = start(store=str(folder / "store.db"))
    async with front.person("ada") as ada:
        folder.rename(tmp_path / "away")
        front.kill_child()
        front.hears("could not be started again")
        async with ada.http.get("/health") as response:
            assert (response.status, (await response.json())["child"]) == (503, "down")
        assert (await ada.line("W 1"))["refused"] == "restarted"
        status, record = await front.person("cleo").sign_on()
        assert (status, record) == (503, {"error": "the server is being started"})
        (tmp_path / "away").rename(folder)
        while not ada.events:
            await ada.event()
        assert await ada.told("W 1") == "1"
        async with ada.http.get("/health") as response:
            assert response.status == 200


@in_loop()
async def test_figures_are_for_the_addresses_that_are_named(start) -> None:
    front = start(metrics={"from": ["192.0.2.0/24"]})
    async with front.person().http as http, http.get("/metrics") as response:
        assert response.status == 403


@in_loop()
async def test_audit_log(start) -> None:
    front = start()
    async with front.person("ada") as ada, Program(front, f"cleo {PASSWORD}") as program:
        await ada.line('S ^SECRET="<script>"')
        await ada.line("W 1/0")
        await ada.line("\n")
        await program.line("W 1")
        await ada.sign_on("wrong")
        (front.folder / "audit.log").rename(front.folder / "audit.old")
        front.process.send_signal(signal.SIGHUP)
        front.hears("reloaded: the audit log")
        await ada.line("W B")
    records = [json.loads(line) for line in (front.folder / "audit.old").read_text().splitlines()]
    # Refused lines are counted once a second, so perhaps before the log was moved.
    counted = [record for record in [*records, *front.audit()] if record["event"] == "refused lines" and record["user"] == "ada"]
    records = [record for record in records if record["event"] != "refused lines"]
    assert all(record.pop("time").endswith("+00:00") for record in records)
    mine = {"user": "ada", "account": "CLINIC", "terminal": ada.record["terminal"], "way": "page", "from": "127.0.0.1"}
    assert [record for record in records if record.get("user") == "ada"] == [
        {"event": "sign-on", **mine}, {"event": "line", **mine, "code": None}, {"event": "line", **mine, "code": "M9"},
        {"event": "refused", "user": "ada", "from": "127.0.0.1"}]
    assert "SECRET" not in (front.folder / "audit.old").read_text() and PASSWORD not in (front.folder / "audit.old").read_text()
    assert [record["code"] for record in front.audit() if record["event"] == "line"] == ["M6"]
    assert [record["count"] for record in counted] == [1]
    assert (front.folder / "audit.log").stat().st_mode & 0o777 == 0o600


@in_loop()
async def test_audit_log_with_texts(start) -> None:
    front = start(audit={"texts": True})
    async with front.person("ada") as ada:
        await ada.line("W 1")
        await ada.line("W 1/0")
    assert [record["text"] for record in front.audit() if record["event"] == "line"] == ["W 1", "W 1/0"]


@in_loop()
async def test_nobody_signs_on_if_that_cannot_be_noted(start) -> None:
    front = start(audit={"file": "/dev/full"})
    status, record = await front.person("ada").sign_on()
    assert (status, record) == (503, {"error": "the audit log cannot be written"})
    assert "/dev/full: the audit log cannot be written" in front.told()


@in_loop()
async def test_a_new_certificate_is_taken(start, tmp_path) -> None:
    """By SIGHUP; a broken one is not, and the old one stays."""
    front = start()
    async with Program(front, f"ada {PASSWORD}") as program:
        before = front.certificate[0].read_bytes()
        try:
            front.certificate[0].write_text("broken")
            front.process.send_signal(signal.SIGHUP)
            front.hears("not reloaded: the certificate: ")
        finally:
            front.certificate[0].write_bytes(before)
        assert (await program.line("W 1"))["rest"] == "1"
        async with Program(front, f"ben {PASSWORD}") as second:
            assert (await second.line("W 2"))["rest"] == "2"


@pytest.mark.parametrize(("suites", "good"), [("ECDHE+AESGCM", True), ("ECDHE+AES:!AESGCM:!AESCCM", False), ("kRSA+AESGCM", False)])
@in_loop()
async def test_suites_of_tls_1_2_have_forward_secrecy_and_authenticated_encryption(lasting: Front, suites: str, good: bool) -> None:
    context = lasting.context
    context.maximum_version = ssl.TLSVersion.TLSv1_2
    context.set_ciphers(suites)
    if not good:
        with pytest.raises((ssl.SSLError, ConnectionError)):
            await asyncio.open_connection("localhost", lasting.port, ssl=context)
        return
    _, writer = await asyncio.open_connection("localhost", lasting.port, ssl=context)
    writer.close()


@in_loop()
async def test_old_versions_of_tls_are_refused(lasting: Front) -> None:
    context = lasting.context
    with warnings.catch_warnings():
        warnings.simplefilter("ignore", DeprecationWarning)
        context.minimum_version = ssl.TLSVersion.TLSv1
        context.maximum_version = ssl.TLSVersion.TLSv1_1
    with pytest.raises((ssl.SSLError, ConnectionError)):
        await asyncio.open_connection("localhost", lasting.port, ssl=context)
