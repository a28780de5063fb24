# SPDX-License-Identifier: Apache-2.0
"""Sign-on: what is refused, what a browser is given, and that nobody meets what somebody before left."""
from __future__ import annotations

import asyncio
import json
import statistics
import time
from collections.abc import Iterator

import aiohttp
import pytest
from front import PASSWORD, Front, Patience, busy, given_back, in_loop, lines_wait, toml, until, write_users
from mserve_front.signing import AWAY
from mserve_front.slowdown import Slowdown, network_of
from mserve_front.users import HASHER, Register, Token, changed, token_hash
from test_programs import Program
from yarl import URL


@in_loop()
async def test_record_and_cookie(lasting: Front) -> None:
    async with lasting.person("cleo") as cleo:
        assert cleo.record == {"user": "cleo", "account": "LAB", "terminal": cleo.record["terminal"], "volatile": True, "generation": 1, "session": 1}
        assert cleo.record["terminal"] in (1001, 1002)
        async with cleo.http.get("/session") as response:
            assert (response.status, await response.json()) == (200, cleo.record)
        [cookie] = cleo.http.cookie_jar
        assert cookie.key == "__Host-mfront" and cookie["secure"] and cookie["httponly"] and cookie["samesite"] == "Strict"
        assert cookie["path"] == "/" and len(cookie.value) >= 43
        async with cleo.http.post("/signon", json={"user": "cleo", "password": PASSWORD}) as response:
            assert "domain" not in response.headers["Set-Cookie"].lower() and cookie.value not in response.headers["Set-Cookie"]
        assert await cleo.sign_off() == 204
        async with cleo.http.get("/session") as response:
            assert response.status == 401
        assert await cleo.sign_off() == 401


REFUSED = [
    ({"user": "ada", "password": "wrong"}, 401), ({"user": "ada", "password": ""}, 401), ({"user": "nobody", "password": PASSWORD}, 401),
    ({"user": "", "password": PASSWORD}, 401), ({"user": "ada\n", "password": PASSWORD}, 401), ({"user": "<b>ada</b>", "password": "<script>"}, 401),
    ({"user": "\ud800", "password": "\ud800\0"}, 401), ({"user": "x" * 7_000, "password": "x"}, 401), ({"user": "x", "password": "x" * 7_000}, 401),
    ({"user": "ada"}, 400), ({"user": 1, "password": PASSWORD}, 400), ({"user": "ada", "password": [PASSWORD]}, 400), ([], 400), ("ada", 400), (None, 400),
]


@in_loop()
async def test_refusals(start) -> None:
    front = start()
    async with front.person("ada").http as http:
        for body, status in REFUSED:
            async with http.post("/signon", data=json.dumps(body), headers={"Content-Type": "application/json"}) as response:
                assert response.status == status, body
                assert response.content_type == "application/json" and "Set-Cookie" not in response.headers
                if status == 401:
                    assert await response.json() == {"error": "wrong name or password"}


@pytest.mark.parametrize(("data", "kind", "status"), [
    (b"user=ada&password=x", "application/x-www-form-urlencoded", 415), (b"{}", "text/plain", 415), (b"{", "application/json", 400),
    (b"\xff", "application/json", 400), (b"[" * 7_000, "application/json", 400), (b'{"user": "' + b"x" * 70_000, "application/json", 413),
])
@in_loop()
async def test_bodies_that_are_none(lasting: Front, data: bytes, kind: str, status: int) -> None:
    async with lasting.person().http as http, http.post("/signon", data=data, headers={"Content-Type": kind}) as response:
        assert response.status == status and "error" in await response.json()


@in_loop()
async def test_pages_of_other_origins_are_refused(lasting: Front) -> None:
    async with lasting.person() as ada:
        for origin in ("https://evil.example", "null", lasting.origin.replace("https", "http"), lasting.origin + "0", "https://localhost"):
            with pytest.raises(aiohttp.WSServerHandshakeError) as refused:
                await ada.http.ws_connect("/ws", origin=origin)
            assert refused.value.status == 403
            async with ada.http.post("/signon", json={"user": "ada", "password": PASSWORD}, headers={"Origin": origin}) as response:
                assert response.status == 403
            async with ada.http.post("/signoff", headers={"Origin": origin}) as response:
                assert response.status == 403
        with pytest.raises(aiohttp.WSServerHandshakeError) as refused:
            await ada.http.ws_connect("/ws")
        assert refused.value.status == 403
        assert await ada.told("W 5") == "5"


@in_loop()
async def test_no_web_socket_without_a_session(lasting: Front) -> None:
    async with lasting.person().http as http:
        for cookie in ({}, {"__Host-mfront": "x" * 43}, {"mfront": "x"}):
            with pytest.raises(aiohttp.WSServerHandshakeError) as refused:
                await http.ws_connect("/ws", origin=lasting.origin, headers={"Cookie": "; ".join(f"{k}={v}" for k, v in cookie.items())})
            assert refused.value.status == 401


@pytest.mark.parametrize(("method", "path", "status"), [
    ("GET", "/session", 401), ("GET", "/health", 200), ("GET", "/nothing", 404), ("PUT", "/signon", 405), ("GET", "/page/..%2fmfront", 404),
    ("GET", "/page/.hidden.js", 404), ("GET", "/page/x.py", 404), ("GET", "/page/a/b.js", 404), ("GET", "/page/%00.js", 404), ("GET", "/ws", 403),
    ("POST", "/line", 401),
])
@in_loop()
async def test_headers_of_each_answer(lasting: Front, method: str, path: str, status: int) -> None:
    async with lasting.person().http as http, http.request(method, URL(path, encoded=True)) as response:
        assert response.status == status
        policy = response.headers["Content-Security-Policy"]
        assert "default-src 'self'" in policy and "frame-ancestors 'none'" in policy and "unsafe" not in policy
        assert response.headers["X-Content-Type-Options"] == "nosniff" and response.headers["Referrer-Policy"] == "no-referrer"
        assert response.headers["Cache-Control"] == "no-store"
        assert int(response.headers["Strict-Transport-Security"].removeprefix("max-age=")) >= 31_536_000
        assert "aiohttp" not in response.headers["Server"]


@in_loop()
async def test_files_of_the_page(start, tmp_path) -> None:
    page = tmp_path / "page"
    page.mkdir()
    (page / "index.html").write_text("<!doctype html><title>mserve</title>")
    (page / "page.js").write_text("export const one = 1;")
    (page / "secret.py").write_text("secret")
    (page / "folder.js").mkdir()
    front = start(tls=False, listen={"page": str(page)})
    async with front.person().http as http:
        for path, kind in (("/", "text/html"), ("/page/index.html", "text/html"), ("/page/page.js", "text/javascript")):
            async with http.get(path) as response:
                assert (response.status, response.content_type) == (200, kind) and "no-cache" in response.headers["Cache-Control"]
                assert "Strict-Transport-Security" not in response.headers
        for path in ("/page/secret.py", "/page/folder.js", "/page/none.js"):
            async with http.get(path) as response:
                assert response.status == 404


@in_loop()
async def test_all_terminals_in_use(start) -> None:
    front = start(users={"dora": "SHORT", "dan": "SHORT"})
    async with front.person("dora") as dora, front.person("dan").http as http:
        async with http.post("/signon", json={"user": "dan", "password": PASSWORD}) as response:
            assert (response.status, await response.json()) == (503, {"error": "all terminals of SHORT are in use"})
        await dora.sign_off()
        async with http.post("/signon", json={"user": "dan", "password": PASSWORD}) as response:
            assert response.status == 200


@in_loop()
async def test_nobody_meets_what_somebody_before_left(start) -> None:
    """Locals and locks are gone after a sign-off, a lost connection, a new one, and a connection of a program that ended."""
    front = start(users={"dora": "SHORT", "dan": "SHORT"}, limits={"absent": 5})
    async with front.person("dora") as dora:
        assert await dora.told('S A=1 L +^X:0 W $T') == "1"
    async with front.person("dan") as dan:
        assert await dan.told("W A") == "M6"
        assert await dan.told('S A=2 L +^X:0 W $T') == "1"
        await dan.connect()
        assert await dan.told("W A") == "M6"
        await dan.told("S A=3")
        await dan.socket.close()
        await until(lambda: "idle" in [record.get("why") for record in front.audit()], "the end of dan's session")
    async with Program(front, f"dora {PASSWORD}\nW $D(A)\nS A=4") as program:
        # The terminal is free a moment after the end is noted.
        await until(program.signed_on, "dan's terminal")
        assert program.record["terminal"] == 9999
        assert (await program.next())["rest"] == "0"
    dan = front.person("dan")
    async with dan.http:
        await dan.comes_in("the terminal of dora's program")
        assert await dan.told("W $D(A)") == "0"
        await dan.sign_off()
    events = [(record["event"], record.get("why")) for record in front.audit() if record["event"] != "line"]
    assert events == [("sign-on", None), ("sign-off", "signed off"), ("sign-on", None), ("sign-off", "idle"), ("sign-on", None), ("sign-off", "left"),
                      ("sign-on", None), ("sign-off", "signed off")]


@in_loop()
async def test_lock_of_a_lost_connection_is_given_back(lasting: Front) -> None:
    async with lasting.person("ada") as ada, lasting.person("ben") as ben:
        assert await ada.told("L +^X:0 W $T") == "1"
        assert await ben.told("L +^X:0 W $T") == "0"
        ada.socket._response.connection.transport.abort()
        await given_back(ben)


@in_loop()
async def test_idle_users_are_signed_off(start) -> None:
    """So long after the last line, and not after the sign-on."""
    front = start(limits={"idle": 6})
    async with front.person() as ada:
        await asyncio.sleep(1)
        began = time.monotonic()
        assert await ada.told("S A=1 W A") == "1"
        assert (await ada.event()) == {"event": "signed-off", "why": "idle"}
        assert 5.5 < time.monotonic() - began < Patience.seconds
        with pytest.raises(ConnectionError):
            await ada.event()
        async with ada.http.get("/session") as response:
            assert response.status == 401


@in_loop()
async def test_second_web_socket_replaces_the_first(lasting: Front) -> None:
    async with lasting.person() as ada:
        await ada.line("S A=1")
        first = ada.socket
        async with busy(lasting):
            for _ in range(50):
                await ada.send("S A=$G(A)+1 F  S Z=1")
            await lines_wait(ada, 1)
            await ada.connect()
        assert await ada.told("W $D(A)") == "0"
        ends = [message.data if message.type is aiohttp.WSMsgType.TEXT else None async for message in first]
        assert json.loads(ends[-1]) == {"event": "signed-off", "why": "replaced"} and len(ends) < 4
        # Lines that the first one sent are not run after it is replaced.
        assert await ada.told("W $D(A)") == "0"


@in_loop()
async def test_oldest_session_of_a_user_is_replaced(start) -> None:
    front = start(limits={"sessions_of_user": 2})
    async with front.person("ada") as first, front.person("ada") as second:
        await first.line("S A=1")
        async with front.person("ada") as third:
            assert await first.event() == {"event": "signed-off", "why": "replaced"}
            assert await second.told("W 2") == "2" and await third.told("W 3") == "3"


@in_loop()
async def test_removed_users_are_signed_off(start) -> None:
    front = start()
    async with front.person("ada") as ada, front.person("cleo") as cleo:
        write_users(front.folder / "users.json", {"cleo": "LAB"})
        # The password of all is hashed again, so that cleo's sign-on does not count any more either.
        assert await ada.event() == {"event": "signed-off", "why": "removed"}
        assert await cleo.event() == {"event": "signed-off", "why": "removed"}
        assert (await cleo.sign_on())[0] == 200
        assert (await ada.sign_on())[0] == 401


@in_loop()
async def test_users_file_that_is_broken_leaves_the_users(start) -> None:
    front = start()
    (front.folder / "users.json").write_text("{")
    front.hears("users.json: is no users' file")
    async with front.person("ada") as ada:
        assert await ada.told("W 1") == "1"


@in_loop()
async def test_wrong_passwords_slow_down_a_user(start) -> None:
    """Each pause is longer than the one before; meanwhile even the right password is not looked at, and others sign on."""
    front = start()
    ada, cleo = front.person("ada"), front.person("cleo")
    async with ada.http, cleo.http:
        tried, pauses = 0, []
        while not pauses or pauses[-1] < 4:
            async with ada.http.post("/signon", json={"user": "ada", "password": "wrong"}) as response:
                if response.status == 429:
                    pauses.append(int(response.headers["Retry-After"]))
                    await asyncio.sleep(pauses[-1] if pauses[-1] < 4 else 0)
                else:
                    assert response.status == 401
                    tried += 1
        assert pauses == sorted(pauses) and tried >= 4 + 2
        over = time.monotonic() + pauses[-1]
        # A machine that is busy may come to this after the pause.
        assert (await ada.sign_on())[0] == 429 or time.monotonic() > over
        assert (await cleo.sign_on())[0] == 200
        await asyncio.sleep(pauses[-1] + 0.1)
        assert (await ada.sign_on())[0] == 200
        assert (await ada.sign_on("wrong"))[0] == 401


@pytest.mark.long
@in_loop()
async def test_wrong_passwords_slow_down_an_address(start) -> None:
    """Attempts of one address at many names, at once: after twenty there is one a second, and a user of that address with the right password waits for
    the turn of their name, and is not refused."""
    front = start()
    people = [front.person(f"user{number}") for number in range(30)]
    began = time.monotonic()
    tries = [asyncio.create_task(person.sign_on("wrong")) for person in people]
    await asyncio.sleep(0.2)
    ada = front.person("ada")
    async with ada.http:
        assert (await ada.sign_on())[0] == 200
        ends = [status for status, _ in await asyncio.gather(*tries)]
        assert ends == [401] * 30 and time.monotonic() - began > 6
        # By now ada is known at this address.
        assert (await ada.sign_on())[0] == 200
    for person in people:
        await person.http.close()


def test_pauses_grow_and_end() -> None:
    slow = Slowdown(3, 60)
    waits = []
    for _ in range(12):
        slow.failed("ada")
        waits.append(slow.wait("ada"))
    assert [round(wait) for wait in waits] == [0, 0, 0, 1, 2, 4, 8, 16, 32, 60, 60, 60]
    assert slow.wait("ben") == 0
    slow.succeeded("ada")
    assert slow.wait("ada") == 0


def test_networks_of_addresses() -> None:
    assert network_of("10.1.2.3") == "10.1.2.3" and network_of("::ffff:10.1.2.3") == "10.1.2.3"
    assert network_of("2001:db8:1:2:3::4") == network_of("2001:db8:1:2:9::1") != network_of("2001:db8:1:3::1")


@in_loop()
async def test_a_user_of_a_front_that_a_gate_cannot_reach(start) -> None:
    """Their sign-on comes here. Who has the right password, or a token, hears that it is to be tried again, and nobody else learns that the name exists."""
    front: Front = start()
    front.stop()
    everybody = front.folder / "everybody.json"
    write_users(everybody, {"ada": "CLINIC", "eve": "AWAY"})
    token = "mft_" + "t" * 43
    with changed(everybody) as users:
        users["eve"].tokens["x"] = Token(token_hash(token), "", "")
    front.tables["users"]["gate"] = str(everybody)
    (front.folder / "front.toml").write_text(toml(front.tables))
    front.again()

    async def answers(name: str, secret: str) -> list[object]:
        async with Program(front, f"{name} {secret}") as program, front.person(name).http as http:
            async with http.post("/signon", json={"user": name, "password": secret}) as response:
                return [response.status, await response.json(), response.headers.get("Retry-After"), program.record]
    wrong, away = {"error": "wrong name or password"}, {"error": AWAY}
    for secret in ("x", "mft_x", token[:-1]):
        assert await answers("eve", secret) == await answers("nobody", secret) == [401, wrong, None, wrong]
    assert await answers("eve", PASSWORD) == await answers("eve", token) == [503, away, "1", away]
    assert await answers("nobody", token) == [401, wrong, None, wrong] == await answers("ada", token)
    async with front.person("ada") as ada:
        assert await ada.told("W 1") == "1"
    assert {record["user"] for record in front.audit() if record["event"] == "refused"} == {None, "ada"}
    # The file is read again: a user who is removed there is one no more. While it cannot be read, the users of before are.
    everybody.write_text("broken")
    assert (await answers("eve", PASSWORD))[0] == 503
    write_users(everybody, {})
    assert (await answers("eve", PASSWORD))[0] == 401


@pytest.mark.alone
def test_unknown_users_take_as_long(tmp_path) -> None:
    """The same hash is computed for a name that nobody has, or that another front has. The processor's time is compared, since others use the machine."""
    write_users(tmp_path / "users.json", {})
    users = json.loads((tmp_path / "users.json").read_text())
    for name, file in (("ada", "users.json"), ("eve", "everybody.json")):
        (tmp_path / file).write_text(json.dumps({"users": users["users"] | {name: {"account": "CLINIC", "hash": HASHER.hash(PASSWORD)}}}))
        (tmp_path / file).chmod(0o600)
    register = Register(tmp_path / "users.json", everybody=tmp_path / "everybody.json")
    register.by_password("nobody", "x")
    times: dict[str, list[float]] = {"ada": [], "eve": [], "nobody": []}
    for _ in range(7):
        for name, taken in times.items():
            began = time.process_time()
            assert register.by_password(name, "wrong") is None
            taken.append(time.process_time() - began)
    medians = [statistics.median(taken) for taken in times.values()]
    assert min(medians) > 0.01 and max(medians) < 2 * min(medians)


@in_loop()
async def test_without_a_certificate_it_says_so(start) -> None:
    front = start(tls=False)
    assert "listening at the loopback alone" in front.told()
    async with front.person() as ada:
        [cookie] = ada.http.cookie_jar
        assert cookie.key == "mfront" and not cookie["secure"] and cookie["httponly"] and cookie["samesite"] == "Strict"
        assert await ada.told("W 1") == "1"


@pytest.mark.parametrize(("host", "status"),
                         [("localhost", 200), ("127.0.0.1:80", 200), ("[::1]:{port}", 200), ("evil.example", 421), ("127.0.0.1.evil.example:{port}", 421)])
@pytest.mark.parametrize("path", ["/health", "/metrics", "/"])
@in_loop()
async def test_without_a_certificate_another_name_is_not_this_service(plain: Front, path: str, host: str, status: int) -> None:
    """A page of another origin could have its own name stand for the loopback, and read here."""
    async with plain.person().http as http, http.get(path, headers={"Host": host.format(port=plain.port)}) as response:
        assert response.status == status


@pytest.fixture(scope="module")
def plain(tmp_path_factory: pytest.TempPathFactory) -> Iterator[Front]:
    """A front without TLS."""
    made = Front(tmp_path_factory.mktemp("plain"), None)
    yield made
    made.stop()


@in_loop()
async def test_users_are_told_that_the_store_is_volatile(start, tmp_path) -> None:
    lasting, volatile = start(store=str(tmp_path / "store.db")), start()
    for front, told in ((lasting, False), (volatile, True)):
        async with front.person() as ada:
            assert ada.record["volatile"] is told
