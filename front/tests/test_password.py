# SPDX-License-Identifier: Apache-2.0
"""Users change their own password; which passwords are taken; and where a token or a mistyped password does not go."""
from __future__ import annotations

import pytest
from aiohttp import ClientSession
from front import PASSWORD, Front, in_loop
from mserve_front.passwords import fault_of
from test_programs import new_token

NEW = "seven green bicycles"


async def changed(http: ClientSession, old: object, new: object) -> tuple[int, str]:
    async with http.post("/password", json={"old": old, "new": new}) as response:
        return response.status, await response.text()


@in_loop()
async def test_a_user_changes_their_own_password(start) -> None:
    """The session in which that is done goes on; others of the user, and tokens, end; others' do not."""
    front: Front = start()
    token = await new_token(front, "ada")
    async with front.person("ada") as ada, front.person("ada") as elsewhere, front.person("cleo") as cleo:
        await ada.line("S A=1")
        assert (await changed(ada.http, "wrong", NEW))[0] == 403
        for new, why in (("short", "12 to 1024"), ("aaaaaaaaaaaaaa", "different"), ("123456789012", "follow one another"), (5, "texts")):
            status, text = await changed(ada.http, PASSWORD, new)
            assert status in (400, 422) and why in text
        assert (await changed(ada.http, PASSWORD, NEW))[0] == 204
        assert await elsewhere.event() == {"event": "signed-off", "why": "removed"}
        assert await ada.told("W A") == "1" and await cleo.told("W 1") == "1" and not ada.events
        async with ada.http.post("/line", json={"line": "W 1"}, headers={"Authorization": f"Bearer {token}"}) as response:
            assert response.status == 401
    async with front.person("ada").http as http:
        assert (await changed(http, NEW, PASSWORD))[0] == 401
    ada = front.person("ada")
    async with ada.http:
        assert (await ada.sign_on())[0] == 401
        assert (await ada.sign_on(NEW))[0] == 200
    assert [record["user"] for record in front.audit() if record["event"] == "password"] == ["ada"]


@in_loop()
async def test_a_page_of_another_origin_changes_no_password(start) -> None:
    front: Front = start()
    async with front.person("ada") as ada:
        async with ada.http.post("/password", json={"old": PASSWORD, "new": NEW}, headers={"Origin": "https://evil.example"}) as response:
            assert response.status == 403


@in_loop()
async def test_a_token_is_no_password_of_the_page(start) -> None:
    """A browser names its origin; a program, as a shell, does not."""
    front: Front = start()
    token = await new_token(front, "ada")
    ada = front.person("ada")
    async with ada.http:
        for headers, status in (({"Origin": front.origin}, 401), ({}, 200)):
            async with ada.http.post("/signon", json={"user": "ada", "password": token}, headers=headers) as response:
                assert response.status == status


@in_loop()
async def test_a_password_in_the_place_of_a_name_is_not_in_the_audit_log(start) -> None:
    front: Front = start()
    mistyped = front.person(PASSWORD)
    async with mistyped.http:
        assert (await mistyped.sign_on("ada"))[0] == 401
    assert PASSWORD not in (front.folder / "audit.log").read_text()
    assert [record["user"] for record in front.audit() if record["event"] == "refused"] == [None]


@pytest.mark.parametrize("password", ["aaaaaaaaaaaa", "123456789012", "987654321098", "abcdefghijkl", "ababababababab", "kzkzkzkzkzkz", "ada.lovelace1",
                                      "password1234", "qwertyuiop12", "", "x" * 2000, "mservemserve", "wombat-7 oa", "w8 Qt-" * 170 + "abcde"])
def test_passwords_that_are_not_taken(password: str) -> None:
    assert fault_of(password, "ada.lovelace")


@pytest.mark.parametrize("password", [PASSWORD, NEW, "another password", "Tr0ub4dor&3 and more", "ünïcödé wörds äré fine", "J7k$2mQx9!pL", "wombat-7 oak",
                                      "w8 Qt-" * 170 + "abcd"])
def test_passwords_that_are_taken(password: str) -> None:
    assert fault_of(password, "ada") == ""
