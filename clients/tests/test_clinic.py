# SPDX-License-Identifier: Apache-2.0
"""The clinic of examples/, moved in by two commands; its session is answered as GT.M answers the same lines."""
from __future__ import annotations

from conftest import CLIENTS, Command, Server

CLINIC = CLIENTS.parent / "examples" / "clinic"


def test_clinic_moves_in(server: Server, command: Command) -> None:
    ran = command("mglobal", server.port, 3, "import", CLINIC / "clinic.zwr")
    assert ran.output.startswith("20 nodes imported") and ran.status == 0
    ran = command("mroutine", server.port, 3, "load", "--check", CLINIC / "routines")
    assert ran.output.count(" lines from ") == 4 and (ran.told, ran.status) == ("", 0)
    ran = command("mshell", server.port, 3, stdin=(CLINIC / "session.txt").read_text())
    assert (ran.output, ran.status) == ((CLINIC / "replies.txt").read_text(), 0)
