# SPDX-License-Identifier: Apache-2.0
"""Accounts, sessions and the form of the wire."""
from __future__ import annotations

import re
import sys
import threading
import tomllib
from collections.abc import Callable
from typing import TypeVar

from . import faults
from .decimals import Stop
from .expressions import Account, Session
from .locking import Locks
from .machine import BREAK, Halted, Machine
from .scopes import Tree

LONGEST_LINE, LONGEST_WIRE = 255, 260
# A level takes some twenty calls of Python, and there are 256 of them.
STACK, CALLS = 512 * 1024 * 1024, 100_000
Found = TypeVar("Found")
_LINE = re.compile(rb"([1-9][0-9]{0,3}) (.*)", re.DOTALL)


class World:
    """A store in memory, and the sessions of terminals, by settings as the program takes them. If a language is given, all accounts have it.
    Faults may say where they were."""

    def __init__(self, settings: str, language: int | None = None, detail: bool = False) -> None:
        found = tomllib.loads(settings)
        self.detail = detail
        self.accounts: dict[int, Account] = {}
        for one in found.get("account", []):
            number = one.get("language", 0) if language is None else language
            self.accounts |= dict.fromkeys(one["terminals"], Account(one["name"], one["steps"], number))
        self.grants = {(one["from"], one["to"], one["global"], one["mode"]) for one in found.get("grant", [])}
        self.store: dict[tuple[str, str], Tree] = {}
        self.sessions: dict[int, Session] = {}
        self.locks = Locks()

    def line(self, terminal: int, text: str) -> tuple[str, str]:
        """What a line writes, with a character 255 for each line's end, and the code that ends it, or nothing; if details are wanted, with where that was."""
        account = self.accounts.get(terminal)
        for refused, code in ((account is None, "ZTERM"), (len(text) > LONGEST_LINE, "ZLINE"), (not text.isascii(), "ZCHAR")):
            if refused:
                return "", code
        session = self.sessions.setdefault(terminal, Session())
        machine, code = Machine(account, session, self.store, self.grants, self.locks, terminal), ""
        try:
            machine.run(text)
        except Stop as stop:
            code = stop.code + (faults.detail(f"{terminal}!{stop.code}", stop, len(self.locks.held.get(terminal, ()))) if self.detail else "")
        except Halted:
            del self.sessions[terminal]
            self.locks.release(terminal)
        return "".join(machine.out), code

    def replies(self, stream: bytes) -> bytes:
        """The replies to a stream of the wire."""
        lines = stream.split(b"\n")
        ended = [line.removesuffix(b"\r") for line in lines[:-1]]
        return b"".join(map(self.reply, [*ended, lines[-1]]))

    def reply(self, line: bytes) -> bytes:
        """The reply to a line of the wire."""
        if not line:
            return b""
        found = _LINE.fullmatch(line)
        if len(line) > LONGEST_WIRE or found is None:
            return b"?!ZLINE\n" if len(line) > LONGEST_WIRE else b"?!ZWIRE\n"
        out, code = self.line(int(found[1]), found[2].decode("latin1"))
        *whole, rest = faults.escaped(out).split(BREAK)
        parts = [f":{text}" for text in whole] + [f"-{rest}"] * bool(rest) + [f"!{code}" if code else "."]
        return "".join(f"{int(found[1])}{part}\n" for part in parts).encode("ascii")


def deep(run: Callable[[], Found]) -> Found:
    """What a call gives, with room for as many levels as a line may open."""
    found: list[Found] = []
    failed: list[BaseException] = []

    def caught() -> None:
        try:
            found.append(run())
        except BaseException as error:
            failed.append(error)
    before, calls = threading.stack_size(STACK), sys.getrecursionlimit()
    sys.setrecursionlimit(CALLS)
    try:
        thread = threading.Thread(target=caught)
        thread.start()
        thread.join()
    finally:
        threading.stack_size(before)
        sys.setrecursionlimit(calls)
    if failed:
        raise failed[0]
    return found[0]
