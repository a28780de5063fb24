# SPDX-License-Identifier: Apache-2.0
"""Stores of version 1, made by Python's sqlite3 by rules of this page alone, and what the program is to make of them.

A text is a number by this many digits if it is `-` or nothing, digits without a zero in front, and a point with digits of which the last is no
zero; not `-0` and not empty; below 10^18 in size, with at most 18 places and at most this many significant digits. The key of a node is that of its
account, of its global's name and of each subscript: of a text each code raised by one, with a 0 after it. A subscript that is a number has a 1 in
front, and then 16 bytes of the number in units of 10^-18, raised by 2^127; another one has a 2 in front."""
from __future__ import annotations

import contextlib
import os
import re
import shutil
import sqlite3
from random import Random

OLD, NEW = 15, 18
TABLES = (
    "CREATE TABLE node (k BLOB PRIMARY KEY NOT NULL, v BLOB NOT NULL)",
    "CREATE TABLE meta (name TEXT PRIMARY KEY, n INTEGER)",
)
CANONICAL = re.compile(r"-?(?:[1-9][0-9]*|(?=\.))(?:\.[0-9]*[1-9])?|0")
# An account, a global's name, and subscripts.
Node = tuple[str, str, tuple[str, ...]]
Row = tuple[object, object]
# The rows of the table of versions, and the text at each key.
Held = tuple[list[Row], dict[object, object]]


def units(text: str, kept: int) -> int | None:
    """The number that a text is by this many digits, in units of 10^-18; None if it is none."""
    if not CANONICAL.fullmatch(text):
        return None
    whole, _, fraction = text.removeprefix("-").partition(".")
    if len(whole) > 18 or len(fraction) > 18 or len((whole + fraction).strip("0")) > kept:
        return None
    size = int((whole or "0") + fraction.ljust(18, "0"))
    return -size if text.startswith("-") else size


def raised(text: str) -> bytes:
    """The bytes of a text within a key."""
    return bytes(ord(character) + 1 for character in text) + b"\0"


def subscript(text: str, kept: int) -> bytes:
    """The bytes of a subscript within a key whose numbers keep this many digits."""
    number = units(text, kept)
    return b"\2" + raised(text) if number is None else b"\1" + (number + 2**127).to_bytes(16, "big")


def key(node: Node, kept: int) -> bytes:
    """The key of a node whose numbers keep this many digits."""
    account, name, subscripts = node
    return raised(account) + raised(name) + b"".join(subscript(text, kept) for text in subscripts)


def canonical(number: int) -> str:
    """The text of a number in units of 10^-18."""
    whole, fraction = divmod(abs(number), 10**18)
    places = f".{fraction:018d}".rstrip("0") if fraction else ""
    return ("-" if number < 0 else "") + (f"{whole or ''}{places}" or "0")


def drawn_subscript(draw: Random) -> str:
    """A subscript near the border between fifteen and eighteen digits, of either sign, or a text that looks like a number."""
    digits = "".join(draw.choices("0123456789", k=draw.randint(14, 20)))
    sign = draw.choice(("", "-"))
    kind = draw.randrange(10)
    if kind < 3:
        return sign + (digits.lstrip("0") or "7")
    if kind == 3:
        return sign + (digits[:draw.randint(1, 3)].strip("0") or "4").ljust(draw.randint(3, 18), "0")
    if kind == 4:
        return sign + "." + digits[:draw.choice((1, 2, 15, 16, 17))].rjust(17, "0") + draw.choice("123456789")
    if kind < 7:
        place = draw.randint(1, len(digits) - 1)
        return sign + digits[:place].lstrip("0") + "." + digits[place:]
    if kind == 7:
        return draw.choice(("0", "-0", "+", "0.", "00", "1E5", "1e5", ".", "-", " ")) + draw.choice(("", digits))
    if kind == 8:
        return canonical(draw.choice((-1, 1)) * draw.randrange(10**18) * 10**draw.randint(0, 17))
    return draw.choice(("A", "one", "~", "\x7f", str(draw.randrange(100))))


def drawn_nodes(draw: Random, count: int) -> dict[Node, str]:
    """This many nodes with their texts."""
    nodes: dict[Node, str] = {}
    while len(nodes) < count:
        subscripts = tuple(drawn_subscript(draw) for _ in range(draw.randint(0, 3)))
        text = draw.choice(("", "text", "1234567890123456", "~" * 40)) + str(len(nodes))
        nodes["ALICE", draw.choice(("A", "%B", "LONG")), subscripts] = text
    return nodes


def moving(nodes: dict[Node, str]) -> int:
    """How many of the nodes have another key by eighteen digits."""
    return sum(key(node, OLD) != key(node, NEW) for node in nodes)


def rows_of(nodes: dict[Node, str], kept: int) -> dict[object, object]:
    """The text at each key of the nodes."""
    return {key(node, kept): text.encode("ascii") for node, text in nodes.items()}


def make(path: str, nodes: dict[Node, str], version: object = 1, more: tuple[Row, ...] = (), kept: int = OLD) -> str:
    """A file of a version with these nodes, and with more rows as they are."""
    with contextlib.closing(sqlite3.connect(path)) as database:
        for statement in TABLES:
            database.execute(statement)
        database.execute("INSERT INTO meta (name, n) VALUES ('version', ?)", (version,))
        database.executemany("INSERT INTO node (k, v) VALUES (?, ?)", [*rows_of(nodes, kept).items(), *more])
        database.commit()
    return path


def held(path: str) -> Held:
    """What a file and its log hold, as sqlite3 reads a copy of them: the files themselves stay as they are."""
    copy = f"{path}-copy"
    for end in ("", "-wal"):
        if os.path.exists(path + end):
            shutil.copy(path + end, copy + end)
    with contextlib.closing(sqlite3.connect(copy)) as database:
        return database.execute("SELECT name, n FROM meta").fetchall(), dict(database.execute("SELECT k, v FROM node"))


def before(nodes: dict[Node, str]) -> Held:
    """What a store of version 1 with these nodes holds."""
    return [("version", 1)], rows_of(nodes, OLD)


def after(nodes: dict[Node, str]) -> Held:
    """What a store of this version with these nodes holds."""
    return [("version", 2)], rows_of(nodes, NEW)
