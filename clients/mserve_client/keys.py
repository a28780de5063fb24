# SPDX-License-Identifier: Apache-2.0
"""The keys of nodes in a store file: which texts are numbers, and a node's bytes there and back.

A key is the account's bytes and the name's bytes, each byte plus 1 and then 00, and for each subscript
01 and sixteen bytes for a canonical number (its count of units of 10^-18, plus 2^127), or 02, its bytes
plus 1, and 00 for another text."""
from __future__ import annotations

import re
from functools import lru_cache

MAX_SUBSCRIPTS = 15
MAX_SUBSCRIPT = 255
MAX_TEXT = 4095
MAX_DIGITS = 18
MAX_NAME = 31
SCALE = 18
NUMBER = re.compile(r"(-?)(0|[1-9]\d*)?(?:\.(\d*[1-9]))?", re.ASCII)
NAME = re.compile(r"[A-Za-z%%][A-Za-z0-9]{0,%d}" % (MAX_NAME - 1), re.ASCII)
_ACCOUNT = re.compile(r"[A-Za-z0-9]{1,16}", re.ASCII)
_RAISED = bytes((code + 1) % 256 for code in range(256))
_LOWERED = bytes((code - 1) % 256 for code in range(256))
_BIAS = 1 << 127
Subscripts = tuple[str, ...]


def is_name(text: str) -> bool:
    """Whether the text is the name of a variable, a label or a routine."""
    return NAME.fullmatch(text) is not None


def is_account(text: str) -> bool:
    """Whether the text can be the name of an account."""
    return _ACCOUNT.fullmatch(text) is not None


@lru_cache(1 << 13)
def units(text: str) -> int | None:
    """The number, in units of 10^-18, of which the text is the canonical text; None if it is no such text."""
    found = NUMBER.fullmatch(text)
    if found is None or text in ("", "-", "-0"):
        return None
    sign, whole, fraction = found[1], found[2] or "", found[3] or ""
    if whole == "0" and fraction:
        return None
    if len(whole) > SCALE or len(fraction) > SCALE or digits(whole, fraction) > MAX_DIGITS:
        return None
    size = int(whole + fraction.ljust(SCALE, "0"))
    return -size if sign else size


def digits(whole: str, fraction: str) -> int:
    """How many significant digits a canonical text has."""
    if fraction:
        return len((whole + fraction).lstrip("0"))
    return len(whole.rstrip("0"))


def number_text(number: int) -> str:
    """The canonical text of a number of units of 10^-18."""
    sign, size = ("-" if number < 0 else ""), str(abs(number)).rjust(SCALE + 1, "0")
    whole, fraction = size[:-SCALE].lstrip("0"), size[-SCALE:].rstrip("0")
    return f"{sign}{whole}.{fraction}" if fraction else f"{sign}{whole}" if whole else "0"


def ended(text: str) -> bytes:
    """A text in a key: its bytes, each plus 1, and 00."""
    return text.encode("ascii").translate(_RAISED) + b"\0"


@lru_cache(1 << 13)
def subscript_bytes(text: str) -> bytes:
    """A subscript in a key."""
    number = units(text)
    return b"\2" + ended(text) if number is None else b"\1" + (number + _BIAS).to_bytes(16, "big")


@lru_cache(1 << 10)
def start(account: str, name: str) -> bytes:
    """What the keys of all nodes of a global begin with."""
    return ended(account) + ended(name)


def key(account: str, name: str, subscripts: Subscripts = ()) -> bytes:
    """The key of a node."""
    return above(account, name, subscripts[:-1]) + subscript_bytes(subscripts[-1]) if subscripts else start(account, name)


@lru_cache(1 << 10)
def above(account: str, name: str, subscripts: Subscripts) -> bytes:
    """The key of a node, kept: many nodes are below it."""
    return start(account, name) + b"".join(map(subscript_bytes, subscripts))


def end_of_subtree(first: bytes) -> bytes:
    """The bytes before which all keys of a node and of those below it stand, given the node's key."""
    return first + b"\3"


def bounds(account: str) -> tuple[bytes, bytes]:
    """From where on the keys of all nodes of an account stand, and before where."""
    return ended(account), ended(account)[:-1] + b"\1"


def node(data: bytes) -> tuple[str, str, Subscripts]:
    """The account, the name and the subscripts of a key. ValueError if the bytes are no key of a node."""
    account, name, _ = data.split(b"\0", 2)
    parts = account.translate(_LOWERED).decode("ascii"), name.translate(_LOWERED).decode("ascii")
    found = (*parts, subscripts(data, len(account) + len(name) + 2))
    if not (is_account(parts[0]) and is_name(parts[1]) and len(found[2]) <= MAX_SUBSCRIPTS and key(*found) == data):
        raise ValueError(f"no key of a node: {data.hex()}")
    return found


def subscripts(data: bytes, at: int) -> Subscripts:
    """The subscripts of a key, which begin at a place. ValueError if these bytes are none."""
    found: list[str] = []
    while at < len(data):
        end = at + 17 if data[at] == 1 else data.index(b"\0", at) + 1
        found.append(_subscript(data[at:end]))
        at = end
    return tuple(found)


@lru_cache(1 << 13)
def _subscript(data: bytes) -> str:
    """The subscript that stands as these bytes in a key."""
    if data[0] == 1 and len(data) == 17:
        return number_text(int.from_bytes(data[1:], "big") - _BIAS)
    text = data[1:-1].translate(_LOWERED).decode("ascii")
    if data[0] != 2 or not 1 <= len(text) <= MAX_SUBSCRIPT:
        raise ValueError(f"no subscript: {data.hex()}")
    return text
