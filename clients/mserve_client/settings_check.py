# SPDX-License-Identifier: Apache-2.0
"""The faults of a settings file and of a store, each with its place and what to do: the program itself says one word.

They come in the order in which the program seeks them, so that the first one's kind is the word that it says (docs/FORMATS.md)."""
from __future__ import annotations

import codecs
import re
import tomllib
from collections.abc import Iterator
from dataclasses import dataclass, field
from typing import Any

from . import keys
from .settings_file import ACCOUNT_KEYS, GRANT_KEYS, LANGUAGE, MAX_BYTES, MAX_ENTRIES, MAX_STEPS, MAX_TERMINAL, MODES, is_language

_AT = re.compile(r" \(at (?:line (\d+), column (\d+)|end of document)\)$")
# A string of TOML of any kind, a comment, or one other character.
_TOKEN = re.compile(r'"""(?:[^\\]|\\.)*?"{3,5}|\'\'\'.*?\'{3,5}|"(?:[^"\\\n]|\\.)*"|\'[^\'\n]*\'|#[^\n]*|.', re.DOTALL)
_HEADER = re.compile(r"\[\[\s*[\"']?(\w+)[\"']?\s*\]\]")
_FIRST = re.compile(r"\[*\s*[\"']?([^\"'\]. \t]*)")
_KEY = re.compile(r"\s*[\"']?([\w-]+)[\"']?\s*(?:\.[^=]*)?=")
WANTED = {"name": 'a text: name = "CLINIC"', "terminals": "a list of whole numbers: terminals = [1, 2]", "steps": "a whole number: steps = 2000",
          "from": 'a text: from = "LAB"', "to": 'a text: to = "CLINIC"', "global": 'a text: global = "RESULT"', "mode": 'a text: mode = "read"'}
# A table of TOML: what its values are is found here.
Table = dict[str, Any]


@dataclass(frozen=True, slots=True)
class SettingsFault:
    """A fault: the word that the program has for it, the line from 1 or 0 if it has none, the key, what is wrong, and what to do."""

    kind: str
    line: int
    key: str
    text: str
    remedy: str

    def shown(self, path: str) -> str:
        """The fault as a line, with what to do below it."""
        place = f"{path}:{self.line}" if self.line else path
        return f"{place}: {self.key + ': ' if self.key else ''}{self.text}\n    {self.remedy}"


@dataclass(slots=True)
class Places:
    """The lines of a document on which its entries and their keys stand: of each list, entry by entry, with the header's line under an empty key."""

    top: dict[str, int] = field(default_factory=dict)
    entries: dict[str, list[dict[str, int]]] = field(default_factory=dict)

    def of(self, name: str, number: int, key: str = "") -> int:
        """The line of a key of an entry, counted from 0; of the entry or the list, where that is not known."""
        found = self.entries.get(name, [])
        entry: dict[str, int] = found[number] if number < len(found) else {}
        return entry.get(key, 0) or entry.get("", 0) or self.top.get(name, 0)


def places(text: str) -> Places:
    """Where the entries of a document of TOML stand."""
    found = Places()
    entry: dict[str, int] | None = None
    for line, statement in statements(text):
        header = _HEADER.match(statement)
        if header:
            entry = {"": line}
            found.entries.setdefault(header[1], []).append(entry)
        elif statement.startswith("["):
            entry = None
            found.top.setdefault(first[1] if (first := _FIRST.match(statement)) else "", line)
        elif key := _KEY.match(statement):
            (found.top if entry is None else entry).setdefault(key[1], line)
    return found


def statements(text: str) -> Iterator[tuple[int, str]]:
    """The headers and the pairs of a document, each with the number of its first line. What is in brackets belongs to its pair."""
    line, began, depth, parts = 1, 1, 0, list[str]()
    for token in _TOKEN.findall(text):
        if token == "\n" and depth <= 0:
            if statement := "".join(parts).strip():
                yield began, statement
            parts, depth, began = [], 0, line + 1
        elif not token.startswith("#"):
            parts.append(token)
            depth += {"[": 1, "{": 1, "]": -1, "}": -1}.get(token, 0)
        line += token.count("\n")
    if statement := "".join(parts).strip():
        yield began, statement


def faults(data: bytes) -> list[SettingsFault]:
    """The faults of the bytes of a settings file, in the program's order; none if the program takes them."""
    if len(data) > MAX_BYTES:
        return [SettingsFault("Read", 0, "", f"it has {len(data):,} bytes", f"Settings have at most {MAX_BYTES:,}.")]
    data = data.removeprefix(codecs.BOM_UTF8)
    try:
        text = data.decode()
    except UnicodeDecodeError as error:
        return [SettingsFault("Toml", data.count(b"\n", 0, error.start) + 1, "", f"the byte {data[error.start]:02X} is no UTF-8", "Save the file as UTF-8.")]
    try:
        document = tomllib.loads(text)
    except (tomllib.TOMLDecodeError, RecursionError) as error:
        return [toml_fault(text, error)]
    where = places(text)
    if large := list(_large(document, where)):
        return large
    shape = list(_shape(document, where))
    return shape or list(_values(document, where))


def toml_fault(text: str, error: Exception) -> SettingsFault:
    """What keeps a text from being a document of TOML."""
    at = _AT.search(str(error))
    line = int(at[1]) if at and at[1] else text.count("\n") + 1
    place = f", at column {at[2]}" if at and at[1] else ""
    return SettingsFault("Toml", line, "", f"no TOML{place}: {_AT.sub('', str(error))}",
                         'A line is [[account]], [[grant]], or a key, = and a value: name = "CLINIC".')


def _large(document: object, where: Places, name: str = "", number: int = 0, key: str = "") -> Iterator[SettingsFault]:
    """The whole numbers that have more than 64 bits."""
    if type(document) is int and not -(1 << 63) <= document < 1 << 63:
        yield SettingsFault("Toml", where.of(name, number, key), key or name, f"{str(document)[:30]} has more than 64 bits", "Write a smaller number.")
    for part, value in enumerate(document) if isinstance(document, list) else ():
        yield from _large(value, where, name, number if key else part, key)
    for part, value in document.items() if isinstance(document, dict) else ():
        yield from _large(value, where, name or str(part), number, str(part) if name else "")


def _shape(document: Table, where: Places) -> Iterator[SettingsFault]:
    """What is wrong with keys and types."""
    for key in document.keys() - {"account", "grant"}:
        yield SettingsFault("Shape", where.top.get(key, where.of(key, 0)), key, "there is no such key",
                            "Settings have the lists [[account]] and [[grant]] alone.")
    for name, wanted in (("account", ACCOUNT_KEYS), ("grant", GRANT_KEYS)):
        entries = document.get(name, [])
        if not isinstance(entries, list):
            yield SettingsFault("Shape", where.of(name, 0), name, "it is no list", f"Write [[{name}]], in double brackets, before each entry.")
            continue
        if len(entries) > MAX_ENTRIES:
            yield SettingsFault("Shape", where.of(name, MAX_ENTRIES), name, f"there are {len(entries):,} of them", f"There may be {MAX_ENTRIES:,}.")
        for number, entry in enumerate(entries):
            yield from _entry(name, number, entry, wanted, where)


def _entry(name: str, number: int, entry: object, wanted: dict[str, type], where: Places) -> Iterator[SettingsFault]:
    """What is wrong with the keys and types of an entry."""
    if not isinstance(entry, dict):
        yield SettingsFault("Shape", where.of(name, number), name, "an entry is no table", f"Write [[{name}]] before each entry.")
        return
    known = [*wanted, *([LANGUAGE] if name == "account" else [])]
    for key in entry.keys() - set(known):
        yield SettingsFault("Shape", where.of(name, number, key), key, "there is no such key", f"[[{name}]] has the keys {', '.join(known)}.")
    if LANGUAGE in entry and LANGUAGE in known and not is_language(entry[LANGUAGE]):
        yield SettingsFault("Shape", where.of(name, number, LANGUAGE), LANGUAGE, "is not 0 or 1",
                            "Write language = 1, or leave it out: then it is 0, the profile.")
    for key, kind in wanted.items():
        if key not in entry:
            yield SettingsFault("Shape", where.of(name, number), key, "is missing", f"Add {WANTED[key].partition(': ')[2]} below this [[{name}]].")
        elif type(entry[key]) is not kind or kind is list and any(type(one) is not int for one in entry[key]):
            yield SettingsFault("Shape", where.of(name, number, key), key, "has another type", f"It is {WANTED[key]}.")


def _values(document: Table, where: Places) -> Iterator[SettingsFault]:
    """What is wrong with the values, kind by kind."""
    accounts, grants = document.get("account", []), document.get("grant", [])
    yield from _names(accounts, where)
    yield from _terminals(accounts, where)
    for number, account in enumerate(accounts):
        if not 1 <= account["steps"] <= MAX_STEPS:
            line = where.of("account", number, "steps")
            yield SettingsFault("Steps", line, "steps", f"{account['steps']} is not 1 to {MAX_STEPS:,}", "2000 is enough for most lines.")
    known = {account["name"] for account in accounts}
    for number, grant in enumerate(grants):
        yield from _grant(grant, number, known, where)


def _names(accounts: list[Table], where: Places) -> Iterator[SettingsFault]:
    """The names that no account can have, or that two have."""
    first: dict[str, int] = {}
    for number, account in enumerate(accounts):
        name, line = account["name"], where.of("account", number, "name")
        if not keys.is_account(name):
            yield SettingsFault("Name", line, "name", f"{name!r} is no name of an account", "A name has 1 to 16 letters or digits, without accents.")
        elif name in first:
            yield SettingsFault("Name", line, "name", f"{name} is an account already, of line {first[name]}", "Give each account a name of its own.")
        first.setdefault(name, line)


def _terminals(accounts: list[Table], where: Places) -> Iterator[SettingsFault]:
    """The numbers that no terminal can have, or that stand twice."""
    first: dict[int, int] = {}
    for number, account in enumerate(accounts):
        line = where.of("account", number, "terminals")
        for terminal in account["terminals"]:
            if not 1 <= terminal <= MAX_TERMINAL:
                yield SettingsFault("Terminal", line, "terminals", f"{terminal} is not 1 to {MAX_TERMINAL:,}", "Take another number.")
            elif terminal in first:
                yield SettingsFault("Terminal", line, "terminals", f"{terminal} is a terminal already, of line {first[terminal]}",
                                    "A terminal is of one account, and stands once.")
            first.setdefault(terminal, line)


def _grant(grant: dict[str, str], number: int, known: set[str], where: Places) -> Iterator[SettingsFault]:
    """What is wrong with a grant."""
    def fault(key: str, text: str, remedy: str) -> SettingsFault:
        return SettingsFault("Grant", where.of("grant", number, key), key, text, remedy)

    for key in ("from", "to"):
        if grant[key] not in known:
            yield fault(key, f"{grant[key]!r} is no account", "It is the name of an [[account]] of this file.")
    if grant["from"] == grant["to"]:
        yield fault("to", f"{grant['to']} grants something to itself", "An account needs no grant for its own globals: remove it.")
    if not keys.is_name(grant["global"]):
        yield fault("global", f"{grant['global']!r} is no name of a global", "Write the name alone, without ^: global = \"RESULT\".")
    if grant["mode"] not in MODES:
        yield fault("mode", f"{grant['mode']!r} is no mode", 'It is "read" or "write".')
