# SPDX-License-Identifier: Apache-2.0
"""A settings file of the server: its accounts and grants, and parts of it. docs/FORMATS.md has the form."""
from __future__ import annotations

import codecs
import tomllib
from collections import Counter
from collections.abc import Iterable, Iterator
from dataclasses import dataclass
from pathlib import Path

from . import keys
from .wire import ClientError

MAX_ENTRIES, MAX_TERMINAL, MAX_STEPS, MAX_BYTES = 9_999, 9_999, 1_000_000, 1_000_000
MODES = ("read", "write")
ACCOUNT_KEYS: dict[str, type] = {"name": str, "terminals": list, "steps": int}
# The one key that may be absent, with its values.
LANGUAGE, LANGUAGES = "language", (0, 1)
GRANT_KEYS: dict[str, type] = {"from": str, "to": str, "global": str, "mode": str}


class BadSettings(ClientError):
    """A file that mserve takes for no settings; the text says why."""


@dataclass(frozen=True, slots=True)
class Account:
    """An account with its terminals, the steps that each of its lines may use, and their language."""

    name: str
    terminals: tuple[int, ...]
    steps: int
    language: int = 0

    def __str__(self) -> str:
        language = f"language = {self.language}\n" if self.language else ""
        return f'[[account]]\nname = "{self.name}"\nterminals = [{", ".join(map(str, self.terminals))}]\nsteps = {self.steps}\n{language}'


@dataclass(frozen=True, slots=True)
class Grant:
    """What an account lets another do with one of its globals."""

    giver: str
    taker: str
    name: str
    mode: str

    def __str__(self) -> str:
        return f'[[grant]]\nfrom = "{self.giver}"\nto = "{self.taker}"\nglobal = "{self.name}"\nmode = "{self.mode}"\n'


@dataclass(frozen=True, slots=True)
class Settings:
    """Accounts and grants, each in the order of the file."""

    accounts: tuple[Account, ...]
    grants: tuple[Grant, ...]

    def __str__(self) -> str:
        return "\n".join(map(str, (*self.accounts, *self.grants)))

    @property
    def names(self) -> list[str]:
        """The names of the accounts."""
        return [account.name for account in self.accounts]

    def parts(self, groups: Iterable[Iterable[str]]) -> list[Settings]:
        """Each of some groups of accounts alone, with the grants between them. No account is in two groups."""
        place = {name: number for number, group in enumerate(groups) for name in group}
        accounts: list[list[Account]] = [[] for _ in range(max(place.values(), default=-1) + 1)]
        grants: list[list[Grant]] = [[] for _ in accounts]
        for account in self.accounts:
            if account.name in place:
                accounts[place[account.name]].append(account)
        for grant in self.grants:
            if grant.giver in place and place[grant.giver] == place.get(grant.taker):
                grants[place[grant.giver]].append(grant)
        return [Settings(tuple(one), tuple(two)) for one, two in zip(accounts, grants)]


def read(path: str | Path) -> Settings:
    """The settings of a file. BadSettings if mserve refuses it, by the name of its fault."""
    return parsed(str(path), Path(path).read_bytes())


def parsed(source: str, data: bytes) -> Settings:
    """The settings that bytes are. BadSettings if mserve refuses them, by where they come from and the name of their fault."""
    if len(data) > MAX_BYTES:
        raise BadSettings(f"{source}: Read: it has more than {MAX_BYTES:,} bytes")
    try:
        document = tomllib.loads(data.removeprefix(codecs.BOM_UTF8).decode())
    except (UnicodeDecodeError, tomllib.TOMLDecodeError) as error:
        raise BadSettings(f"{source}: Toml: {error}") from error
    for fault in _shape_faults(document):
        raise BadSettings(f"{source}: Shape: {fault}")
    settings = Settings(tuple(Account(entry["name"], tuple(entry["terminals"]), entry["steps"], entry.get("language", 0))
                              for entry in document.get("account", [])),
                        tuple(Grant(entry["from"], entry["to"], entry["global"], entry["mode"]) for entry in document.get("grant", [])))
    check(source, settings)
    return settings


def write(path: Path, settings: Settings) -> None:
    """Makes a settings file. BadSettings if mserve would refuse it for its length."""
    text = str(settings)
    if len(text) > MAX_BYTES:
        raise BadSettings(f"Read: the settings would have {len(text):,} bytes, and mserve reads {MAX_BYTES:,} at most")
    path.write_text(text, encoding="ascii")


def check(source: str, settings: Settings) -> None:
    """BadSettings if mserve refuses the settings, by the name of its first fault."""
    for fault in _faults(settings):
        raise BadSettings(f"{source}: {fault}")


def _shape_faults(document: dict[str, object]) -> Iterator[str]:
    """What is wrong with the keys and types of a document."""
    for key in document.keys() - {"account", "grant"}:
        yield f"there is no key {key}"
    for key, wanted in (("account", ACCOUNT_KEYS), ("grant", GRANT_KEYS)):
        entries = document.get(key, [])
        if not isinstance(entries, list) or len(entries) > MAX_ENTRIES:
            yield f"{key} is to be a list of at most {MAX_ENTRIES:,} tables"
            continue
        for number, entry in enumerate(entries, 1):
            optional = [LANGUAGE] if key == "account" else []
            if not isinstance(entry, dict) or entry.keys() - set(optional) != wanted.keys():
                yield f"{key} {number} is to have the keys {', '.join([*wanted, *optional])}, and no others"
            elif optional and not is_language(entry.get(LANGUAGE, 0)):
                yield f"{key} {number} has a language that is not 0 or 1"
            elif any(type(entry[word]) is not kind for word, kind in wanted.items()) or any(type(x) is not int for x in entry.get("terminals", [])):
                yield f"{key} {number} has a value of another type"


def is_language(value: object) -> bool:
    """Whether a value is the number of a language."""
    return type(value) is int and value in LANGUAGES


def _faults(settings: Settings) -> Iterator[str]:
    """The faults of settings, in the order in which mserve seeks them."""
    if max(len(settings.accounts), len(settings.grants)) > MAX_ENTRIES:
        yield f"Shape: there are more than {MAX_ENTRIES:,} accounts or grants"
    for name, times in Counter(settings.names).items():
        if not keys.is_account(name):
            yield f"Name: {name!r} is no account: a name has 1 to 16 letters or digits"
        elif times > 1:
            yield f"Name: the account {name} is given twice"
    for terminal, times in Counter(terminal for account in settings.accounts for terminal in account.terminals).items():
        if not 1 <= terminal <= MAX_TERMINAL:
            yield f"Terminal: {terminal} is not 1 to {MAX_TERMINAL:,}"
        elif times > 1:
            yield f"Terminal: {terminal} is given twice"
    for account in settings.accounts:
        if not 1 <= account.steps <= MAX_STEPS:
            yield f"Steps: those of {account.name} are not 1 to {MAX_STEPS:,}"
    known = set(settings.names)
    for grant in settings.grants:
        if not {grant.giver, grant.taker} <= known or grant.giver == grant.taker or not keys.is_name(grant.name) or grant.mode not in MODES:
            yield f"Grant: that of {grant.giver} to {grant.taker}: two accounts are wanted, a global's name, and the mode read or write"
