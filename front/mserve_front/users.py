# SPDX-License-Identifier: Apache-2.0
"""The users' file: who may sign on, to which account, with which password or token.

It is JSON, `{"users": {NAME: {"account": .., "hash": .., "tokens": {ID: {"hash": .., "note": .., "made": ..}}}}}`, of mode 0600, and is replaced
whole. Passwords are kept as argon2id hashes. Tokens have 256 random bits, so that SHA-256 suffices."""
from __future__ import annotations

import contextlib
import fcntl
import hashlib
import hmac
import json
import os
import re
import secrets
import tempfile
import unicodedata
from collections.abc import Iterator
from dataclasses import asdict, dataclass, field
from datetime import UTC, datetime
from pathlib import Path
from typing import Any

import argon2

from .passwords import MOST, fault_of

MOST_NAME = 64
NAME = re.compile(r"[A-Za-z0-9][A-Za-z0-9._@-]{0,%d}" % (MOST_NAME - 1))
TOKEN = "mft_"
# The second recommended choice of RFC 9106: 64 MiB, three passes, four lanes.
HASHER = argon2.PasswordHasher(time_cost=3, memory_cost=65_536, parallelism=4, hash_len=32, salt_len=16, type=argon2.Type.ID)


class BadUsers(Exception):
    """The users' file cannot be used, or does not allow what is asked; the text says why."""


@dataclass(frozen=True, slots=True)
class Token:
    """A token of a user, without its secret."""

    hash: str
    note: str
    made: str


@dataclass(slots=True)
class User:
    """A user of an account."""

    name: str
    account: str
    hash: str
    tokens: dict[str, Token] = field(default_factory=dict)

    def changed(self, hashed: str) -> None:
        """Takes another password's hash. All that proved who one is before does so no more."""
        self.hash = hashed
        self.tokens.clear()


Users = dict[str, User]


def load(path: Path) -> Users:
    """The users of a file; none if there is no file. Raises `BadUsers` if it cannot be read, is not in form, or may be read by others."""
    try:
        with path.open("rb") as file:
            mode = os.fstat(file.fileno()).st_mode
            data = file.read()
    except FileNotFoundError:
        return {}
    except OSError as error:
        raise BadUsers(f"{path}: cannot be read: {error.strerror}") from error
    if mode & 0o077:
        raise BadUsers(f"{path}: others than its owner may read or write it: chmod 600 {path}")
    try:
        return {name: _user(name, record) for name, record in json.loads(data)["users"].items()}
    except (ValueError, KeyError, TypeError, AttributeError) as error:
        raise BadUsers(f"{path}: is no users' file: {type(error).__name__}: {error}") from error


def _user(name: str, record: dict[str, Any]) -> User:
    account, hashed = record["account"], record["hash"]
    if not isinstance(account, str) or not isinstance(hashed, str) or not NAME.fullmatch(name):
        raise TypeError(f"user {name!r} has no account or no hash")
    argon2.extract_parameters(hashed)
    return User(name, account, hashed, {label: Token(**token) for label, token in record.get("tokens", {}).items()})


def save(path: Path, users: Users) -> None:
    """Replaces the file by one of mode 0600, which is on the disk before it has the name; the owner stays."""
    records = {user.name: {"account": user.account, "hash": user.hash, "tokens": {label: asdict(token) for label, token in user.tokens.items()}}
               for user in users.values()}
    descriptor, made = tempfile.mkstemp(dir=path.parent, prefix=f".{path.name}.")
    try:
        with os.fdopen(descriptor, "w", encoding="utf-8") as file:
            json.dump({"users": records}, file, indent=1)
            file.write("\n")
            _keep_owner(path, file.fileno())
            file.flush()
            os.fsync(file.fileno())
        os.replace(made, path)
    except BaseException:
        with contextlib.suppress(FileNotFoundError):
            os.unlink(made)
        raise


def _keep_owner(path: Path, descriptor: int) -> None:
    """Gives a new file the owner of the one before it, or of the folder if there is none, where root writes it."""
    if os.geteuid() == 0:
        before = path.stat() if path.exists() else path.parent.stat()
        os.fchown(descriptor, before.st_uid, before.st_gid)


@contextlib.contextmanager
def changed(path: Path) -> Iterator[Users]:
    """The users of a file, which are written back after the block unless it raises. Only one process changes them at a time."""
    try:
        folder = os.open(path.parent, os.O_RDONLY | os.O_DIRECTORY)
        try:
            fcntl.flock(folder, fcntl.LOCK_EX)
            users = load(path)
            yield users
            save(path, users)
        finally:
            os.close(folder)
    except OSError as error:
        raise BadUsers(f"{path}: cannot be written: {error.strerror}") from error


def password_hash(password: str, name: str) -> str:
    """The hash of a new password of a user. Raises `BadUsers` if it is not taken."""
    if fault := fault_of(password, name):
        raise BadUsers(fault)
    return str(HASHER.hash(_normal(password)))


def new_token(user: User, note: str) -> tuple[str, str]:
    """Gives a user a token: what it is listed as, and its secret, which is shown once and not kept."""
    label, secret = secrets.token_hex(4), TOKEN + secrets.token_urlsafe(32)
    user.tokens[label] = Token(token_hash(secret), note, datetime.now(UTC).isoformat(timespec="seconds"))
    return label, secret


def token_hash(secret: str) -> str:
    """The hash that a token is kept as."""
    return hashlib.sha256(secret.encode("utf-8", "surrogatepass")).hexdigest()


def _normal(password: str) -> bytes:
    return unicodedata.normalize("NFKC", password).encode("utf-8", "surrogatepass")


Stamp = tuple[int, int, int]


def stamp_of(path: Path) -> Stamp | None:
    """What tells a file from what it was before it was written again; None if it is not there."""
    try:
        status = path.stat()
    except OSError:
        return None
    return status.st_mtime_ns, status.st_ino, status.st_size


class Register:
    """The users of a file as they stand: the file is read again if it changed."""

    def __init__(self, path: Path, machine: Path | None = None, everybody: Path | None = None) -> None:
        """`machine` is the file of all users of the machine, where a gate makes this one of it; `everybody` that of all users of a gate, whose sign-ons come
        here too while their own front cannot be reached. Raises `BadUsers` as `load` does."""
        self._path = path
        self._machine = machine
        self._everybody = everybody
        self._seen: Stamp | None = None
        self._seen_everybody: Stamp | None = None
        self._elsewhere: Users = {}
        self.users: Users = {}
        self._tokens: dict[str, tuple[User, str]] = {}
        self._dummies: dict[str, str] = {}
        self.refresh()

    def refresh(self) -> bool:
        """Reads the file again if it changed, and says whether it did. Raises `BadUsers` as `load` does; the users stay as they were then."""
        seen = stamp_of(self._path)
        if seen == self._seen and seen is not None:
            return False
        self.users = load(self._path)
        self._tokens = {token.hash: (user, label) for user in self.users.values() for label, token in user.tokens.items()}
        self._seen = seen
        return True

    def proves(self, name: str, account: str, proof: str) -> bool:
        """Whether a hash is that of the password, or of a token, of this user of this account."""
        user = self.users.get(name)
        return user is not None and user.account == account and (proof == user.hash or any(proof == token.hash for token in user.tokens.values()))

    def by_password(self, name: str, password: str) -> User | None:
        """The user of this name and password, who may be one of another front. It takes as long for a name that nobody has. It computes: not for the loop's own
        thread."""
        user = self.users.get(name) or self.elsewhere().get(name)
        hashed = user.hash if user else self._dummy()
        if len(password) > MOST:
            password = ""
        try:
            HASHER.verify(hashed, _normal(password))
        except argon2.exceptions.VerificationError:
            return None
        return user

    def elsewhere(self) -> Users:
        """All users of the gate, if there is one; those of before while they cannot be read."""
        if self._everybody is not None and (seen := stamp_of(self._everybody)) is not None and seen != self._seen_everybody:
            with contextlib.suppress(BadUsers):
                self._elsewhere, self._seen_everybody = load(self._everybody), seen
        return self._elsewhere

    def has_elsewhere(self, name: str, token: str) -> bool:
        """Whether a token is one of a user of another front."""
        hashed, user = token_hash(token), None if name in self.users else self.elsewhere().get(name)
        return user is not None and any(hmac.compare_digest(one.hash, hashed) for one in user.tokens.values())

    def change(self, name: str, password: str) -> str:
        """Gives a user another password, in the file, and in the machine's before, if there is one, and gives its hash. Raises `BadUsers`. It computes: not
        for the loop's own thread."""
        hashed, account = password_hash(password, name), self.users[name].account
        for path in (self._path,) if self._machine is None else (self._machine, self._path):
            with changed(path) as users:
                if name not in users or users[name].account != account:
                    raise BadUsers("the user is there no more")
                users[name].changed(hashed)
        return hashed

    def by_token(self, secret: str) -> tuple[User, str] | None:
        """The user of a token, and what the token is listed as."""
        hashed = token_hash(secret)
        found = self._tokens.get(hashed)
        return found if found and hmac.compare_digest(found[0].tokens[found[1]].hash, hashed) else None

    def _dummy(self) -> str:
        """A hash of the cost of the users' own, of a password that nobody has."""
        like = next((user.hash for user in self.users.values()), None)
        parameters = argon2.extract_parameters(like) if like else argon2.extract_parameters(HASHER.hash(secrets.token_bytes(16)))
        known = str(parameters)
        if known not in self._dummies:
            hasher = argon2.PasswordHasher(parameters.time_cost, parameters.memory_cost, parameters.parallelism, parameters.hash_len,
                                           parameters.salt_len, type=parameters.type)
            self._dummies[known] = hasher.hash(secrets.token_bytes(16))
        return self._dummies[known]
