# SPDX-License-Identifier: Apache-2.0
"""What a gate says first on each connection to a front of its machine: a secret that both have, and the address of the user whom it hands on."""
from __future__ import annotations

import hmac
import ipaddress
import os
import secrets
from pathlib import Path

# The most bytes of it.
MOST = 256
_WORD = b"mgate"


def new_secret() -> str:
    """A secret of 256 random bits."""
    return secrets.token_urlsafe(32)


def read_secret(path: Path) -> str:
    """The secret of a file. Raises OSError if it cannot be read, and ValueError if others than its owner may read it, or if it is too short."""
    with path.open("rb") as file:
        if os.fstat(file.fileno()).st_mode & 0o077:
            raise ValueError(f"others than its owner may read or write it: chmod 600 {path}")
        found = file.readline().strip().decode("ascii")
    if len(found) < 32:
        raise ValueError("is to have a secret of 32 characters or more in its first line")
    return found


def preamble(secret: str, address: str) -> bytes:
    """The line."""
    return b"%b %b %b\n" % (_WORD, secret.encode(), address.encode())


def told_by(line: bytes, secret: str) -> str | None:
    """The address that a line tells, or None if it is not from one who has the secret."""
    word, _, rest = line.partition(b" ")
    found, _, address = rest.partition(b" ")
    if word != _WORD or not hmac.compare_digest(found, secret.encode()):
        return None
    try:
        return str(ipaddress.ip_address(address.decode("ascii")))
    except ValueError:
        return None
