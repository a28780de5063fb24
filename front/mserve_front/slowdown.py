# SPDX-License-Identifier: Apache-2.0
"""Wrong passwords slow down: each failure of a user, and of an address, makes the next attempt wait longer."""
from __future__ import annotations

import ipaddress
import time
from collections import OrderedDict
from dataclasses import dataclass

# How many keys are remembered; the one that failed longest ago goes first.
MOST_KEYS = 10_000
# Failures are forgotten after this many seconds without one.
FORGOTTEN = 900.0


@dataclass(slots=True)
class Failures:
    """How often a key failed, when it did last, and until when it has to wait."""

    count: int
    last: float
    until: float


class Slowdown:
    """The failures of one kind of key: `free` of them cost nothing, then the wait is 1, 2, 4 .. seconds, up to `longest`."""

    def __init__(self, free: int, longest: float) -> None:
        self._free = free
        self._longest = longest
        self._failures: OrderedDict[str, Failures] = OrderedDict()

    def wait(self, key: str) -> float:
        """How many seconds a key has to wait yet; 0 if it may try now."""
        found = self._failures.get(key)
        return max(0.0, found.until - time.monotonic()) if found else 0.0

    def count(self, key: str) -> int:
        """How often a key failed; 0 if that is forgotten."""
        found = self._failures.get(key)
        return found.count if found and time.monotonic() - found.last <= FORGOTTEN else 0

    def failed(self, key: str) -> None:
        """Notes a failure."""
        now = time.monotonic()
        found = self._failures.pop(key, None)
        count = 1 if found is None or now - found.last > FORGOTTEN else found.count + 1
        pause = min(self._longest, 2.0 ** min(count - self._free - 1, 30)) if count > self._free else 0.0
        self._failures[key] = Failures(count, now, now + pause)
        while len(self._failures) > MOST_KEYS:
            self._failures.popitem(last=False)

    def succeeded(self, key: str) -> None:
        """Forgets the failures of a key."""
        self._failures.pop(key, None)


def network_of(address: str) -> str:
    """The key of an address: of IPv6 the network of 64 bits, which one host has to itself."""
    try:
        found = ipaddress.ip_address(address)
    except ValueError:
        return address
    if isinstance(found, ipaddress.IPv6Address):
        if found.ipv4_mapped:
            return str(found.ipv4_mapped)
        return str(ipaddress.ip_network((found, 64), strict=False))
    return address
