# SPDX-License-Identifier: Apache-2.0
"""Locks: which terminal holds which names, and how often."""
from __future__ import annotations

from collections import Counter

MOST = 1_000_000
# Whether it is a global, the account, the name and the subscripts.
Name = tuple[bool, str, str, tuple[str, ...]]


def conflict(one: Name, other: Name) -> bool:
    """Whether two names are the same variable, or one is below the other."""
    depth = min(len(one[3]), len(other[3]))
    return one[:3] == other[:3] and one[3][:depth] == other[3][:depth]


class Locks:
    """The locks of all terminals."""

    def __init__(self) -> None:
        self.held: dict[int, Counter[Name]] = {}

    def take(self, terminal: int, names: list[Name]) -> bool:
        """Takes all names or none; whether it took them."""
        others = [held for holder, counts in self.held.items() if holder != terminal for held in counts]
        mine = self.held.setdefault(terminal, Counter())
        more = Counter(names)
        if any(conflict(name, other) for name in names for other in others) or any(mine[name] + count > MOST for name, count in more.items()):
            return False
        mine.update(more)
        return True

    def give_back(self, terminal: int, name: Name) -> None:
        """Gives a name back once."""
        mine = self.held.setdefault(terminal, Counter())
        mine[name] -= 1
        if mine[name] <= 0:
            del mine[name]

    def release(self, terminal: int) -> None:
        """Gives all back."""
        self.held.pop(terminal, None)
