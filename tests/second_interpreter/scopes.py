# SPDX-License-Identifier: Apache-2.0
"""Variables: trees of texts, names that lead to them, and what NEW hides until its level ends."""
from __future__ import annotations

from bisect import bisect_left, bisect_right, insort
from collections import Counter, defaultdict
from collections.abc import Iterator

from .decimals import collation, written

Subscripts = tuple[str, ...]


class Tree:
    """The texts of a variable, by subscripts, and below each node its next subscripts in their order. Two names may lead to one."""

    def __init__(self) -> None:
        self.texts: dict[Subscripts, str] = {}
        # below a node: each next subscript by its place in the order, and how many texts are at or below it
        self._order: dict[Subscripts, list[tuple]] = defaultdict(list)
        self._counts: dict[Subscripts, Counter[str]] = defaultdict(Counter)

    def put(self, subscripts: Subscripts, text: str) -> None:
        """Assigns to a node."""
        if subscripts not in self.texts:
            for depth, one in enumerate(subscripts):
                front = subscripts[:depth]
                self._counts[front][one] += 1
                if self._counts[front][one] == 1:
                    insort(self._order[front], collation(one))
        self.texts[subscripts] = text

    def _remove(self, subscripts: Subscripts) -> None:
        del self.texts[subscripts]
        for depth, one in enumerate(subscripts):
            front = subscripts[:depth]
            self._counts[front][one] -= 1
            if not self._counts[front][one]:
                del self._counts[front][one]
                del self._order[front][bisect_left(self._order[front], collation(one))]

    def below(self, subscripts: Subscripts) -> Iterator[Subscripts]:
        """The nodes at and below one that have a text."""
        if subscripts in self.texts:
            yield subscripts
        for one in list(self._counts[subscripts]):
            yield from self.below((*subscripts, one))

    def kill(self, subscripts: Subscripts = ()) -> None:
        for found in list(self.below(subscripts)):
            self._remove(found)

    def data(self, subscripts: Subscripts) -> str:
        return str(10 * bool(self._counts[subscripts]) + (subscripts in self.texts))

    def order(self, subscripts: Subscripts, forward: bool) -> str:
        """The next subscript at the last place, or the one before; empty if there is none."""
        front, last = self._order[subscripts[:-1]], collation(subscripts[-1])
        place = bisect_right(front, last) if forward else (bisect_left(front, last) if subscripts[-1] else len(front)) - 1
        if not 0 <= place < len(front):
            return ""
        return written(front[place][1]) if front[place][0] == 1 else front[place][1]

    def following(self, subscripts: Subscripts, forward: bool) -> Subscripts | None:
        """The next node that has a text, in the order of subscripts, or the one before; a node comes before those below it."""
        return self._after(subscripts) if forward else self._before(subscripts)

    def _after(self, at: Subscripts) -> Subscripts | None:
        """The first node below one, or else the next beside it, or beside one above it."""
        at = at if at and not at[-1] else (*at, "")
        while at:
            found = self.order(at, forward=True)
            at = (*at[:-1], found) if found else at[:-1]
            if found and at in self.texts:
                return at
            at = (*at, "") if found else at
        return None

    def _before(self, at: Subscripts) -> Subscripts | None:
        """The last node at or below the one before it, or else the one above it."""
        while at:
            found = self.order(at, forward=False)
            at = at[:-1]
            while found:
                at = (*at, found)
                found = self.order((*at, ""), forward=False)
                if not found:
                    return at
            if at in self.texts:
                return at
        return None


class Locals:
    """Names with the trees that they lead to, and levels: what each has to put back when it ends."""

    def __init__(self) -> None:
        self.table: dict[str, Tree] = {}
        self.levels: list[list[tuple[dict[str, Tree], frozenset[str] | None, frozenset[str]]]] = []

    def tree(self, name: str) -> Tree:
        """The tree of a name; a new one if it has none."""
        return self.table.setdefault(name, Tree())

    def enter(self) -> None:
        self.levels.append([])

    def leave(self) -> None:
        """Ends a level: what it hid is back, the last first."""
        for saved, names, kept in reversed(self.levels.pop()):
            now = self.table
            hidden = names if names is not None else (set(now) | set(saved)) - kept
            self.table = {name: tree for name, tree in now.items() if name not in hidden} | {name: saved[name] for name in hidden if name in saved}

    def new(self, names: list[str]) -> None:
        """Hides variables until the level ends."""
        self.levels[-1].append((dict(self.table), frozenset(names), frozenset()))
        for name in names:
            self.table.pop(name, None)

    def new_except(self, names: list[str]) -> None:
        """Hides all but these."""
        self.levels[-1].append((dict(self.table), None, frozenset(names)))
        self.table = {name: tree for name, tree in self.table.items() if name in names}

    def kill_except(self, names: list[str]) -> None:
        """Kills all variables but those that these names lead to."""
        spared = [self.table[name] for name in names if name in self.table]
        for tree in self.table.values():
            if not any(tree is one for one in spared):
                tree.kill()

    def bind(self, bound: list[tuple[str, Tree]]) -> None:
        """Hides names, and has them lead to these trees."""
        if bound:
            self.new([name for name, _ in bound])
            self.table |= dict(bound)
