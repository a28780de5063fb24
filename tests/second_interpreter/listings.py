# SPDX-License-Identifier: Apache-2.0
"""`^$GLOBAL` and `^$ROUTINE`: which globals and routines there are (wip/names-of-globals.md)."""
from __future__ import annotations

from collections.abc import Iterator

from . import reader
from .decimals import Stop, collation
from .expressions import Evaluator


def is_name(text: str) -> bool:
    """Whether a text is a name."""
    return len(text) <= 31 and reader.NAME.fullmatch(text) is not None


class Listings(Evaluator):
    """Evaluates $ORDER and $DATA of what there is. Naked references go by what they did before."""

    def value_of_order_names(self, kind: str, environment: tuple | None, subscript: tuple, direction: tuple | None) -> str:
        self.charge()
        owner, text = self.listed_at(environment, subscript, least=0)
        forward = self.is_forward(direction)
        return next(self.names(kind, owner, text if text or forward else None, forward), "")

    def value_of_data_names(self, kind: str, environment: tuple | None, subscript: tuple) -> str:
        self.charge()
        owner, text = self.listed_at(environment, subscript, least=1)
        return str(int(self.is_listed(kind, owner, text)))

    def listed_at(self, environment: tuple | None, subscript: tuple, least: int) -> tuple[str, str]:
        """Whose names are meant, and from where: evaluated from left to right, then ZSUB. There is no ZGRANT."""
        owner = self.account.name if environment is None else self.value(environment)
        text = self.value(subscript)
        if not least <= len(text) <= 255:
            raise Stop("ZSUB")
        return owner, text

    def names(self, kind: str, owner: str, after: str | None, forward: bool) -> Iterator[str]:
        """The names that are there beyond a text, in the order of subscripts; all of them if there is none."""
        found = sorted(self.candidates(kind, owner), key=collation, reverse=not forward)
        for name in found:
            if after is not None and not (collation(name) > collation(after) if forward else collation(name) < collation(after)):
                continue
            if self.costs_a_step(kind, owner, name):
                self.charge()
            if self.is_listed(kind, owner, name):
                yield name

    def candidates(self, kind: str, owner: str) -> set[str]:
        """What may be told: one's own globals, those that another account grants, the first subscripts of a ROUTINE that may be read."""
        if kind == "routine":
            tree = self.store.get((owner, "ROUTINE"))
            return {subscripts[0] for subscripts in tree.texts if subscripts} if tree and self.may_read(owner, "ROUTINE") else set()
        if owner == self.account.name:
            return {"^" + name for account, name in self.store if account == owner and self.is_there(owner, name)}
        return {"^" + name for account, reader_of_it, name, _ in self.grants if (account, reader_of_it) == (owner, self.account.name)}

    def costs_a_step(self, kind: str, owner: str, name: str) -> bool:
        """A granted global is asked, and a subscript that is no name is passed over."""
        return not is_name(name) if kind == "routine" else owner != self.account.name

    def is_listed(self, kind: str, owner: str, text: str) -> bool:
        """Whether a text is the name of a global or routine that is there, and that may be read."""
        if kind == "routine":
            return is_name(text) and self.may_read(owner, "ROUTINE") and self.is_there(owner, "ROUTINE", (text,))
        return text.startswith("^") and is_name(text[1:]) and self.may_read(owner, text[1:]) and self.is_there(owner, text[1:])

    def may_read(self, owner: str, name: str) -> bool:
        return owner == self.account.name or self.is_granted(owner, name, "read")

    def is_there(self, owner: str, name: str, subscripts: tuple[str, ...] = ()) -> bool:
        tree = self.store.get((owner, name))
        return tree is not None and tree.data(subscripts) != "0"
